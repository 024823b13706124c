"""A headless Chromium that a script drives, by the browser's own protocol over two pipes. Used by `tools/page-test --browser` alone."""

import base64
import json
import os
import select
import shutil
import subprocess
import sys
import tempfile
import time

NAMES = ("chromium", "chromium-browser", "google-chrome")
INSTALLATION = (("apt-get", "update"), ("apt-get", "install", "-y", "--no-install-recommends", "chromium"))
SECONDS = 30
INSTALLING_SECONDS = 900


def found_name():
    """The name of a Chromium that is there, or none."""
    return next(filter(shutil.which, NAMES), None)


def installed_name():
    """The name of a Chromium: where there is none, Debian's package is installed; `AssertionError` where that can't be."""
    if not found_name():
        print("page-test: there is no Chromium: Debian's package `chromium` is installed", file=sys.stderr)
        environment = {**os.environ, "DEBIAN_FRONTEND": "noninteractive"}
        for command in INSTALLATION if shutil.which("apt-get") else ():
            subprocess.run(command, env=environment, stdin=subprocess.DEVNULL, stdout=subprocess.DEVNULL, timeout=INSTALLING_SECONDS)
    name = found_name()
    assert name, "there is no Chromium, and Debian's package `chromium` could not be installed"
    return name


class Chromium:
    """A browser with one window, and what its page said in its console."""

    def __init__(self):
        name = installed_name()
        self.folder = tempfile.TemporaryDirectory(ignore_cleanup_errors=True)
        (read_end, self.to), (self.back, write_end) = os.pipe(), os.pipe()
        command = [name, "--headless=new", "--no-sandbox", "--disable-gpu", "--no-first-run", "--disable-dev-shm-usage",
                   f"--user-data-dir={self.folder.name}", "--remote-debugging-pipe", "about:blank"]
        self.process = subprocess.Popen(["sh", "-c", f'exec "$@" 3<&{read_end} 4>&{write_end}', "sh", *command], pass_fds=(read_end, write_end),
                                        stdout=subprocess.DEVNULL, stderr=subprocess.DEVNULL)
        os.close(read_end)
        os.close(write_end)
        self.rest, self.number, self.console = b"", 0, []

    def __enter__(self):
        return self

    def __exit__(self, *_):
        self.process.terminate()
        self.process.wait()
        os.close(self.to)
        os.close(self.back)
        self.folder.cleanup()

    def message(self):
        until = time.monotonic() + SECONDS
        while b"\0" not in self.rest:
            if not select.select([self.back], [], [], max(0, until - time.monotonic()))[0]:
                raise TimeoutError("the browser says nothing")
            data = os.read(self.back, 1 << 20)
            if not data:
                raise ConnectionError("the browser is gone")
            self.rest += data
        data, self.rest = self.rest.split(b"\0", 1)
        return json.loads(data)

    def call(self, method, session=None, **given):
        self.number += 1
        asked = {"id": self.number, "method": method, "params": given, **({"sessionId": session} if session else {})}
        os.write(self.to, json.dumps(asked).encode() + b"\0")
        while True:
            told = self.message()
            if told.get("id") == self.number:
                if "error" in told:
                    raise RuntimeError(f"{method}: {told['error']}")
                return told["result"]
            if told.get("method") == "Runtime.exceptionThrown" or told.get("params", {}).get("entry", {}).get("level") == "error":
                self.console.append(json.dumps(told["params"])[:600])

    def window(self, address):
        target = self.call("Target.createTarget", url="about:blank")["targetId"]
        return Window(self, target, self.call("Target.attachToTarget", targetId=target, flatten=True)["sessionId"], address)


class Window:
    """A window that shows an address."""

    def __init__(self, browser, target, session, address):
        self.browser, self.target, self.session = browser, target, session
        for domain in ("Page", "Runtime", "Log"):
            self.call(f"{domain}.enable")
        self.call("Page.navigate", url=address)

    def call(self, method, **given):
        return self.browser.call(method, self.session, **given)

    def look(self, width, height, theme):
        """Has the window another size and theme."""
        self.call("Emulation.setDeviceMetricsOverride", width=width, height=height, deviceScaleFactor=1, mobile=False)
        self.call("Emulation.setEmulatedMedia", features=[{"name": "prefers-color-scheme", "value": theme}])

    def do(self, script):
        """The value of a script's expression, once it is there."""
        told = self.call("Runtime.evaluate", expression=script, awaitPromise=True, returnByValue=True)
        if "exceptionDetails" in told:
            raise RuntimeError(f"{script[:200]}: {told['exceptionDetails']}")
        return told["result"].get("value")

    def wait(self, script, seconds=SECONDS):
        """Waits until a script's expression is true."""
        until = time.monotonic() + seconds
        while not self.do(script):
            if time.monotonic() > until:
                raise TimeoutError(f"never true: {script}")
            time.sleep(0.02)

    def press(self, key, code=0, modifiers=0, text=""):
        for kind in ("keyDown", "keyUp"):
            self.call("Input.dispatchKeyEvent", type=kind, key=key, windowsVirtualKeyCode=code, modifiers=modifiers,
                      **({"text": text} if text and kind == "keyDown" else {}))

    def type(self, text):
        self.call("Input.insertText", text=text)

    def picture(self, file):
        with open(file, "wb") as out:
            out.write(base64.b64decode(self.call("Page.captureScreenshot", format="png")["data"]))

    def close(self):
        self.browser.call("Target.closeTarget", targetId=self.target)
