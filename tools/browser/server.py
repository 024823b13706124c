"""The server of the page: on the loopback address alone, for who knows a desk's secret, and for its own page alone."""

import hmac
import http.server
import json
import pathlib
import sys
import threading
import time
import urllib.parse

from .actions import ACTIONS
from .desk import Refused

HERE = pathlib.Path(__file__).resolve().parent
ADDRESS = "127.0.0.1"
FILES = {
    "": ("page.html", "text/html; charset=utf-8"),
    "style.css": ("style.css", "text/css; charset=utf-8"),
    **{name: (name, "text/javascript; charset=utf-8") for name in
       ("page.mjs", "asking.mjs", "places.mjs", "drawing.mjs", "transcript.mjs", "classes.mjs", "display.mjs", "debugger.mjs", "objects.mjs")},
}
LONGEST = 1000000  # bytes of what a window sends
PASSED_OVER = 50000000  # bytes of a longer one that are read before it is refused
WINDOWS = 40  # that may look at one desk
WAIT = 15  # seconds after which a window that waits is told that nothing was said
BETWEEN = 0.05  # seconds between two messages to a window
SILENT = 30  # seconds for which a client may say nothing in the middle of a request
HEADERS = {
    "Cache-Control": "no-store",
    "Content-Security-Policy": "default-src 'none'; script-src 'self'; style-src 'self'; connect-src 'self'; img-src 'self' data:; "
                               "base-uri 'none'; form-action 'none'; frame-ancestors 'none'",
    "Cross-Origin-Resource-Policy": "same-origin",
    "Referrer-Policy": "no-referrer",
    "X-Content-Type-Options": "nosniff",
}


class Server(http.server.ThreadingHTTPServer):
    """The desks by their secrets, and how many more windows may look at each."""

    daemon_threads = True
    allow_reuse_address = True

    def __init__(self, port, desks):
        self.desks, self.is_over = desks, False
        self.windows = {secret: threading.BoundedSemaphore(WINDOWS) for secret in desks}
        super().__init__((ADDRESS, port), Handler)

    def address_of(self, secret):
        return f"http://{ADDRESS}:{self.server_port}/{secret}/"

    def hosts(self):
        return {f"{ADDRESS}:{self.server_port}", f"localhost:{self.server_port}"}

    def secret_in(self, path):
        """The secret with which a path begins, if it is one; each is compared in the same time."""
        word = path.lstrip("/").partition("/")[0].encode()
        return next((it for it in self.desks if hmac.compare_digest(it.encode(), word)), None)

    def handle_error(self, request, client_address):
        """A client that went away is no error of ours."""
        if not isinstance(sys.exc_info()[1], (ConnectionError, TimeoutError)):
            super().handle_error(request, client_address)


class Handler(http.server.BaseHTTPRequestHandler):
    protocol_version = "HTTP/1.1"
    server_version, sys_version = "st80", ""
    timeout = SILENT

    def log_message(self, *_):
        pass

    def version_string(self):
        return self.server_version

    def send(self, status, data, kind="application/json"):
        self.send_response(status)
        for name, text in {**HEADERS, "Content-Type": kind, "Content-Length": str(len(data))}.items():
            self.send_header(name, text)
        if status >= 400:
            self.send_header("Connection", "close")
            self.close_connection = True
        self.end_headers()
        self.wfile.write(data)

    def say(self, status, answer):
        self.send(status, json.dumps(answer).encode())

    def send_error(self, code, message=None, explain=None):
        """Also what isn't HTTP gets a line."""
        self.say(code, {"error": message or http.server.BaseHTTPRequestHandler.responses.get(code, ("",))[0]})

    def asked(self):
        """The secret of the desk that is meant, what of the path stands behind it, and the query; `Refused` where the request isn't from its page."""
        if self.headers.get("Host") not in self.server.hosts():
            raise Refused(403, "this server is asked by the address that it said, and by no other name")
        try:
            parts = urllib.parse.urlsplit(self.path)
        except ValueError:
            raise Refused(400, "the address is none") from None
        secret = self.server.secret_in(parts.path)
        if secret is None:
            raise Refused(403, "the address has no secret of this server")
        origin = self.headers.get("Origin")
        if origin is not None and origin not in {f"http://{it}" for it in self.server.hosts()}:
            raise Refused(403, "another page may not ask this server")
        return secret, parts.path.lstrip("/").partition("/")[2], urllib.parse.parse_qs(parts.query)

    def do_GET(self):
        try:
            secret, name, query = self.asked()
            if name == "events":
                self.events(secret, query)
            elif name in FILES:
                file, kind = FILES[name]
                self.send(200, (HERE / file).read_bytes(), kind)
            else:
                raise Refused(404, "there is no such file")
        except Refused as reason:
            self.say(reason.status, {"error": str(reason)})

    def do_POST(self):
        try:
            secret, name, _ = self.asked()
            if name != "do":
                raise Refused(404, "what is asked goes to `do`")
            given = self.given()
            self.say(200, self.server.desks[secret].ask(ACTIONS[given["what"]], given))
        except Refused as reason:
            self.say(reason.status, {"error": str(reason)})

    def given(self):
        """What the window asks: an object of JSON with the word of an action."""
        if self.headers.get_content_type() != "application/json":
            raise Refused(415, "what is asked is JSON")
        length = self.headers.get("Content-Length", "")
        if not length.isascii() or not length.isdigit() or len(length) > 15:
            raise Refused(411, "a request says its length")
        if int(length) > LONGEST:
            self.pass_over(min(int(length), PASSED_OVER))
            raise Refused(413, f"a request has at most {LONGEST} bytes")
        data = self.rfile.read(int(length))
        if len(data) < int(length):
            raise ConnectionResetError
        try:
            given = json.loads(data)
        except (ValueError, RecursionError):
            raise Refused(400, "what is asked is no JSON in UTF-8") from None
        if not isinstance(given, dict) or not isinstance(given.get("what"), str) or given["what"] not in ACTIONS:
            raise Refused(400, "what is asked has a word `what` that is none of: " + " ".join(ACTIONS))
        return given

    def pass_over(self, length):
        """Reads what isn't wanted, so that the client comes to read why."""
        while length > 0 and (data := self.rfile.read(min(length, 65536))):
            length -= len(data)

    def events(self, secret, query):
        """Entries and state, as they come, until the window goes away."""
        last = self.headers.get("Last-Event-ID") or query.get("after", ["0"])[0]
        if not last.isascii() or not last.isdigit() or len(last) > 15:
            raise Refused(400, "`after` is the number of an entry")
        if not self.server.windows[secret].acquire(blocking=False):
            raise Refused(503, f"{WINDOWS} windows look at this store already")
        try:
            self.follow(self.server.desks[secret], int(last))
        finally:
            self.server.windows[secret].release()

    def follow(self, desk, number):
        """Says what comes behind the entry of that number, until the window goes away or the server ends."""
        try:
            desk.begin_or_refuse()
        except Refused:
            pass  # the state says why
        log = desk.log
        self.send_response(200)
        for name, text in {**HEADERS, "Content-Type": "text/event-stream", "Connection": "close"}.items():
            self.send_header(name, text)
        self.end_headers()
        self.close_connection = True
        number, version = number if number <= log.count else 0, -1
        while not self.server.is_over:
            entries, state, now = log.after(number, version, WAIT)
            if now == version:
                self.wfile.write(b": nothing was said\n\n")
                continue
            version, number = now, entries[-1]["n"] if entries else number
            data = json.dumps({"entries": entries, "state": state})
            self.wfile.write(f"id: {number}\ndata: {data}\n\n".encode())
            self.wfile.flush()
            time.sleep(BETWEEN)
