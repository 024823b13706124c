"""A session of the program, and its replies, as docs/FORMATS.md has them."""

import functools
import os
import pathlib
import subprocess
import tempfile

TOP = pathlib.Path(__file__).resolve().parent.parent.parent
PROGRAM = "ST80_PROGRAM"  # an environment variable that names another program than ./st80
NOT_BUILT = 70  # the status of ./st80 where it can't be built

# The replies that further lines follow, as many as their word of this place says.
COUNTED = {"display": 2, "classes": 1, "methods": 1, "source": 1, "bytecodes": 1, "senders": 1, "stack": 1}
# What comes before the end of a run.
BEFORE_AN_END = ("say", "snapshot", "at")


class Ended(Exception):
    """The session has ended: its last line, which may be empty, its exit status, and what it said on standard error."""

    def __init__(self, line, status, complaint=""):
        super().__init__(line, status)
        self.line, self.status, self.complaint = line, status, complaint.strip()

    def __str__(self):
        complaint = self.complaint.removeprefix("st80: ")
        return f"the session ended: {': '.join(filter(None, [self.line, complaint])) or 'no line'}"


@functools.cache
def build_program():
    """Has ./st80 built where it must be, which says on standard error what it does; `ChildProcessError` where it can't be."""
    # (without an image `once` does nothing else)
    ran = subprocess.run([TOP / "st80", "once"], stdin=subprocess.DEVNULL, stdout=subprocess.DEVNULL)
    if ran.returncode == NOT_BUILT:
        raise ChildProcessError("the program can't be built")


def program_words():
    """The words that begin a command of the program, which is there then."""
    named = os.environ.get(PROGRAM)
    if not named:
        build_program()
    return [named or str(TOP / "st80")]


def unescape(text):
    """The bytes that a reply says with escapes."""
    parts = text.encode("latin-1").split(b"\\")
    return parts[0] + b"".join(bytes([int(part[:2], 16)]) + part[2:] for part in parts[1:])


def escape(data):
    """The bytes as a reply says them."""
    return "".join(chr(byte) if 32 <= byte < 127 and byte != 92 else "\\%02x" % byte for byte in data)


def build(kernel, store):
    """The last line of `build`."""
    ran = subprocess.run([*program_words(), "build", str(kernel), str(store)], stdout=subprocess.PIPE, stderr=subprocess.DEVNULL)
    return ran.stdout.decode("latin-1").rstrip("\n")


class Session:
    """The program over a store. `opened` is its first reply, `lost` are those that follow for lost definitions."""

    def __init__(self, store):
        self.complaints = tempfile.TemporaryFile()
        command = [*program_words(), "session", str(store)]
        pipes = {"stdin": subprocess.PIPE, "stdout": subprocess.PIPE, "stderr": self.complaints}
        # (in a session of its own: a Ctrl-C is for who asks)
        self.process = subprocess.Popen(command, start_new_session=True, **pipes)
        try:
            self.opened = self.next_line()
            self.lost = [self.next_line() for _ in range(int(self.opened.split()[2]))]
        except BaseException:
            self.process.kill()
            raise

    def __enter__(self):
        return self

    def __exit__(self, kind, *_):
        # (who is in the middle of a reply doesn't read what is left of it, and the program would wait for that)
        if kind:
            self.process.kill()
        self.close()

    def next_line(self):
        """The next line of a reply; `Ended` where none comes, or one that ends the session."""
        line = self.process.stdout.readline()
        if line.endswith(b"\n") and line.split(b" ")[0].rstrip(b"\n") not in LAST_WORDS:
            return line[:-1].decode("latin-1")
        status = self.process.wait()
        self.complaints.seek(0)
        raise Ended(line.decode("latin-1").rstrip("\n"), status, self.complaints.read().decode(errors="replace"))

    def send(self, data):
        try:
            self.process.stdin.write(data)
            self.process.stdin.flush()
        except BrokenPipeError:
            self.next_line()
            raise

    def ask(self, line):
        """The lines of the reply to a line that asks or tells something, but for `run`, `trace` and `until`."""
        self.send(line.encode("latin-1") + b"\n")
        reply = [self.next_line()]
        words = reply[0].split()
        if words[0] == "registers":
            count = 2
        elif words[0] in COUNTED and line.split()[0] == words[0]:
            count = int(words[COUNTED[words[0]]])
        else:
            count = 0
        return reply + [self.next_line() for _ in range(count)]

    def run(self, cycles):
        """The lines of a run, one after the other as they come; the last one is its end."""
        return self.course(f"run {cycles}")

    def course(self, line):
        """The same for a line that runs in another way, as `trace 10`."""
        self.send(line.encode("latin-1") + b"\n")
        while True:
            said = self.next_line()
            yield said
            if said.split(" ")[0] not in BEFORE_AN_END:
                return

    def define(self, header, text):
        """The reply to one method, given by the chunk before it and its own text, in which no `!` is doubled yet."""
        self.send(b"!%s!\n%s! !\n" % (double(header), double(text)))
        return self.next_line()

    def close(self):
        """Ends the session, and answers its exit status."""
        try:
            self.process.stdin.close()
        except BrokenPipeError:
            pass
        status = self.process.wait()
        self.process.stdout.close()
        self.complaints.close()
        return status


# The words that begin a last line.
LAST_WORDS = (b"usage", b"image", b"script", b"read", b"disk", b"store", b"kernel", b"too", b"out")


def double(text):
    """The bytes of a text in a chunk."""
    return text.encode("latin-1").replace(b"!", b"!!")
