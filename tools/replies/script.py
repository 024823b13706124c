"""What a session's script may say, as docs/FORMATS.md has it: lines and groups are read before anything of them is sent."""

import re

from .chunks import BLANKS

LONGEST = 65536  # bytes of a line or a chunk
NAME = r"[A-Za-z][A-Za-z0-9]*"
CLASS = rf"{NAME}(?: class)?"
SELECTOR = r"[^\x00-\x20\x7f]+"
# A header: at least one blank stands between its parts.
HEADER = re.compile(rf"({NAME})(?:[{BLANKS}]+(class))?[{BLANKS}]+methodsFor:[{BLANKS}]+'((?:[^']|'')*)'")

BEGIN_OF_GROUP = re.compile(rf"![{BLANKS}]*({HEADER.pattern})([{BLANKS}]*!)?")
END_OF_GROUP = re.compile(rf"![{BLANKS}]+![{BLANKS}]*\Z")

# The forms of lines: a word, what stands behind it, and the least and the greatest number of each place that has one.
FORMS = {
    "run": (r"([0-9]{1,10})", [(0, 10**9)]),
    "trace": (r"([0-9]{1,10})", [(1, 10**6)]),
    "until": (rf"([0-9]{{1,10}}) {CLASS} {SELECTOR}", [(0, 10**9)]),
    "input": (r"([0-9]{1,10})", [(0, 65535)]),
    "mouse": (r"([0-9]{1,10}) ([0-9]{1,10})", [(0, 16383), (0, 16383)]),
    "clock": (r"([0-9]{1,10})", [(0, 2**32 - 1)]),
    "tick": (r"([0-9]{1,10})", [(0, 2**32 - 1)]),
    "object": (r"([0-9]{1,10})", [(2, 65534)]),
    "methods": (CLASS, []),
    "source": (rf"{CLASS} {SELECTOR}", []),
    "bytecodes": (rf"{CLASS} {SELECTOR}", []),
    "senders": (SELECTOR, []),
    **{word: ("", []) for word in ("state", "used", "display", "stack", "classes", "snapshot", "end")},
}
COURSES = {"run", "trace", "until"}  # these run, and say their lines one after the other
SEEN = {"source", "bytecodes", "senders", "methods", "classes", "object", "state", "used", "display", "stack"}  # these change nothing


class Wrong(Exception):
    """What is no part of a script, with a sentence on why; `line` is its number from 1."""

    def __init__(self, line, why):
        super().__init__(f"line {line}: {why}")
        self.line, self.why = line, why


class Line:
    """A line, whose first word is `word`."""

    def __init__(self, text):
        self.text, self.word = text, text.split(" ")[0]


class Method:
    """A method of a group: the group's header and the text, in which no `!` is doubled, without blanks round them; its line in the script."""

    def __init__(self, header, text, line):
        self.header, self.text, self.line = header, text, line


def wide_in(text):
    """The first character of a text that is no byte, or none."""
    return next((it for it in text if ord(it) > 255), "")


def why_no_line(text):
    """Why a text isn't a line of a script; nothing where it is one."""
    word, _, rest = text.partition(" ")
    if word not in FORMS:
        return f"no line begins with `{word[:40]}`, but with {', '.join(sorted(FORMS))}"
    if len(text) > LONGEST:
        return f"a line has at most {LONGEST} bytes"
    if wide_in(text):
        return f"`{wide_in(text)}` is no character of one byte"
    form, bounds = FORMS[word]
    found = re.fullmatch(form, rest)
    if not found or text != (f"{word} {rest}" if form else word):
        return f"`{word}` has another form"
    if any(not low <= int(number) <= high for number, (low, high) in zip(found.groups(), bounds)):
        return f"a number of `{word}` is out of its bounds"
    if word == "object" and int(found[1]) % 2:
        return "a pointer is even"
    return None


def why_no_method(header, text):
    """Why a header and a text can't be sent as a method; nothing where they can."""
    if wide_in(header + text):
        return f"`{wide_in(header + text)}` is no character of one byte"
    if not HEADER.fullmatch(header):
        return f"this is no header of methods: {header[:60]}"
    if not text.strip(BLANKS):
        return "a method has a text"
    # (a session sends a line feed before the text)
    if len(header) > LONGEST or len(text.strip(BLANKS)) >= LONGEST:
        return f"a method's text has fewer than {LONGEST} bytes"
    return None


def header_of(of_class, meta, category):
    """The chunk before the methods of a class's side in a category."""
    quoted = category.replace("'", "''")
    return f"{of_class}{' class' if meta else ''} methodsFor: '{quoted}'"


def why_no_group(text):
    """Why a text doesn't begin with the header of a group of methods; nothing where it does."""
    found = BEGIN_OF_GROUP.match(text)
    if not found:
        return f"methods begin after a header, as `!Account methodsFor: 'x'!`, which this isn't: {text.splitlines()[0][:60]}"
    return None if text[: found.end()].endswith("!") else f"a `!` is missing after the header {found[1]}"


def parts_of_group(text):
    """The header of a text that begins with one, its whole methods, each with its `!`, and what comes after them."""
    begin = BEGIN_OF_GROUP.match(text).end()
    end = max(it.end() for it in re.finditer("!!?", text) if it[0] == "!")
    return text[:begin], text[begin:end], text[end:]


def is_open_group(text):
    """Whether the empty chunk at the end of a group is missing."""
    return not END_OF_GROUP.search(text)


class Reader:
    """The lines and methods of a text, in their order."""

    def __init__(self, text):
        self.text, self.at = text, 0

    def number(self, at):
        return self.text.count("\n", 0, at) + 1

    def all(self):
        found = []
        while self.at < len(self.text):
            if self.text[self.at] == "!":
                found += self.group()
            else:
                found += self.line()
        return found

    def line(self):
        end = self.text.find("\n", self.at)
        begin, end = self.at, len(self.text) if end < 0 else end
        self.at = end + 1
        line = self.text[begin:end].removesuffix("\r")
        if not line.strip(BLANKS):
            return []
        why = why_no_line(line)
        if why:
            raise Wrong(self.number(begin), why)
        return [Line(line)]

    def chunk(self):
        """The next chunk, with single `!`, and the line in which it begins."""
        begin, parts = self.at, []
        while True:
            end = self.text.find("!", self.at)
            if end < 0:
                raise Wrong(self.number(begin), "a `!` is missing behind it")
            parts.append(self.text[self.at : end])
            self.at = end + 1
            if self.text[self.at : self.at + 1] != "!":
                break
            self.at += 1
        text = "!".join(parts)
        first = begin + len(text) - len(text.lstrip(BLANKS))
        return text.strip(BLANKS), self.number(first)

    def group(self):
        """The methods of the group that begins here."""
        found = []
        self.at += 1
        header, line = self.chunk()
        if not HEADER.fullmatch(header):
            raise Wrong(line, f"this is no header of methods: {header[:60]}")
        while (it := self.chunk())[0]:
            why = why_no_method(header, it[0])
            if why:
                raise Wrong(it[1], why)
            found.append(Method(header, *it))
        return found


def read_script(text):
    """The lines and methods of a script; `Wrong` where a part of it is neither."""
    return Reader(text).all()
