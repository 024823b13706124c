"""The chunks of a kernel file or a changes file: text that single `!` cut, a doubled one standing for one."""

import re

BLANKS = " \t\n\f\r"
HEADER = re.compile(r"([A-Za-z][A-Za-z0-9]*)(\s+class)?\s+methodsFor:\s*'((?:[^']|'')*)'")
SPACE = re.compile(r"""(?:[ \t\n\f\r]|"[^"]*")*""")
KEYWORD = re.compile(r"[A-Za-z][A-Za-z0-9]*:")
NAME = re.compile(r"[A-Za-z][A-Za-z0-9]*")
BINARY = re.compile(r"[-+*/\\~<>=@%|&?,]+")


class Chunk:
    """A chunk: its number from 1, the text as it stands and with single `!`, the line in which it begins, and whether it opens a group."""

    def __init__(self, number, raw, line, opens):
        self.number, self.raw, self.line, self.opens = number, raw, line, opens
        self.text = raw.replace("!!", "!")


def cut(text):
    """The chunks as they stand, with the place of each; what stands behind the last `!` is none, where it is blank."""
    found, begin, at = [], 0, 0
    while at < len(text):
        if text[at] != "!":
            at += 1
        elif text[at : at + 2] == "!!":
            at += 2
        else:
            found.append((begin, text[begin:at]))
            begin = at = at + 1
    if text[begin:].strip(BLANKS):
        found.append((begin, text[begin:]))
    return found


def chunks_of(text):
    """The chunks of a text. A chunk opens a group where the one before it is empty and stands outside of a group."""
    chunks, inside, empty = [], False, False
    for number, (begin, raw) in enumerate(cut(text), 1):
        first = begin + len(raw) - len(raw.lstrip(BLANKS))
        is_empty = not raw.strip(BLANKS)
        opens = empty and not inside
        line = text[: begin if is_empty else first].count("\n") + 1
        chunks.append(Chunk(number, raw, line, opens))
        if opens:
            inside, empty = True, False
        elif is_empty and inside:
            inside, empty = False, False
        else:
            empty = is_empty
    return chunks


def marked(text, place):
    """The line of a text in which a byte stands, counted from 1, and a line with a mark under that byte."""
    begin = text.rfind("\n", 0, place - 1) + 1
    line = text[begin:].partition("\n")[0]
    return line, "".join("\t" if it == "\t" else " " for it in text[begin : place - 1]) + "^"


class Definition:
    """A method's text, with its class, whether it is of the class side, its category and its selector."""

    def __init__(self, of_class, meta, category, text):
        self.of_class, self.meta, self.category, self.text = of_class, meta, category, text
        self.selector = selector_of(text)


def selector_of(text):
    """The selector that a method's text begins with, or an empty text."""
    at = SPACE.match(text).end()
    parts = []
    while keyword := KEYWORD.match(text, at):
        parts.append(keyword[0])
        argument = NAME.match(text, SPACE.match(text, keyword.end()).end())
        if not argument:
            return ""
        at = SPACE.match(text, argument.end()).end()
    if parts:
        return "".join(parts)
    found = NAME.match(text, at) or BINARY.match(text, at)
    return found[0] if found else ""


def definitions_of(text):
    """The methods of a text's groups, in their order."""
    found, header, inside = [], None, False
    for chunk in chunks_of(text):
        is_empty = not chunk.text.strip(BLANKS)
        if chunk.opens:
            header, inside = HEADER.fullmatch(chunk.text.strip(BLANKS)), True
        elif inside and is_empty:
            inside = False
        elif inside and header:
            category = header[3].replace("''", "'")
            found.append(Definition(header[1], bool(header[2]), category, chunk.text.strip(BLANKS)))
    return found
