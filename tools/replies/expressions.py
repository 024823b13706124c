"""Expressions of a workspace: when one is whole, and the method `doIt` that answers its last statement."""

import re

from .chunks import BLANKS

HEADER = "Workspace methodsFor: 'evaluating'"
FRONT = "doIt\n\t"
BEGIN = 1  # the word of input that begins an evaluation
INTERRUPT = 3  # the word of input that ends an evaluation
OPENING, CLOSING = "([{", ")]}"
FRACTION = re.compile(r"(?<![A-Za-z0-9])\d+(?:\.\d|r-?[0-9A-Z]+\.[0-9A-Z]+(?:e-?\d+)?(?![A-Za-z0-9:]))")
# A comment, or in its one group what is none: a string, a character, or any other one.
TOKEN = re.compile(r"""\"[^"]*\"?|('(?:[^']|'')*'?|\$.|.)""", re.S)
BINARY = r"[-+*/\\~<>=@%|&?,]"
# What another token must follow: a cascade's semicolon, an assignment, a keyword or a binary operator, and none of a literal's.
WANTING = re.compile(rf"(?:[;_^]|(?<![A-Za-z0-9:#])[A-Za-z][A-Za-z0-9]*:|(?<!#)(?<!{BINARY}){BINARY}+)\Z")
CLASS = re.compile(r"[sS]ubclass:\s*#\w+(?:\s+(?!category|package)\w+:\s*'[^']*')*\Z")  # what makes a class, but for its end
FURTHER = re.compile(r"\s|[A-Za-z]\w*:(?!=)|\Z")  # how a line begins that goes on with it
DECLARATIONS = re.compile(r"\|([A-Za-z0-9\s]*)\|")
# What follows another token.
FOLLOWING = re.compile(rf";|[A-Za-z][A-Za-z0-9]*:(?!=)|(?!-\s*\d){BINARY}")


def pieces(text):
    """The characters of a text that are neither in a comment, a string nor a character, with their places; then whether one is open."""
    at = 0
    while at < len(text):
        if text[at] in "'\"":
            end = text.find(text[at], at + 1)
            if end < 0:
                yield at, None
                return
            at = end + 1
        elif text[at] == "$":
            at += 2
        else:
            yield at, text[at]
            at += 1


def is_open(text):
    """Whether a bracket or a quote is open at the end."""
    depth = 0
    for _, one in pieces(text):
        if one is None:
            return True
        depth += (one in OPENING) - (one in CLOSING)
    return depth > 0


def parts_of(text):
    """The places of what is neither a comment nor a blank."""
    return [it.start() for it in TOKEN.finditer(text) if it[1] and it[1].strip(BLANKS)]


def goes_on(text):
    """Whether something must follow the last token."""
    parts, bare = parts_of(text), text.strip(BLANKS)
    wants = bool(parts) and bool(WANTING.search(text[: parts[-1] + 1]))
    return (wants or bool(CLASS.search(bare))) and not DECLARATIONS.fullmatch(bare)


def cuts_class(line, text):
    """Whether a text makes a class but for its end, and a line after it doesn't go on with that."""
    return bool(CLASS.search(text.strip(BLANKS))) and not is_open(text) and not FURTHER.match(line)


def is_rest(text):
    """Whether a text begins with what only follows another token, as a keyword."""
    parts = parts_of(text)
    return bool(parts) and bool(FOLLOWING.match(text, parts[0]))


def lacks_character(text):
    """Whether a text ends with a `$`."""
    parts = parts_of(text)
    return bool(parts) and text[parts[-1] :] == "$"


def is_in_number(text, at):
    """Whether the dot at that place is one of a number with a fraction, as in 3.14 or 16rAC.DC, and ends no statement."""
    return any(it.start() < at < it.end() for it in FRACTION.finditer(text))


def last_statement(text):
    """The place at which the last statement begins, behind the declarations, or none where there is no statement."""
    begin, depth, bars, parts = 0, 0, 0, parts_of(text)
    for at, one in pieces(text):
        if one is None:
            break
        depth += (one in OPENING) - (one in CLOSING)
        if depth == 0 and one == "|" and (bars == 1 or bars == 0 and at == parts[0]):
            bars += 1
            begin = at + 1
        elif depth == 0 and one == "." and at < parts[-1] and not is_in_number(text, at):
            begin = at + 1
    return next((it for it in parts if it >= begin), None)


def with_kept_variables(text):
    """Declarations alone as assignments, so that their names stay for the next expressions; any other text as it is."""
    found = DECLARATIONS.fullmatch(text.strip(BLANKS))
    return "".join(f"{it} := nil. " for it in found[1].split()) + "self" if found else text


def with_answer(text):
    """The text with `^` before its last statement, where there is none."""
    at = last_statement(text)
    return text if at is None or text[at] == "^" else f"{text[:at]}^{text[at:]}"


def source_of(text):
    """The text of the method `doIt` that does an expression. After a `$` at its end a comment keeps the blank, which the end of a chunk loses."""
    kept = '""' if text.rstrip(BLANKS).endswith("$") else ""
    return FRONT + with_answer(text) + kept


def evaluate(session, text, cycles):
    """Has an expression done, in so many cycles at most, and answers the lines that come back, up to a refusal or the run's end."""
    reply = session.define(HEADER, source_of(text))
    if not reply.startswith("accepted"):
        return [reply]
    session.ask(f"input {BEGIN}")
    lines = list(session.run(cycles))
    if not lines[-1].startswith("quit"):
        # (what didn't end would take the next words of input)
        session.ask(f"input {INTERRUPT}")
        list(session.run(cycles))
    return lines
