"""What was wrong in what someone typed: by what stands at the place of a refusal, or by the message that wasn't understood."""

import difflib
import re

from .evaluations import AFTER_OPERAND, end_of_array
from .expressions import FRONT
from .meanings import meaning_of

REFUSED = re.compile(r"refused (syntax|code) (\d+) (\d+)$")
NAME = re.compile(r"[A-Za-z][A-Za-z0-9]*")
BLOCK = re.compile(r"\[(?:\s*:\s*[A-Za-z][A-Za-z0-9]*)*\s*\|?\s*\Z")  # up to where a block's statements begin
# Of a refusal, its kind and cause: what stands at its place, and a sentence.
AT_PLACE = (
    ("syntax 1", r"\{", "`{` begins no token: `Array with: 3 with: 4 + 5` takes expressions"),
    ("syntax 1", r"#\[", "`#[` begins no token: `ByteArray with: 1 with: 2` does"),
    ("syntax 1", r"#", "a `#` begins a Symbol or a literal array, as `#size`, `#at:put:` and `#(1 2)`"),
    ("syntax 1", r"\$", "a character is missing after the `$`"),
    ("syntax 1", r"!", "no token begins with `!`: a header, as `!Account methodsFor: 'x'!`, begins its line"),
    ("syntax 3", r"-\s+\d", "no blank stands between a minus and its number"),
    ("syntax 3", r":=|_", "a name is missing before the assignment"),
    ("syntax 7", r":=|_", "only a name takes an assignment"),
    ("syntax 7", r"\.", "a period stands between two statements, and one is missing before this one"),
)
IN_ARRAY = {
    "syntax 5": "a literal array takes no number with a fraction or an exponent: `Array with: 1.5` does",
    "code 9": "a literal array takes no number below -16384: `Array with: -100000` does",
}
IN_BLOCK = "a block has no variables of its own here: declare them where the expression or the method begins"
NO_NAME = "a method begins with its name, as `balance` or `add: aNumber`"
HANDLER = re.compile(r"\bon:\s*\Z")  # what comes before the name of an error's class
# Messages of other Smalltalks, and what this one has.
ELSEWHERE = {
    "++": "x := x + 1",
    "+=": "x := x + 1",
    "-=": "x := x - 1",
    "**": "raisedTo:",
    ">>": "compiledMethodAt:",
    "allButFirst": "copyFrom: 2 to: size",
    "asInteger": "asNumber for a String",
    "asString": "printString",
    "display:": "print:",
    "displayNl": "displayString, which Transcript show: shows",
    "doWithIndex:": "1 to: size do:",
    "ensure:": "no handlers: an error ends its process",
    "first:": "copyFrom: 1 to:",
    "ifNil:": "isNil ifTrue:",
    "ifNotNil:": "notNil ifTrue:",
    "isZero": "= 0",
    "keysAndValuesDo:": "associationsDo: for a Dictionary",
    "max": "inject:into: with max:",
    "min": "inject:into: with min:",
    "nl": "cr",
    "on:do:": "no handlers: an error ends its process",
    "printNl": "Transcript print: for any object",
    "reversed": "reverse",
    "showCr:": "show:, and then cr",
    "sort": "asSortedCollection",
    "sort:": "asSortedCollection:",
    "subStrings": "substrings",
    "subStrings:": "substrings",
    "sum": "inject:into: with +",
}
LIKE = 0.8  # how alike two selectors are at least, from 0 to 1, of which one was meant for the other


def is_in_array(text, at):
    """Whether a place is within a literal array."""
    end = 0
    for it in AFTER_OPERAND.finditer(text):
        if it.start() >= at:
            break
        if it[0] == "#(" and it.start() >= end:
            end = end_of_array(text, it.start())
    return at < end


def elsewhere(selector):
    """What this Smalltalk has for a message of others."""
    return f"other Smalltalks have {selector}; this one has {ELSEWHERE[selector]}"


def hint_for_name(text, at):
    """What would give a name a meaning that has none."""
    name = NAME.match(text, at)[0]
    if HANDLER.search(text[:at]) and re.match(r"\s*do:", text[at + len(name) :]):
        return elsewhere("on:do:")
    if name[0].isupper():
        return f"no class or global is called {name}"
    if text.startswith(FRONT):
        return f"an assignment, as `{name} := 3`, makes it a variable"
    return f"{name} is no variable of the method or the class"


def hint_at(cause, text, at):
    """A sentence on what stands at a place that is refused for a cause, if there is one."""
    for of_cause, form, sentence in AT_PLACE:
        if cause == of_cause and re.match(form, text[at:]):
            return sentence
    if cause == "syntax 1" and text[at : at + 1]:
        return f"no token begins with the character {text[at]}"
    if cause == "syntax 3" and not text[:at].strip():
        return NO_NAME
    if cause == "syntax 3" and text[at : at + 1] == "|" and BLOCK.search(text[:at]):
        return IN_BLOCK
    if cause == "code 3" and NAME.match(text, at):
        return f"{NAME.match(text, at)[0]} takes no assignment: it is an argument, or has a meaning of its own"
    return IN_ARRAY[cause] if cause in IN_ARRAY and is_in_array(text, at) else None


def meaning_in(reply, text):
    """What a reply to the definition of a text means; of a refusal, what would do in its place."""
    refused = REFUSED.match(reply)
    if not refused:
        return meaning_of(reply)
    cause, at = f"{refused[1]} {refused[3]}", int(refused[2]) - 1
    if cause == "code 1" and NAME.match(text, at):
        return f"{meaning_of(reply)}: {hint_for_name(text, at)}"
    return hint_at(cause, text, at) or meaning_of(reply)


def message_meant(receiver, selector, understood):
    """A sentence on the message that may have been meant, of those that a receiver's class understands, if there is one."""
    if selector in ELSEWHERE:
        return elsewhere(selector)
    keywords = selector.count(":")
    # (the nearest in length first)
    known = sorted(understood, key=lambda it: (abs(it.count(":") - keywords), len(it), it))
    turned = [it for it in known if sorted(it.split(":")) == sorted(selector.split(":"))]
    longer = [it for it in known if keywords and it.startswith(selector)]
    like = difflib.get_close_matches(selector, [it for it in known if it.count(":") == keywords], 1, LIKE)
    begun = [it for it in known if keywords > 1 and it.startswith(selector.partition(":")[0] + ":")]
    found = turned or longer or like or begun
    return f"{receiver} understands {found[0]}" if found else None
