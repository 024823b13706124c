"""What tools add to the kernel's evaluations: numbers that the compiler refuses, variables that stay, classes that aren't stored into, and
clocks that go on."""

import re
import time

from .classes import CLASS_POOL, field_of, members_of
from .expressions import BEGIN, HEADER, lacks_character, pieces, source_of
from .image import NIL, integer, is_small
from .script import why_no_method

LEAST = -16384  # of the integers that the compiler takes as literals
CYCLES = 1000000  # of one run
RESUMPTION_TIME = 1  # the field of a Delay
NAME_REFUSED = re.compile(r"refused code (\d+) 1$")
ASSIGNED = re.compile(r"(?<![A-Za-z0-9])([A-Za-z][A-Za-z0-9]*+)\s*+(?::=|_)")
BEFORE_1970 = 2177452800  # seconds from 1901 on
MOST = 4294967295  # of either clock
NEEDED = {"Display", "Processor", "Sensor", "Transcript"}  # the globals without which the kernel can't go on

NUMBER = r"\d+r-?[0-9A-Z]+(?:\.[0-9A-Z]+(?:e-?\d+)?(?![A-Za-z0-9:])|e-?\d+)?|\d+(?:\.\d+)?(?:e-?\d+)?"
OTHERS = r"\"[^\"]*\"?|'(?:[^']|'')*'?|\$.|\#\(|\#?[A-Za-z][A-Za-z0-9:]*|\s+|."
AFTER_OPERAND = re.compile(f"{NUMBER}|{OTHERS}", re.S)
BEFORE_OPERAND = re.compile(f"-?(?:{NUMBER})|{OTHERS}", re.S)


def end_of_array(text, at):
    """The place behind the literal array that begins there."""
    depth = 0
    for it in AFTER_OPERAND.finditer(text, at):
        depth += (it[0] in ("(", "#(")) - (it[0] == ")")
        if depth == 0:
            return it.end()
    return len(text)


def written_out(number):
    """A number as an expression, if the compiler doesn't take it as a literal."""
    if re.search(r"[.e]|r-", number):
        return f"(Number readFrom: '{number}')"
    radix, _, digits = number.lstrip("-").rpartition("r")
    is_below = number[0] == "-" and -int(digits, int(radix or 10)) < LEAST
    return f"({number[1:]} negated)" if is_below else number


def with_numbers(text):
    """The text with each number outside a literal array that the compiler refuses written as an expression."""
    parts, at, is_operand = [], 0, False
    while at < len(text):
        it = (AFTER_OPERAND if is_operand else BEFORE_OPERAND).match(text, at)
        piece, end = it[0], it.end()
        if piece == "#(":
            end = end_of_array(text, at)
            piece = text[at:end]
        is_number = piece[-1].isalnum() and piece.lstrip("-")[0].isdigit()
        parts.append(written_out(piece) if is_number else piece)
        if piece.strip() and piece[0] != '"':
            is_operand = piece[-1] in ")]'" or piece[0] in "$#" or piece[-1].isalnum()
        at = end
    return "".join(parts)


def assigned_names(text):
    """The names that a text assigns to, with their places in it."""
    places = {at for at, _ in pieces(text)}
    return [(it[1], it.start()) for it in ASSIGNED.finditer(text) if it.start() in places]


def name_refused(reply, source):
    """The name that a text is refused for, if the text assigns to it."""
    refused = NAME_REFUSED.match(reply)
    named = dict((place, name) for name, place in assigned_names(source))
    return named.get(int(refused[1]) - 1) if refused else None


class Evaluations:
    """The expressions of a session of the kernel, each of which is defined as `doIt`; `declared` are the globals that the last one made."""

    def __init__(self, session):
        self.session, self.declared = session, set()

    def why_not(self, text):
        """Why an expression isn't to be defined, if it isn't."""
        names = {name for name, _ in assigned_names(text) if name[0].isupper()}
        classes = {line.split()[1] for line in self.session.ask("classes")[1:]} if names else set()
        if lost := min(names & classes, default=None):
            return f"{lost} is a class, which would be lost; `=` compares"
        if lost := min(names & NEEDED, default=None):
            return f"{lost} is what the kernel works with, which would be lost; `=` compares"
        if lacks_character(text):
            return "a character is missing after the `$` at the end"
        return why_no_method(HEADER, source_of(text))

    def define(self, text):
        """The reply to the definition of an expression, and the text that was defined; names that it is the first to assign to are declared."""
        source = source_of(with_numbers(text))
        reply, self.declared = self.session.define(HEADER, source), set()
        while (name := name_refused(reply, source)) and name not in self.declared:
            self.declared.add(name)
            self.declare(name)
            reply = self.session.define(HEADER, source)
        return reply, source

    def declare(self, name):
        """Has a global of this name, which is nil."""
        if self.session.define(HEADER, source_of(f"Smalltalk at: #{name} put: nil")).startswith("accepted"):
            self.session.ask(f"input {BEGIN}")
            while list(self.session.run(CYCLES))[-1].startswith("ran"):
                pass


class Clocks:
    """The clocks of a machine, and the delays of the kernel that wait for one. With a person before it they go by the computer's clock;
    else they stand, but for the end of a delay, which comes at once, so that a run is the same each time."""

    def __init__(self, session, live, is_real):
        self.session, self.live, self.is_real, self.begun = session, live, is_real, time.monotonic()

    def now(self):
        """The milliseconds since the session began."""
        return int((time.monotonic() - self.begun) * 1000)

    def set(self):
        """Sets both clocks, if they go."""
        if self.is_real:
            seconds = int(time.time()) + time.localtime().tm_gmtoff + BEFORE_1970
            self.session.ask(f"clock {min(seconds, MOST)}")
            self.go_on()

    def go_on(self):
        """Sets the clock of milliseconds, if it goes."""
        if self.is_real:
            self.session.ask(f"tick {min(self.now(), MOST)}")

    def variable(self, of_class, name):
        """The value of a class variable; nil if there is none."""
        pointer = self.live.named_classes().get(of_class)
        pool = field_of(self.live, pointer, CLASS_POOL) if pointer else NIL
        return members_of(self.live, pool).get(name, NIL)

    def is_evaluating(self):
        """Whether an evaluation hasn't ended yet."""
        self.live.forget()
        return self.variable("Workspace", "Evaluation") != NIL

    def first_end(self):
        """What the millisecond clock shows when the first delay ends; none if none waits. With a person before it an evaluation's alone counts."""
        if not self.is_evaluating() and self.is_real:
            return None
        waiting = self.variable("Delay", "Waiting")
        fields = self.live.elements_of(waiting)
        delays = fields[len(self.live.variables(self.live.class_of(waiting))):]
        if not delays or fields[1] < fields[0]:
            return None
        end = field_of(self.live, delays[integer(fields[0]) - 1], RESUMPTION_TIME)
        return integer(end) if is_small(end) else int.from_bytes(self.live.bytes_of(end), "little")

    def is_due(self, end):
        return not self.is_real or self.now() >= end

    def tick(self, end):
        """Has a delay end."""
        self.session.ask(f"tick {max(end, self.now() if self.is_real else 0)}")
