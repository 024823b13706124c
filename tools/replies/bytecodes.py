"""The bytecodes by their names, and what bytecodes and primitives do by tools/replies/codes.txt."""

import pathlib
import re

TABLES = pathlib.Path(__file__).resolve().parent / "codes.txt"
CONSTANTS = ("true", "false", "nil", "-1", "0", "1", "2")
SPECIAL = ("+", "-", "<", ">", "<=", ">=", "=", "~=", "*", "/", "\\\\", "@", "bitShift:", "//", "bitAnd:", "bitOr:", "at:", "at:put:", "size",
           "next", "nextPut:", "atEnd", "==", "class", "blockCopy:", "value", "value:", "do:", "new", "new:", "x", "y")
PLACES = ("receiver variable", "temporary variable", "literal constant", "literal variable")


class Codes:
    """What the numbers in a method's bytecodes stand for: its literals as texts, and the names of the receiver's variables."""

    def __init__(self, literals=(), variables=()):
        self.literals, self.variables = literals, variables

    def literal(self, number):
        return self.literals[number] if number < len(self.literals) else f"literal {number}"

    def place(self, kind, number):
        if kind == 0:
            name = self.variables[number] if number < len(self.variables) else number
            return f"receiver variable {name}"
        return f"{PLACES[kind]} {self.literal(number) if kind > 1 else number}"

    def sent(self, number, arguments):
        return f"{self.literal(number).removeprefix('#')}, {arguments} argument{'s' * (arguments != 1)}"

    def meaning(self, place, units):
        """A bytecode's name, given its place and its bytes; a jump's with the place where it goes."""
        code, more = units[0], [*units[1:], 0, 0]
        if code < 96:
            kind, number = [(0, code), (1, code - 16), (2, code - 32), (3, code - 64)][(code >= 16) + (code >= 32) + (code >= 64)]
            return "push " + self.place(kind, number)
        if code < 112:
            return "pop and store in " + self.place((code - 96) // 8, code % 8)
        if code < 128:
            return self.short(code)
        if code < 144:
            return self.extended(code, more)
        if code < 176:
            return self.jump(place, code, more[0])
        if code < 208:
            return f"send {SPECIAL[code - 176]}"
        return "send " + self.sent(code & 15, (code >> 4) - 13)

    def short(self, code):
        if code == 112:
            return "push self"
        if code < 120:
            return f"push {CONSTANTS[code - 113]}"
        returns = {120: "return self", 121: "return true", 122: "return false", 123: "return nil", 124: "return the top of the stack",
                   125: "return the top of the stack from the block"}
        return returns.get(code, "never used")

    def extended(self, code, more):
        kind, number = more[0] >> 6, more[0] & 63
        if code in (128, 129, 130):
            return ("push", "store in", "pop and store in")[code - 128] + " " + self.place(kind, number)
        if code in (131, 133):
            return ("send " if code == 131 else "send to super ") + self.sent(more[0] & 31, more[0] >> 5)
        if code in (132, 134):
            return ("send " if code == 132 else "send to super ") + self.sent(more[1], more[0])
        return {135: "pop", 136: "push the top again", 137: "push the active context"}.get(code, "never used")

    @staticmethod
    def jump(place, code, low):
        if code < 160:
            return f"{'jump' if code < 152 else 'jump on false'} to {place + 2 + code % 8}"
        if code < 168:
            return f"jump to {place + 2 + (code - 164) * 256 + low}"
        return f"jump on {'true' if code < 172 else 'false'} to {place + 2 + code % 4 * 256 + low}"


def rows(title):
    """The lines of the table of that title, `bytecodes` or `primitives`, each as its cells."""
    table = TABLES.read_text().partition(f"= {title}\n")[2].partition("\n= ")[0]
    return [line.split(" | ") for line in table.splitlines()]


def ranges_in(cell):
    """The first and last number of each range in a cell."""
    return [(int(first), int(last or first)) for first, last in re.findall(r"(\d+)(?: to (\d+))?", cell)]


def rules():
    """For each code its definitions, and what it does."""
    return {code: f"{definitions}: {does}" for codes, definitions, does in rows("bytecodes") for first, last in ranges_in(codes)
            for code in range(first, last + 1)}


def definition_of(code):
    """The definition of a bytecode, or none if there is no such code."""
    for codes, definitions, _ in rows("bytecodes"):
        ranges, names = ranges_in(codes), definitions.split(", ")
        places = [at for at, (first, last) in enumerate(ranges) if first <= code <= last]
        if places:
            return names[places[0] if len(names) == len(ranges) else 0]
    return None


def primitives():
    """The numbers of the primitives that may succeed; all others fail always."""
    return {number for numbers, _ in rows("primitives") for first, last in ranges_in(numbers) for number in range(first, last + 1)}


def length_of(code):
    """How many bytes a bytecode with this first byte has."""
    if code in (132, 134):
        return 3
    return 2 if 128 <= code <= 131 or code == 133 or 160 <= code < 176 else 1
