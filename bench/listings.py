"""The images of the loops that are written in bytecodes, each as the lines of a listing (`images/make`).

Each image has the root page, one class `Root` with the methods of the loop, above all other classes, and a process whose method
loops for ever. `tools/book code N` tells what a bytecode does.
"""

NIL, SMALL_INTEGER, STRING, ARRAY, CONTEXT, POINT, METHOD, SYMBOL = 2, 12, 14, 16, 22, 26, 34, 56
ASSOCIATION, SELECTORS, SCHEDULER, PROCESS, ACTIVE, LOOP = 8, 48, 58, 60, 62, 64
METACLASS, ROOT, RECEIVER = 98, 100, 110
FIRST = 200  # the least pointer of what has none of its own
# Instance specifications; those of the page's classes (24 is BlockContext, 28 LargePositiveInteger, 32 Message, 40 Character).
FIELDS, BYTES = -16384, 4096
INDEXED = FIELDS + 4096
PAGE_CLASSES = {SMALL_INTEGER: FIELDS, STRING: BYTES, ARRAY: INDEXED, CONTEXT: INDEXED + 6, 24: INDEXED + 6, POINT: FIELDS + 2,
                28: BYTES, 32: FIELDS + 2, METHOD: BYTES, 40: FIELDS + 1, SYMBOL: BYTES}
PAGE_OBJECTS = (NIL, 4, 6, 42, 44, 50, 52)  # without fields
DOES_NOT_UNDERSTAND = 42
ARGUMENTS = [1] * 17 + [2, 0, 0, 1, 0, 1, 0, 1, 0, 1, 1, 0, 1, 0, 0]  # of the special selectors, from + on
STACK = 32  # fields of a large context
LARGE, TEMPORARIES = 64, 4 << 7  # of a method's header: a large context, four temporary variables
ONE_ARGUMENT = 1 << 12 | 1 << 7
PRIMITIVE = 7 << 12  # the flag of an extension, which tells the primitive
WIDTH, HEIGHT = 640, 480  # of a Form
WORDS = WIDTH // 16 * HEIGHT
OTHERS = 20000  # objects more in a large image


class Listing:
    """The lines of an image's objects. `root` are the methods of Root by their selectors, and the receiver's class is so many below it."""

    def __init__(self, depth=0):
        self.lines, self.free, self.root, self.lists = [], FIRST, {}, "@2"
        classes = [self.take() for _ in range(depth)]
        self.classes = dict(zip(classes, [ROOT, *classes]))  # each with the one above it
        self.receiver_class = classes[-1] if classes else ROOT
        self.selectors = [self.symbol(f"s{number}") for number in range(len(ARGUMENTS))]

    def take(self):
        """The pointer of the next object."""
        self.free += 2
        return self.free - 2

    def put(self, pointer, of_class, kind, *values):
        self.lines.append(f"object {pointer} @{of_class} {kind} " + " ".join(map(str, values)))

    def add(self, of_class, kind, *values):
        """Adds an object, and answers its name in other lines."""
        pointer = self.take()
        self.put(pointer, of_class, kind, *values)
        return f"@{pointer}"

    def fields(self, of_class, *values):
        return self.add(of_class, "p", *values)

    def symbol(self, name):
        return self.add(SYMBOL, "b", *name.encode())

    def method(self, selector, header, literals, code):
        """Adds a method of Root; its code is its bytes as a text."""
        self.root[selector] = self.add(METHOD, "m", header + len(literals), *literals, ":", code)

    def primitive(self, selector, number, arguments=0):
        self.method(selector, PRIMITIVE | arguments << 7, [number | arguments << 8, "@2"], "120")

    def activation(self, method, context, literals, code, header, receiver, *values):
        """The method that a process begins with, and its context, whose temporary variables have these values, and else nil."""
        self.put(method, METHOD, "m", header + len(literals), *literals, ":", code)
        rest = list(values) + ["@2"] * (STACK - len(values))
        self.put(context, CONTEXT, "p", "@2", 2 * len(literals) + 3, header >> 7, f"@{method}", "@2", f"@{receiver}", *rest)

    def loop(self, literals, code, *values, header=TEMPORARIES | LARGE, receiver=RECEIVER):
        self.activation(LOOP, ACTIVE, literals, code, header, receiver, *values)

    def dictionary(self, methods, places):
        """A method dictionary with these methods by their selectors."""
        keys, values = ["@2"] * places, ["@2"] * places
        for selector, method in methods.items():
            at = (int(selector[1:]) >> 1) % places
            while keys[at] != "@2":
                at = (at + 1) % places
            keys[at], values[at] = selector, method
        return self.fields(ARRAY, len(methods), self.fields(ARRAY, *values), *keys)

    def add_classes(self):
        empty = self.dictionary({}, 2)
        methods = self.dictionary(self.root, max(4, 1 << (2 * len(self.root) - 1).bit_length()))
        self.put(ROOT, METACLASS, "p", "@2", methods, FIELDS + 2)
        for pointer, above in self.classes.items():
            self.put(pointer, METACLASS, "p", f"@{above}", empty, FIELDS + 2)
        for pointer, specification in {METACLASS: 0, **PAGE_CLASSES}.items():
            self.put(pointer, METACLASS, "p", f"@{ROOT}", empty, specification)

    def add_chain(self, length):
        """Adds Arrays each of which names the one before it, and answers the last one."""
        last = "@2"
        for _ in range(length):
            last = self.fields(ARRAY, last, *["@2"] * 7)
        return last

    def whole(self, others=0):
        """All lines, with the classes, the page, the process, and so many objects besides, which the scheduler's association keeps."""
        self.add_classes()
        for pointer in PAGE_OBJECTS:
            self.put(pointer, SMALL_INTEGER, "p")
        self.put(SELECTORS, ARRAY, "p", *(it for pair in zip(self.selectors, ARGUMENTS) for it in pair))
        self.put(ASSOCIATION, SMALL_INTEGER, "p", self.add_chain(others), f"@{SCHEDULER}")
        self.put(SCHEDULER, SMALL_INTEGER, "p", self.lists, f"@{PROCESS}")
        self.put(PROCESS, SMALL_INTEGER, "p", "@2", f"@{ACTIVE}", 4, "@2")
        self.put(RECEIVER, self.receiver_class, "p", 0, 0)
        return self.lines


def push():
    """Pushes of constants, of temporary variables and of the receiver's; stores into them; jumps."""
    made = Listing()
    made.loop([], "118 104 16 105 113 135 17 106 0 107 119 96 119 145 135 112 136 135 135 18 129 65 135 163 231")
    return made


def arithmetic():
    """i _ i + 1. j _ ((i * 3 bitAnd: 255) - i) \\\\ 7. i > 5000 ifTrue: [i _ 0]"""
    made = Listing()
    made.loop([3, 255, 7, 5000], "16 118 176 104 16 32 184 33 190 16 177 34 186 105 16 35 179 153 117 104 163 234", 0)
    return made


def send():
    """self a. self b: 1. self c: 1 d: 2, whose methods are six classes above that of the receiver"""
    made = Listing(depth=6)
    a, b, c = made.symbol("a"), made.symbol("b:"), made.symbol("c:d:")
    made.loop([a, b, c], "112 208 135 112 118 225 135 112 118 119 242 104 163 242")
    made.method(a, 0, [], "0 124")  # ^variable
    made.method(b, ONE_ARGUMENT, [], "16 118 176 124")  # b: x  ^x + 1
    made.method(c, 2 << 12 | 3 << 7, [a], "112 208 135 16 17 176 124")  # c: x d: y  self a. ^x + y
    return made


def recursion():
    """self f: 20"""
    made = Listing()
    f = made.symbol("f:")
    made.loop([f, 20], "112 33 224 135 163 250")
    # f: n  n < 2 ifTrue: [^1]. ^(self f: n - 1) + (self f: n - 2)
    made.method(f, ONE_ARGUMENT, [f], "16 119 178 153 118 124 112 16 118 177 224 112 16 119 177 224 176 124")
    return made


def make():
    """Point new. Array new: 10"""
    made = Listing()
    new, new_of = made.symbol("new"), made.symbol("new:")
    made.loop([new, f"@{POINT}", f"@{ARRAY}", 10, new_of], "33 208 135 34 35 228 135 163 247")
    made.primitive(new, 70)
    made.primitive(new_of, 71, 1)
    return made


def keep():
    """kept at: (i _ i + 1) put: (Array new: 6). i >= 2000 ifTrue: [i _ 0]"""
    made = Listing()
    new_of, at_put = made.symbol("new:"), made.symbol("at:put:")
    made.primitive(new_of, 71, 1)
    made.primitive(at_put, 61, 2)
    kept = made.fields(ARRAY, *["@2"] * 2000)
    made.loop([at_put, new_of, kept, f"@{ARRAY}", 6, 2000], "16 118 176 104 34 16 35 36 225 240 135 16 37 181 153 117 104 163 237", 0)
    return made


def block():
    """block _ [:x | x. 2]; then, again and again, block value: 1"""
    made = Listing()
    made.loop([], "137 118 200 164 4 104 16 119 125 105 17 118 202 135 163 250")
    return made


def not_understood():
    """self x: 1, which doesNotUnderstand: answers by 1"""
    made = Listing()
    x = made.symbol("x:")
    made.loop([x], "112 118 224 135 163 250")
    made.method(f"@{DOES_NOT_UNDERSTAND}", ONE_ARGUMENT, [], "118 124")
    return made


def switch():
    """Two processes: each signals the semaphore for which the other one waits, and waits for its own."""
    made = Listing()
    signal, wait = made.symbol("signal"), made.symbol("wait")
    made.primitive(signal, 85)
    made.primitive(wait, 86)
    semaphores = [made.fields(ROOT, "@2", "@2", 0) for _ in range(2)]
    method, context, process = 90, 92, 94
    lists = [made.fields(ROOT, *[f"@{process}" if priority == 4 else "@2"] * 2) for priority in range(1, 9)]
    code = "34 208 135 35 209 135 163 248"
    made.loop([signal, wait, *reversed(semaphores)], code, header=LARGE, receiver=NIL)
    made.activation(method, context, [signal, wait, *semaphores], code, LARGE, NIL)
    made.put(process, ROOT, "p", "@2", f"@{context}", 4, lists[3])
    made.lists = made.fields(ARRAY, *lists)
    return made


def copy(source=1, rule=3, source_x=0):
    """BitBlt copyBits over a whole Form, from a Form or from none."""
    made = Listing()
    copy_bits = made.symbol("copyBits")
    made.primitive(copy_bits, 96)
    forms = []
    for first in (0, 77):
        bits = made.add(STRING, "w", *((first + 40503 * number) % 65536 for number in range(WORDS)))
        forms.append(made.fields(ROOT, bits, WIDTH, HEIGHT))
    area = 0, 0, WIDTH, HEIGHT
    copier = made.fields(ROOT, forms[0], "@2" if source is None else forms[source], "@2", rule, *area, source_x, 0, *area)
    made.loop([copy_bits, copier], "33 208 135 163 251")
    return made


LISTINGS = {
    "push": push,
    "arithmetic": arithmetic,
    "send": send,
    "recursion": recursion,
    "make": make,
    "keep": keep,
    "block": block,
    "not-understood": not_understood,
    "switch": switch,
    "copy": copy,
    "copy-shifted": lambda: copy(source_x=5),
    "copy-within": lambda: copy(0, 6, 3),
    "fill": lambda: copy(None, 12),
}
LARGE_LISTINGS = {f"{it}-large": LISTINGS[it] for it in ("push", "send", "keep")}


def lines_of(name):
    """The lines of the listing of that name."""
    return LISTINGS[name]().whole() if name in LISTINGS else LARGE_LISTINGS[name]().whole(OTHERS)
