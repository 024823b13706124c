"""The objects of a machine in a session, by its replies to `object`, in the form of `image`'s, and words for what they are."""

from .classes import DICTIONARY, NAME, SUPERCLASS, class_name, field_of, is_class, members_of
from .image import NIL, Head, Object, Objects, current_image, integer, is_small
from .session import escape

# The classes of the root page, whose names an image needn't have.
PAGE = {12: "SmallInteger", 14: "String", 16: "Array", 22: "MethodContext", 24: "BlockContext", 26: "Point", 28: "LargePositiveInteger",
        32: "Message", 34: "CompiledMethod", 40: "Character", 56: "Symbol"}
FALSE, TRUE, STRING, ARRAY, CHARACTER, SYMBOL = 4, 6, 14, 16, 40, 56
SHOWN = 60  # characters of a text that stand for an object
INSTRUCTION, METHOD, RECEIVER, FRONT = 1, 3, 5, 6  # fields of a context
ABOVE = 1000  # superclasses that are looked through at most


def word_of(text):
    """The word that a reply says as a value: `@62` an object, 7 a SmallInteger."""
    return int(text[1:]) if text.startswith("@") else int(text) << 1 & 0xFFFF | 1


def object_of(line):
    """The object that a line `object` says."""
    words = line.split()
    of_class, kind, rest = word_of(words[2]), words[3], words[4:]
    if kind == "p":
        return Object(of_class, kind, [word_of(it) for it in rest], b"")
    if kind == "m":
        at = rest.index(":")
        return Object(of_class, kind, [word_of(it) for it in rest[:at]], bytes(map(int, rest[at + 1 :])))
    units = list(map(int, rest))
    return Object(of_class, kind, [], bytes(units) if kind == "b" else units)


class Live(Objects):
    """The objects as they are now, each asked for once until `forget`, and the pointers of a store's tables of names."""

    def __init__(self, session, store):
        head = Head(current_image(store))
        self.session = session
        self.globals, self.room = head.globals, (head.entries, head.words)
        self.forget()

    def forget(self):
        """Something may have changed."""
        self.objects, self.classes, self.sides = {}, None, None

    def get(self, pointer):
        if is_small(pointer) or not 2 <= pointer <= 65534:
            return None
        if pointer not in self.objects:
            line = self.session.ask(f"object {pointer}")[0]
            self.objects[pointer] = object_of(line) if line.startswith("object ") else None
        return self.objects[pointer]

    def named_classes(self):
        """The pointers of the classes by their names."""
        if self.classes is None:
            members = members_of(self, self.globals) if self.globals else {}
            self.classes = {name: it for name, it in members.items() if is_class(self, name, it)}
        return self.classes

    def name_of_class(self, pointer):
        """The name of a class, or of a metaclass by that of its one instance."""
        named = field_of(self, pointer, NAME)
        if named != NIL and self.elements_of(named):
            return f"{self.own_name(named)} class"
        return self.own_name(pointer)

    def own_name(self, pointer):
        return class_name(self, pointer) or PAGE.get(pointer) or f"@{pointer}"

    def side(self, name, meta):
        """The pointer of a class, or of its metaclass; none where no class has this name."""
        pointer = self.named_classes().get(name)
        return self.get(pointer).of_class if pointer and meta else pointer

    def method(self, name, meta, selector):
        """The pointer of a class's own method, or none."""
        return next((it for it, key in self.own_methods(self.side(name, meta)) if key == selector), None)

    def own_methods(self, side):
        """The pointers and the selectors of the methods in a class's dictionary."""
        fields = self.elements_of(field_of(self, side, DICTIONARY)) if side else []
        pairs = zip(fields[2:], self.elements_of(fields[1])) if len(fields) > 1 else ()
        return [(it, self.bytes_of(key).decode("latin-1")) for key, it in pairs if key != NIL and it != NIL]

    def chain(self, pointer):
        """A class and those above it."""
        for _ in range(ABOVE):
            if not self.elements_of(pointer):
                return
            yield pointer
            pointer = field_of(self, pointer, SUPERCLASS)

    def class_of(self, word):
        found = self.get(word)
        return found.of_class if found else 12 if is_small(word) else NIL

    def name_of_method(self, method, receiver):
        """The class and the selector under which a receiver finds a method, as `Integer>>gcd:`."""
        for side in self.chain(self.class_of(receiver)):
            for pointer, selector in self.own_methods(side):
                if pointer == method:
                    return self.name_of_class(side), selector
        return None

    def side_of_method(self, method):
        """The class or metaclass that has a method in its dictionary, with the selector, or none."""
        if self.sides is None:
            pairs = [(name, meta) for name in self.named_classes() for meta in (False, True)]
            sides = [self.side(*it) for it in pairs]
            self.sides = {it: (side, selector) for side in sides for it, selector in self.own_methods(side)}
        return self.sides.get(method)

    def name_of_step(self, context, method):
        """What the method of a step is a part of, and the names of its receiver's variables; its context may be gone, or another one by now."""
        home = self.home(context)
        if len(home) >= FRONT and home[METHOD] == method:
            return self.name_of_context(context), self.variables(self.class_of(home[RECEIVER]))
        side, selector = self.side_of_method(method) or (None, None)
        return (f"{self.name_of_class(side)}>>{selector}", self.variables(side)) if side else (f"a method @{method} of no class", [])

    def say(self, word):
        """A few words for a value."""
        if is_small(word):
            return str(integer(word))
        if word in (NIL, FALSE, TRUE):
            return {NIL: "nil", FALSE: "false", TRUE: "true"}[word]
        found = self.get(word)
        if not found:
            return "no object"
        if found.of_class in (STRING, SYMBOL) and found.kind == "b":
            text = escape(bytes(found.units[:SHOWN])) + ("…" if len(found.units) > SHOWN else "")
            return f"#{text}" if found.of_class == SYMBOL else f"'{text}'"
        if found.of_class == CHARACTER and found.kind == "p" and found.fields and is_small(found.fields[0]):
            return f"${escape(bytes([integer(found.fields[0]) & 255]))}"
        return self.say_instance(word, found)

    def say_instance(self, word, found):
        named = class_name(self, word)
        if len(found.fields) >= 9 and found.kind == "p" and named and self.named_classes().get(named) == word:
            return named
        name = self.name_of_class(found.of_class)
        if name == "Association" and len(found.fields) > 1 and self.bytes_of(found.fields[0]):
            return f"an Association of {escape(self.bytes_of(found.fields[0]))}"
        return f"of class {name}" if name[0] == "@" else f"{'an' if name[0] in 'AEIOU' else 'a'} {name}"

    def literals(self, method):
        """The literals of a method as texts: of an association its name."""
        found = self.get(method)
        return [self.literal(it) for it in found.fields[1:]] if found and found.kind == "m" else []

    def literal(self, word):
        fields = self.elements_of(word)
        name = self.bytes_of(fields[0]) if len(fields) == 2 else b""
        return escape(name) if name else self.say(word)

    def variables(self, side):
        """The names of the variables that instances of a class have, those of the classes above first."""
        names = []
        for it in self.chain(side):
            own = self.elements_of(field_of(self, it, 4))
            names = [self.bytes_of(name).decode("latin-1") for name in own] + names
        return names

    def home(self, context):
        """The fields of a context's home."""
        fields = self.elements_of(context)
        return fields if len(fields) < FRONT or not is_small(fields[METHOD]) else self.elements_of(fields[RECEIVER])

    def name_of_context(self, context):
        """What a context is a part of, as `[] in Integer>>gcd:`."""
        fields, home = self.elements_of(context), self.home(context)
        if len(home) < FRONT:
            return "no context"
        found = self.name_of_method(home[METHOD], home[RECEIVER])
        name = f"{found[0]}>>{found[1]}" if found else f"a method @{home[METHOD]} that its receiver doesn't find"
        return f"[] in {name}" if is_small(fields[METHOD]) else name

    def names_of_stack(self):
        """What the active context and those that it returns to are a part of, at most 100 of them."""
        return [self.name_of_context(word_of(line.split()[1])) for line in self.session.ask("stack")[1:]]


class Still(Live):
    """The same words for the objects of an image file."""

    def __init__(self, image):
        self.image, self.globals = image, image.globals
        self.forget()

    def get(self, pointer):
        return self.image.get(pointer)
