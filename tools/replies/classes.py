"""The classes, variables and methods of an image, as docs/FORMATS.md has them, and whether two images have the same."""

import pathlib
import subprocess
import tempfile

from .image import NIL, WORDS, Image, Wrong, integer, is_small
from .session import program_words

# Bits of an instance specification, a SmallInteger's word, beside `WORDS`
POINTERS, INDEXED = 0x8000, 0x2000
SUPERCLASS, DICTIONARY, SPECIFICATION, VARIABLES, NAME, CLASS_POOL, SHARED_POOLS = 0, 1, 2, 4, 6, 7, 8
CLASS_FIELDS = 9
SCHEDULER = 8  # the pointer of its association
# The message that makes a class whose instances are of a kind, as a kernel text names it.
MESSAGES = {"fixed": "subclass", "indexed": "variableSubclass", "words": "variableWordSubclass", "bytes": "variableByteSubclass"}
DEEP = 200  # literals within one another, as deep as a text can have them


class Method:
    """A method: its header, its literals, each as a value that doesn't depend on pointers, and its bytes."""

    def __init__(self, image, pointer):
        found = image.get(pointer)
        self.pointer = pointer
        self.header, self.units = integer(found.fields[0]), found.units
        self.literals = [value_of(image, it) for it in found.fields[1:]]

    def difference(self, other):
        """What of this method is other in another one, or nothing."""
        mine, others = (self.header, self.literals, self.units), (other.header, other.literals, other.units)
        return [what for what, one, two in zip(("header", "literals", "bytecodes"), mine, others) if one != two]


def value_of(image, pointer, depth=0):
    """What a literal is, without pointers: a number, or its class's name and what it contains."""
    if is_small(pointer):
        return integer(pointer)
    found = image.get(pointer)
    name = class_name(image, found.of_class)
    if found.kind in "bw":
        return name, bytes(found.units) if found.kind == "b" else tuple(found.units)
    if name == "Association":
        return name, image.bytes_of(found.fields[0])
    if name in ("Array", "Character") and depth < DEEP:
        return name, tuple(value_of(image, it, depth + 1) for it in found.fields)
    return name, len(found.fields)


def field_of(image, pointer, number):
    """A field of an object of kind Pointers, or nil where there is none."""
    fields = image.elements_of(pointer)
    return fields[number] if number < len(fields) else NIL


def class_name(image, pointer):
    return image.bytes_of(field_of(image, pointer, NAME)).decode("latin-1")


def members_of(image, pool):
    """The names of a table of names with their values, of two members of one name the first, in their order."""
    found = {}
    for pointer in image.elements_of(pool):
        fields = image.elements_of(pointer)
        member = image.get(fields[0]) if len(fields) >= 2 else None
        if member and member.kind == "b":
            found.setdefault(image.bytes_of(fields[0]).decode("latin-1"), fields[1])
    return found


def methods_of(image, side):
    """The methods of a class or metaclass by their selectors."""
    fields = image.elements_of(field_of(image, side, DICTIONARY))
    if len(fields) < 2:
        return {}
    array = image.elements_of(fields[1])
    pairs = zip(fields[2:], array)
    return {image.bytes_of(key).decode("latin-1"): Method(image, it) for key, it in pairs if key != NIL and is_method(image, it)}


def is_method(image, pointer):
    found = image.get(pointer)
    return bool(found) and found.kind == "m"


class Described:
    """What a kernel text says of a class; `methods` has those of both sides, by whether it is the class side and the selector."""

    def __init__(self, image, pointer):
        fields = image.elements_of(pointer)
        self.pointer, self.name = pointer, class_name(image, pointer)
        self.above = class_name(image, fields[SUPERCLASS]) if fields[SUPERCLASS] != NIL else None
        self.kind = kind_of(fields[SPECIFICATION])
        self.variables = [image.bytes_of(it).decode("latin-1") for it in image.elements_of(fields[VARIABLES])]
        self.pool = members_of(image, fields[CLASS_POOL])
        self.shared = [it for it in image.elements_of(fields[SHARED_POOLS]) if it not in (NIL, image.globals)]
        self.metaclass = image.get(pointer).of_class
        sides = {False: pointer, True: self.metaclass}
        self.methods = {(meta, key): it for meta, side in sides.items() for key, it in methods_of(image, side).items()}

    def shape(self):
        """All that is declared."""
        return self.above, self.kind, self.variables, list(self.pool)


def kind_of(specification):
    """The word of a kernel text for the instances of that specification."""
    if specification & POINTERS:
        return "indexed" if specification & INDEXED else "fixed"
    return "words" if specification & WORDS else "bytes"


def is_class(image, name, pointer):
    return len(image.elements_of(pointer)) >= CLASS_FIELDS and class_name(image, pointer) == name


def class_of_class(image, pointer):
    """The class of an object's class, which of a class is Metaclass; nil for a SmallInteger."""
    return NIL if is_small(pointer) else image.get(image.get(pointer).of_class).of_class


def side_name(name, meta):
    return f"{name} class" if meta else name


class System:
    """The globals of an image in their order, each a class or not."""

    def __init__(self, image):
        self.image = image
        self.globals = members_of(image, image.globals) if image.globals else {}
        self.classes = {name: Described(image, it) for name, it in self.globals.items() if is_class(image, name, it)}

    def misnamed(self):
        """The globals whose value is a class of another name that no global has, with this name."""
        kinds = {self.image.get(it.metaclass).of_class for it in self.classes.values()}
        known = {it.pointer for it in self.classes.values()}
        return {name: class_name(self.image, it) for name, it in self.globals.items()
                if it not in known and class_of_class(self.image, it) in kinds}

    def methods(self):
        """All methods, by class, side and selector."""
        return {(name, *key): it for name, one in self.classes.items() for key, it in one.methods.items()}

    def other_classes(self, other):
        """The globals that only one of two systems has, or that are declared otherwise, with what is other."""
        found = {name: "only in one of the two" for name in set(self.globals) ^ set(other.globals)}
        for name in set(self.globals) & set(other.globals):
            one, two = self.classes.get(name), other.classes.get(name)
            if (one is None) != (two is None):
                found[name] = "a class in one of the two alone"
            elif one and one.shape() != two.shape():
                found[name] = "declared otherwise"
        return found

    def other_methods(self, other):
        """The methods that only one of two systems has, or that aren't the same, with what is other."""
        mine, others = self.methods(), other.methods()
        found = {key: "only in one of the two" for key in set(mine) ^ set(others)}
        for key in set(mine) & set(others):
            what = mine[key].difference(others[key])
            if what:
                found[key] = "other " + " and ".join(what)
        return found

    def start(self):
        """The global and the selector of the method with which the active process began, or none."""
        context = self.first_context()
        if context is None or len(context) < 6 or not is_method(self.image, context[3]):
            return None
        names = [name for name, value in self.globals.items() if value == context[5]]
        selectors = [key[2] for key, it in self.methods().items() if it.pointer == context[3]]
        return (names[0], selectors[0]) if names and selectors else None

    def first_context(self):
        """The fields of the context that the active process's others return to in the end, or none."""
        field, seen = SCHEDULER, set()
        for _ in range(3):
            fields = self.image.elements_of(field)
            field = fields[1] if len(fields) > 1 else NIL
        while field not in seen:
            seen.add(field)
            fields = self.image.elements_of(field)
            if not fields or fields[0] == NIL:
                return fields or None
            field = fields[0]
        return None


def system_of(store):
    """What a store has now, with the definitions since its snapshot; `Wrong` if it can't be exported."""
    with tempfile.TemporaryDirectory() as folder:
        file = pathlib.Path(folder) / "image"
        ran = subprocess.run([*program_words(), "export", str(store), str(file)], stdout=subprocess.PIPE, stderr=subprocess.PIPE)
        said = ran.stdout.decode("latin-1").strip()
        if not said.startswith("exported"):
            raise Wrong(f"{store} can't be exported: {said or ran.stderr.decode(errors='replace').strip()}")
        return System(Image(file.read_bytes()))
