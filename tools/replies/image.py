"""The objects of an image file, and what of them classes and methods are, as docs/FORMATS.md has them."""

import pathlib
import shutil
import struct

ENDINGS = (".roots", ".changes", ".changes2", ".a", ".b")  # of the names of a store's files
NIL, METHODS = 2, 34
SHORT = 512
WORDS = 0x4000  # the bit of an instance specification, a SmallInteger's word, of instances that have words


class Wrong(Exception):
    """What is read is no image or store, with a sentence on why."""


def word_at(data, at):
    return int.from_bytes(data[at : at + 2].ljust(2, b"\0"), "big")


def long_at(data, at):
    return int.from_bytes(data[at : at + 4].ljust(4, b"\0"), "big")


def is_small(word):
    return word % 2 == 1


def integer(word):
    """The number of a SmallInteger's word."""
    return (word >> 1) - (32768 if word & 0x8000 else 0)


class Head:
    """What the head of an image says; without the letters what docs/FORMATS.md has in its place."""

    def __init__(self, data):
        self.has_letters = data[8:12] == b"ST80"
        numbers = [long_at(data, at) for at in range(12, 32, 4)] if self.has_letters else [1, 32767, 1048576, 0, 0]
        self.version, self.entries, self.words, self.globals, self.symbols = numbers


class Object:
    """An object: its class, its kind as a report's letter, its fields, and its units."""

    def __init__(self, of_class, kind, fields, units):
        self.of_class, self.kind, self.fields, self.units = of_class, kind, fields, units


class Objects:
    """What is asked of objects by their pointers, where `get` answers the one of a pointer, or none."""

    def bytes_of(self, pointer):
        """The bytes of a String or Symbol, or none."""
        found = self.get(pointer)
        return bytes(found.units) if found and found.kind == "b" else b""

    def elements_of(self, pointer):
        """The fields of an object of kind Pointers, or none."""
        found = self.get(pointer)
        return found.fields if found and found.kind == "p" else []


class Image(Objects):
    """An image's objects by their pointers, and the pointers of its tables of names."""

    def __init__(self, data):
        if len(data) < SHORT or len(data) < self.end_of(data):
            raise Wrong("too short for an image")
        head = Head(data)
        self.globals, self.symbols = head.globals, head.symbols
        entries = list(self.entries_of(data, 3 if head.version == 2 else 2))
        self.objects = {pointer: self.object_at(data, marks, at) for pointer, marks, at in entries}
        if not head.has_letters:
            for pointer, marks, at in entries:
                marks = marks | 16 if self.has_words(self.objects[pointer].of_class) else marks & ~16
                self.objects[pointer] = self.object_at(data, marks, at)

    @classmethod
    def entries_of(cls, data, words):
        """The pointer, the marks and the object's place of each entry in use, which has two words in version 1 and three in version 2."""
        table = cls.table_of(data)
        for number in range(1, long_at(data, 4) // words):
            at = table + 2 * words * number
            marks, low = word_at(data, at), word_at(data, at + 2 * words - 2)
            high = marks & 15 if words == 2 else word_at(data, at + 2)
            if not marks & 32:
                yield 2 * number, marks, SHORT + 2 * (high * 65536 + low)

    @staticmethod
    def table_of(data):
        return SHORT + -(-2 * long_at(data, 0) // SHORT) * SHORT

    @classmethod
    def end_of(cls, data):
        return cls.table_of(data) + 2 * long_at(data, 4)

    def object_at(self, data, marks, at):
        size, of_class = word_at(data, at), word_at(data, at + 2)
        body = data[at + 4 : at + 2 * size]
        words = list(struct.unpack(">%dH" % (len(body) // 2), body[: len(body) // 2 * 2]))
        if marks & 64:
            return Object(of_class, "p", words, b"")
        if of_class == METHODS:
            # bits 9 to 14 of the header, where bit 0 is the highest
            literals = words[0] >> 1 & 63 if words else 0
            rest = body[2 + 2 * literals :]
            return Object(of_class, "m", words[: 1 + literals], rest[: len(rest) - (marks >> 7 & 1)])
        if marks & 16:
            return Object(of_class, "w", [], words)
        return Object(of_class, "b", [], body[: len(body) - (marks >> 7 & 1)])

    def has_words(self, of_class):
        """Whether a class says that its instances have words, which in a file without letters no mark says."""
        fields = self.elements_of(of_class)
        return len(fields) > 2 and is_small(fields[2]) and bool(fields[2] & WORDS)

    def get(self, pointer):
        return None if is_small(pointer) else self.objects.get(pointer)


def is_of_store(file):
    """Whether a file is one of a store's, over which nothing else is to be written."""
    path = pathlib.Path(file)
    return path.suffix in ENDINGS and path.with_suffix(".roots").exists()


def copy_store(store, folder):
    """Copies a store's files into a folder, the roots file first, and answers the name of the copy. (A session may add to the others meanwhile.)"""
    if not pathlib.Path(f"{store}.roots").is_file():
        raise Wrong(f"there is no store {store}: {store}.roots is missing")
    copied = pathlib.Path(folder) / "store"
    for ending in ENDINGS:
        if pathlib.Path(f"{store}{ending}").is_file():
            shutil.copyfile(f"{store}{ending}", f"{copied}{ending}")
    return copied


def root_of(store):
    """The numbers of a store's chosen root: slot and length of the image, base and length of the changes."""
    roots = pathlib.Path(f"{store}.roots").read_bytes()
    if len(roots) < 80 or roots[:8] != b"ST80ROOT":
        raise Wrong(f"{store}.roots is no roots file")
    at = 16 + 32 * (roots[8] & 1)
    return [int.from_bytes(roots[at + 8 * k : at + 8 * k + 8], "big") for k in range(4)]


def current_image(store):
    """The bytes of a store's current image: the file that the chosen root names, up to the length that it says."""
    slot, length = root_of(store)[:2]
    return pathlib.Path(f"{store}.{'ab'[slot & 1]}").read_bytes()[:length]


def changes_of(store):
    """The bytes of a store's changes file, up to the length that the chosen root says."""
    slot, *_, length = root_of(store)
    return pathlib.Path(f"{store}.changes{'2' if slot > 1 else ''}").read_bytes()[:length]
