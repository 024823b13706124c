"""An image file as the program reads it: its head, and the objects that `once IMAGE 0` reports."""

import pathlib
import subprocess

from .classes import CLASS_FIELDS, NAME, field_of
from .image import Head, Objects, Wrong
from .live import object_of
from .meanings import meaning_of
from .session import program_words


class Reported(Objects):
    """The objects of an image by their pointers, the lines that report them, and the pointers of its tables of names."""

    def __init__(self, file):
        ran = subprocess.run([*program_words(), "once", str(file), "0"], stdout=subprocess.PIPE, stderr=subprocess.PIPE)
        lines = ran.stdout.decode("latin-1").split("\n")[:-1]
        if ran.returncode:
            reason = f"{lines[-1]} ({meaning_of(lines[-1])})" if lines else f"status {ran.returncode}"
            raise Wrong(f"{file} can't be read: {reason}")
        self.head = Head(pathlib.Path(file).read_bytes())
        self.globals, self.symbols = self.head.globals, self.head.symbols
        self.lines = {int(line.split()[1]): line for line in lines if line.startswith("object ")}
        self.objects = {pointer: object_of(line) for pointer, line in self.lines.items()}

    def get(self, pointer):
        return self.objects.get(pointer)

    def words(self):
        """How many words the objects have in all."""
        return sum(words_of(it) for it in self.objects.values())

    def classes(self):
        """The pointers of the objects that are the one instance of a metaclass."""
        large = {it: found for it, found in self.objects.items() if len(found.fields) >= CLASS_FIELDS}
        return {it for it, found in large.items() if field_of(self, found.of_class, NAME) == it}


def words_of(found):
    """How many words an object has: its size, its class and its body."""
    units = len(found.units) if found.kind == "w" else (len(found.units) + 1) // 2
    return 2 + len(found.fields) + units
