"""The texts and categories of methods: those of a store's definitions, and those of kernel texts that are at hand."""

import pathlib

from replies.chunks import definitions_of
from replies.image import changes_of


class Texts:
    """Definitions by class, side and selector, the oldest first; `kernel` has those of kernel texts alone."""

    def __init__(self, store, files):
        self.store, self.kernel = store, {}
        self.forget()
        for file in files:
            for it in definitions_of(pathlib.Path(file).read_bytes().decode("latin-1")):
                self.kernel[it.of_class, it.meta, it.selector] = it

    def forget(self):
        """The changes file may be another one."""
        self.read, self.kept = 0, {}

    def look(self):
        """Reads what the changes file has since."""
        changes = changes_of(self.store)
        for it in definitions_of(changes[self.read :].decode("latin-1")):
            self.kept.setdefault((it.of_class, it.meta, it.selector), []).append(it)
        self.read = len(changes)

    def defined(self, key):
        """All definitions of the store for a method."""
        self.look()
        return self.kept.get(key, [])

    def category(self, key):
        """The category in which a method was defined last, or nothing."""
        kept = self.kept.get(key)
        found = kept[-1] if kept else self.kernel.get(key)
        return found.category if found else ""
