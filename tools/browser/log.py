"""What a desk has to tell its windows: entries of the transcript, each with its number, and the state as it is now."""

import collections
import threading

KEPT = 4000  # entries; older ones are left out
LONGEST = 4000  # characters of an entry that are shown


def shown(data):
    """Bytes as a text to be read: those that are no character to be seen stand as a backslash and two digits."""
    return "".join(chr(it) if it == 9 or 32 <= it < 127 or it >= 160 else "\\%02x" % it for it in data)


def cut(text):
    return text if len(text) <= LONGEST else f"{text[:LONGEST]} … and {len(text) - LONGEST} characters more"


class Log:
    """Entries and state, for any number of threads that wait for more."""

    def __init__(self):
        self.entries = collections.deque(maxlen=KEPT)
        self.count, self.version, self.state = 0, 0, {}
        self.changed = threading.Condition()

    def add(self, kind, text, **more):
        with self.changed:
            self.count += 1
            self.entries.append({"n": self.count, "kind": kind, "text": cut(text), **more})
            self.version += 1
            self.changed.notify_all()

    def show(self, **state):
        with self.changed:
            if any(self.state.get(key, self) != it for key, it in state.items()):
                self.state = {**self.state, **state}
                self.version += 1
                self.changed.notify_all()

    def after(self, number, version, seconds):
        """The entries behind that number, the state, and its version, once there is a later one, or after so many seconds."""
        with self.changed:
            self.changed.wait_for(lambda: self.version != version, seconds)
            first = self.entries[0]["n"] if self.entries else self.count + 1
            found = [it for it in self.entries if it["n"] > number]
            if number + 1 < first:
                found.insert(0, {"n": first - 1, "kind": "note", "text": f"{first - 1 - number} lines before this are left out"})
            return found, self.state, self.version
