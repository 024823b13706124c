"""What last lines and replies mean, in sentences. The numbers are those of docs/FORMATS.md."""

DEATHS = {
    1: "a field or literal was asked for that the object doesn't have",
    2: "an object of another kind was met than the one that is needed",
    3: "a SmallInteger stands where an object is needed",
    4: "no SmallInteger stands where one is needed",
    5: "the instruction pointer is outside the method's bytecodes",
    6: "the stack pointer is outside the context's stack; a block that is evaluated while it is being evaluated does that: a method may call itself",
    7: "the bytecode is one that is never used",
    8: "a message wasn't understood, and its class doesn't understand doesNotUnderstand: either",
    9: "no process can run",
    10: "a semaphore has more excess signals than a SmallInteger counts",
    11: "a chain of superclasses is longer than the object table",
    12: "a method dictionary has no places for selectors",
}
IMAGE = {
    1: (0, "the file is absent, has under 512 bytes, or ends before its object table does"),
    2: (0, "a length in the head can't be, or the version is none that is read"),
    3: (0, "the capacity in entries or words is too large, or too small for the objects"),
    4: (1, "object {0} leaves the object space, has a size under 2, or an odd length that can't be"),
    5: (2, "objects {0} and {1} share a word"),
    6: (1, "the class of object {0} is no object"),
    7: (2, "field {1} of object {0} names no object"),
    8: (1, "object {0} is of class CompiledMethod, and no method: its header or its literals can't be"),
    9: (1, "pointer {0}, of the root page or a table of names, is no object"),
    10: (0, "the first process can't be begun: the scheduler, its process, or its context is wrong"),
}
SYNTAX = {
    1: "a byte that begins no token",
    2: "a string or comment without an end",
    3: "a token that can't stand there: a receiver, an argument or a bracket may be missing before it",
    4: "a number with a bad radix or digit, or too large a number",
    5: "a number with a fraction or an exponent, which is no literal, nor stands in a literal array: `Number readFrom: '1.5'` makes one",
    6: "a bracket within 200 open ones",
    7: "a token after what is whole: a period, a message or the colon of one is missing before it, or a bracket is one too many",
}
CODE = {
    1: "a name that means nothing",
    2: "a name that is declared already",
    3: "a store into what can't be stored into",
    4: "more than 63 literals",
    5: "more than 31 arguments and temporary variables, those of blocks among them",
    6: "more words on the stack than a large context has room for",
    7: "a jump forward by more than 1023 bytes, or back by more than 1024",
    8: "a primitive's number that isn't from 1 to 255",
    9: "a number below -16384",
    10: "the image names no symbol table",
    11: "more than 131066 bytes, with header and literals",
}
INSTALL = {
    1: "no global of that name is a class",
    2: "the image names no table of globals",
    3: "there is no room for the {0} objects and {1} words that the method needs",
    4: "the class, one above it, its pools, the symbol table or a Character isn't formed as an installation needs",
}
KERNEL = {
    1: "the chunk isn't in the form that its place asks, or is too long; or the text ends before `start`, or goes on behind it",
    2: "a name is unknown, or is declared twice",
    3: "variables stand with `words` or `bytes` or above one of these, or a class has more than 64 fields",
    4: "a class that each kernel needs is missing, or has another shape",
    5: "the method is refused, or has no room",
    6: "no method of that selector is found for the start, or it takes arguments",
    7: "the objects of the declarations, or the first process, have no room",
}
RUNS = {
    "ran": "all {0} cycles were finished",
    "quit": "the last of {0} cycles asked for the end (primitive 113, `Smalltalk quit`); a later `run` goes on",
    "debugger": "the last of {0} cycles asked for a debugger (primitive 114, `halt`); a later `run` goes on",
    "stopped": "after {0} cycles the first bytecode of the method comes; a later `run` does it",
    "space": "after {0} cycles the next bytecode wants {1} objects of {2} words, and {3} and {4} are free; nothing was changed by it",
    "opened": "{0} definitions were installed again, and {1} were refused now and are lost",
}
# Replies with as many words behind the first as the sentence names, or, where it names none, with any.
REPLIES = {
    "built": "an image was built, of {0} objects and {1} words",
    "imported": "a store was made of the image: {0} objects of {1} words",
    "exported": "an image of the store was written, of {0} bytes",
    "cleaned": "an image of what can be reached in the store was written: {0} objects of {1} words",
    "condensed": "the store had {0} definitions, and has {1}: of the others later ones take the place",
    "snapshot": "the image was saved in the store, in {0} bytes",
    "used": "{0} objects are kept, of {1} words",
    "registers": "active context {0}, home context {1}, method {2}, receiver {3}; instruction pointer {4} and stack pointer {5} as a context "
                 "stores them (plus 1, less 5)",
    "input": "{0} words wait and {1} signals are pending, the mouse is at {2} {3}, the clocks say {4} seconds and {5} milliseconds",
    "held": "display {0}, cursor {1}, input semaphore {2}, the timer's {3}, low-space semaphore {4}; @2, which is nil, where there is none",
    "object": "the object's pointer, its class, its kind (p Pointers, w Words, b Bytes, m Method), and its fields, words or bytes",
    "display": "the display is {0} pixels wide and {1} high; a line `row` follows for each row",
    "row": "a row of the display, each digit four pixels, the leftmost first",
    "stack": "lines `frame` follow, {0} of them, from the active context on",
    "frame": "context {0}, and its method {1}; it returns to that of the next line",
    "at": "before a cycle: the active context {0}, its method {1}, the place {2} of the bytecode's first byte, and this byte, {3}",
    "classes": "{0} lines `class` follow",
    "methods": "{0} lines `method` follow",
    "senders": "{0} lines `sender` follow, each a class and the selector of a method that sends it",
    "source": "the text's {0} lines follow, each behind a bar",
    "bytecodes": "{0} lines `code` follow",
    "code": "a bytecode: its place in the method, as `at:` counts, and its bytes",
    "class": "a class's name",
    "method": "a method's selector",
    "sender": "a class, and the selector of a method of it",
    "|": "a line of a method's text; a backslash and two digits are a byte",
    "say": "what the image's code said; a backslash and two digits are a byte",
    "accepted": "the method is installed, and its definition is on disk",
}
PLAIN = {
    "usage": "the words are no command: `docs/FORMATS.md`, The words of the program",
    "read fault": "standard input failed; what was told before was replied to",
    "disk fault": "a call on a file failed, or another process has the store; the store has what was acknowledged, or one thing more",
    "store missing": "the store has no roots file, NAME.roots",
    "store exists": "there is a store of that name already",
    "too large": "an image, a kernel file, the script or the changes file would be larger than the greatest that is read",
    "out of memory": "there was no memory",
    "not found": "the object, class, method or display that was named isn't there",
    "input full": "256 words wait, or 4096 signals are pending; nothing has changed",
    "ok": "it was told",
}


def damage(file, place):
    """What is wrong at a byte of a store's file, `roots` or `changes`."""
    if file == "changes":
        return f"no whole definition begins at byte {place} of the store's changes file"
    return f"byte {place} of the store's roots file is the first that can't be"


def meaning_of(reply):
    """What a refusal, a death, a last line or a plain reply means, without its place in a text."""
    words = reply.split()
    if words[:1] == ["refused"] and words[1] in ("syntax", "code"):
        return {"syntax": SYNTAX, "code": CODE}[words[1]].get(int(words[3]), reply)
    if words[:2] == ["refused", "install"]:
        return INSTALL.get(int(words[2]), reply).format(*words[3:])
    if words[:1] == ["space"]:
        return RUNS["space"].format(*words[1:])
    if words[:1] == ["dead"]:
        return DEATHS.get(int(words[2]), reply)
    if words[:1] == ["kernel"]:
        return KERNEL.get(int(words[2]), reply)
    if words[:1] == ["image"]:
        return IMAGE.get(int(words[1]), (0, reply))[1].format(*words[2:])
    if words[:2] == ["store", "damaged"]:
        return damage(words[2], words[3])
    return PLAIN.get(reply, reply)
