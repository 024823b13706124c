"""What a window may ask of a desk, by its word: each action checks what it is given, so that no wrong line is ever sent."""

import re

from replies.bytecodes import Codes, length_of, rules
from replies.image import integer, is_small
from replies.live import FRONT, INSTRUCTION, METHOD, RECEIVER, word_of
from replies.meanings import meaning_of
from replies.script import NAME, SELECTOR, why_no_line
from replies.session import unescape

from .desk import Refused
from .log import shown

FIELDS = 500  # of an object, in one answer
STEPS = (1, 10, 100)  # bytecodes of a trace
UNTIL = 10000000  # bytecodes of a search, which is one piece
TEXT = 200000  # characters of what is typed
RULES = rules()


# What is given


def text_in(given, name):
    text = given.get(name)
    if not isinstance(text, str) or len(text) > TEXT:
        raise Refused(400, f"`{name}` is a text of at most {TEXT} characters")
    return text.replace("\r\n", "\n")


def number_in(given, name, least, greatest):
    number = given.get(name)
    if type(number) is not int or not least <= number <= greatest:
        raise Refused(400, f"`{name}` is a number from {least} to {greatest}")
    return number


def side_in(given):
    """The class's name and whether its class side is meant."""
    name = text_in(given, "class")
    if not re.fullmatch(NAME, name):
        raise Refused(400, f"`{name[:40]}` is no class's name")
    return name, given.get("meta") is True


def selector_in(given):
    selector = text_in(given, "selector")
    if not re.fullmatch(SELECTOR, selector):
        raise Refused(400, f"`{selector[:40]}` is no selector")
    return selector


def key_in(given):
    """A method: its class's name, its side and its selector."""
    return (*side_in(given), selector_in(given))


def named(key):
    return f"{key[0]}{' class' if key[1] else ''}" + (f" {key[2]}" if key[2:] else "")


def checked(line):
    """The line, which has to be one of a script."""
    why = why_no_line(line)
    if why:
        raise Refused(400, why)
    return line


def ask(desk, line):
    """The reply to a line."""
    desk.need_session()
    return desk.session.ask(checked(line))


def listed(desk, line):
    """The reply to a line that asks for a list, which begins with the line's word; `Refused` where there is none."""
    reply = ask(desk, line)
    word, _, about = line.partition(" ")
    if reply[0] == "not found":
        raise Refused(404, f"{about}: {meaning_of(reply[0])}")
    if reply[0].split(" ")[0] != word:
        raise Refused(409, why_not(reply[0]))
    return reply


def why_not(reply):
    return f"the machine is dead: {meaning_of(reply)}" if reply.startswith("dead") else meaning_of(reply)


def tell(desk, line):
    """Tells the machine something, which it takes."""
    reply = ask(desk, line)[0]
    if reply != "ok":
        raise Refused(409, why_not(reply))
    return {"reply": reply}


def texts_of(reply):
    """What stands behind the first word of each line but the first."""
    return [unescape(it.split(" ", 1)[1]).decode("latin-1") if " " in it else "" for it in reply[1:]]


# Doing


def evaluate(desk, given):
    desk.need_rest()
    return desk.evaluate(text_in(given, "text"))


def follow(desk, given):
    desk.need_rest()
    return desk.follow(text_in(given, "text"))


def run(desk, given):
    desk.need_rest()
    desk.begin_course(desk.run(number_in(given, "cycles", 1, 10**12)))
    return {}


def stop(desk, _):
    desk.stopping = True
    return {}


def interrupt(desk, _):
    desk.need_session()
    return desk.interrupt()


def snapshot(desk, _):
    reply = ask(desk, "snapshot")[0]
    if reply.startswith("dead"):
        desk.judge(reply)
    else:
        desk.log.add("told", reply)
    desk.settle()
    return {"reply": reply}


def reopen(desk, _):
    """Closes the session, where there is one, and opens the store again."""
    before, desk.session, desk.going = desk.session, None, None
    desk.log.show(open=False, going=False)
    if before:
        before.close()
    desk.open()
    return {}


def input_word(desk, given):
    return tell(desk, f"input {number_in(given, 'word', 0, 65535)}")


def mouse(desk, given):
    return tell(desk, f"mouse {number_in(given, 'x', 0, 16383)} {number_in(given, 'y', 0, 16383)}")


# Classes and methods


def classes(desk, _):
    return {"classes": texts_of(listed(desk, "classes"))}


def methods(desk, given):
    """The selectors of a side by category, what stands above it, and its variables."""
    side = side_in(given)
    reply = listed(desk, f"methods {named(side)}")
    desk.texts.look()
    groups = {}
    for selector in texts_of(reply):
        groups.setdefault(desk.texts.category((*side, selector)), []).append(selector)
    pointer = desk.live.side(*side)
    chain = [desk.live.name_of_class(it) for it in desk.live.chain(pointer)] if pointer else []
    return {"groups": [{"category": it, "selectors": groups[it]} for it in sorted(groups)], "above": chain[1:], "pointer": pointer,
            "variables": desk.live.variables(pointer) if pointer else []}


def source(desk, given):
    """A method's text: that of its last definition, else that of the kernel text, else what is said to `source`."""
    key = key_in(given)
    reply = ask(desk, f"source {named(key)}")
    said = "\n".join(texts_of(reply)) if reply[0].startswith("source") else None
    versions = len(desk.texts.defined(key))
    kernel = desk.texts.kernel.get(key)
    if versions or not kernel:
        origin = "as it was defined" if versions else "decompiled" if said is not None else "no text is known"
        return {"text": said, "origin": origin, "category": desk.texts.category(key), "versions": versions}
    return {"text": kernel.text, "origin": "from the kernel text", "category": kernel.category, "versions": 0}


def bytecodes(desk, given):
    """A method's bytecodes, each with its name and its rule, and the method's pointer."""
    key = key_in(given)
    reply = listed(desk, f"bytecodes {named(key)}")
    method = desk.live.method(*key)
    codes = Codes(desk.live.literals(method), desk.live.variables(desk.live.side(*key[:2])))
    found = []
    for line in reply[1:]:
        place, *units = map(int, line.split()[1:])
        found.append({"place": place, "bytes": units, "meaning": codes.meaning(place, units), "rule": RULES[units[0]]})
    return {"codes": found, "pointer": method}


def senders(desk, given):
    """The methods that send a selector."""
    found = [it.split(" ") for it in texts_of(listed(desk, f"senders {selector_in(given)}"))]
    return {"senders": [{"class": it[0], "meta": len(it) > 2, "selector": it[-1]} for it in found]}


def define(desk, given):
    desk.need_session()
    side = side_in(given)
    return desk.define_in((*side, None), text_in(given, "category"), text_in(given, "text"))


def undo(desk, given):
    """Defines anew what a method was defined as before: in the store, or else in the kernel text."""
    desk.need_session()
    key = key_in(given)
    kept, kernel = desk.texts.defined(key), desk.texts.kernel.get(key)
    earlier = kept[-2] if len(kept) > 1 else kernel if kept else None
    if earlier is None:
        raise Refused(409, f"{named(key)}: no earlier definition of it is known")
    return desk.define_in(key, earlier.category, earlier.text)


# Objects, the display, and the debugger


def value(desk, word):
    """A value as a window shows it: a number, or the pointer of an object with a few words."""
    return {"text": str(integer(word))} if is_small(word) else {"id": word, "text": desk.live.say(word)}


def an_object(desk, given):
    """An object: its class, its kind, and its fields and units from one on."""
    desk.need_session()
    pointer, first = number_in(given, "id", 2, 65534), number_in(given, "from", 0, 65535)
    found = desk.live.get(pointer)
    if desk.log.state.get("dead"):
        raise Refused(409, f"the machine is dead: {desk.log.state['dead']}")
    if pointer % 2 or not found:
        raise Refused(404, f"no object has the pointer {pointer}")
    fields = found.fields[first : first + FIELDS]
    units = list(found.units[first : first + FIELDS]) if found.kind != "p" else []
    text = shown(bytes(units)) if found.kind == "b" else ""
    return {"id": pointer, "text": desk.live.say(pointer), "class": {"id": found.of_class, "text": desk.live.name_of_class(found.of_class)},
            "kind": {"p": "Pointers", "w": "Words", "b": "Bytes", "m": "Method"}[found.kind], "from": first, "fieldCount": len(found.fields),
            "unitCount": len(found.units), "fields": [value(desk, it) for it in fields], "units": units, "bytes": text}


def display(desk, _):
    """The Form that is held as the display: its size, and its rows' words as hexadecimal digits, one behind the other."""
    reply = ask(desk, "display")
    if not reply[0].startswith("display"):
        return {"width": 0, "height": 0, "rows": "", "none": "nothing is held as the display, or what is held is no Form"}
    width, height = map(int, reply[0].split()[1:])
    return {"width": width, "height": height, "rows": "".join(it[4:] for it in reply[1:])}


def stack(desk, _):
    """The contexts from the active one on, the first of them with its fields, and the registers."""
    frames = []
    for line in listed(desk, "stack")[1:]:
        context, method = line.split()[1:]
        frames.append({"context": word_of(context), "method": word_of(method), "name": desk.live.name_of_context(word_of(context))})
    return {"frames": frames, "registers": registers(desk), "first": described(desk, frames[0]["context"]) if frames else None}


def registers(desk):
    """The six registers, by their names."""
    names = ("active context", "home context", "method", "receiver", "instruction pointer", "stack pointer")
    words = ask(desk, "state")[0].split()[1:]
    return [{"name": name, **value(desk, word_of(it))} for name, it in zip(names, words)] if len(words) == len(names) else []


def frame(desk, given):
    """A context, by its pointer."""
    desk.need_session()
    return described(desk, number_in(given, "id", 2, 65534))


def described(desk, context):
    """A context's fields by their names, its method, and the place of the bytecode that comes next in it."""
    fields, home = desk.live.elements_of(context), desk.live.home(context)
    if len(fields) < FRONT or len(home) < FRONT:
        raise Refused(404, f"@{context} is no context")
    is_block = is_small(fields[METHOD])
    names = ["sender", "instruction pointer", "stack pointer", "arguments" if is_block else "method", "first" if is_block else "unused",
             "home" if is_block else "receiver"]
    top = FRONT + max(integer(fields[2]), 0) if is_small(fields[2]) else len(fields)
    rows = [{"name": names[k] if k < FRONT else f"{k - FRONT}", **value(desk, it)} for k, it in enumerate(fields[:top])]
    found = desk.live.name_of_method(home[METHOD], home[RECEIVER])
    key = {"class": found[0].removesuffix(" class"), "meta": found[0].endswith(" class"), "selector": found[1]} if found else None
    place = integer(fields[INSTRUCTION]) if is_small(fields[INSTRUCTION]) else 0
    return {"name": desk.live.name_of_context(context), "fields": rows, "key": key, "place": place}


def trace(desk, given):
    """Does a few bytecodes, each with the context, the method and the bytecode that it was."""
    desk.need_rest()
    steps = number_in(given, "steps", 1, max(STEPS))
    lines = []
    end = desk.take(desk.session.course(f"trace {steps}"), lines)
    rows = [step(desk, line) for line in lines]
    if not end.startswith("ran"):
        desk.judge(end)
    desk.settle()
    return {"rows": rows, "end": end}


def step(desk, line):
    """What a line `at` says, in words."""
    context, method, place, code = line.split()[1:]
    place, pointer = int(place), word_of(method)
    found = desk.live.get(pointer)
    header = 2 * len(found.fields) if found and found.kind == "m" else 0
    units = list(found.units[place - 1 - header :][: length_of(int(code))]) if header else [int(code)]
    name, variables = desk.live.name_of_step(word_of(context), pointer)
    meaning = Codes(desk.live.literals(pointer), variables).meaning(place, units or [int(code)])
    return {"context": word_of(context), "method": pointer, "name": name, "place": place,
            "bytes": units, "meaning": meaning, "rule": RULES[int(code)]}


def until(desk, given):
    """Runs until a method is entered, at most so many bytecodes, in one piece: between two the machine could enter it unseen."""
    desk.need_rest()
    key = key_in(given)
    line = checked(f"until {number_in(given, 'cycles', 1, UNTIL)} {named(key)}")
    end = desk.take(desk.session.course(line))
    if end == "not found":
        raise Refused(404, f"{named(key)} isn't there")
    if end.startswith("stopped"):
        desk.log.add("told", f"{named(key)} is entered")
    else:
        desk.judge(end)
        desk.log.add("told", f"{end}: {named(key)} wasn't entered")
    desk.settle()
    return {"end": end}


ACTIONS = {
    "evaluate": evaluate, "follow": follow, "run": run, "stop": stop, "interrupt": interrupt, "snapshot": snapshot, "open": reopen,
    "input": input_word, "mouse": mouse, "classes": classes, "methods": methods, "source": source, "bytecodes": bytecodes, "senders": senders,
    "define": define, "undo": undo, "object": an_object, "display": display, "stack": stack, "frame": frame, "trace": trace, "until": until,
}
