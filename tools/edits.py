"""An edit of a crate's code: the text that it leaves, and the parts of the crate that it turns."""

import dataclasses
import functools
import pathlib
import re

FOLDERS = ("src", "specs", "proofs")
# What the layout of `rt fmt` shows: a function's first lines, with its comment and attributes, of which the checker may name one; and the
# head of the `impl` or trait that a method stands in.
FUNCTION = re.compile(r"^(?: *(?://|#\[).*\n)*( {4})?(?:pub(?:\([a-z]+\))? )?(?:const )?fn (\w+)", re.M)
TRAIT = re.compile(r"^(?:pub(?:\([a-z]+\))? )?trait (\w+)", re.M)
TYPE = re.compile(r"^(?:pub(?:\([a-z]+\))? )?(?:struct|enum) (\w+)", re.M)
IMPL = re.compile(r"^impl(?P<parameters><[^{]*?>)? (?:(?P<of>[\w:]+)(?P<given><[^{]*?>)? for )?(?P<type>[\w:]+)[^{;]*\{", re.M)


class Unfit(Exception):
    """The edit can't be applied: why."""


@dataclasses.dataclass(frozen=True)
class Part:
    """What an edit turns: a function, as the checker names it; or a module, if the edit stands beside its functions."""

    name: str
    file: str
    is_body: bool  # whether the edit stands in a function's body, so that no other function sees it


@dataclasses.dataclass
class Edited:
    texts: dict  # the files that edits change, by their paths in the crate's folder, with their new texts
    parts: list


def last_word(path):
    return path.rpartition("::")[2]


def owner_of(text, start):
    """What the name of a method that begins here has before the method's own, or None if that can't be told."""
    heads = sorted([*TRAIT.finditer(text, 0, start), *IMPL.finditer(text, 0, start)], key=lambda it: it.start())
    if not heads:
        return None
    head = heads[-1]
    if head.re is TRAIT:
        return head[1]
    type_name = last_word(head["type"])
    if re.search(rf"\b{type_name}\b *[,:>]", head["parameters"] or ""):
        type_name = "Any"
    if not head["of"]:
        return type_name
    given = [last_word(it) for it in re.findall(r"(?<!')\b[A-Z][\w:]*", re.sub(r"<[^<>]*>", "", (head["given"] or "")[1:-1]))]
    return type_name + last_word(head["of"]) + "".join(given)


def module_of(file):
    parts = pathlib.PurePath(file).with_suffix("").parts[1:]
    return [] if parts in (("lib",), ("main",)) else list(parts)


@functools.cache
def modules_of_types(folder):
    """The module in which each type of a crate is declared; the checker names the methods of a type after it."""
    files = sorted((folder / "src").rglob("*.rt"))
    return {name: module_of(str(file.relative_to(folder))) for file in files for name in TYPE.findall(file.read_text(errors="replace"))}


def function_from(folder, file, text, head):
    """The name of the function that begins so, and where its body begins and ends; or None if that can't be told."""
    indent, name = head[1] or "", head[2]
    opens = re.compile(rf"^{indent}(?! ).*\{{$", re.M).search(text, text.rfind("\n", 0, head.start(2)) + 1)
    closes = opens and re.compile(rf"^{indent}\}}$", re.M).search(text, opens.end())
    owner = owner_of(text, head.start()) if indent else ""
    if owner is None or not closes:
        return None
    module = module_of(file)
    if owner and owner not in TYPE.findall(text):
        module = modules_of_types(folder).get(owner, module)
    return "::".join([*module, *([owner] if owner else []), name]), opens.end(), closes.end()


def lines_of(folder, part, text):
    """The first and the last line of a function in its file's text."""
    for head in FUNCTION.finditer(text):
        found = function_from(folder, part.file, text, head)
        if found and found[0] == part.name:
            return text.count("\n", 0, head.start()) + 1, text.count("\n", 0, found[2]) + 1
    return 0, 0


def part_around(folder, file, text, start, end):
    """The function that this part of a file stands in, else the module."""
    heads = [it for it in FUNCTION.finditer(text, 0, end) if it.start() <= start]
    found = function_from(folder, file, text, heads[-1]) if heads else None
    if found and end <= found[2]:
        return Part(found[0], file, start >= found[1])
    return Part("::".join(module_of(file)), file, False)


def replace_once(folder, file, text, old, new):
    """The text with `new` in place of the one `old`, and the part of the crate around it."""
    found = text.count(old)
    if found != 1:
        raise Unfit(f"an 'old:' text stands {found} times in {file}, and not once")
    start = text.index(old)
    return text.replace(old, new), part_around(folder, file, text, start, start + len(old))


def read_file(folder, file):
    if pathlib.PurePath(file).parts[:1] not in [(it,) for it in FOLDERS] or ".." in pathlib.PurePath(file).parts:
        raise Unfit(f"{file} is no file below src, specs or proofs")
    try:
        return (folder / file).read_text()
    except (OSError, UnicodeDecodeError):
        raise Unfit(f"{file} can't be read") from None


def apply_edit(edit, folder, before=None):
    """What a crate's folder, or what earlier edits made of it, becomes by the text of an edit: lines `file:`, and then pairs of lines
    `old:` and `new:`. The parts are those of this edit alone."""
    texts, parts, file, old = dict(before or {}), set(), None, None
    for line in edit.split("\n"):
        word, _, rest = line.partition(":")
        rest = rest.removeprefix(" ")
        if word == "file":
            file = rest.strip()
        elif word == "old":
            old = rest
        elif word == "new":
            if not file or not old:
                raise Unfit("a 'new:' line has no 'file:' and 'old:' lines before it")
            texts[file], part = replace_once(folder, file, texts.get(file) or read_file(folder, file), old, rest)
            parts.add(part)
            old = None
    if not parts:
        raise Unfit("it has no 'old:' and 'new:' pair")
    return Edited(texts, sorted(parts, key=lambda it: it.name))
