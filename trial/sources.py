"""Edits, and the functions of a crate's source in which their changed texts stand."""

from __future__ import annotations

import re
from collections.abc import Iterator
from dataclasses import dataclass
from pathlib import Path

# The head of an item as `rt fmt` lays it out: its indentation, its kind and its name.
ITEM = re.compile(
    r'( *)(?:pub(?:\([^)]*\))? )?(?:const )?(?:unsafe )?(?:extern "C" )?'
    r"(fn|impl|trait|struct|enum)\b ?(\w*)"
)
Texts = dict[str, str]


class BadEdit(Exception):
    """Why an edit cannot be applied."""


@dataclass(frozen=True)
class Change:
    path: str
    old: str
    new: str


@dataclass(frozen=True)
class Edit:
    """An edit of a crate. Its functions are named by it where `only` is not empty, and the gate
    tries it where `of_gate` is set."""

    crate: str
    name: str
    text: str
    changes: tuple[Change, ...]
    only: tuple[str, ...]
    compiler: str
    of_gate: bool


@dataclass(frozen=True)
class Function:
    """A function of a file, from the first line, of its attributes, to the last, counted from 0."""

    # what a check calls it, below the crate
    name: str
    # what the path of each file of its proof has: the folder of its own or of its cycle
    proof: str
    path: str
    first: int
    # the first line of its body
    body: int
    last: int


def read_edit(file: Path) -> Edit:
    text = file.read_text(encoding="utf-8")
    path, old, changes = "", "", []
    for line in text.split("\n"):
        word, _, rest = line.partition(":")
        if word == "file":
            path = rest.strip()
        elif word == "old":
            old = rest.removeprefix(" ")
        elif word == "new":
            changes.append(Change(path, old, rest.removeprefix(" ")))
    only = tuple(re.findall(r"(?m)^# only: (\S+)$", text))
    compiler = "".join(re.findall(r"(?m)^# compiler: (.*)$", text)[:1])
    of_gate = re.search(r"(?m)^# gate$", text) is not None
    return Edit(file.parent.name, file.name, text, tuple(changes), only, compiler, of_gate)


def read_sources(crate: Path) -> Texts:
    files = sorted((crate / "src").rglob("*.rt"))
    return {str(it.relative_to(crate)): it.read_text(encoding="utf-8") for it in files}


def applied(edit: Edit, texts: Texts) -> tuple[Texts, list[Function | None]]:
    """The sources with an edit, and for each of its changes the function in whose body it is."""
    made, places = dict(texts), []
    for change in edit.changes:
        text = made.get(change.path, "")
        count = text.count(change.old) if change.old else 0
        if count != 1:
            raise BadEdit(f"{change.path} has this text {count} times, not once: {change.old}")
        line = text[: text.index(change.old)].count("\n")
        bodies = (it for it in functions_of(change.path, made) if it.body <= line <= it.last)
        places.append(next(bodies, None))
        made[change.path] = text.replace(change.old, change.new)
    return made, places


def functions_of(path: str, texts: Texts) -> list[Function]:
    """The functions of a file of these sources, but for those that stand in another."""
    lines = texts[path].split("\n")
    found: list[Function] = []
    owner, owner_last = "", -1
    for at, line in enumerate(lines):
        item = ITEM.match(line)
        if not item or (found and at <= found[-1].last):
            continue
        indent, kind, name = item.groups()
        if kind in ("impl", "trait"):
            owner_last = _last_line(lines, at, indent)
            owner = _owner(path, texts, lines[at], name)
        elif kind == "fn":
            place = owner if at <= owner_last else _module(path)
            found.append(_function(path, lines, at, indent, _joined(place, name)))
    return found


def _function(path: str, lines: list[str], at: int, indent: str, name: str) -> Function:
    last = _last_line(lines, at, indent)
    opens = (k for k in range(at, last) if re.match(rf"{indent}\S.*{{$|{indent}{{$", lines[k]))
    above = at
    while above and re.match(rf"{indent}(#\[|//)", lines[above - 1]):
        above -= 1
    cycle = re.search(r"#\[cycle\((\w+)\)\]", "\n".join(lines[above:at]))
    proof = f"/+{cycle[1]}/" if cycle else f"proofs/{name.replace('::', '/')}/"
    return Function(name, proof, path, above, next(opens, last) + 1, last)


def _last_line(lines: list[str], at: int, indent: str) -> int:
    """The last line of an item, by its indentation."""
    for k in range(at + 1, len(lines)):
        line = lines[k]
        if not line.strip() or line.startswith(f"{indent} "):
            continue
        rest = line.removeprefix(indent)
        if line.startswith(indent) and rest.startswith((")", "{", "where")):
            continue
        return k if line == f"{indent}}}" else k - 1
    return len(lines) - 1


def _module(path: str) -> str:
    parts = path.removeprefix("src/").removesuffix(".rt").split("/")
    if parts[-1] in ("lib", "main", "mod"):
        parts.pop()
    return "::".join(parts)


def _joined(*parts: str) -> str:
    return "::".join(it for it in parts if it)


def _owner(path: str, texts: Texts, head: str, trait: str) -> str:
    """What a check calls a trait, or the type and the trait of an impl, with the module."""
    head = head.rstrip(" {")
    parts = re.match(r"(?:unsafe )?impl(<.*?>)? ((?:(?! where ).)*)", _plain(head))
    if not parts:
        return _joined(_module(path), trait)
    bound = set(re.findall(r"(?:^<|, )(?:const )?(\w+)", parts[1] or ""))
    first, _, of = parts[2].partition(" for ")
    if of and first != "Drop":
        return _joined(_module(path), _word(of, bound) + _word(first, bound))
    first = of or first
    own = _word(first, bound)
    return _joined(_module_of(own, path, texts), own)


def _plain(head: str) -> str:
    """The head of an impl without lifetimes, paths, and the arguments of its parameters' bounds."""
    head = re.sub(r"'\w+(?:, )?|\w+::", "", head)
    return re.sub(r"(: \w+)<[^<>]*>", r"\1", head)


def _word(text: str, bound: set[str]) -> str:
    """A type in one word, without the parameters that are bound: i8 is I8, Cell<8> is Cell8."""
    words = re.findall(r"\w+|\[", text)
    kept = ("Array" if it == "[" else it[0].upper() + it[1:] for it in words if it not in bound)
    return "".join(kept)


def _module_of(name: str, path: str, texts: Texts) -> str:
    """The module of the type of this name: an impl may stand in another file."""
    declared = re.compile(rf"(?m)^(?:pub(?:\([^)]*\))? )?(?:struct|enum) {name}\b")
    files = [it for it in [path, *texts] if declared.search(texts[it])]
    return _module(files[0] if files else path)
