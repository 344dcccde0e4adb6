"""Reads what contracts name of the code: types, traits and constants, and the contracts of functions.

`read_file` gives the items of a file, each with what is shown of it: a type that contracts see as another thing is cut
to its first line and the line that says what it is seen as. `contract_of` gives a function up to its body.
"""

from __future__ import annotations

import re
from collections.abc import Iterator
from dataclasses import dataclass
from pathlib import Path

from . import antt

ITEM = re.compile(r"^(?:pub(?:\(\w+\))? )?(struct|enum|trait|type|const) (\w+)", re.MULTILINE)
GHOST = re.compile(r"(?:(?:requires|ensures)(?: \w+)?|ghost \w+ ?[:=]) \{")
USE = re.compile(r"^use ([\w:]+?)(?:::\{([^}]*)\})?;", re.MULTILINE)


@dataclass
class Item:
    """A type, a trait, a constant or a contract, and what words of its file stand for."""

    crate: str
    file: Path
    name: str
    kind: str
    sentence: str
    code: str
    imports: antt.Imports
    uses: dict[str, str]

    @property
    def key(self) -> antt.Key:
        return ("code", self.crate, self.name)


def uses_of(text: str) -> dict[str, str]:
    """The path of each name that a file takes from elsewhere."""
    found: dict[str, str] = {}
    for path, names in USE.findall(text):
        if names:
            found.update((name.strip(), path) for name in names.split(",") if name.strip())
        else:
            path, _, name = path.rpartition("::")
            found[name] = path
    return found


def sentence_above(text: str, at: int) -> str:
    """The first paragraph of the comment above what begins here, also above its attributes."""
    comment: list[str] = []
    for line in reversed(text[:at].splitlines()):
        if line in ("//", "///"):
            comment = []
        elif line.startswith("//"):
            comment.insert(0, line)
        elif comment or not line.startswith("#["):
            break
    return re.sub(r"\[(`[^`]+`)\](?:\([^)]*\))?", r"\1", antt.sentence_of(comment))


def end_of(text: str, start: int, kind: str) -> int:
    """Where an item ends: with its first line, with its value, or with a brace at the edge."""
    line = text.index("\n", start)
    if text[start:line].endswith((";", "}")):
        return line
    end = ";" if kind in ("const", "type") else "\n}"
    return text.index(end, start) + len(end)


def shown_of(text: str, start: int, kind: str, name: str) -> str:
    """What is shown of an item."""
    code = text[start : end_of(text, start, kind)]
    value = r"^(    ghost Value = \{.*?\};)"
    model = re.search(rf"^impl\b[^{{]* Model for {name}\b.*?{value}", text, re.MULTILINE | re.DOTALL)
    return f"{code.splitlines()[0]}\n...\n{model[1]}" if model else code


def read_file(crate: str, file: Path, text: str) -> Iterator[Item]:
    imports, uses = antt.imports_of(text), uses_of(text)
    for found in ITEM.finditer(text):
        kind, name = found.groups()
        shown = shown_of(text, found.start(), kind, name)
        yield Item(crate, file, name, kind, sentence_above(text, found.start()), shown, imports, uses)


def contract_of(crate: str, file: Path, text: str, name: str) -> Item | None:
    """The function of this name that others may call, as an item; None where the file has none."""
    if found := re.search(rf"^pub fn {name}\b.*?(?=\n\{{)", text, re.MULTILINE | re.DOTALL):
        sentence = sentence_above(text, found.start())
        return Item(crate, file, name, "fn", sentence, found[0], antt.imports_of(text), uses_of(text))
    return None


def brace_end(code: str, start: int) -> int:
    """Where the group ends whose first character stands here."""
    depth = 1
    for at in range(start, len(code)):
        depth += {"{": 1, "}": -1}.get(code[at], 0)
        if depth == 0:
            return at
    return len(code)


def split_ghost(code: str) -> tuple[str, list[str]]:
    """Code without what proofs alone see, and each piece of that."""
    code = re.sub(r'//.*|"(?:[^"\\]|\\.)*"', "", code)
    plain, ghosts, at = "", [], 0
    while found := GHOST.search(code, at):
        plain += code[at : found.start()]
        at = found.end()
        while True:
            end = brace_end(code, at)
            ghosts.append(code[at:end])
            at = end + 1
            if not code.startswith(" = {", at):
                break
            at += len(" = {")
    return plain + code[at:], ghosts


def generics_of(code: str) -> set[str]:
    """The parameters that a type or a function takes, and the types that a trait has its own."""
    head = re.search(r"\w<([^(){}]*?)>+\s*(?:[({;=]|$)", code.splitlines()[0])
    named = (re.match(r"\s*(?:const )?'?(\w*)", part) for part in (head[1].split(",") if head else []))
    return {*(name[1] for name in named if name), *re.findall(r"\btype (\w+)\s*[:;=]", code)}


def words_of(item: Item) -> tuple[list[str], list[str]]:
    """The words of the code that an item uses, and those of its contracts and of what proofs alone see."""
    plain, ghosts = split_ghost(item.code)
    bound = {*re.findall(r"\w+", plain), *re.findall(r"ghost (\w+)", item.code), "result"}
    if item.kind == "enum":
        plain = re.sub(r"^(\s+)[A-Z]\w*", r"\1", plain, flags=re.MULTILINE)
    own = {item.name, *generics_of(item.code)}
    words = re.findall(r"(?<!::)\b[A-Z]\w*", plain)
    return (
        [word for word in words if word not in own],
        [word for ghost in ghosts for word in antt.free_words(ghost, bound)],
    )
