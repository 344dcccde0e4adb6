"""Reads the definitions of specs, and which words each of them uses.

`read_module` gives a module: its sentence, what it imports, and its definitions. `words_of` gives the words of a
definition that it does not bind itself, in their order: these are the names that it uses, and notation.
"""

from __future__ import annotations

import re
from collections.abc import Callable, Iterable
from dataclasses import dataclass
from pathlib import Path

TOKEN = re.compile(r'"(?:[^"\\]|\\.)*"|--.*|(?<=[\w)\]])\.\w+|[(){},;.]|[^\s(){},;."]+')
USE = re.compile(r"use ((?:\w|\.)+?)(?:\.\{([^}]*)\}| as (\w+));?$")
START = re.compile(r"(?:abbrev |unfoldable )?pub (record |data )?([^\s:({]+)")

# What tells definitions and items apart: where from, the crate or the path, perhaps the module, and the name.
Key = tuple[str, ...]
# What imported words stand for: a path, and a name there.
Imports = dict[str, tuple[str, str | None]]
IsMaker = Callable[[str], bool]


@dataclass
class Definition:
    """A definition: its crate, module and file, its name and kind, its sentence, and its own lines."""

    crate: str
    module: str
    file: Path
    name: str
    kind: str
    sentence: str
    lines: list[str]

    @property
    def key(self) -> Key:
        return ("spec", self.crate, self.module, self.name)

    @property
    def code(self) -> str:
        return "\n".join(self.lines)

    @property
    def makers(self) -> list[str]:
        """The names by which a data type makes its values."""
        named = (re.match(r"  (\w+) :", line) for line in self.lines[1:] if self.kind == "data")
        return [name[1] for name in named if name]


@dataclass
class Module:
    """A module: its sentence, what each imported word stands for, and its definitions by their names."""

    file: Path
    sentence: str
    imports: Imports
    definitions: dict[str, Definition]


def sentence_of(comment: Iterable[str]) -> str:
    """Comment lines as one text, without their signs."""
    return " ".join(re.sub(r"^\s*(--|//[/!]?) ?", "", line).strip() for line in comment)


def pieces_of(name: str) -> list[str]:
    """The words that stand for a name in code: itself, and the parts of an operator between what it is applied to."""
    return [name, *filter(None, name.split("◌"))] if "◌" in name else [name]


def imports_of(text: str) -> Imports:
    """What each imported word stands for: a path, and a name there, which is None where the word is the path's."""
    found: Imports = {}
    for line in text.splitlines():
        if not (use := USE.match(line.strip().removeprefix("ghost "))):
            continue
        path, names, alias = use.groups()
        if alias:
            found[alias] = (path, None)
        for name in filter(None, map(str.strip, (names or "").split(","))):
            there, _, here = name.partition(" as ")
            found.update((piece, (path, there)) for piece in pieces_of(here or there))
    return found


def read_module(crate: str, file: Path, text: str) -> Module:
    lines = text.splitlines()
    head = next((at for at, line in enumerate(lines) if not line.startswith("--")), len(lines))
    module = Module(file, sentence_of(lines[:head]), imports_of(text), {})
    comment: list[str] = []
    prefix: list[str] = []
    current: Definition | None = None
    for line in lines[head:]:
        if start := START.match(line):
            kind, name = (start[1] or "function").strip(), start[2]
            current = Definition(crate, file.stem, file, name, kind, sentence_of(comment), [*prefix, line])
            module.definitions[name] = current
            comment, prefix = [], []
        elif not line.strip():
            comment, current = [], None
        elif line.startswith("--"):
            comment, current = [*comment, line], None
        elif line.startswith("infix"):
            prefix, current = [line], None
        elif current:
            current.lines.append(line)
    return module


def tokens_of(code: str) -> list[str]:
    return [token for token in TOKEN.findall(code) if not token.startswith("--")]


def bound_by(tokens: list[str], at: int) -> list[str]:
    """The words that the group which begins here binds: those before its colon."""
    names: list[str] = []
    for token in tokens[at + 1 :]:
        if token == ":":
            return names
        if not re.match(r"\w", token):
            break
        names.append(token)
    return []


class Scope:
    """Goes through a piece of code and keeps which words are bound, group by group."""

    def __init__(self, bound: Iterable[str] = ()) -> None:
        self.frames = [set(bound)]
        self.groups: list[list[str]] = []
        self.free: list[str] = []

    def read(self, tokens: list[str]) -> list[str]:
        """The words that are not bound, with what stands behind their dots."""
        at = 0
        while at < len(tokens):
            token = tokens[at]
            if token in ("(", "{"):
                self.groups.append(bound_by(tokens, at))
                self.frames.append(set())
                at += len(self.groups[-1])
            elif token in (")", "}"):
                # What a group binds is bound up to the end of the group around it.
                self.frames.pop()
                self.frames[-1].update(self.groups.pop())
            elif token == "λ":
                while tokens[at + 1] not in (".", "("):
                    at += 1
                    self.frames[-1].add(tokens[at])
            else:
                self.word(token, tokens[at - 1 : at], "".join(tokens[at + 1 : at + 2]))
            at += 1
        return self.free

    def word(self, word: str, before: list[str], after: str) -> None:
        """A word is bound behind `let` or before an arrow of `do`, names a part before its value, or is used."""
        if before == ["let"] or after == "←":
            self.frames[-1].add(word)
        elif word[0] in '".,;' or word[0].isdigit() or (after == "=" and self.groups):
            return
        elif not any(word in frame for frame in self.frames):
            self.free.append(word + (after if re.match(r"\.\w", after) else ""))


def free_words(code: str, bound: Iterable[str] = ()) -> list[str]:
    return Scope(bound).read(tokens_of(code))


def parts_of(definition: Definition) -> list[list[str]]:
    """The parts of a definition as tokens: its type and its clauses, or its parameters and its fields."""
    indent = "" if definition.kind == "function" else "  "
    parts: list[list[str]] = []
    for line in definition.lines:
        if line.startswith("infix") or line.lstrip().startswith("--"):
            continue
        if not parts or re.match(rf"{indent}[^\s}}]", line):
            parts.append([])
        parts[-1].append(line)
    parts[0][0] = START.sub("", parts[0][0], count=1)
    return [tokens_of("\n".join(part)) for part in parts]


def words_of_clauses(definition: Definition, clauses: list[list[str]], is_maker: IsMaker) -> list[str]:
    """The words that clauses use, where the words on the left that make no value are bound on the right."""
    found = []
    for clause in clauses:
        at = clause.index("=")
        left = [word for word in clause[:at] if word not in "(){}," and word not in pieces_of(definition.name)]
        found += [word for word in left if is_maker(word)]
        found += Scope(word for word in left if not is_maker(word)).read(clause[at + 1 :])
    return found


def words_of_fields(definition: Definition, fields: list[list[str]], bound: set[str]) -> list[str]:
    """The words that fields use, each of which is bound in those behind it."""
    found = []
    for field in fields:
        at = field.index(":")
        found += Scope(bound).read(field[at + 1 :])
        if definition.kind == "record":
            bound = bound | {field[at - 1]}
    return found


def words_of(definition: Definition, is_maker: IsMaker) -> list[str]:
    """The words that a definition uses; `is_maker` tells words that make values from those that a pattern binds."""
    head, *rest = parts_of(definition)
    scope = Scope()
    found = scope.read(head)
    if definition.kind == "function":
        return found + words_of_clauses(definition, rest, is_maker)
    return found + words_of_fields(definition, rest, scope.frames[0])
