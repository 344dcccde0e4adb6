"""What contracts rest on: definitions of specs, and types, traits and constants of the code, in an order in which each
stands before what uses it.

`Sources` has all of them. What the toolchain defines is named alone.
"""

from __future__ import annotations

from collections.abc import Callable, Iterable, Iterator
from pathlib import Path
from typing import TypeVar

from . import antt, rust
from .antt import Key

Node = antt.Definition | rust.Item
# What is brought into an order.
Member = TypeVar("Member")

# What is written in definitions and is no name.
NOTATION = set("→ : × = ← ¬ ⊥ _ Type Unit tt record where let in do".split())
MAKERS = set("Some None Ok Err true false [] ◌∷◌ zero suc pos tt".split())


class Fault(Exception):
    """Something that stands wrong in the sources, and where."""


class Sources:
    """The crates from the lowest to the highest, their modules of specs, and the items of their code."""

    def __init__(self, top: Path) -> None:
        self.top = top
        lines = (top / "crates.txt").read_text().splitlines()
        self.crates = [line.split()[0].rstrip(":") for line in lines if line and not line.startswith("#")]
        self.modules: dict[tuple[str, str], antt.Module] = {}
        self.items: dict[Key, list[rust.Item]] = {}
        self.texts: dict[tuple[str, Path], str] = {}
        for crate in self.crates:
            folder = top / "crates" / crate
            for file in sorted(folder.glob("specs/*.antt")):
                module = antt.read_module(crate, file.relative_to(top), file.read_text())
                self.modules[crate, file.stem] = module
            for file in sorted(folder.glob("src/**/*.rt")):
                self.read_code(crate, file)

    def read_code(self, crate: str, file: Path) -> None:
        text = file.read_text()
        self.texts[crate, file.relative_to(self.top)] = text
        for item in rust.read_file(crate, file.relative_to(self.top), text):
            self.items.setdefault(item.key, []).append(item)

    def contract(self, name: str) -> rust.Item:
        """The one function of this name that others may call."""
        every = (rust.contract_of(crate, file, text, name) for (crate, file), text in self.texts.items())
        found = [item for item in every if item]
        if len(found) != 1:
            raise Fault(f"crates: there are {len(found)} public functions {name}, and not one")
        return found[0]

    def node(self, key: Key) -> Node:
        """The definition or the item of a key."""
        if key[0] == "spec":
            return self.modules[key[1], key[2]].definitions[key[3]]
        if len(self.items[key]) != 1:
            found = len(self.items[key])
            raise Fault(f"crates/{key[1]}/src: there are {found} types or constants {key[2]}, and not one")
        return self.items[key][0]

    def keys_of(self, crate: str) -> list[Key]:
        """The keys of all that a crate has, as it stands in its files."""
        modules = [module for (of, _), module in self.modules.items() if of == crate]
        keys = [definition.key for module in modules for definition in module.definitions.values()]
        return keys + [key for key in self.items if key[1] == crate]

    def code_key(self, crate: str, name: str, where: str) -> Key:
        if ("code", crate, name) not in self.items:
            raise Fault(f"{where}: crates/{crate}/src has no type, trait or constant {name}")
        return ("code", crate, name)

    def target(self, path: str, name: str | None, where: str) -> Key:
        """The key of what is imported: of this repository, or else its place in the toolchain and its name."""
        parts = path.split(".")
        if parts[0] != "Rattle" or parts[1] not in self.crates:
            return ("outside", path, name or "")
        if "declared" in parts:
            item = parts[-2] if name is None or parts[-1] in ("TheVariants", "TheInside") else name
            return self.code_key(parts[1], item, where)
        module = self.modules.get((parts[1], parts[-1]))
        found = module and self.in_module(module, name)
        if not found:
            raise Fault(f"{where}: {path} has no definition {name}")
        return found

    def in_module(self, module: antt.Module, word: str | None) -> Key | None:
        """The key of the definition of a module that has this word as its name, in it, or as one of its makers."""
        for definition in module.definitions.values():
            if word in antt.pieces_of(definition.name) or word in definition.makers:
                return definition.key
        return None

    def resolve(self, word: str, imports: antt.Imports, where: str) -> Key | None:
        """The key of an imported word; what stands behind its dot counts where the word is that of a path."""
        base, _, behind = word.partition(".")
        if base not in imports:
            return None
        path, name = imports[base]
        found = self.target(path, name, where)
        return (*found[:2], behind) if name is None and found[0] == "outside" else found

    def is_maker(self, word: str, module: antt.Module) -> bool:
        """Whether a word makes values, which a pattern then takes apart."""
        base = word.partition(".")[0]
        if any(word in definition.makers for definition in module.definitions.values()):
            return True
        path, name = module.imports.get(base, ("", ""))
        if name is None or "TheVariants" in path or name in MAKERS:
            return True
        parts = path.split(".")
        there = self.modules.get((parts[1], parts[3])) if len(parts) == 4 else None
        return there is not None and any(name in definition.makers for definition in there.definitions.values())

    def used_by_definition(self, definition: antt.Definition) -> Iterator[tuple[str, Key]]:
        """Each word that a definition uses, and its key."""
        module = self.modules[definition.crate, definition.module]
        where = f"{definition.file}: {definition.name}"
        try:
            words = antt.words_of(definition, lambda word: self.is_maker(word, module))
        except (ValueError, IndexError):
            raise Fault(f"{where} cannot be read as a definition") from None
        for word in words:
            # `do` is written for the operator that goes from one step to the next.
            word = "◌>>=◌" if word == "do" else word
            if word not in NOTATION:
                key = self.in_module(module, word.partition(".")[0]) or self.resolve(word, module.imports, where)
                if not key:
                    raise Fault(f"{where}: nothing says what {word} is")
                yield word, key

    def used_by_item(self, item: rust.Item) -> Iterator[tuple[str, Key]]:
        """Each word that an item or a contract uses, and its key."""
        words, ghosts = rust.words_of(item)
        where = f"{item.file}: {item.name}"
        for word in words:
            path = item.uses.get(word, "")
            crate = path.split("::")[0].replace("crate", item.crate)
            if ("code", item.crate, word) in self.items and not path:
                yield word, ("code", item.crate, word)
            elif crate in self.crates:
                yield word, self.code_key(crate, word, where)
            elif word != "Self":
                yield word, ("outside", path or "prelude", word)
        for word in ghosts:
            if word in NOTATION or word == "Self":
                continue
            key = self.resolve(word, item.imports, where) or self.rust_key(word, item)
            if not key:
                raise Fault(f"{where}: nothing says what {word} is")
            yield word, key

    def rust_key(self, word: str, item: rust.Item) -> Key | None:
        """The key of a type of the code that a clause names as the code does."""
        base = word.partition(".")[0]
        crate = item.uses.get(base, "").split("::")[0].replace("crate", item.crate)
        key = ("code", crate or item.crate, base)
        return key if key in self.items else None

    def words(self, node: Node) -> Iterator[tuple[str, Key]]:
        """Each word that a definition, an item or a contract uses, and its key."""
        return self.used_by_definition(node) if isinstance(node, antt.Definition) else self.used_by_item(node)

    def uses(self, node: Node) -> list[Key]:
        """The keys of what it uses, each once and without its own."""
        return [key for key in dict.fromkeys(key for _, key in self.words(node)) if key != node.key]

    def closure(self, root: Node) -> dict[Key, list[Key]]:
        """All that a contract rests on: of each key, what that uses."""
        found: dict[Key, list[Key]] = {}
        waiting = self.uses(root)
        while waiting:
            key = waiting.pop()
            if key not in found:
                found[key] = [] if key[0] == "outside" else self.uses(self.node(key))
                waiting += found[key]
        return found


def ordered(keys: Iterable[Member], before: Callable[[Member], list[Member]], where: str) -> list[Member]:
    """The keys, each behind those that are before it; a circle is a fault."""
    done: list[Member] = []
    open_keys: list[Member] = []

    def visit(key: Member) -> None:
        if key in open_keys:
            raise Fault(f"{where}: {' and '.join(map(str, open_keys))} use each other")
        if key not in done:
            open_keys.append(key)
            for other in before(key):
                visit(other)
            open_keys.remove(key)
            done.append(key)

    for key in keys:
        visit(key)
    return done
