"""The page of definitions: what the public contracts of the program rest on, word for word, the lowest first."""

from __future__ import annotations

import re
from collections import Counter
from collections.abc import Iterable, Iterator
from pathlib import Path

from . import antt
from .antt import Key
from .closure import Fault, Node, Sources, ordered
from .sayings import ABOUT, MEANINGS, NOTATION, ROOTS

SIGNS = ["Sign", "How to read it"]
# What each key is called on the page.
Headings = dict[Key, str]


class Page:
    """The page of some sources, and what goes on it."""

    def __init__(self, sources: Sources) -> None:
        self.sources = sources
        self.roots = {name: sources.contract(name) for name in ROOTS}
        self.closures = {name: sources.closure(root) for name, root in self.roots.items()}
        self.uses = {key: used for closure in self.closures.values() for key, used in closure.items()}
        self.nodes = {key: sources.node(key) for key in self.uses if key[0] != "outside"}
        of_specs = [key for user, used in self.uses.items() if user[0] == "spec" for key in used]
        self.used_names = {self.nodes[key].name for key in of_specs if key in self.nodes}

    def here(self, key: Key, crate: str) -> list[Key]:
        """What a key uses of its own crate."""
        return [other for other in self.uses[key] if other[0] != "outside" and other[1] == crate]

    def modules_below(self, key: Key, crate: str) -> list[str]:
        """The modules that a key uses, also by way of types and limits, which stand where they are first used."""
        found = []
        for other in self.here(key, crate):
            found += [other[2]] if other[0] == "spec" else self.modules_below(other, crate)
        return found

    def modules_of(self, crate: str, keys: list[Key]) -> dict[str, list[Key]]:
        """The modules of a crate that have some of these keys, the lowest first, and what each has of its own."""
        has: dict[str, list[Key]] = {}
        for key in keys:
            if key[0] == "spec":
                has.setdefault(key[2], []).append(key)

        def before(module: str) -> list[str]:
            return [other for key in has[module] for other in self.modules_below(key, crate) if other != module]

        return {module: has[module] for module in ordered(has, before, f"crates/{crate}/specs")}

    def sections_of(self, crate: str) -> Iterator[tuple[str | None, list[Key]]]:
        """The sections of a crate: the module of each, None for types that no module uses, and its keys in order."""
        of_crate = [key for key in self.sources.keys_of(crate) if key in self.nodes]
        in_order = ordered(of_crate, lambda key: self.here(key, crate), f"crates/{crate}")
        shown: set[Key] = set()
        for module, keys in self.modules_of(crate, of_crate).items():
            with_below = ordered(keys, lambda key: self.here(key, crate), f"crates/{crate}")
            new = [key for key in with_below if key not in shown]
            shown.update(new)
            yield module, new
        if rest := [key for key in in_order if key not in shown]:
            yield None, rest

    def sections(self) -> list[tuple[str, str | None, list[Key]]]:
        return [(crate, module, keys) for crate in self.sources.crates for module, keys in self.sections_of(crate)]

    def headings(self) -> Headings:
        """What each is called on the page: its kind and its name, and where it stands if two have the same."""
        called = {key: heading_of(node) for key, node in self.nodes.items()}
        lowered = Counter(name.lower() for name in called.values())
        for key, name in called.items():
            if lowered[name.lower()] > 1:
                called[key] = f"{name} of {key[2]} in {key[1]}" if key[0] == "spec" else f"{name} of {key[1]}"
        return called

    def marks(self, key: Key) -> str:
        return ", ".join(label for name, (label, _) in ROOTS.items() if key in self.closures[name])

    def block(self, key: Key, heading: str) -> str:
        node = self.nodes[key]
        if not node.sentence:
            raise Fault(f"{node.file}: {node.name} has no sentence above it")
        return f"### {heading}\n\n{node.sentence} *({self.marks(key)})*\n\n{quoted(node)}\n"

    def other_names(self, crate: str, module: str, keys: list[Key], headings: Headings) -> str:
        """What words of a module stand for: such as are not the names there, and names of which the page has two."""
        imports = self.sources.modules[crate, module].imports
        found: dict[str, str] = {}
        for node in (self.nodes[key] for key in keys if key[0] == "spec"):
            for word, key in self.sources.words(node):
                base = word.partition(".")[0]
                path, name = imports.get(base, ("", base))
                there = f"`{path.removeprefix('Rattle.').removesuffix('.TheVariants')}`"
                if key in headings:
                    there = link(headings[key], headings[key])
                elif name:
                    there = f"{name} of {there}"
                if name is None:
                    found[base] = f"`{base}` for the variants of {there}"
                elif path and (base not in antt.pieces_of(name) or self.is_twice(key, headings)):
                    found[base] = f"`{base}` for {there}"
        return f"Here {'; '.join(found.values())}.".replace("` for", "` stands for", 1) if found else ""

    def is_twice(self, key: Key, headings: Headings) -> bool:
        """Whether something else that definitions use has the name of a key."""
        if key[0] == "outside":
            return key[2] in self.used_names
        return headings[key] != heading_of(self.nodes[key])

    def counts(self) -> str:
        rows = []
        for name, (label, promise) in ROOTS.items():
            row = [f"{label}, `{name}`", promise]
            for kind in ("spec", "code"):
                codes = [self.nodes[key].code for key in self.closures[name] if key[0] == kind]
                row += [str(len(codes)), f"{sum(len(code.splitlines()) for code in codes):,}"]
            rows.append(row)
        return table(["Contract", "What it promises", "Definitions", "Lines", "Types and limits", "Lines"], rows)

    def outside(self) -> str:
        """What the toolchain defines, by its modules."""
        found: dict[str, set[str]] = {}
        for key in self.uses:
            if key[0] == "outside":
                found.setdefault(key[1].removeprefix("Rattle."), set()).add(key[2])
        rows = [[f"`{path}`", ", ".join(map(named, sorted(names)))] for path, names in sorted(found.items())]
        every = set[str]().union(*found.values())
        said = [line.split("\t") for line in MEANINGS.splitlines()]
        said = [row for row in said if every.intersection(re.findall(r"\w+", row[0]))]
        return table(["Module", "What it defines"], rows) + "\n\nSome of them in words:\n\n" + table(SIGNS, said)

    def text(self) -> str:
        headings = self.headings()
        blocks: list[str] = []
        contents: list[str] = []
        for crate, module, keys in self.sections():
            title = f"{crate}, {module}" if module else f"{crate}, other types and limits"
            links = ", ".join(link(self.nodes[key].name, headings[key]) for key in keys)
            contents.append(f"- {link(title, title)}: {links}")
            blocks.append(f"## {title}\n")
            if module:
                about = self.sources.modules[crate, module].sentence, self.other_names(crate, module, keys, headings)
                blocks += [sentence + "\n" for sentence in about if sentence]
            blocks += [self.block(key, headings[key]) for key in keys]
        blocks.append(f"## What the toolchain defines\n\n{self.outside()}\n\n## The contracts\n")
        for name, root in self.roots.items():
            label, promise = ROOTS[name]
            blocks.append(f"### the {label}: {name}\n\n{promise}\n\n{quoted(root)}\n")
        opening, counted = ABOUT
        signs = table(SIGNS, [line.split("\t") for line in NOTATION.splitlines()])
        head = ["# The definitions", opening, self.counts(), counted, "## How to read it", signs]
        head += ["## Where to find what", "\n".join(contents) + "\n"]
        return "\n\n".join(head) + "\n" + "\n".join(blocks)


def heading_of(node: Node) -> str:
    """What a definition or an item is called on the page."""
    if isinstance(node, antt.Definition) and not re.search(r"\w", node.name):
        return f"the operator {node.name} of {node.module}"
    return node.name if node.kind == "function" else f"{node.kind} {node.name}"


def link(text: str, heading: str) -> str:
    anchor = re.sub(r"[^\w -]", "", heading).strip().lower().replace(" ", "-")
    return f"[{text}](#{anchor})"


def named(name: str) -> str:
    """A name of the toolchain, in code; an operator without the places of what it is applied to."""
    return f"`{' '.join(filter(None, name.split('◌')))}`".replace("|", "\\|")


def table(heads: list[str], rows: Iterable[list[str]]) -> str:
    return "\n".join(f"| {' | '.join(cells)} |" for cells in [heads, ["---"] * len(heads), *rows])


def quoted(node: Node) -> str:
    """The block of a definition, an item or a contract."""
    language = "antt" if isinstance(node, antt.Definition) else "rust"
    return f"```{language} {node.file}\n{node.code}\n```"


def page_of(top: Path) -> str:
    return Page(Sources(top)).text()
