"""Holds the page of definitions to itself, by another way than tools/definitions.py: by the words of its blocks.

    python3 definitions.py PAGE

- A word of a block is the name of a block or of a part of one, a name of the toolchain, one that stands for another,
  bound in the block, or notation.
- No block uses one that is shown below it, and each is used by another or by a contract.
- The mark of a block has just the contracts from which one comes to it, block by block.

Prints each fault. The last line says how many blocks there are; the status is 0 where there is no fault, and 1 where
there is one, or where there is no contract.
"""

import pathlib
import re
import sys

BLOCK = re.compile(r"### ([^\n]+)\n\n([^\n]+)\n\n```(antt|rust) \S+\n(.*?)\n```", re.DOTALL)
OTHER = re.compile(r"`(\w+)` (?:stands )?for (?:[\w ]+ of )?(?:\[([^]]+)\]|`)")
ROW = re.compile(r"^\| `([\w.:]+)` \| (`.*`) \|$", re.MULTILINE)
WORD = re.compile(r"[^\s(){},;.\"]+")
GHOST = re.compile(r"(?:ghost \w+ ?[:=]|ensures \w+|requires \w+|\} =) (\{[^{}]*\})")
NOTATION = set(": → × = ← ¬ ⊥ _ λ Type Self Unit tt record data where let in do pub abbrev unfoldable infixl".split())


class Block:
    """A block: what is called by words of it, which words it uses, and what its module calls otherwise."""

    def __init__(self, section, others, heading, sentence, language, code):
        self.section, self.others, self.heading = section, others, heading
        self.of_code, self.contract = language == "rust", re.match(r"the (\w+): ", heading)
        mark = re.search(r"\*\((.*)\)\*$", sentence)
        self.marks = set(mark[1].split(", ")) if mark else set()
        self.name = re.sub(r" of \w+(?: in \w+)?$", "", heading).split()[-1]
        self.code = re.sub(r'--.*|//.*|"(?:[^"\\]|\\.)*"', "", code)
        made = {"data": r"^  (\w+) :", "enum": r"^    ([A-Z]\w*)"}.get(heading.split()[0])
        self.parts = set(re.findall(made, self.code, re.MULTILINE)) if made else set()

    def names(self):
        return {self.name, *filter(None, self.name.split("◌"))}

    def types(self):
        """The types that code names, but for what proofs alone see."""
        code = re.sub(r"^    [A-Z]\w*", "", GHOST.sub("", self.code), flags=re.MULTILINE) if self.of_code else ""
        head = code.partition("(" if self.contract else "{")[0]
        own = {"Self", *re.findall(r"[<,] ?([A-Z]\w*)(?=[:,>])", head), *re.findall(r"\btype ([A-Z]\w*):", code)}
        return set(re.findall(r"\b[A-Z]\w*", code)) - own - self.names()

    def words(self, makers):
        """The words of definitions and contracts that nothing binds, clause by clause."""
        found, pieces = set(), re.split(r"\n(?=[^\s}])", self.code)
        if self.of_code:
            pieces = GHOST.findall(self.code)
        elif self.heading.startswith(("record ", "data ")):
            pieces = [self.code]
        for piece in pieces:
            plain = re.sub(r"(?<=[\w)\]])\.\w+", "", piece)
            found |= set(WORD.findall(plain)) - self.bound(plain, makers.union(self.others))
        return {word.strip("◌") for word in found if not re.match(r"\d|\.", word)} - self.names()

    def bound(self, piece, makers):
        groups = re.findall(r"[({]([\w\s]+?) :|λ ([^.(]+?)\.|\blet (\w+)|(\w+) ←|[{;]\s*(\w+) =", piece)
        bound = {word for group in groups for part in group for word in part.split()}
        bound |= set(re.findall(r"^  (?:pub )?(\w+) :", piece, re.MULTILINE))
        if self.of_code:
            code = GHOST.sub("", self.code)
            return bound.union(re.findall(r"\w+", code), re.findall(r"ghost (\w+)", self.code), ["result"])
        if not re.match(r"abbrev|unfoldable|pub|infix", piece):
            bound |= set(WORD.findall(re.split(r"\s=\s", piece)[0])) - makers
        return bound


def names_in(row):
    """The words of code that stand in a row of the table of the toolchain's names."""
    return {word for name in re.findall(r"`(\S.*?)`", row) for word in name.replace("\\", "").split()}


class Page:
    """The blocks of a page, the names of the toolchain, and what each block uses."""

    def __init__(self, text):
        self.blocks = []
        for number, section in enumerate(re.split(r"^## ", text, flags=re.MULTILINE)):
            others = {word: heading for word, heading in OTHER.findall(section.partition("###")[0])}
            self.blocks += [Block(number, others, *found) for found in BLOCK.findall(section)]
        rows = {path: names_in(row) for path, row in ROW.findall(text)}
        self.outside, self.everywhere = set().union(*rows.values()), rows.get("std.specs.Prelude", set())
        self.makers = self.outside.union(*(block.parts for block in self.blocks))

    def find(self, word, block, of_code):
        """The blocks that a word may be the name of."""
        if word in block.others:
            return [other for other in self.blocks if other.heading == block.others[word]]
        if word in self.everywhere and not of_code:
            return []
        known = [other for other in self.blocks if word in other.names() or (word in other.parts and not of_code)]
        return [other for other in known if other.section == block.section and word in other.names()] or known

    def uses(self, block):
        """The blocks that a block uses, as far as its words are names of one alone; and words that are none."""
        used, unknown = [], set()
        for of_code, words in ((True, block.types()), (False, block.words(self.makers))):
            for word in words - NOTATION:
                found = self.find(">>=" if word == "do" else word, block, of_code)
                if not found and word not in self.outside and word not in block.others:
                    unknown.add(word)
                if len(found) == 1 and found[0] is not block:
                    used.append(found[0])
            if "do" in words:
                used += self.find(">>=", block, False)
        return used, unknown

    def faults(self):
        uses = {block: self.uses(block) for block in self.blocks}
        for block, (used, unknown) in uses.items():
            yield from (f"{block.heading}: nothing says what {word} is" for word in sorted(unknown))
            for other in used:
                if self.blocks.index(other) > self.blocks.index(block):
                    yield f"{block.heading}: it uses {other.heading}, which is shown below it"
        reached = {block: set() for block in self.blocks}
        for root in (block for block in self.blocks if block.contract):
            waiting = [root]
            while waiting:
                block = waiting.pop()
                if root.contract[1] not in reached[block]:
                    reached[block].add(root.contract[1])
                    waiting += uses[block][0]
        for block in self.blocks:
            if not block.contract and block.marks != reached[block]:
                yield f"{block.heading}: one comes to it from {sorted(reached[block])}, not from {sorted(block.marks)}"


def main():
    page = Page(pathlib.Path(sys.argv[1]).read_text())
    faults = list(page.faults())
    print(*faults, f"{len(page.blocks)} blocks, {len(faults)} faults", sep="\n")
    raise SystemExit(bool(faults) or not any(block.contract for block in page.blocks))


if __name__ == "__main__":
    main()
