#!/usr/bin/env python3
"""words.py [--check] [TOP]: writes docs/WORDS.md, which has the words of titles and cells that homerange-split knows, by what
they mean, as crates/split_titles/src/dictionary.rt has them; TOP is the folder of the repository, this one if it is left out.

With --check nothing is written: the status is 0 where the page is what the sources say, and else 1, with one line that says what to
do. It is 1 also where a list has no sentence above it, or a word twice.
"""

import re
import sys
from pathlib import Path

CLONE = Path(__file__).resolve().parents[1]
sys.path.insert(0, str(CLONE / "python"))

from homerange.commands.options import Options
from homerange.read.letters import without_accents

LIST = re.compile(r"((?:^///[^\n]*\n)*)^pub const (\w+): \[&str; \d+\] = \[(.*?)\];", re.MULTILINE | re.DOTALL)
WORD = re.compile(r'"([^"]+)"')
BLANKS = {r"\u{a0}": "\u00a0", r"\u{202f}": "\u202f"}
HEAD = """# Words of titles

The words by which `homerange-split` knows what a title, or a cell of a column of sides, units or halves of the day, says; [TABLES.md](TABLES.md#titles) has the rules. Words are compared in small letters without accents, Latin, Greek and Cyrillic ones, also where an accent is a sign of its own behind its letter: `DÉLKA` is `delka`. No list has a word twice, which stands with the accents that it has; `ß`, `æ`, `œ` and `þ` stay, and `ae` is no `ä`. Words of China and Japan of two signs or more are found within others. `tools/words.py` writes this page.

| Meaning | Words |
|---|---|
"""


class Fault(Exception):
    """Why no page can be made of the sources."""


def row_of(sentence: str, name: str, words: list[str]) -> str:
    """The row of a list."""
    if not sentence:
        raise Fault(f"{name} has no sentence above it")
    plain = [without_accents(word) for word in words]
    for at, word in enumerate(plain):
        if word in plain[:at]:
            raise Fault(f"{name} has {words[at]} twice")
    text = ", ".join(f"`{word}`" for word in words)
    for escape, blank in BLANKS.items():
        text = text.replace(escape, blank)
    return f"| {sentence.rstrip('.')} | {text.replace('|', chr(92) + '|')} |\n"


def page_of(top: Path) -> str:
    """The page of the words of a repository."""
    source = (top / "crates/split_titles/src/dictionary.rt").read_text("utf-8")
    lists = LIST.findall(source)
    if not lists:
        raise Fault("crates/split_titles/src/dictionary.rt has no list")
    return HEAD + "".join(row_of(" ".join(comment.replace("///", "").split()), name, WORD.findall(words)) for comment, name, words in lists)


def main() -> None:
    parser = Options("words.py", __doc__)
    parser.add_argument("--check", action="store_true", help="compare, and write nothing")
    parser.add_argument("top", metavar="TOP", type=Path, nargs="?", default=CLONE)
    words = parser.parse_args()
    page = words.top / "docs" / "WORDS.md"
    try:
        text = page_of(words.top)
    except (Fault, OSError) as fault:
        sys.exit(f"words.py: {fault}")
    if not words.check:
        page.write_text(text, "utf-8")
    elif not page.exists() or page.read_text("utf-8") != text:
        sys.exit("words.py: docs/WORDS.md is not what the sources say: run tools/words.py")


if __name__ == "__main__":
    main()
