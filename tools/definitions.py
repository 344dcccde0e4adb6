#!/usr/bin/env python3
"""definitions.py [--check] [TOP]: writes docs/DEFINITIONS.md, which has each definition that the top contracts rest on,
word for word; TOP is the folder of the repository, this one if it is left out.

With --check nothing is written: the status is 0 where the page is what the sources say, and else 1, with one line that
says what to do. It is 1 also where a definition has no sentence above it, or where nothing says what a name is.
"""

import sys
from pathlib import Path

CLONE = Path(__file__).resolve().parents[1]
sys.path.insert(0, str(CLONE / "python"))

from contracts.closure import Fault
from contracts.page import page_of
from homerange.commands.options import Options


def main() -> None:
    parser = Options("definitions.py", __doc__)
    parser.add_argument("--check", action="store_true", help="compare, and write nothing")
    parser.add_argument("top", metavar="TOP", type=Path, nargs="?", default=CLONE)
    words = parser.parse_args()
    page = words.top / "docs" / "DEFINITIONS.md"
    try:
        text = page_of(words.top)
    except (Fault, OSError) as fault:
        sys.exit(f"definitions.py: {fault}")
    if not words.check:
        page.write_text(text)
    elif not page.exists() or page.read_text() != text:
        sys.exit("definitions.py: docs/DEFINITIONS.md is not what the sources say: run tools/definitions.py")


if __name__ == "__main__":
    main()
