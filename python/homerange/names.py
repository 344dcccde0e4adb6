"""What names have in common that Windows or a Mac cannot tell apart. docs/TABLES.md, Animals, has the rules."""

from __future__ import annotations

import csv
from functools import lru_cache
from itertools import accumulate
from operator import itemgetter
from pathlib import Path
from typing import NamedTuple

FIRST_SYLLABLE, SYLLABLES = 0xAC00, 11172  # of Hangul, which are taken apart by a rule


class Letters(NamedTuple):
    """What letters.csv has of a sign, where there is something: its parts, its place among marks, and what it folds to."""

    parts: dict[str, str]
    place: dict[str, int]
    folded: dict[str, str]


@lru_cache(maxsize=None)
def known_letters() -> Letters:
    def text(codes: str) -> str:
        return "".join(chr(int(code, 16)) for code in codes.split())

    with open(Path(__file__).with_name("letters.csv"), encoding="utf-8", newline="") as file:
        rows = [(text(row["sign"]), row) for row in csv.DictReader(file)]
    return Letters({sign: text(row["parts"]) for sign, row in rows if row["parts"]},
                   {sign: int(row["place"]) for sign, row in rows if row["place"]},
                   {sign: text(row["folded"]) for sign, row in rows if row["folded"]})


def parts_of(sign: str) -> str:
    """The parts of a sign, such as a letter and its accent; of most the sign itself."""
    syllable = ord(sign) - FIRST_SYLLABLE
    if not 0 <= syllable < SYLLABLES:
        return known_letters().parts.get(sign, sign)
    vowel, end = divmod(syllable % 588, 28)
    return chr(0x1100 + syllable // 588) + chr(0x1161 + vowel) + (chr(0x11A7 + end) if end else "")


def folded(name: str) -> str:
    """What a name has in common with those that differ from it in capitals or in the form of letters alone: the parts of its
    signs, marks in their order, without case."""
    if name.isascii():
        return name.lower()
    letters = known_letters()
    parts = "".join(map(parts_of, name))
    places = [letters.place.get(part, 0) for part in parts]
    runs = accumulate(place == 0 for place in places)  # a letter and its marks
    ordered = sorted(zip(runs, places, parts), key=itemgetter(0, 1))
    return "".join(letters.folded.get(part, part) for _, _, part in ordered)
