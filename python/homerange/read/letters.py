"""How the program compares the letters of words, and titles that look alike and are not."""

from __future__ import annotations

import re
import unicodedata
from typing import Iterable

# Letters that are no others with an accent, and the one that the program takes for each.
OWN = str.maketrans("łøđıς", "lodiσ")
UNSEEN = re.compile("[\u00ad\u200b-\u200f\u202a-\u202e\u2060-\u2064\ufeff]")  # signs that stand for nothing that one sees


def without_accents(word: str) -> str:
    """A word in small letters without their accents: docs/TABLES.md, Titles."""
    return re.sub("[\u0300-\u036f]", "", unicodedata.normalize("NFD", word.lower()).translate(OWN))


def as_seen(title: str) -> str:
    """What one sees of a title: letters in one form, and no blanks but those between words."""
    return " ".join(unicodedata.normalize("NFC", UNSEEN.sub("", title)).split())


def like_title(wanted: str, titles: Iterable[str]) -> str:
    """What is said of a title that no column has, where that of one looks like it."""
    own = next((title for title in titles if as_seen(title).lower() == as_seen(wanted).lower()), None)
    if own is None or own == wanted:
        return ""
    is_form = unicodedata.normalize("NFC", own) == unicodedata.normalize("NFC", wanted)
    what = "the form of letters" if is_form else "blanks or signs that are not seen" if as_seen(own) == as_seen(wanted) else "capitals"
    return f"; the column {ascii(own)} differs from it in {what} alone: write it so"
