"""Reads a page of ranges back, by Python's own reader of HTML, and says what its cells have to be, by decimals and dates of
Python's library."""
from datetime import datetime
from decimal import ROUND_HALF_UP, Decimal
from html.parser import HTMLParser
from zoneinfo import ZoneInfo

VOID = {"meta", "br", "path", "circle"}
DASH = "\u2013"


class Page(HTMLParser):
    """The cells of a page: of each animal by field, of each pair, and those that are alone; its text, tags and
    attributes."""

    def __init__(self, path):
        super().__init__(convert_charrefs=True)
        self.animals, self.overlaps, self.fields, self.names = {}, {}, {}, {}
        self.tags, self.attributes, self.text, self.open, self.order = [], [], "", [], {}
        self.target = self.animal = None
        self.feed(path.read_text("utf-8"))
        self.close()
        assert not self.open, self.open

    def handle_starttag(self, tag, attributes):
        known = dict(attributes)
        self.tags.append(tag)
        self.attributes += attributes
        if tag not in VOID:
            self.open.append(tag)
        if tag == "tr":
            self.animal = known.get("data-animal")
        if tag in ("td", "th", "span", "li", "h1", "title", "figcaption"):
            self.target = self.place(tag, known)
            of, key = self.target
            of.pop(key, None)  # the number of an animal stands in each of its tables

    def place(self, tag, known):
        """Where the text of a tag goes."""
        if "data-other" in known:
            return self.overlaps, (known["data-animal"], known["data-other"])
        if "data-field" in known:
            of = self.fields if self.animal is None else self.animals.setdefault(self.animal, {})
            return of, known["data-field"]
        kind = self.order[tag] = self.order.get(tag, 0) + 1
        return self.names, (tag, kind)

    def handle_startendtag(self, tag, attributes):
        self.tags.append(tag)
        self.attributes += attributes

    def handle_endtag(self, tag):
        assert self.open.pop() == tag, f"{tag} closes what is not open"
        if tag == "tr":
            self.animal = None
        if tag in ("td", "th", "span", "li", "h1", "title", "figcaption"):
            self.target = None

    def handle_data(self, text):
        if self.open[-1:] != ["style"]:
            self.text += text
        if self.target:
            of, key = self.target
            of[key] = of.get(key, "") + text

    def all(self, tag):
        """The texts of all tags of a kind that are no cells."""
        return [text for (kind, _), text in self.names.items() if kind == tag]


def rounded(number, places):
    """A decimal with so many places, halves up, and commas."""
    return f"{Decimal(number).quantize(Decimal(1).scaleb(-places), ROUND_HALF_UP):,}"


def area(doubled, per_metre=1):
    """A doubled area as a cell has it."""
    metres = Decimal(doubled) / 2 / per_metre ** 2
    number, sign = (metres / 10_000, "") if metres >= 10_000 or not metres else (metres, " m²")
    if not number:
        return "0"
    return rounded(number, 0 if number >= 100 else 1 if number >= 10 else 2) + sign


def share(count, fixes):
    """A count of fixes and its share as a cell has it."""
    if count == 0:
        return "0"
    text = rounded(Decimal(100 * count) / fixes, 0)
    text = "<1" if text == "0" and count else ">99" if text == "100" and count < fixes else text
    return f"{count:,} ({text}\u00a0%)"


def day(second, zone="UTC"):
    """The date of a second since 1970."""
    return datetime.fromtimestamp(second, ZoneInfo(zone)).strftime("%d %b %Y").lstrip("0")


def length(seconds):
    """An interval as a cell has it."""
    for least, unit, places, sign in ((100, 1, 0, "s"), (6000, 60, 0, "min"), (360_000, 3600, 1, "h")):
        if seconds < least:
            return f"{rounded(Decimal(seconds) / unit, places)} {sign}"
    return f"{rounded(Decimal(seconds) / 86_400, 1)} d"
