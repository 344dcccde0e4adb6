"""The page report.html, held to what is computed: each piece of its text has to be the one that is wanted, where the crate page_html
has those that all pages share. What the map and the curves draw is not computed."""

from __future__ import annotations

import re
from datetime import date
from fractions import Fraction
from itertools import combinations, zip_longest
from os.path import commonprefix
from pathlib import Path
from typing import Iterable, Iterator, Mapping, Sequence

from homerange_verifier.lines import Counts

from . import shown
from .basis import Basis
from .facts import Animal, reasons_of
from .html_blocks import Block, Blocks, blanked
from .method import ground, method, records_of, source_of
from .records import Run

TEMPLATE = Path(__file__).resolve().parents[3] / "crates" / "page_html" / "src" / "template.rt"
SHARED = re.compile(r'const (BEFORE|BEHIND)_([A-Z]+): &\[u8\] = br##"(.*?)"##;', re.S)  # what stands before a place, or behind the last
DRAWN = "\0"  # what is said of the map's drawing
FORM = (r"Dots are fixes; of those that would cover each other one is drawn\.( The boundary lies outside this map\.)?"
        r"( Too small to be seen beside the others: [0-9, ]+(, \.\.)?\.)?")
PLACE = re.compile(r"\{\{([a-z]+)\}\}")
COLOURS = 7
WIDEST = 10  # reasons, and levels counted twice, for which one table has room
MOST_SENTENCES, MOST_IN_KEY, MOST_IN_SQUARE, MOST_PAIRS = 40, 40, 12, 60
MOST_AT_FOOT = 80
OVERLAPS = "Fixes of one animal in the range of another"
MOST_SAID = 120
KINDS = {"title": "title", "h1": "title", "h2": "heading", "p": "paragraph", "li": "sentence", "th": "heading", "td": "cell", "caption": "caption",
         "figcaption": "what stands above a curve", "svg": "label of a drawing", "meta": "head", "style": "style"}
HEADINGS = {
    "animal": "no animal", "coordinates": "no place", "zero": "at 0, 0", "sensor": "other sensor",
    "outlier": "marked outlier", "class": "Argos class", "no dop": "no DOP", "dop": "DOP too great",
    "type": "type of fix", "before": "before period", "after": "after period", "grid": "off the grid",
    "speed": "too fast", "months": "other months", "hours": "other hours", "every": "interval", "use": "not in use",
    "chosen": "not chosen"}


GROWTH = (
    "Last quarter: by how much the area grew over the last quarter of the time or of the fixes, as a share of the final area, less "
    "than nothing where it fell. Since: the first fix from which on the area was 95 % or more of the final one; of percent polygons "
    "the end of the first of twenty equal parts of the time, such that it was so at its end and at that of each later one. One fix: "
    "the one without which the 100 % polygon is smallest, and the share of its area that this fix makes.")
SAMPLING = (
    "Places: how many different ones the fixes have. There twice: fixes with the second and the place of one before them. Two places "
    "at once: how many places more than one there are at one second, of all seconds. Half of the fixes: in how few days they are, of "
    "all days; days are periods of 24 hours from the first fix on. Fastest step: from a fix to the next.")


def titles(caption: str, *texts: str) -> list[Block]:
    """What stands above a table for those who do not see it, and its headings."""
    return [Block("caption", "", caption), *th(*texts)]


def th(*texts: str) -> list[Block]:
    return [Block("th", "", text) for text in texts]


class Wanted:
    """The pieces of the page of some animals."""

    def __init__(self, animals: Sequence[Animal], counts: Counts, run: Run) -> None:
        self.animals, self.counts, self.run, self.source = animals, counts, run, source_of(run.split)
        self.names = [shown.text_of(animal.name) for animal in animals]
        self.clock = shown.Clock(run.typed("clock"), [second for animal in animals for second in (animal.first, animal.last)])
        self.meeting = [pair for pair in combinations(range(len(animals)), 2) if counts[pair] or counts[pair[::-1]]]

    def texts(self) -> dict[str, str]:
        """What stands in the text of pieces."""
        first, last = min(animal.first for animal in self.animals), max(animal.last for animal in self.animals)
        by = f"dates of {self.clock.zone}" if self.clock.is_calendar else "counted from the start that the files have"
        return {
            "title": shown.text_of(self.title()), "heading": shown.text_of(self.title()), "foot": self.foot(),
            "digits": f"report.txt {self.run.report_sum[:16]}, ", "typed": self.typed(), "notes": self.notes(), "key": self.key(),
            "period": f"{self.clock.period(first, last)} ({by})", "made": f"Made on {self.day()} with {self.run.program}.{self.later(last)}",
            "overlap": self.overlap_sentence(), "verify": (
                "Sums are SHA-256. This checks the folder that is handed in, and says what held and what was not looked at, in "
                f"a clone of homerange: python3 tools/verify.py FOLDER{' EXPORT' * (self.source == 'export')}"),
            "tenth": " Decimetre: a tenth of a metre." if self.run.unit == "dm" else "",
            "method": method(self.animals, self.run, self.system()),
            "ground": f"The grid is in metres. {ground(self.animals, self.run)} {DRAWN}"}

    def title(self) -> str:
        """What was typed in, or else whose ranges they are."""
        names = [animal.name for animal in self.animals]
        whose = shown.listed(names) if len(names) < 4 else f"{len(names)} animals"
        return self.run.typed("title") or f"Home ranges of {whose}"

    def foot(self) -> str:
        """The start of the title as a style sheet has it: letters and digits of ASCII and blanks, and codes for all else."""
        title = self.title()
        signs = shown.unseen_replaced(title[:MOST_AT_FOOT]) + "\u2026" * (len(title) > MOST_AT_FOOT)
        return re.sub("[^0-9A-Za-z ]", lambda sign: f"\\{ord(sign[0]):06x} ", signs)

    def typed(self) -> str:
        texts = ((name.capitalize(), shown.text_of(self.run.typed(name))) for name in ("study", "species", "by", "reference", "purpose"))
        return " ".join(f"{name}: {text}" for name, text in texts if text)

    def day(self) -> str:
        return shown.day(self.made())

    def later(self, last: int) -> str:
        """That fixes are later than the day of making, if the last one is."""
        is_later = self.clock.is_calendar and self.made() < self.clock.moment(last).date()
        return " Fixes are later than that day." * is_later

    def made(self) -> date:
        """The day that was typed in, or else that of making."""
        day = self.run.typed("day")
        return date.fromisoformat(day) if day else self.clock.local(self.run.fields["made"])

    def system(self) -> str:
        return shown.text_of(self.run.system or "reference system not known")

    def notes(self) -> str:
        """Which animals of the export or the frame have no range."""
        known, records = {animal.name for animal in self.animals}, records_of(self.run.split)
        names = sorted(name for name in records if name and name not in known)
        if not names:
            return ""
        texts = shown.listed([f"{shown.text_of(name)} ({shown.number(records[name])})" for name in names[:20]])
        more = f", and {len(names) - 20} more" if len(names) > 20 else ""
        return f"Without a range, since none of their fixes is used (fixes of the {self.source}): {texts}{more}."

    def key(self) -> str:
        """What lines and numbers of the map are."""
        names = [f"{number}\u00a0{name}" for number, name in enumerate(self.names, 1)]
        texts = [*(f"{level} % MCP" for level in sorted(self.run.levels, reverse=True)), shown.text_of(self.run.typed("boundary")),
                 *(names if len(names) <= MOST_IN_KEY else ["Numbers are those of the table."])]
        return " ".join(filter(None, texts))

    def pieces(self) -> dict[str, list[Block]]:
        """What stands for several pieces, or for none."""
        return {"sentences": self.sentences(), "animals": self.table(), "maps": [], "curves": self.captions(),
                "overlaps": self.overlaps(), "checksums": self.checksums()}

    def sentences(self) -> list[Block]:
        """What is said of each animal, of many in one sentence."""
        level = self.level()
        areas = [animal.percents[level].hull.area2 for animal in self.animals]
        if len(areas) > MOST_SENTENCES:
            order = sorted(range(len(areas)), key=areas.__getitem__)
            least, middle, most = (order[at] for at in (0, (len(areas) - 1) // 2, -1))
            ends = " to ".join(f"{self.area(areas[at])} ({self.names[at]})" for at in (least, most))
            return [Block("p", "", f"{shown.number(len(areas))} animals: {level} % MCP from {ends}; half of them have "
                          f"{self.area(areas[middle])} or less.")]
        found = []
        for animal, name, area2 in zip(self.animals, self.names, areas):
            kept = animal.percents[level].kept
            of = f"{shown.number(kept)} of " if kept < animal.used else "all " * (level < 100 and kept > 1)
            found.append(Block("li", "", blanked(
                f"{name}: {level} % MCP {self.area(area2) if area2 else 'has no area'}, {of}{shown.fixes(animal.used)}, "
                f"{self.clock.period(animal.first, animal.last)}{self.basis(animal).caveats(self.source)}")))
        return found

    def level(self) -> int:
        """The level that is quoted."""
        return 95 if 95 in self.run.levels else max(self.run.levels)

    def basis(self, animal: Animal) -> Basis:
        return Basis(animal, self.level(), self.run.unit, self.clock)

    def area(self, area2: int) -> str:
        return shown.area(area2, self.run.unit)

    def table(self) -> list[Block]:
        """The table of the animals; many levels have one of their own."""
        levels, reasons = self.run.levels, reasons_of(self.animals)
        is_one = 2 * len(levels) + len(reasons) <= WIDEST
        percents = [f"{level} %" for level in levels]
        found = titles(
            "Fixes, times and areas of each animal", "", "Animal", f"in the {self.source}", *["Left out"] * bool(reasons), "used", "First",
            "Last", "Days", "Interval", *["MCP, ha"] * is_one,
            *(HEADINGS[reason] for reason in reasons), "median", "longest", *(percents if is_one else ()))
        for animal, name in zip(self.animals, self.names):
            found += self.row(animal, name, {**self.facts(animal, reasons), **(self.areas(animal) if is_one else {})})
        if not is_one:
            found += titles("Areas at each level", "", "Animal", "MCP, ha", *percents)
            for animal, name in zip(self.animals, self.names):
                found += self.row(animal, name, self.areas(animal))
        return [*found, *self.growth(), *self.sampling()]

    def growth(self) -> list[Block]:
        """The table of how areas grew, and what its words mean."""
        last, level = ("last quarter of the days", "of the fixes"), self.level()
        quoted = level < 100
        found = titles("How the areas grew", "", "Animal", *[f"{level} % MCP"] * quoted, "100 % MCP", "One fix",
                       *(*last, "since") * quoted, *last, "since fix", "date", "date", "makes")
        for animal, name in zip(self.animals, self.names):
            found += self.row(animal, name, self.basis(animal).growth())
        return [*found, Block("p", "", GROWTH)]

    def sampling(self) -> list[Block]:
        """The table of when and where fixes are, and what its words mean."""
        found = titles("When and where the fixes are", "", "Animal", "Places", "there twice", "two places at once", "half of the fixes in",
                       "longest gap", "fastest step")
        for animal, name in zip(self.animals, self.names):
            found += self.row(animal, name, self.basis(animal).sampling())
        return [*found, Block("p", "", SAMPLING)]

    def row(self, animal: Animal, name: str, fields: Mapping[str, str]) -> list[Block]:
        cells = [Block("td", f"{field} of {animal.name}", text) for field, text in fields.items()]
        number = Block("td", f"number of {animal.name}", str(animal.number))
        return [number, Block("th", f"name of {animal.name}", blanked(name)), *cells]

    def facts(self, animal: Animal, reasons: Sequence[str]) -> dict[str, str]:
        """What became of the fixes of an animal, and when they were."""
        lengths, median2 = animal.intervals, animal.median2
        return {
            "records": shown.number(animal.records),
            **{f"left_{reason.replace(' ', '_')}": shown.number(animal.left.get(reason, 0)) for reason in reasons},
            "used": shown.number(animal.used), "first": self.clock.date(animal.first), "last": self.clock.date(animal.last),
            "days": shown.days(animal.last - animal.first),
            "median_interval": shown.interval(None if median2 is None else Fraction(median2, 2)),
            "longest_interval": shown.interval(lengths[-1] if lengths else None)}

    def areas(self, animal: Animal) -> dict[str, str]:
        return {f"hectares_{level}": shown.hectares(animal.percents[level].hull.area2, self.run.unit)
                for level in self.run.levels}

    def captions(self) -> list[Block]:
        """What stands above each curve: of many animals less."""
        found = []
        for animal, name in zip(self.animals, self.names):
            area, count = self.area(animal.area2), f", {shown.fixes(animal.used)}"
            text = f"{area}{count}" if len(self.animals) <= 40 else area
            found.append(Block("figcaption", "", blanked(
                f"{animal.number} {name}: {text}" if len(self.animals) <= 12 else f"{animal.number} {text}")))
            found.append(Block("svg", "", f"Area of animal {animal.number} after each fix"))
        return found

    def count(self, one: int, other: int) -> str:
        return shown.count_in_range(self.counts[one, other], self.animals[one].used)

    def rank(self, pair: tuple[int, int]) -> tuple[int, tuple[int, int]]:
        """Pairs of whom one has the greater share of its fixes with the other come first, compared in millionths."""
        shares = [10 ** 6 * self.counts[one, other] // self.animals[one].used for one, other in (pair, pair[::-1])]
        return -max(shares), pair

    def overlap_sentence(self) -> str:
        """What all pairs come to, and which meet most."""
        pairs = len(self.animals) * (len(self.animals) - 1) // 2
        if not pairs:
            return "There is one animal, and so no overlap."
        if not self.meeting:
            return f"No animal has a fix in the range of another ({shown.number(pairs)} {'pair' if pairs == 1 else 'pairs'})."
        one, other = min(self.meeting, key=self.rank)
        if self.counts[one, other] * self.animals[other].used < self.counts[other, one] * self.animals[one].used:
            one, other = other, one
        return blanked(
            f"Pairs of animals that meet: {shown.number(len(self.meeting))} of {shown.number(pairs)} (a fix of one lies in the "
            f"100 % polygon of the other, its edges included). Most of all {self.names[one]}: "
            f"{self.count(one, other)} of its {shown.fixes(self.animals[one].used)} in the range of {self.names[other]}.")

    def overlaps(self) -> list[Block]:
        """All pairs of few animals, those that meet of many."""
        if not self.meeting:
            return []
        return self.square() if len(self.animals) <= MOST_IN_SQUARE else self.pairs()

    def square(self) -> list[Block]:
        everyone = range(len(self.animals))
        found = [Block("p", "", "Rows: whose fixes. Columns: in the range of the animal with this number.")]
        found += titles(OVERLAPS, "", "Fixes of", *(str(animal.number) for animal in self.animals))
        for one in everyone:
            found += self.titled(one)
            found += [Block("td", "", shown.NOTHING) if one == other else self.overlap(one, other) for other in everyone]
        return found

    def pairs(self) -> list[Block]:
        chosen = sorted(self.meeting, key=self.rank)[:MOST_PAIRS]
        more = "" if len(chosen) == len(self.meeting) else f" The {MOST_PAIRS} pairs with the greatest shares are here."
        found = [Block("p", "", f"Pairs are sorted by the greater of both shares.{more}")]
        found += titles(OVERLAPS, "", "A", "", "B", "fixes of A in the range of B", "fixes of B in the range of A")
        for one, other in chosen:
            found += [*self.titled(one), *self.titled(other), self.overlap(one, other), self.overlap(other, one)]
        return found

    def titled(self, one: int) -> list[Block]:
        return [Block("td", "", str(self.animals[one].number)), *th(blanked(self.names[one]))]

    def overlap(self, one: int, other: int) -> Block:
        of = f"the fixes of {self.animals[one].name} in the range of {self.animals[other].name}"
        return Block("td", of, self.count(one, other))

    def export(self) -> tuple[str, str]:
        """What the page says of the export: its name, and its checksum."""
        split = self.run.split
        if split is None:
            return "", "not known, since no record of a split was named"
        if not split.has_export:
            return "", "none: the tracks were made of a data frame"
        return shown.text_of(split.single["export"]), split.single["sha256"]

    def checksums(self) -> list[Block]:
        """The checksums of what the page stands on."""
        export = self.export()
        rows = [("Export", *export, "export_sha256"), ("Report", "report.txt", self.run.report_sum, "report_sha256"),
                ("Program", self.run.program, self.run.fields["program sha256"], "program_sha256")]
        return [block for title, name, checksum, field in rows
                for block in (*th(title), Block("td", "", blanked(name)), Block("td", field, checksum))]

    def blocks(self, template: Iterable[Block]) -> Iterator[Block]:
        """All pieces of the page, in the order of the template."""
        texts, pieces = self.texts(), self.pieces()
        for block in template:
            if not block.tag:
                yield from pieces[block.text.removeprefix("{{").removesuffix("}}")]
            else:
                yield block._replace(text=blanked(PLACE.sub(lambda found: texts[found[1]], block.text)))


def is_wanted(block: Block | None, wish: Block | None) -> bool:
    """Whether a piece is the one that is wanted."""
    if block is None or wish is None or block[:2] != wish[:2]:
        return False
    return block.text == wish.text or re.fullmatch(FORM.join(map(re.escape, wish.text.split(DRAWN))), block.text) is not None


def place_of(block: Block) -> str:
    """Where a piece stands, in words."""
    return block.of or KINDS.get(block.tag, "text")


def said(block: Block, first: int = 0) -> str:
    """The text of a piece as what is said has it, from where it is not as it was wanted."""
    text = block.text.replace(DRAWN, "..")
    before, after = ".. " if first else "", " .." if len(text) > first + MOST_SAID else ""
    return repr(before + text[first:first + MOST_SAID] + after)


def difference(path: Path, animals: Sequence[Animal], counts: Counts, run: Run) -> str | None:
    """How the pieces of a page are not those that are wanted; None where they are."""
    page, template = page_of(path), Blocks(shared_text(), TEMPLATE.name)
    if page.zone != run.typed("clock"):
        return f"its dates are of {page.zone}"
    odd = [number for number, colour in page.colours if (int(number) - 1) % COLOURS != colour]
    if odd:
        return f"the animal {odd[0]} has another colour"
    wanted = Wanted(animals, counts, run).blocks(template.found)
    for block, wish in zip_longest(page.found, wanted):
        if not is_wanted(block, wish):
            if not block or not wish:
                return said(block) + " too much" if block else f"it has an end where {said(wish)} is wanted"
            of = "" if place_of(block) == place_of(wish) else f"{place_of(wish)} "
            same = commonprefix([block.text, wish.text])
            first = same.rfind(" ", 0, max(0, len(same) - MOST_SAID // 2)) + 1
            return f"it has {said(block, first)} as {place_of(block)}; {of}{said(wish, first)} is wanted"
    return None


def shared_text() -> str:
    """What all pages share, with the names of its places between."""
    found = SHARED.findall(TEMPLATE.read_text("utf-8"))
    return "".join(text if where == "BEHIND" else f"{text}{{{{{place.lower()}}}}}" for where, place, text in found)


def page_of(path: Path) -> Blocks:
    """The pieces of a page."""
    return Blocks(path.read_bytes().decode("utf-8"), path.name)
