"""Reads reports of the program line by line, by the grammar of docs/GUIDE.md, section The report, and refuses what does not
fit: no line is missing, twice or elsewhere, and the numbers are such as go together. The corners have the box and the last
row's area, percent polygons keep as many fixes as their level says, and no count is above its fixes.

Bytes that are not UTF-8, which the name of an animal may have, stand as surrogates."""

from __future__ import annotations

import io
import os
import re
from array import array
from functools import partial
from itertools import chain, islice
from typing import Any, Callable, Iterable, Iterator, Mapping, NamedTuple, NoReturn, Optional, Sequence, TextIO

from .errors import ReportError, one_line

Corners = list[tuple[int, int]]

TEXT: dict[str, Any] = {"encoding": "utf-8", "errors": "surrogateescape", "newline": "\n"}
NUMBER = "(?:0|[1-9][0-9]{0,16})"  # digits alone, at most those of the greatest area, and no zero before others
NUMBERS = [re.compile(",".join([f"({NUMBER})"] * count) + "\n") for count in range(5)]  # so many at the end of a line
ROWS = re.compile(f"(?:{NUMBER},{NUMBER},{NUMBER},{NUMBER}\n)*")
LAST = 30  # bytes at the end of a report, with its last line
PIECE = 4_096  # rows that are read together
NAME = re.compile('[^\x00-\x1f\x7f,"]{1,32}')
END = re.compile("end,[0-9]+\\n")
BEGIN = re.compile("(\xef\xbb\xbf|[\xff\xfe]+)?\0?[ua]\0|(unit,d?m\r?\n)?animal,[^\n]*,fixes,[0-9]")  # of a report, also in UTF-16
BEGINNING = 2 ** 12  # bytes of it that are looked at
LEVEL = re.compile("percent,([^,]*),([1-9][0-9]{0,2}),.*\n")


class Percent(NamedTuple):
    """A percent polygon's line."""

    level: int
    kept: int
    corners: int
    area2: int


class Rows(NamedTuple):
    """Of each fix its second, and the corners and the area of the polygon of it and those before."""

    seconds: array[int]
    corners: array[int]
    areas: array[int]


Reader = Callable[[str, str, range], Optional[Rows]]  # reads the rows of a text, as rows_in


class Table(NamedTuple):
    """What a report says of one animal. Areas are doubled, in squares of the unit."""

    rows: Rows
    corners: Corners
    percents: list[Percent]

    @property
    def fixes(self) -> int:
        return len(self.rows.seconds)

    @property
    def last(self) -> tuple[int, int]:
        """The corners and the area of the polygon of all fixes."""
        return self.rows.corners[-1], self.rows.areas[-1]


class Report(NamedTuple):
    """A report. Overlaps count the fixes of the first animal in the polygon of the second."""

    unit: str
    tables: dict[str, Table]
    overlaps: dict[tuple[str, str], int]


def doubled_area(corners: Corners) -> int:
    """Twice the area of the polygon with these corners, counterclockwise."""
    return sum(a[0] * b[1] - b[0] * a[1] for a, b in zip(corners, corners[1:] + corners[:1]))


def polygon_of(points: Iterable[tuple[int, int]]) -> Corners:
    """The corners of the minimum convex polygon of some points, by Andrew's chains: counterclockwise from the westernmost,
    of two such the southern."""
    ordered = sorted(set(points))
    if len(ordered) < 3:
        return ordered
    chains: list[Corners] = []
    for way in (ordered, ordered[::-1]):
        chain: Corners = []
        for point in way:
            while len(chain) > 1 and turn(chain[-2], chain[-1], point) <= 0:
                chain.pop()
            chain.append(point)
        chains.append(chain[:-1])
    return chains[0] + chains[1]


def turn(a: tuple[int, int], b: tuple[int, int], c: tuple[int, int]) -> int:
    """Twice the signed area of a triangle, above 0 where the way turns left."""
    return (b[0] - a[0]) * (c[1] - a[1]) - (b[1] - a[1]) * (c[0] - a[0])


def is_convex(corners: Corners) -> bool:
    """Whether at each of three or more corners the way turns left."""
    after = corners[1:] + corners[:1]
    return len(corners) < 3 or all(turn(*three) > 0 for three in zip(corners, after, after[1:] + after[:1]))


class Lines:
    """The lines of a report: `line` is the one that is taken next, and `number` says which was taken last."""

    def __init__(self, file: TextIO, where: str) -> None:
        self.rest: Iterator[str] = file
        self.where, self.number = where, 0
        self.line = next(self.rest, "")

    def refuse(self, text: str) -> NoReturn:
        raise ReportError(one_line(f"{self.where}: line {self.number}: {text}"))

    def take(self, head: str, count: int) -> list[int]:
        """The numbers, so many, of the next line, which is to be this head and they."""
        self.number += 1
        numbers = NUMBERS[count].fullmatch(self.line, len(head))
        if not numbers or not self.line.startswith(head):
            self.refuse(f"{self.line.rstrip()!r}, but {head!r} and numbers ({count}) are wanted")
        self.line = next(self.rest, "")
        return list(map(int, numbers.groups()))

    def take_many(self, count: int, read: Callable[[str], Rows | None]) -> Rows | None:
        """What is read of the next lines, so many, together; where that is nothing, none of them is taken."""
        lines = [self.line, *islice(self.rest, count - 1)]
        rows = read("".join(lines))
        if rows is not None:
            self.number += count
            self.line = next(self.rest, "")
        else:
            self.rest = chain(lines[1:], self.rest)
        return rows

    def unit(self) -> str:
        """The unit, which has a line where it is decimetres."""
        if self.line != "unit,dm\n":
            return "m"
        self.take("unit,dm", 0)
        return "dm"

    def end(self, animals: int) -> None:
        """The last line, of so many animals."""
        if self.take("end,", 1) != [animals]:
            self.refuse(f"the report is not of {animals} animals")
        if self.line:
            self.refuse("a line behind the end")

    def overlap(self, name: str, fixes: int, other: str) -> int:
        """How many of an animal's fixes, whose number is known, lie in the polygon of another."""
        count, total = self.take(f"overlap,{name},{other},", 2)
        if total != fixes or count > fixes:
            self.refuse(f"{count} of {total} fixes, but {name} has {fixes}")
        return count

    def overlaps(self, animals: Mapping[str, int]) -> dict[str, array[int]]:
        """The counts of each of these animals, whose numbers of fixes are known, with all others in their order."""
        return {
            name: array("I", [self.overlap(name, fixes, other) for other in animals if other != name])
            for name, fixes in animals.items()
        }


def no_rows() -> Rows:
    return Rows(array("q"), array("q"), array("q"))


def without_head(text: str, head: str, count: int) -> str | None:
    """Lines, so many, without a head that each of them has; None where one has it not."""
    rest = text[len(head):].replace(f"\n{head}", "\n")
    return rest if text.startswith(head) and len(text) - len(rest) == count * len(head) else None


def rows_in(text: str, head: str, numbers: range) -> Rows | None:
    """The rows with these numbers, if a text is they, and neither seconds nor areas fall."""
    rest = without_head(text, head, len(numbers))
    if rest is None or not ROWS.fullmatch(rest):
        return None
    fields = [*map(int, rest.replace("\n", ",")[:-1].split(","))]
    seconds, corners, areas = fields[1::4], fields[2::4], fields[3::4]
    if seconds != sorted(seconds) or areas != sorted(areas) or fields[::4] != [*numbers]:
        return None
    return Rows(array("q", seconds), array("q", corners), array("q", areas))


class Animal:
    """The lines of one animal, the next of a report. Each is handed on as it was read; rows are kept where that is
    wanted, else the last alone."""

    def __init__(self, lines: Lines, levels: Sequence[int] | None, write: Callable[[str], object] = str,
                 keeps_rows: bool = False, reader: Reader | None = None) -> None:
        self.lines, self.write, self.reader = lines, write, reader or rows_in
        self.name = (lines.line.rstrip("\n").split(",") + [""])[1]
        (self.fixes,) = self.take(f"animal,{self.name},fixes,", 1)
        is_name = NAME.fullmatch(self.name) and len(self.name.encode(**{"errors": TEXT["errors"]})) <= 32
        self.need(bool(is_name), "no name of an animal")
        self.box = self.take(f"box,{self.name},", 4)
        self.rows = no_rows()
        self.take_rows(keeps_rows)
        self.need(self.last[0] > 0, "no corners")
        self.corners = self.polygon()
        self.percents = [self.percent(level) for level in levels or self.levels_ahead()]
        self.levels = [percent.level for percent in self.percents]
        self.need(bool(self.levels), "no percent line")

    def need(self, holds: bool, text: str) -> None:
        if not holds:
            self.lines.refuse(f"{self.name}: {text}")

    def take(self, head: str, count: int) -> list[int]:
        line = self.lines.line
        numbers = self.lines.take(head, count)
        self.write(line)
        return numbers

    def take_rows(self, keeps_rows: bool) -> None:
        """The rows of the first 1, 2, .. fixes. The last is that of all."""
        last = (0, 0, 0)
        for first in range(1, self.fixes + 1, PIECE):
            numbers = range(first, min(first + PIECE, self.fixes + 1))
            rows = self.lines.take_many(len(numbers), partial(self.rows_of, numbers, last)) or self.rows_by_line(numbers, last)
            last = rows.seconds[-1], rows.corners[-1], rows.areas[-1]
            for column, new in zip(self.rows, rows if keeps_rows else ()):
                column.extend(new)
        self.last = [*last[1:]]

    def rows_of(self, numbers: range, before: tuple[int, int, int], text: str) -> Rows | None:
        """The rows of so many fixes, behind another, if a text is they; None where it has to be looked at line by line."""
        rows = self.reader(text, f"row,{self.name},", numbers)
        if rows is None or rows.seconds[0] < before[0] or rows.areas[0] < before[2]:
            return None
        self.write(text)
        return rows

    def rows_by_line(self, numbers: range, before: tuple[int, int, int]) -> Rows:
        """The rows of so many fixes, behind another, line by line."""
        rows, last = no_rows(), before
        for n in numbers:
            second, corners, area = self.take(f"row,{self.name},{n},", 3)
            self.need(second >= last[0] and area >= last[2], "seconds or areas fall")
            last = second, corners, area
            for column, value in zip(rows, last):
                column.append(value)
        return rows

    def polygon(self) -> Corners:
        """The corners of the polygon of all fixes, which has the box and the area of all."""
        pairs = [self.take(f"corner,{self.name},{i},", 2) for i in range(1, self.last[0] + 1)]
        corners = [(easting, northing) for easting, northing in pairs]
        ends = [end(corner[axis] for corner in corners) for end in (min, max) for axis in (0, 1)]
        self.need(ends == self.box, "the corners are not of the box")
        self.need(min(corners) == corners[0], "the first corner is not the westernmost")
        self.need(doubled_area(corners) == self.last[1], "the corners are not of the area")
        self.need(is_convex(corners), "the corners are not those of a convex polygon")
        return corners

    def levels_ahead(self) -> Iterator[int]:
        """The level of each percent line of the animal that comes next."""
        while (found := LEVEL.fullmatch(self.lines.line)) and found[1] == self.name:
            yield int(found[2])

    def percent(self, level: int) -> Percent:
        """Takes the percent line of this level."""
        kept, corners, area = self.take(f"percent,{self.name},{level},", 3)
        self.need(level <= 100 and kept == kept_count(self.fixes, level), f"{kept} fixes are not {level} percent")
        self.need(area <= self.last[1] and 0 < corners <= kept, "no polygon of fixes that are kept")
        self.need(kept < self.fixes or [corners, area] == self.last, "all are kept, but it is not the last row")
        return Percent(level, kept, corners, area)


def overlaps_of(lines: Lines, fixes: Mapping[str, int]) -> dict[tuple[str, str], int]:
    """The lines of overlaps of these animals, behind which is the last line."""
    counts = lines.overlaps(fixes)
    lines.end(len(fixes))
    return {(name, other): count for name, own in counts.items()
            for other, count in zip((other for other in fixes if other != name), own)}


def parse(lines: Lines, reader: Reader | None = None) -> Report:
    """What a report says."""
    unit, tables = lines.unit(), dict[str, Table]()
    levels: list[int] | None = None
    while lines.line.startswith("animal,") or not tables:
        animal = Animal(lines, levels, keeps_rows=True, reader=reader)
        animal.need(animal.name not in tables, "it is there twice")
        tables[animal.name], levels = Table(animal.rows, animal.corners, animal.percents), animal.levels
    return Report(unit, tables, overlaps_of(lines, {name: table.fixes for name, table in tables.items()}))


def check_end(text: str, where: str, begin: str = "") -> None:
    """Refuses a report that does not end as one, of which this is the end, and this the beginning where it is known."""
    if END.fullmatch(text, text.rfind("\n", 0, -1) + 1) is None:
        what = "is cut off: its last line is not 'end,' with the number of animals"
        if text.endswith("\r\n"):
            what = "has lines that end in CR and LF, as Windows and some mails make them: take the file as the program wrote it"
        if begin and not BEGIN.match(begin):
            what = "is no report: it does not begin as one, with a line 'animal,NAME,fixes,NUMBER'"
        elif "\0" in text:
            what = "is no text in UTF-8: it has a byte 0, as files in UTF-16 have: write it in UTF-8"
        raise ReportError(f"{one_line(where)} {what}")


def lines_of(text: bytes, where: str) -> Lines:
    """The lines of a report that was read."""
    check_end(text[-LAST:].decode("latin-1"), where)
    return Lines(io.TextIOWrapper(io.BytesIO(text), **TEXT), where)


def read(path: str | os.PathLike[str], reader: Reader | None = None) -> Report:
    """The report in a file."""
    with open(path, "rb") as end:
        end.seek(max(os.path.getsize(path) - LAST, 0))
        last = end.read().decode("latin-1")
        end.seek(0)
        check_end(last, str(path), end.read(BEGINNING).decode("latin-1"))
    with open(path, **TEXT) as file:
        return parse(Lines(file, str(path)), reader)


def kept_count(fixes: int, level: int) -> int:
    """How many fixes a level keeps: its share, rounded up."""
    return (level * fixes + 99) // 100


def nearest(some: Iterable[tuple[int, int, int]], fixes: int, sums: tuple[int, int], count: int) -> list[int]:
    """Of some fixes, by their places in a track, eastings and northings, the places of so many: of those nearest to the mean of
    all, whose number and sums are known, of fixes as near the earlier. All is multiplied by the number of fixes, so that the
    numbers are whole and exact."""
    def distance(fix: tuple[int, int, int]) -> int:
        return (fixes * fix[1] - sums[0]) ** 2 + (fixes * fix[2] - sums[1]) ** 2

    return [place for place, _, _ in sorted(some, key=distance)[:count]]


def kept_places(eastings: Sequence[int], northings: Sequence[int], level: int) -> list[int]:
    """The places of the fixes that a level keeps."""
    fixes, all_fixes = len(eastings), zip(range(len(eastings)), eastings, northings)
    return sorted(nearest(all_fixes, fixes, (sum(eastings), sum(northings)), kept_count(fixes, level)))
