"""The lines of a report, each computed anew from the files of fixes, by other methods than the program's: polygons by
`hull.py`, distances as whole multiples, of which only those at the edge of a level are put in order, and overlaps by strips,
and where these leave a doubt by the edge that a fix's direction falls on. Names are bytes, which stand as letters of
Latin-1."""

from __future__ import annotations

import csv
import io
import itertools
import re
from bisect import bisect_left, bisect_right
from collections import Counter
from pathlib import Path
from typing import Iterable, Iterator, NamedTuple, Sequence

from .hull import Hull, Point, Strips

Counts = dict[tuple[int, int], int]  # of fixes, by the places of two ranges

TITLES = ["animal", "second", "easting", "northing"]
NUMBER = re.compile("[0-9]{1,13}")  # as a file may have it
ROWS = 256  # of a file that are read together
IN_RING = 7  # bits of the number of points that a ring may have
SOME = 32  # of so many points one is taken first
BITS, MOST_BITS = 8, 16  # a range has about 2 ** 8 strips, and at most 2 ** 16
TOGETHER, PLACE = 32, 32  # ranges whose fixes are counted together, and the bits of a count
MARKS = ("\xef\xbb\xbf", "\xef\xbb\xbf")  # a byte order mark, of which a file may have two


class Fault(Exception):
    """What does not hold, in words for one line."""


class Track(NamedTuple):
    """The used fixes of a file, and how many it has that are not used."""

    name: str
    seconds: list[int]
    points: list[Point]
    unused: int


def rows_of(text: str, path: Path) -> Iterator[list[list[str]]]:
    """The rows of a file that are not empty, many at once."""
    rows = (row for row in csv.reader(io.StringIO(text, newline="")) if row)
    try:
        while some := list(itertools.islice(rows, ROWS)):
            yield some
    except csv.Error as fault:
        raise Fault(f"{path.name} is no table: {fault}") from None


def check_unused(rows: Sequence[Sequence[str]]) -> None:
    """Refuses rows that are not used and have other things than numbers."""
    if not all(NUMBER.fullmatch(field) for row in rows if row[4:] == ["0"] for field in row[1:4]):
        raise ValueError


def read_track(path: Path) -> Track:
    text = path.read_bytes().decode("latin-1")
    for mark in MARKS:
        text = text.removeprefix(mark)
    pieces = rows_of(text, path)
    first = next(pieces, list[list[str]]())
    if first[:1] not in ([TITLES], [[*TITLES, "use"]]):
        raise Fault(f"{path.name} does not begin with the titles of a file of fixes")
    names, seconds, points, records = set[str](), list[int](), list[Point](), 0
    try:
        for rows in itertools.chain([first[1:]], pieces):
            if {*map(len, rows)} - {len(first[0])}:
                raise ValueError
            used = [row for row in rows if row[4:] != ["0"]]
            if len(used) < len(rows):
                check_unused(rows)
            seconds += [int(row[1]) for row in used]
            points += [(int(row[2]), int(row[3])) for row in used]
            names.update(row[0] for row in rows)
            records += len(rows)
        (name,) = names
    except ValueError:
        raise Fault(f"{path.name} is no file of the fixes of one animal") from None
    return Track(name, seconds, points, records - len(points))


def box_of(points: Sequence[Point]) -> tuple[int, int, int, int]:
    """The least easting and northing, and the greatest."""
    eastings, northings = ([point[axis] for point in points] for axis in (0, 1))
    return min(eastings), min(northings), max(eastings), max(northings)


def hull_of(points: Sequence[Point]) -> Hull:
    """The polygon of points. A few of them come first, which cover most of the others."""
    hull = Hull()
    for some in (points[::SOME], points):
        for _ in hull.add_all(some):
            pass
    return hull


class Distances:
    """How far points are from their mean: the squares of that, as whole multiples, and rings round it, of which a nearer one
    has the nearer points."""

    def __init__(self, points: Sequence[Point]) -> None:
        count, self.points = len(points), points
        east, north = (sum(point[axis] for point in points) for axis in (0, 1))
        self.far = [(count * e - east) ** 2 + (count * n - north) ** 2 for e, n in points]
        shift = max(max(self.far).bit_length() - count.bit_length() + IN_RING, 0)
        self.rings = [distance >> shift for distance in self.far]
        self.sizes = sorted(Counter(self.rings).items())

    def kept(self, level: int) -> Sequence[Point]:
        """The points that a level keeps: its share of them, rounded up, nearest to the mean; of those as near the earlier."""
        rest = -(-level * len(self.points) // 100)
        if rest == len(self.points):
            return self.points
        for last, size in self.sizes:
            if size >= rest:
                break
            rest -= size
        edge = sorted((at for at, ring in enumerate(self.rings) if ring == last), key=self.far.__getitem__)
        within = [point for point, ring in zip(self.points, self.rings) if ring < last]
        return within + [self.points[at] for at in edge[:rest]]


class Percent(NamedTuple):
    """The polygon of the fixes that a level keeps."""

    kept: int
    hull: Hull


class Range:
    """What is computed of a track: the polygon of all fixes, its corners and doubled area after each of them, and the
    polygons of the levels."""

    def __init__(self, track: Track, levels: Sequence[int]) -> None:
        self.track, self.box, self.hull = track, box_of(track.points), Hull()
        self.curve: list[tuple[int, int]] = []
        last = (0, 0)
        for before in self.hull.add_all(track.points):
            self.curve += [last] * (before - len(self.curve))
            last = len(self.hull), self.hull.area2
        self.curve += [last] * (len(track.points) - len(self.curve))
        distances = Distances(track.points)
        self.percents = {level: self.percent(distances.kept(level)) for level in levels}

    def percent(self, points: Sequence[Point]) -> Percent:
        """The polygon of the fixes that a level keeps, which of all is there."""
        return Percent(len(points), self.hull if len(points) == len(self.curve) else hull_of(points))


def table_lines(own: Range) -> Iterator[str]:
    """The lines of one animal, without their ends."""
    name = own.track.name
    yield f"animal,{name},fixes,{len(own.curve)}"
    yield "box,{},{},{},{},{}".format(name, *own.box)
    for n, (second, (corners, area2)) in enumerate(zip(own.track.seconds, own.curve), 1):
        yield f"row,{name},{n},{second},{corners},{area2}"
    for i, (easting, northing) in enumerate(own.hull.corners(), 1):
        yield f"corner,{name},{i},{easting},{northing}"
    for level, percent in own.percents.items():
        yield f"percent,{name},{level},{percent.kept},{len(percent.hull)},{percent.hull.area2}"


class Strip(NamedTuple):
    """The fixes of several ranges that lie in a strip, from the southernmost on: their northings, themselves, each with the
    number of its range, and how many of the first of them each range has, as one number of places of ``PLACE`` bits."""

    northings: list[int]
    fixes: list[tuple[int, int, int]]
    before: list[int]


def strip_of(fixes: list[tuple[int, int, int]]) -> Strip:
    fixes.sort()
    ones = (1 << PLACE * number for _, _, number in fixes)
    return Strip([northing for northing, _, _ in fixes], fixes, [0, *itertools.accumulate(ones)])


class Polygon:
    """The polygon of all fixes of a range by strips of 2 ** shift eastings: from where to where it may have points in each,
    and between them from where to where it surely covers all."""

    def __init__(self, own: Range, shift: int) -> None:
        self.hull, corners, (west, _, east, _) = own.hull, own.hull.corners(), own.box
        strips = Strips(corners, west >> shift << shift, east, shift)
        least, most = strips.bounds(corners)
        self.strips = dict(enumerate(zip(least, strips.low, strips.high, most), west >> shift))


class Fixes:
    """The fixes of several ranges by strips of 2 ** shift eastings."""

    def __init__(self, ranges: Sequence[Range], shift: int) -> None:
        strips: dict[int, list[tuple[int, int, int]]] = {}
        for number, own in enumerate(ranges):
            for easting, northing in own.track.points:
                strips.setdefault(easting >> shift, []).append((northing, easting, number))
        self.strips = {at: strip_of(fixes) for at, fixes in strips.items()}
        self.ranges = len(ranges)

    def within(self, polygon: Polygon) -> list[int]:
        """How many fixes of each range lie in a polygon, its edges included."""
        found = 0
        for at, (least, low, high, most) in polygon.strips.items():
            if at in self.strips:
                northings, fixes, before = self.strips[at]
                first, last = bisect_left(northings, least), bisect_right(northings, most)
                south, north = (bisect_left(northings, low), bisect_right(northings, high)) if low <= high else (first, first)
                found += before[north] - before[south]
                for northing, easting, number in (*fixes[first:south], *fixes[north:last]):
                    found += polygon.hull.covers((easting, northing)) << PLACE * number
        return [found >> PLACE * number & (1 << PLACE) - 1 for number in range(self.ranges)]


def width_of_strips(ranges: Sequence[Range]) -> int:
    """How many bits of an easting do not tell strips: most ranges have many strips, and none too many of them."""
    widths = sorted(own.box[2] - own.box[0] for own in ranges)
    return max(widths[len(widths) // 2].bit_length() - BITS, widths[-1].bit_length() - MOST_BITS, 0)


def overlaps_of(ranges: Sequence[Range]) -> Counts:
    """Of each two ranges how many fixes of the one lie in the polygon of the other, edges included, by their places."""
    if len(ranges) < 2:
        return {}
    shift, counts = width_of_strips(ranges), dict[tuple[int, int], int]()
    polygons = [Polygon(own, shift) for own in ranges]
    for first in range(0, len(ranges), TOGETHER):
        fixes = Fixes(ranges[first:first + TOGETHER], shift)
        for other, polygon in enumerate(polygons):
            counts.update(((one, other), count) for one, count in enumerate(fixes.within(polygon), first))
    return {(one, other): counts[one, other] for one, other in itertools.permutations(range(len(ranges)), 2)}


def report_lines(ranges: Sequence[Range], overlaps: Counts, unit: str) -> Iterator[str]:
    """All lines of the report of some ranges."""
    if unit == "dm":
        yield "unit,dm"
    for own in ranges:
        yield from table_lines(own)
    for (one, other), count in overlaps.items():
        yield f"overlap,{ranges[one].track.name},{ranges[other].track.name},{count},{len(ranges[one].curve)}"
    yield f"end,{len(ranges)}"


def first_difference(content: bytes, wanted: Iterable[str]) -> tuple[str | None, int]:
    """Where a report is not the lines that are wanted, and how many lines were compared."""
    found = content.decode("latin-1").split("\n")
    if found.pop():
        return "its last line has no end", 0
    count = 0
    for count, (line, other) in enumerate(itertools.zip_longest(found, wanted), 1):
        if line != other:
            was, wish = (kind if each is None else shown(each) for each, kind in ((line, "not there"), (other, "nothing")))
            return f"line {count} is {was}; {wish} is wanted", count
    return None, count


def shown(line: str) -> str:
    """A line as what is said has it."""
    return repr(line.encode("latin-1").decode("utf-8", "replace"))
