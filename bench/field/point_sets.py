"""Sets of points in the test data of other programs, as whole numbers that homerange takes.

A file has a set for each text of a geometry (WKT) and each of its bytes in hexadecimal digits (WKB), also where strings of
Java or C++ are cut over several lines, and one of all its lines that are two numbers, where there are three or more. Other
dimensions than the first two are left out.
"""

import math
import pathlib
import re
import struct
from collections.abc import Iterator
from dataclasses import dataclass
from fractions import Fraction

# The decimals of two coordinates.
Pair = tuple[str, str]
Points = tuple[tuple[int, int], ...]

SIDE = 1 << 24  # the greatest coordinate, in metres
# What is read of the sources that `apt-get source` unpacks, and of the tar files of Debian's libcgal-demo.
PARTS = ("cgal*", "geos*/tests", "jts*", "boost*/libs/geometry/test")
SUFFIXES = {"", ".c", ".cin", ".cpp", ".csv", ".dat", ".h", ".hpp", ".in", ".java", ".sql", ".txt", ".wkt", ".xml", ".xy"}
NUMBER = r"[-+]?(?:\d+\.?\d*|\.\d+)(?:[eE][-+]?\d{1,3})?"
POINT = re.compile(rf"({NUMBER})\s+({NUMBER})(?![\w.])")
LINE = re.compile(rf"^[ \t]*({NUMBER})[ \t]+({NUMBER})[ \t]*\r?$", re.MULTILINE)
STRINGS_JOINED = re.compile(r'"\s*\+?\s*"')
DIGITS = re.compile(r"\b0[01](?:[0-9A-Fa-f]{2}){8,}\b")
INSIDE = r"[-+.,\s\w]"
for _ in range(5):
    INSIDE = rf"(?:[-+.,\s\w]|\({INSIDE}*\))"
KINDS = r"(?:MULTI)?(?:POINT|LINESTRING|POLYGON)|GEOMETRYCOLLECTION|LINEARRING"
TEXT = re.compile(rf"\b(?:{KINDS})\s*(?:ZM|Z|M)?\s*\({INSIDE}*\)", re.IGNORECASE)


@dataclass(frozen=True)
class PointSet:
    """The file that a set is of, and its points in their order."""

    path: str
    points: Points


class GeometryBytes:
    """The points of a geometry's bytes, with what ISO and PostGIS add for other dimensions."""

    def __init__(self, data: bytes) -> None:
        self.data = data
        self.at = 0

    def take(self, form: str) -> tuple[float, ...]:
        values = struct.unpack_from(form, self.data, self.at)
        self.at += struct.calcsize(form)
        return values

    def count(self, order: str) -> int:
        return int(self.take(f"{order}I")[0])

    def points(self, order: str, size: int, count: int) -> list[Pair]:
        values = self.take(f"{order}{count * size}d")
        pairs = zip(values[::size], values[1::size])
        return [(repr(x), repr(y)) for x, y in pairs if math.isfinite(x) and math.isfinite(y)]

    def geometry(self) -> list[Pair]:
        order = "<" if self.take("B")[0] else ">"
        word = self.count(order)
        if word & 1 << 29:
            self.count(order)
        thousands, kind = divmod(word & 0xFFFFFFF, 1000)
        size = 2 + max((0, 1, 1, 2)[thousands], (word >> 31 & 1) + (word >> 30 & 1))
        if kind <= 2:
            return self.points(order, size, self.count(order) if kind == 2 else 1)
        if kind == 3:
            return [pair for _ in range(self.count(order)) for pair in self.points(order, size, self.count(order))]
        if kind <= 7:
            return [pair for _ in range(self.count(order)) for pair in self.geometry()]
        raise ValueError(f"no kind {kind}")


def points_of_digits(digits: str) -> list[Pair]:
    """The points of these digits, none where they are no geometry."""
    try:
        return GeometryBytes(bytes.fromhex(digits)).geometry()
    except (ValueError, IndexError, struct.error):
        return []


def pairs_in(text: str) -> Iterator[list[Pair]]:
    """The sets of a text of a file, some of them empty."""
    joined = STRINGS_JOINED.sub("", text)
    yield from (POINT.findall(found[0]) for found in TEXT.finditer(joined))
    yield from (points_of_digits(found[0]) for found in DIGITS.finditer(joined))
    lines = LINE.findall(text)
    yield lines if len(lines) > 2 else []


def whole_numbers(pairs: tuple[Pair, ...]) -> Points:
    """The one rule for all sets: decimals are multiplied by the least whole number that makes all of them whole, and
    shifted until the least of both coordinates is 0. If a side is then longer than 2^24, they are scaled until it is
    2^24, and rounded."""
    fractions = [Fraction(number) for pair in pairs for number in pair]
    factor = math.lcm(*(fraction.denominator for fraction in fractions))
    wholes = [fraction.numerator * (factor // fraction.denominator) for fraction in fractions]
    least = min(wholes[::2]), min(wholes[1::2])
    axes = [[number - least[axis] for number in wholes[axis::2]] for axis in (0, 1)]
    side = max(*axes[0], *axes[1])
    if side > SIDE:
        axes = [[(2 * number * SIDE + side) // (2 * side) for number in axis] for axis in axes]
    return tuple(zip(axes[0], axes[1]))


def files_in(folder: pathlib.Path) -> Iterator[pathlib.Path]:
    """The files of test data below a folder, in the order of their paths."""
    tops = sorted(top for part in PARTS for top in folder.glob(part))
    yield from (path for top in tops for path in sorted(top.rglob("*")) if path.suffix in SUFFIXES and path.is_file())


def all_sets(folder: pathlib.Path, longest: int) -> Iterator[PointSet]:
    """The first points of each set, so many at most. Sets that came before are left out."""
    seen: set[tuple[object, ...]] = set()
    for path in files_in(folder):
        for pairs in pairs_in(path.read_text("latin-1")):
            decimals = tuple(pairs[:longest])
            points = whole_numbers(decimals) if decimals and decimals not in seen else ()
            if points and points not in seen:
                yield PointSet(str(path.relative_to(folder)), points)
            seen |= {decimals, points}
