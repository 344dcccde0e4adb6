"""Where the map of a picture shows what: its frame over the ground, the fixes that are drawn, and the places of animals' numbers, as
on the page."""

from __future__ import annotations

from itertools import islice
from typing import TYPE_CHECKING, Iterable, NamedTuple, Sequence, TypeVar, Union

import numpy
import pandas

from .boundary import Point

if TYPE_CHECKING:
    from numpy.typing import NDArray

Fixes = Union[Sequence[Point], "NDArray[numpy.float64]"]
Side = TypeVar("Side", float, "NDArray[numpy.float64]")  # one number, or those of many points
Box = tuple[float, float, float, float]  # west, south, east, north

LEFT = 15.0  # room of the frame that a map leaves on the left
MARGIN = 1.12  # how much wider the frame is than what is drawn
STYLES = 8  # kinds of lines, from the highest level on
AROUND = ((0, -1), (0.7, -0.7), (1, 0), (0.7, 0.7), (0, 1), (-0.7, 0.7), (-1, 0), (-0.7, -0.7))


class Step(NamedTuple):
    """The distance from one line of a grid to the next: 1, 2 or 5 times a power of ten."""

    digit: int
    power: int

    @property
    def size(self) -> float:
        return self.value(1)

    def value(self, count: int) -> float:
        """So many steps, without the errors of a sum."""
        many = count * self.digit
        power: float = 10.0 ** abs(self.power)
        return many * power if self.power >= 0 else many / power

    def text(self, count: int) -> str:
        return f"{self.value(count):,.{max(0, -self.power)}f}"


def step_of(span: float, most: int) -> Step:
    """The least step of which a span has at most so many."""
    steps = (Step(digit, power) for power in range(-3, 12) for digit in (1, 2, 5))
    return next(step for step in steps if span <= most * step.size)


class Shape(NamedTuple):
    """What is drawn of an animal, in metres: its number, polygons from the highest level on, and fixes, none where they
    are not known."""

    number: int
    polygons: Sequence[Sequence[Point]]
    fixes: Fixes


def box_of(points: Iterable[Point]) -> Box:
    eastings, northings = zip(*points)
    return min(eastings), min(northings), max(eastings), max(northings)


def box_of_shapes(shapes: Sequence[Shape]) -> Box:
    """The box of the polygons and fixes of animals."""
    ends = (points for shape in shapes for points in (*shape.polygons, ends_of(shape.fixes)))
    return box_of(point for points in ends for point in points)


def ends_of(fixes: Fixes) -> list[Point]:
    """Two corners of the box of fixes; none where there is no fix."""
    eastings, northings = numpy.asarray(fixes, dtype="float64").reshape(-1, 2).T
    return [(float(end(eastings)), float(end(northings))) for end in (numpy.min, numpy.max)] if len(eastings) else []


def side(box: Box) -> float:
    """The longer side of a box."""
    return max(box[2] - box[0], box[3] - box[1])


class Frame:
    """A frame of a drawing over a box of the ground."""

    def __init__(self, box: Box, least: float, width: float, lowest: float, highest: float) -> None:
        spans = [MARGIN * max(box[at + 2] - box[at], least) for at in (0, 1)]
        self.width = width - LEFT - 1
        self.height = min(max(self.width * spans[1] / spans[0], lowest), highest)
        self.scale = min(self.width / spans[0], self.height / spans[1])
        self.west = (box[0] + box[2]) / 2 - self.width / self.scale / 2
        self.south = (box[1] + box[3]) / 2 - self.height / self.scale / 2

    def at(self, point: tuple[Side, Side]) -> tuple[Side, Side]:
        """The place of a point in the frame, whose first corner is above on the left."""
        return (point[0] - self.west) * self.scale, self.height - (point[1] - self.south) * self.scale

    def ground(self) -> Box:
        """The box of the ground that the frame shows."""
        return self.west, self.south, self.west + self.width / self.scale, self.south + self.height / self.scale


def thinned(fixes: Fixes, frame: Frame, cell: float) -> list[Point]:
    """The places of fixes, the first in each cell of the drawing."""
    eastings, northings = numpy.asarray(fixes, dtype="float64").reshape(-1, 2).T
    x, y = frame.at((eastings, northings))
    cells = 2 ** 32 * (x // cell).astype("int64") + (y // cell).astype("int64")
    is_first = ~pandas.Series(cells).duplicated().to_numpy()
    return list(zip(x[is_first].tolist(), y[is_first].tolist()))


def length_text(step: Step) -> str:
    """A length on the ground."""
    return Step(step.digit, step.power - 3).text(1) + " km" if step.power >= 3 else step.text(1) + " m"


def overlaps(one: Box, other: Box) -> bool:
    return one[0] < other[2] and other[0] < one[2] and one[1] < other[3] and other[1] < one[3]


class Numbers:
    """Puts the numbers of animals where they cover no other."""

    def __init__(self, frame: Frame, size: float) -> None:
        self.frame, self.size, self.taken = frame, size, list[Box]()

    def find(self, shape: Shape) -> tuple[Point, Point]:
        """Where the innermost polygon of an animal has its middle, and the place of its number there or near it."""
        west, south, east, north = box_of(shape.polygons[-1])
        middle = self.frame.at(((west + east) / 2, (south + north) / 2))
        half = 0.31 * self.size * len(str(shape.number)) + 1
        is_flat = len(shape.polygons[-1]) < 3  # and would be covered
        free = (at for at in islice(self.places(*middle), int(is_flat), None) if self.is_free(at, half))
        at = next(free, middle)
        self.taken.append(self.box(at, half))
        return middle, at

    def has_leader(self, middle: Point, at: Point) -> bool:
        """Whether a number stands so far from the middle that a line leads to it."""
        return abs(at[0] - middle[0]) + abs(at[1] - middle[1]) > 1.5 * self.size

    def places(self, x: float, y: float) -> Iterable[Point]:
        """Places around one, nearer ones first."""
        yield x, y
        for ring in range(1, 16):
            for right, down in AROUND:
                yield x + 0.7 * ring * self.size * right, y + 0.7 * ring * self.size * down

    def box(self, at: Point, half: float) -> Box:
        return at[0] - half, at[1] - self.size / 2, at[0] + half, at[1] + self.size / 2

    def is_free(self, at: Point, half: float) -> bool:
        """Whether a number fits there."""
        box = self.box(at, half)
        is_within = box[0] >= 0 and box[1] >= 0 and box[2] <= self.frame.width and box[3] <= self.frame.height
        return is_within and not any(overlaps(box, other) for other in self.taken)


def corners(box: Box) -> list[Point]:
    return [(box[0], box[1]), (box[2], box[3])]
