"""The map of ranges by matplotlib: polygons of levels over fixes and a boundary, numbers at the polygons, a bar of scale and
an arrow to the north. Frame, thinning and numbers are those of the page's map."""

from __future__ import annotations

from typing import Any, Sequence

from .boundary import Point, rings_of
from .plot_frame import (
    STYLES, Box, Frame, Numbers, Shape, box_of, box_of_shapes, corners, length_text, side, step_of, thinned,
)
from ..ranges.home import HomeRanges
from ..ranges.reserve import boundary_of
from .plot_style import ALONE, EDGE, LEVELS, SMALL, Drawn, halo

WIDE = 2500.0  # metres of a map from which on its axes are in kilometres
LEAST = {"m": 100.0, "dm": 10.0}  # metres that a map is wide at least, whose fixes may all lie in one place
CELL = 1.0  # points: of fixes that would cover each other one is drawn
MOST_DOTS = 20_000
WIDTH, LOWEST, HIGHEST = 480.0, 250.0, 560.0  # points of the axes of a new figure
FOOT = 26.0  # points below the ranges, for the bar of scale
MANY = 40  # animals from which on lines are thin


def shapes_of(ranges: HomeRanges, drawn: Sequence[Drawn], levels: Sequence[int], has_fixes: bool) -> list[Shape]:
    """What is drawn of each animal."""
    polygons = [ranges.corners(level) for level in levels]
    found = []
    for animal in drawn:
        fixes = ranges.fixes(animal.name) if has_fixes else None
        found.append(Shape(animal.number, [own[animal.name] for own in polygons], [] if fixes is None else fixes))
    return found


def rings_over(ranges: HomeRanges, over: Any) -> list[list[Point]]:
    """The rings of a boundary, in the reference system of the ranges."""
    return [] if over is None else rings_of(boundary_of(over, ranges.crs, ranges.box, "over"))


def said_of_unseen(rings: Sequence[Sequence[Point]], view: Box) -> list[str]:
    """What is said of a boundary of which no edge is on a map that shows so much of the ground."""
    from shapely import geometry

    seen, shapes = geometry.box(*view), [geometry.Polygon(ring) for ring in rings]
    if not rings or any(shape.exterior.intersects(seen) for shape in shapes):
        return []
    is_within = sum(shape.contains(seen) for shape in shapes) % 2 == 1  # a ring within another is a hole
    return [f"no edge of the boundary is on this map, which lies {'within it' if is_within else 'outside of it'}"]


def box_drawn(shapes: Sequence[Shape], rings: Sequence[Sequence[Point]], least: float) -> Box:
    """What a map shows: all ranges, and the boundary, where it is not so much wider that they would not be seen."""
    box = box_of_shapes(shapes)
    whole = box_of([*corners(box), *(point for ring in rings for point in ring)])
    return whole if side(whole) <= 6 * max(side(box), least) else box


class Map:
    """A map in axes of matplotlib, in metres or kilometres."""

    def __init__(self, axes: Any, frame: Frame) -> None:
        self.axes, self.frame = axes, frame
        west, south, east, north = frame.ground()
        south -= FOOT / frame.scale
        self.scale, self.sign = (1000, "km") if max(east - west, north - south) >= WIDE else (1, "m")
        axes.set_aspect("equal", adjustable="box", anchor="NW")
        axes.set_xlim(west / self.scale, east / self.scale)
        axes.set_ylim(south / self.scale, north / self.scale)
        axes.set(xlabel=f"Easting ({self.sign})", ylabel=f"Northing ({self.sign})")

    def units(self, points: Sequence[Point]) -> tuple[list[float], list[float]]:
        """Eastings and northings in the unit of the axes."""
        return [east / self.scale for east, _ in points], [north / self.scale for _, north in points]

    def ground(self, at: Point) -> Point:
        """The point on the ground of a place in the frame."""
        west, south, _, _ = self.frame.ground()
        return west + at[0] / self.frame.scale, south + (self.frame.height - at[1]) / self.frame.scale

    def draw_over(self, rings: Sequence[Sequence[Point]]) -> None:
        """The boundary."""
        for ring in rings:
            self.axes.plot(*self.units([*ring, ring[0]]), color=EDGE, linewidth=2.4, zorder=1.5)

    def draw_fixes(self, shapes: Sequence[Shape], drawn: Sequence[Drawn]) -> None:
        """The fixes, as few as cover the same."""
        cell = CELL
        places = [thinned(shape.fixes, self.frame, cell) for shape in shapes]
        while sum(map(len, places)) > MOST_DOTS:
            cell *= 1.5
            places = [thinned(shape.fixes, self.frame, cell) for shape in shapes]
        is_dense = sum(map(len, places)) > 200 or self.frame.width < WIDTH / 2
        dot = {"s": 3, "alpha": 0.35} if is_dense else {"s": 12, "alpha": 0.7}
        for animal, own in zip(drawn, places):
            if own:
                points = list(map(self.ground, own))
                self.axes.scatter(*self.units(points), color=animal.colour, linewidths=0, zorder=2, **dot)

    def draw_polygons(self, shapes: Sequence[Shape], drawn: Sequence[Drawn]) -> None:
        """The polygons, those of the highest level below the others. What has no area is a cross or a line."""
        count = max(len(shape.polygons) for shape in shapes)
        for at in range(count):
            width, dashes, dark = LEVELS[at % STYLES] if count > 1 else ALONE
            width = width / 2 if len(shapes) > MANY else width
            for shape, animal in zip(shapes, drawn):
                ring = [*shape.polygons[at], shape.polygons[at][0]]
                marker = "+" if len(shape.polygons[at]) == 1 else None
                self.axes.fill(*self.units(ring), color=animal.colour, alpha=dark, linewidth=0, zorder=2.5)
                self.axes.plot(*self.units(ring), color=animal.colour, linewidth=width, linestyle=dashes, marker=marker, zorder=3)

    def draw_numbers(self, shapes: Sequence[Shape], drawn: Sequence[Drawn]) -> None:
        """The numbers of animals, where they cover no other."""
        size = 9.0 if len(shapes) <= MANY else SMALL
        numbers = Numbers(self.frame, size)
        for shape, animal in zip(shapes, drawn):
            middle, place = numbers.find(shape)
            (x, to_x), (y, to_y) = self.units([self.ground(middle), self.ground(place)])
            if numbers.has_leader(middle, place):
                self.axes.plot([x, to_x], [y, to_y], color="#888888", linewidth=0.5, zorder=3.5)
            self.axes.text(to_x, to_y, str(animal.number), color=animal.colour, fontsize=size, fontweight="bold", ha="center",
                           va="center", path_effects=halo(), zorder=4, clip_on=True)

    def draw_scale(self) -> None:
        """The bar of scale and the arrow to the north, below on the left."""
        west, _, east, _ = self.frame.ground()
        step = step_of((east - west) / 6, 1)
        length = step.size * self.frame.scale
        around = {"xycoords": "axes points", "textcoords": "axes points", "zorder": 5}
        self.axes.annotate("", (24, 6), xytext=(24 + length, 6), **around,
                           arrowprops={"arrowstyle": "|-|,widthA=0.2,widthB=0.2", "linewidth": 1, "shrinkA": 0, "shrinkB": 0})
        self.axes.annotate(length_text(step), (24, 6), xytext=(24 + length / 2, 9), **around, ha="center", fontsize=SMALL)
        self.axes.annotate("N", (10, 20), xytext=(10, 3), **around, ha="center", fontsize=SMALL,
                           arrowprops={"arrowstyle": "-|>", "color": "black", "linewidth": 0.8, "shrinkA": 1, "shrinkB": 0})


def frame_of(ranges: HomeRanges, shapes: Sequence[Shape], rings: Sequence[Sequence[Point]],
             size: tuple[float, float] | None) -> Frame:
    """The frame of a map in axes of this size, in points, or in a new figure."""
    least = LEAST[ranges.unit]
    box = box_drawn(shapes, rings, least)
    if size is not None:
        return Frame(box, least, size[0], size[1] - FOOT, size[1] - FOOT)
    more = 1.3 if len(shapes) > MANY else 1.0
    return Frame(box, least, more * WIDTH, LOWEST, more * HIGHEST)
