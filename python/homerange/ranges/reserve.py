"""The boundary of a reserve, all its shapes together, in the reference system of the ranges. Each shape is looked at, and goes straight
in its own system: so long edges get points between their ends before they are turned."""

from __future__ import annotations

import math
import os
from typing import Any, List, Sequence, Tuple

import numpy
import pandas
from numpy.typing import NDArray

from ..errors import refuse
from ..read.cells import row_named
from ..read.reading import tell

Bounds = Tuple[float, float, float, float]  # the least easting and northing, and the greatest
Shapes = List[Any]
Side = NDArray[numpy.float64]

AROUND = 100_000  # metres around the ranges, to where a boundary is taken that is too wide for their system
LONGEST_DEGREES, LONGEST_METRES = 0.005, 500.0  # of an edge, behind which it gets a point: so a straight one is off by millimetres
MISSED = 0.02  # of the longest edge, by which a place may miss itself that is turned to another system and back
TORN = 100_000  # metres from one such point to the next, where an edge is torn apart
HALF_TURN = 180
HELP_LONG = ("if it crosses the date line, count its longitudes on beyond 180, as by GeoSeries([shapely.ops.transform("
             "lambda x, y: (x % 360, y), shape) for shape in reserve.geometry], crs=reserve.crs); if it goes the long way, give it "
             "corners between")
HELP_WIDE = ("the reserve reaches to where the CRS of the ranges has no places: cut it to the surroundings of the ranges before, as by "
             "reserve.clip(box)")


def boundary_of(reserve: Any, crs: Any, box: Bounds, name: str = "reserve") -> Any:
    """The shape of a reserve, in the reference system of ranges that lie in this box."""
    own = getattr(reserve, "crs", None)
    if is_of_geopandas(reserve):
        if (own is None) != (crs is None):
            who, how = ("reserve has", "reserve.set_crs(..)") if own is None else (
                "ranges have", "home_range(.., crs=..), or by read_report(.., crs=..)")
            refuse(f"the {who} no CRS, and the other has: name it, as by {how}", "crs")
        shapes = checked_shapes(reserve, own is not None and own.is_geographic)
        tell(said_of_rest(reserve))
    elif hasattr(reserve, "intersection") and isinstance(getattr(reserve, "geom_type", None), str):
        check_shape(reserve, "", "shapely.validation.make_valid(reserve)")
        shapes = [reserve]
    else:
        refuse(f"{name} is neither a GeoDataFrame with a geometry, a GeoSeries nor a shape of shapely: {help_for(reserve).replace('reserve', name)}")
    refuse_flat(shapes, is_of_geopandas(reserve))
    boundary = union_of(shapes if own is None or own == crs else turned_shapes(shapes, own, crs, box))
    if own is None and is_in_degrees(boundary.bounds) and not meets(boundary.bounds, box):
        refuse("the reserve has no CRS, and lies as longitude and latitude do: make a GeoSeries of it with its CRS, which is taken "
               "to that of the ranges", "degrees")
    tell(said_of_far(boundary, box))
    return boundary


def help_for(reserve: Any) -> str:
    """What makes a boundary of something else."""
    if isinstance(reserve, (str, os.PathLike)):
        return "read its file, as by geopandas.read_file(reserve)"
    if isinstance(reserve, pandas.Series):
        return "take the shape of a row, as by reserve['geometry']"
    if isinstance(reserve, pandas.DataFrame):
        return "make a GeoDataFrame of a table with shapes, as by geopandas.GeoDataFrame(reserve, geometry='geometry', crs=..)"
    return "make a GeoSeries of shapes, as by geopandas.GeoSeries(reserve, crs=..)"


def refuse_flat(shapes: Shapes, are_several: bool) -> None:
    """Refuses shapes of which none has an area."""
    if any(shape.area for shape in shapes):
        return
    lines = "[*shapely.ops.polygonize(reserve.geometry)], crs=reserve.crs" if are_several else "[*shapely.ops.polygonize(reserve)]"
    if not any(not shape.is_empty for shape in shapes):
        refuse("the reserve has no area: there is no shape in it")
    if any(shape.length for shape in shapes):
        refuse(f"the reserve has no area: it is of lines, and polygons are wanted; geopandas.GeoSeries({lines}) makes them of closed lines")
    refuse("the reserve has no area: it is of points, and polygons are wanted")


def said_of_rest(reserve: Any) -> list[str]:
    """What is said of the rows of a table or a column whose shapes bound nothing beside others."""
    shapes = [*reserve.geometry]
    if not any(shape is not None and shape.area for shape in shapes):
        return []
    are_empty = [shape is None or shape.is_empty for shape in shapes]
    left = {"a shape": [at for at, is_empty in enumerate(are_empty) if is_empty],
            "an area": [at for at, shape in enumerate(shapes) if not are_empty[at] and not shape.area]}
    return [f"left out of the reserve, without {what}: {', '.join(row_named(reserve.index, at) for at in rows[:5])}"
            + (f" and {len(rows) - 5} more" if len(rows) > 5 else "") for what, rows in left.items() if rows]


def said_of_far(boundary: Any, ranges: Bounds) -> list[str]:
    """What is said of a boundary that lies far from all ranges: their boxes do not meet, though each is widened by its own longer
    side."""
    away = f"more than {AROUND // 1000}"  # of one that was cut there
    if not boundary.is_empty:
        boxes = (boundary.bounds, ranges)
        gaps = [max(own[at] for own in boxes) - min(own[at + 2] for own in boxes) for at in (0, 1)]
        if max(gaps) <= sum(max(own[2] - own[0], own[3] - own[1]) for own in boxes):
            return []
        away = f"at least {math.hypot(*(max(gap, 0) for gap in gaps)) / 1000:.1f}"
    return [f"the reserve lies {away} km away from all ranges: is it the right one, and its CRS?"]


def is_of_geopandas(reserve: Any) -> bool:
    """Whether a reserve is a table or a column of shapes."""
    is_table = hasattr(reserve, "set_crs") and hasattr(reserve, "geometry")  # which a data frame of pandas is not
    has_shapes = hasattr(reserve, "geometry") and hasattr(reserve, "geom_type") and not isinstance(reserve.geom_type, str)
    return is_table or has_shapes


def checked_shapes(reserve: Any, are_degrees: bool) -> Shapes:
    """The shapes of a table or a column, each of which is a boundary."""
    shapes = [*reserve.geometry]
    for at, shape in enumerate(shapes):
        if shape is not None:
            check_shape(shape, f"{row_named(reserve.index, at)}: ", "reserve.make_valid()", are_degrees)
    return [shape for shape in shapes if shape is not None and not shape.is_empty]


def check_shape(shape: Any, where: str, helps: str, are_degrees: bool = False) -> None:
    """Refuses a shape that bounds nothing, with where it stands."""
    from shapely.validation import explain_validity

    if not shape.is_empty and not numpy.isfinite(shape.bounds).all():
        refuse(f"{where}the boundary of the reserve has a corner that is no number: mend it, or leave it out")
    if are_degrees and not shape.is_empty and (numpy.abs(numpy.round(shape.bounds, 6)) > (2 * HALF_TURN, HALF_TURN / 2) * 2).any():
        refuse(f"{where}the boundary of the reserve goes to {shape.bounds[2]:.10g}, {shape.bounds[3]:.10g}, which is no longitude and latitude, "
               "though its CRS is of these: if it is in metres, name their CRS, as by reserve.set_crs(32633, allow_override=True)")
    step = longest_step(shape) if are_degrees else 0
    if step > HALF_TURN:
        refuse(f"{where}the boundary of the reserve has an edge of {step:.10g} degrees of longitude: {HELP_LONG}")
    if not shape.is_valid:
        why = explain_validity(shape)
        if "Invalid Coordinate" in why:
            refuse(f"{where}the boundary of the reserve has a corner that is no number: mend it, or leave it out")
        what = "has a hole that lies outside of it" if why.startswith("Hole") else "crosses itself"
        refuse(f"{where}the boundary of the reserve {what}: mend it, as by {helps}")


def longest_step(shape: Any) -> float:
    """How far two corners of a shape, one behind the other, lie apart in longitude, at most.
    A full circle apart they are one place."""
    if hasattr(shape, "geoms"):
        return max(map(longest_step, shape.geoms), default=0)
    rings = [shape.exterior, *shape.interiors] if hasattr(shape, "exterior") else []
    steps = numpy.abs([step for ring in rings for step in numpy.diff([corner[0] for corner in ring.coords])])
    return float(steps[steps != 2 * HALF_TURN].max(initial=0))


def union_of(shapes: Shapes) -> Any:
    """Shapes as one."""
    from shapely.ops import unary_union

    return unary_union(shapes)


def turned_shapes(shapes: Shapes, own: Any, crs: Any, box: Bounds) -> Shapes:
    """Shapes of one reference system in another; of those that are too wide for it what lies around the ranges."""
    from pyproj import Transformer
    from pyproj.exceptions import ProjError

    try:
        way = Transformer.from_crs(own, crs, always_xy=True)
    except ProjError:
        refuse(f"the CRS {own.name} of the reserve has no way to that of the ranges that pyproj knows", "crs")
    longest = LONGEST_DEGREES if own.is_geographic else LONGEST_METRES / own.axis_info[0].unit_conversion_factor
    found = turned(shapes, way, longest, own.is_geographic)
    if found is None:
        near = surroundings(box, way, own.is_geographic)
        found = turned([shape.intersection(near) for shape in shapes], way, longest, own.is_geographic)
    return refuse(HELP_WIDE, "crs") if found is None else found


def apart(one: Side, other: Side, are_degrees: bool) -> Side:
    """How far coordinates lie apart; longitudes around the circle, on which -180 and 180 are one. Of one that is infinite it is none."""
    with numpy.errstate(invalid="ignore"):
        gaps: Side = numpy.abs((one - other + HALF_TURN) % (2 * HALF_TURN) - HALF_TURN if are_degrees else one - other)
    return gaps


def turned(shapes: Shapes, way: Any, longest: float, are_degrees: bool) -> Shapes | None:
    """Shapes in another system; None where it has no places for all of them."""
    from shapely.ops import transform

    are_sound = []

    def turn(x: Sequence[float], y: Sequence[float], *_: Any) -> tuple[Side, Side]:
        east, north = with_points(numpy.array([x, y], dtype="float64"), longest)
        there = way.transform(east, north)
        back = way.transform(*there, direction="INVERSE")
        are_found = all(apart(one, other, are_degrees).max() <= MISSED * longest for one, other in zip(back, (east, north)))
        are_sound.append(are_found and bool(numpy.hypot(*numpy.diff(there)).max(initial=0) <= TORN))
        return there[0], there[1]

    found = [transform(turn, shape) for shape in shapes if not shape.is_empty]
    return found if all(are_sound) and all(shape.is_valid for shape in found) else None


def with_points(corners: Side, longest: float) -> Side:
    """Corners of a line with points between those that lie far from each other."""
    lengths = numpy.hypot(*numpy.diff(corners))
    parts = numpy.maximum(numpy.floor(lengths / longest - 0.01) + 1, 1).astype(int)
    if (parts == 1).all():
        return corners
    at = numpy.repeat(numpy.arange(len(parts)), parts)
    share = (numpy.arange(len(at)) - numpy.repeat(numpy.cumsum(parts) - parts, parts)) / parts[at]
    between = corners[:, at] + share * (corners[:, at + 1] - corners[:, at])
    return numpy.append(between, corners[:, -1:], axis=1)


def surroundings(box: Bounds, way: Any, is_in_degrees: bool) -> Any:
    """The box around the ranges, in the system of a boundary from which this way leads to theirs."""
    from shapely import geometry

    west, south, east, north = box[0] - AROUND, box[1] - AROUND, box[2] + AROUND, box[3] + AROUND
    corners = numpy.array([[west, east, east, west, west], [south, south, north, north, south]], dtype="float64")
    sides = way.transform(*with_points(corners, LONGEST_METRES), direction="INVERSE")
    ends = [float(end) for side in sides for end in (side.min(), side.max())]
    # A box that holds a pole, or the meridian at which longitudes begin anew, is none of longitudes.
    if not numpy.isfinite(ends).all() or is_in_degrees and ends[1] - ends[0] > HALF_TURN:
        refuse(HELP_WIDE, "crs")
    return geometry.box(ends[0], ends[2], ends[1], ends[3])


def is_in_degrees(box: Bounds) -> bool:
    """Whether a box may be one of longitude and latitude."""
    return -180 <= box[0] and -90 <= box[1] and box[2] <= 180 and box[3] <= 90


def meets(one: Bounds, other: Bounds) -> bool:
    """Whether two boxes have a place in common."""
    return one[0] <= other[2] and other[0] <= one[2] and one[1] <= other[3] and other[1] <= one[3]
