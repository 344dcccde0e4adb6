"""The boundary of a map, boundary.csv: its rings in metres, to whole millimetres, in one order."""

from __future__ import annotations

from pathlib import Path
from typing import Any, Sequence

from ..ranges.home import HomeRanges
from ..ranges.reserve import boundary_of

Point = tuple[float, float]

BOUNDARY = "boundary.csv"


def in_order(ring: Sequence[Point]) -> list[Point]:
    """The points of a ring, each once, from the westernmost on, of two such the southern, towards the more western of both
    beside it: shapes say neither where a ring begins nor which comes first."""
    first = ring.index(min(ring))
    points = [*ring[first:-1], *ring[:first]]
    return points if points[1] < points[-1] else [points[0], *points[:0:-1]]


def rings_of(shape: Any) -> list[list[Point]]:
    """The rings of a shape of shapely that has an area, to whole millimetres, in the order of their points."""
    if hasattr(shape, "geoms"):
        return sorted(ring for part in shape.geoms for ring in rings_of(part))
    if not hasattr(shape, "exterior"):
        return []
    return sorted(in_order([(millimetres(x), millimetres(y)) for x, y, *_ in ring.coords])
                  for ring in (shape.exterior, *shape.interiors))


def millimetres(metres: float) -> float:
    """Metres as boundary.csv has them."""
    return float(f"{metres:.3f}")


def rings_given(ranges: HomeRanges, reserve: Any) -> list[list[Point]] | None:
    """The rings of a boundary that was given, in the reference system of the ranges."""
    return None if reserve is None else rings_of(boundary_of(reserve, ranges.crs, ranges.box))


def write_rings(rings: Sequence[Sequence[Point]] | None, folder: Path) -> None:
    """Writes the boundary of a map into a folder, if there is one: each ring by its number, with its points in metres."""
    if rings is None:
        return
    lines = (f"{number},{east:.3f},{north:.3f}\n" for number, ring in enumerate(rings, 1) for east, north in ring)
    (folder / BOUNDARY).write_text("".join(["ring,easting,northing\n", *lines]), "utf-8", newline="\n")
