"""The sentences of the page on how ranges were made: its method, what was left out, and how areas on the grid differ from
those on the ellipsoid."""

from __future__ import annotations

import re
from collections import Counter
from math import cosh
from typing import Iterator, Sequence

from .facts import PER_METRE, REASONS, Animal
from .records import Run, Split, unescaped
from .shown import fixes, listed, number, text_of

UNITS = {"m": "metres", "dm": "decimetres"}
PHRASES = {
    "animal": "of no animal", "coordinates": "without coordinates", "zero": "with longitude and latitude 0",
    "sensor": "of other sensors", "outlier": "marked as outliers", "class": "of other Argos classes",
    "no dop": "without a dilution of precision (DOP)", "dop": "with a DOP above the limit",
    "type": "of other types of fixes", "before": "before the period", "after": "after the period",
    "grid": "marked as outliers and off the grid", "speed": "faster than the limit", "months": "in other months",
    "hours": "at other hours", "every": "not the first in their interval", "use": "not in use, as the data said",
    "chosen": "not chosen"}
MOST_SAID = 12
NOT_SAID = re.compile(r"not read: |[0-9]+ fixes of [0-9]+ animals are in ")
OF_ANIMAL = re.compile("[0-9]+ records of ")  # what is said last
CHOSEN = "the fixes are not as they were read: "
SCALE, EARTH = 0.9996, 6_371_008.8  # of UTM in the middle of a zone, and the mean radius in metres
SIDE = 10_000  # metres of a square whose area is compared
RULE = (
    "Of n fixes, the polygon at p % has the p per cent of n, rounded up to whole fixes, that lie nearest to the arithmetic mean "
    "of all (of fixes as near, the earlier). Areas are those on the grid. Here they are rounded, halves up, to whole hectares, "
    "below 100 hectares to three digits, and below 1 hectare they are in square metres. The area of the 100 % polygon was "
    "followed fix by fix (incremental area analysis, Harris et al. 1990).")


def records_of(split: Split | None) -> Counter[str]:
    """How many records of the export or the frame each animal has."""
    found = Counter({name: made for name, (made, _) in split.tracks.items()} if split else {})
    for name, count, _ in split.left if split else ():
        found[name] += count
    return found


def source_of(split: Split | None) -> str:
    """What the fixes were in."""
    return "export" if split and split.has_export else "data"


def left_out(animals: Sequence[Animal], split: Split | None) -> str:
    """What was left out of all fixes; without a record of the tracks, of those in them."""
    totals = Counter[str]()
    for _, count, reason in split.left if split else ():
        totals[reason] += count
    for made, used in split.tracks.values() if split else ():
        totals["outlier"] += made - used
    if not split:
        for animal in animals:
            totals.update(animal.left)
    records = sum(records_of(split).values()) if split else sum(animal.records for animal in animals)
    source, gone = source_of(split), sum(totals.values())
    if not gone and split and any(line.startswith(CHOSEN) for line in split.said):
        return "How many fixes were left out is not known."
    if not gone:
        return f"No fix of the {source} was left out ({fixes(records)})."
    reasons = listed([f"{number(totals[reason])} {PHRASES[reason]}" for reason in REASONS if totals[reason]])
    return f"Of {number(records)} fixes of the {source} {number(gone)} were left out: {reasons}."


def options_of(split: Split | None) -> str:
    """The options of the split, or of the call that read a frame."""
    if not split or not split.options:
        return ""
    what = "the split" if split.has_export else "the call"
    words = (" ".join(filter(None, (name, unescaped(value)))) for name, _, value in split.options)
    return f" Options of {what}: {text_of(', '.join(words))}."


def said_of(split: Split | None) -> str:
    """What was said when the fixes were read, but for lines on columns that were not read and on files; those on one animal come last."""
    own = [line for line in (split.said if split else ()) if not NOT_SAID.match(line)]
    own.sort(key=lambda line: OF_ANIMAL.match(line) is not None)
    if not own:
        return ""
    texts = "; ".join(f"\u201c{text_of(line)}\u201d" for line in own[:MOST_SAID])
    rest = len(own) - MOST_SAID
    more = f"; and {rest} {'line' if rest == 1 else 'lines'} more" if rest > 0 else ""
    return f" When the fixes were read this was said: {texts}{more}."


def method(animals: Sequence[Animal], run: Run, system: str) -> str:
    """How ranges were made, and what was left out."""
    percents = listed([f"{level} %" for level in sorted(run.levels, reverse=True)])
    return (f"Home ranges are minimum convex polygons (MCP) of {percents} of the fixes; that of all fixes is the one of Mohr (1947). "
            f"They were computed by {run.program} from coordinates in whole {UNITS[run.unit]}, {system}. {RULE} "
            f"{left_out(animals, run.split)}{options_of(run.split)}{said_of(run.split)}")


def middles(animals: Sequence[Animal], run: Run) -> Iterator[list[float]]:
    """The middles of the highest polygons, in metres."""
    for animal in animals:
        sides = zip(*animal.percents[max(run.levels)].hull.corners())
        yield [(min(side) + max(side)) / 2 / PER_METRE[run.unit] - shift for side, shift in zip(sides, run.shift)]


def scale_of_zone(easting: float) -> float:
    """The areal scale of a zone, on the sphere."""
    return (SCALE * cosh((easting - 500_000) / (SCALE * EARTH))) ** 2


def scale_of_system(system: str, easting: float, northing: float) -> float:
    """The areal scale of another reference system: the area of a square of the grid by its area on the ellipsoid."""
    from pyproj import CRS, Transformer

    crs = CRS.from_user_input(system.split(" (")[0])
    east, north = ([middle + side * SIDE / 2 for side in sides] for middle, sides in (
        (easting, (-1, 1, 1, -1)), (northing, (-1, -1, 1, 1))))
    degrees = Transformer.from_crs(crs, crs.geodetic_crs, always_xy=True).transform(east, north)
    ellipsoid = crs.get_geod()
    assert ellipsoid, system
    return SIDE ** 2 / ellipsoid.polygon_area_perimeter(*degrees)[0]


def ground(animals: Sequence[Animal], run: Run) -> str:
    """By how much areas on the grid differ from those on the ellipsoid, in the middle of the highest polygons."""
    if run.system is None:
        return "How areas on this grid differ from those on the ellipsoid is not known."
    ends = [scale_of_zone(east) if run.zone else scale_of_system(run.system, east, north)
            for east, north in middles(animals, run)]
    least, most = (f"{100 * (end - 1):+.2f}" for end in (min(ends), max(ends)))
    text = " to ".join(dict.fromkeys("0.00" if end in ("+0.00", "-0.00") else end for end in (least, most)))
    return f"Areas on the grid differ from those on the ellipsoid by {text} % here."
