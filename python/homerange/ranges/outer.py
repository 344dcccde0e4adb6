"""Which fixes of a track decide a polygon: those that a level keeps, and the outermost of them; by whole numbers where rounded
ones do not tell it. And how many fixes polygons cover."""

from __future__ import annotations

import math
from typing import Any, Mapping

import numpy
from numpy.typing import NDArray

from ..report import Corners, kept_count, nearest, polygon_of

Track = NDArray[numpy.int64]  # a row for each fix: its second, easting and northing
Places = NDArray[numpy.int64]  # eastings and northings

EXACT = 2 ** 30  # products of two differences of smaller numbers have 64 bits
SOME = 16  # of the corners of a polygon, at most
SLACK = 1e-12  # by how much of itself and of 1 the square of a rounded distance is not known, with a wide margin


def polygon_kept(track: Track, level: int) -> Corners:
    """The polygon of the fixes of a track that a level keeps."""
    kept = kept_of(track, level)[:, 1:]
    return polygon_of(outer_fixes(kept, far_ends(kept)))


def far_ends(places: Places) -> Corners:
    """Of some places those that lie farthest in some directions, counterclockwise."""
    east, north = places.T
    angles = [2 * math.pi * at / SOME for at in range(SOME)]
    far = dict.fromkeys(int((east * math.cos(angle) + north * math.sin(angle)).argmax()) for angle in angles)
    return [(int(east[at]), int(north[at])) for at in far]


def kept_of(track: Track, level: int) -> Track:
    """The fixes of a track that a level keeps."""
    count, (east, north) = kept_count(len(track), level), track[:, 1:].T
    far = from_mean(east) ** 2 + from_mean(north) ** 2
    edge = numpy.partition(far, count - 1)[count - 1]
    is_near, is_far = far < edge - SLACK * (edge + 1), far > edge + SLACK * (edge + 1)
    # Where rounded distances do not tell it, whole numbers do.
    unsure = numpy.flatnonzero(~is_near & ~is_far)
    some = zip(unsure.tolist(), east[unsure].tolist(), north[unsure].tolist())
    is_near[nearest(some, len(track), (int(east.sum()), int(north.sum())), count - int(is_near.sum()))] = True
    return numpy.asarray(track[is_near])


def from_mean(numbers: NDArray[numpy.int64]) -> NDArray[numpy.float64]:
    """How far whole numbers are from their mean, but for roundings."""
    whole, rest = divmod(int(numbers.sum()), len(numbers))
    return numpy.asarray(numbers - whole - rest / len(numbers), dtype="float64")


def outer_fixes(places: Places, corners: Corners) -> list[tuple[int, int]]:
    """Some places without those within a polygon of some of these corners; of places with one easting the southernmost and the
    northernmost. If the corners are those of all places, they are those of these."""
    is_small = -EXACT < places.min() and places.max() < EXACT
    east, north = places.T if is_small else places.T.astype(object)
    some, is_within = corners[::-(-len(corners) // SOME)], numpy.full(len(places), True)
    for (e, n), (next_e, next_n) in zip(some, [*some[1:], some[0]]):
        is_within &= (next_e - e) * (north - n) > (next_n - n) * (east - e)
    return ends_of(east[~is_within], north[~is_within])


def ends_of(east: NDArray[Any], north: NDArray[Any]) -> list[tuple[int, int]]:
    """Of points with one easting the southernmost and the northernmost."""
    order = east.argsort()
    east, north = east[order], north[order]
    first = numpy.flatnonzero(numpy.append(True, east[1:] != east[:-1]))
    ends = [numpy.minimum.reduceat(north, first), numpy.maximum.reduceat(north, first)]
    return [pair for end in ends for pair in zip(east[first].tolist(), end.tolist())]


def counts_within(tracks: Mapping[str, Track], polygons: Mapping[str, Corners]) -> dict[tuple[str, str], int]:
    """How many fixes of each track each polygon covers, its edges included. Coordinates are below 2 ** 28, so that all products
    are whole numbers of 64 bits."""
    names = [*tracks]
    owner = numpy.repeat(numpy.arange(len(names)), [len(track) for track in tracks.values()])
    east, north = numpy.concatenate([track[:, 1:] for track in tracks.values()]).T
    order = east.argsort(kind="stable")
    east, north, owner = east[order], north[order], owner[order]
    counts = {other: numpy.bincount(owner[covered(east, north, polygon)], minlength=len(names)).tolist()
              for other, polygon in polygons.items()}
    return {(name, other): own[at] for other, own in counts.items() for at, name in enumerate(names)}


def covered(east: NDArray[numpy.int64], north: NDArray[numpy.int64], polygon: Corners) -> NDArray[numpy.intp]:
    """The places of the points that a polygon covers, of points in the order of eastings."""
    eastings, northings = zip(*polygon)
    first, end = between(east, min(eastings), max(eastings))
    east, north = east[first:end], north[first:end]
    is_in = (min(northings) <= north) & (north <= max(northings))
    for (e, n), (next_e, next_n) in zip(polygon, [*polygon[1:], polygon[0]]):
        # Those south of an edge of the southern chain, which goes east, or north of one of the northern are not covered.
        begin, stop = between(east, min(e, next_e), max(e, next_e))
        own_e, own_n = east[begin:stop], north[begin:stop]
        is_in[begin:stop] &= (next_e - e) * (own_n - n) >= (next_n - n) * (own_e - e)
    return numpy.asarray(first + numpy.flatnonzero(is_in), dtype="intp")


def between(numbers: NDArray[numpy.int64], least: int, most: int) -> tuple[int, int]:
    """Where those from the least to the most begin and end, of numbers in their order."""
    return int(numpy.searchsorted(numbers, least)), int(numpy.searchsorted(numbers, most, "right"))
