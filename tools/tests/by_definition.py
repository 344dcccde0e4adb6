#!/usr/bin/env python3
"""by_definition.py [--percent LIST] [--unit UNIT] FILE ..: prints the report of the files, as the definitions have it,
for tests: what they expect is made by this and never by the program. Whole numbers alone:

- Points cover a place that lies on a segment between two of them, which may be the same, or in a triangle of three of
  them, its edges included.
- Their polygon is those of them that the others do not cover, in the one order that begins with the westernmost, of two
  such the southern, and in which any three turn to the left. Its doubled area is 0 below three corners.
- With n fixes a level of p per cent keeps the first k in the order of their distance from the mean, of as far ones the
  earlier, where k is p n / 100, rounded up. Distances are compared as squares of n times what they are.
- An overlap is the number of one animal's fixes that the points of another cover.

Of a few points the polygon is found by trying all triangles and all orders. More are wrapped (Jarvis 1973); a
table goes on from the polygon of the fixes before, by two facts: a covered point leaves a polygon as it is, and a polygon
has the same polygon with a further point as all points before have."""

import argparse
import csv
import itertools
import sys

FEW = 7


def turn(a, b, c):
    return (b[0] - a[0]) * (c[1] - a[1]) - (b[1] - a[1]) * (c[0] - a[0])


def distance(a, b):
    return (a[0] - b[0]) ** 2 + (a[1] - b[1]) ** 2


def area2(corners):
    return sum(a[0] * b[1] - b[0] * a[1] for a, b in zip(corners, corners[1:] + corners[:1]))


def wrap(points):
    """The corners of the points, counterclockwise from the westernmost, of two such the southern: from each go to the one
    that has no other on its right, and so on."""
    corners = [min(points)]
    while True:
        at, best = corners[-1], corners[0]
        for point in points:
            side = turn(at, best, point)
            if best == at or side < 0 or side == 0 and distance(at, point) > distance(at, best):
                best = point
        if best == corners[0]:
            return corners
        corners.append(best)


def read(path):
    """The animal of a file, and the seconds and points of its used fixes."""
    with open(path, encoding="utf-8-sig", newline="") as file:
        rows = [row for row in csv.DictReader(file) if row.get("use", "1") == "1"]
    return rows[0]["animal"], [(int(row["second"]), (int(row["easting"]), int(row["northing"]))) for row in rows]


def is_on(place, a, b):
    """Whether a place lies on the segment between two points."""
    ahead = sum((a[i] - place[i]) * (b[i] - place[i]) for i in (0, 1))
    return turn(a, b, place) == 0 and ahead <= 0


def is_in(place, a, b, c):
    """Whether a place lies in the triangle of three points that turn to the left."""
    return turn(a, b, c) > 0 and all(turn(*edge, place) >= 0 for edge in ((a, b), (b, c), (c, a)))


def covers(points, place):
    """Whether points cover a place."""
    segments = itertools.product(points, repeat=2)
    triangles = itertools.permutations(points, 3)
    return any(is_on(place, *two) for two in segments) or any(is_in(place, *three) for three in triangles)


def tried(points):
    """The polygon of a few points, by trying all triangles and all orders."""
    points = {*points}
    first, *others = sorted(point for point in points if not covers(points - {point}, point))
    orders = ((first, *order) for order in itertools.permutations(others))
    return list(next(order for order in orders if all(turn(*three) > 0 for three in itertools.combinations(order, 3))))


def polygon(points):
    """The polygon of points."""
    points = {*points}
    return tried(points) if len(points) <= FEW else wrap(points)


def polygon_covers(corners, place):
    """Whether a polygon covers a place: a segment, or the triangles between its first corner and each edge."""
    first, *others = corners
    if len(corners) < 3:
        return is_on(place, first, corners[-1])
    return any(is_in(place, first, *edge) for edge in itertools.pairwise(others))


def tangent(place, corners, side):
    """The corner that has none on this side of it, seen from a place outside; of several in a line the farthest."""
    best = corners[0]
    for corner in corners:
        turned = side * turn(place, best, corner)
        if turned > 0 or turned == 0 and distance(place, corner) > distance(place, best):
            best = corner
    return best


def grown(corners, point):
    """The polygon with a point added."""
    if polygon_covers(corners, point):
        return corners
    start, end = (corners.index(tangent(point, corners, side)) for side in (-1, 1))
    turned = corners[start:] + corners[:start]
    ring = [point, *turned[: (end - start) % len(corners) + 1]]
    first = ring.index(min(ring))
    return ring[first:] + ring[:first]


def polygons(points):
    """The polygons of the first point, of the first two, and so on."""
    corners = []
    for n, point in enumerate(points, 1):
        corners = tried(points[:n]) if n <= FEW else grown(corners, point)
        yield corners


def kept(points, level):
    """The points that a level keeps."""
    n, sums = len(points), [sum(point[i] for point in points) for i in (0, 1)]
    keys = [(sum((n * point[i] - sums[i]) ** 2 for i in (0, 1)), place) for place, point in enumerate(points)]
    return [points[place] for _, place in sorted(keys)[: (level * n + 99) // 100]]


def percent_row(points, level):
    """How many points a level keeps, and how many corners and which doubled area they have."""
    near = kept(points, level)
    corners = polygon(near) if near else []
    return len(near), len(corners), area2(corners)


def overlap(points, others, corners):
    """How many points others, whose polygon this is, cover."""
    if len(others) <= FEW:
        return sum(covers(others, point) for point in points)
    return sum(polygon_covers(corners, point) for point in points)


def animal_lines(name, fixes, levels):
    """The lines of one animal, whose fixes are seconds and points."""
    points = [point for _, point in fixes]
    yield f"animal,{name},fixes,{len(fixes)}"
    yield f"box,{name}," + ",".join(str(end(point[i] for point in points)) for end in (min, max) for i in (0, 1))
    for n, ((second, _), corners) in enumerate(zip(fixes, polygons(points)), 1):
        yield f"row,{name},{n},{second},{len(corners)},{area2(corners)}"
    for i, (easting, northing) in enumerate(polygon(points), 1):
        yield f"corner,{name},{i},{easting},{northing}"
    for level in levels:
        yield ",".join(map(str, ("percent", name, level, *percent_row(points, level))))


def report(tracks, levels, unit):
    """The report of tracks, each an animal's name and its fixes."""
    lines = ["unit,dm"] if unit == "dm" else []
    for track in tracks:
        lines += animal_lines(*track, levels)
    points = {name: [point for _, point in fixes] for name, fixes in tracks}
    ranges = {name: polygon(points[name]) for name in points}
    for name, other in itertools.permutations(points, 2):
        count = overlap(points[name], points[other], ranges[other])
        lines.append(f"overlap,{name},{other},{count},{len(points[name])}")
    return "".join(f"{line}\n" for line in [*lines, f"end,{len(tracks)}"])


def main():
    parser = argparse.ArgumentParser(description=__doc__.split(", as")[0])
    parser.add_argument("files", metavar="FILE", nargs="+")
    parser.add_argument("--percent", metavar="LIST", default="50,95,100")
    parser.add_argument("--unit", choices=("m", "dm"), default="m")
    options = parser.parse_args()
    levels = [int(level) for level in options.percent.split(",")]
    sys.stdout.write(report([read(file) for file in options.files], levels, options.unit))


if __name__ == "__main__":
    main()
