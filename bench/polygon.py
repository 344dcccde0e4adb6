"""Convex polygons with a given number of corners.

The edges are vectors with no common divisor, the shortest first, each with its opposite, in the order
of their angles: so every corner is one, exactly. The polygon stays off the edges of the square of the
coordinates by a margin.
"""

from math import gcd, inf

LIMIT = 1 << 24


def half_plane(count):
    """The shortest `count` vectors without a common divisor that point east, or straight north."""
    reach = 1
    while True:
        vectors = [
            (e, n)
            for e in range(0, reach + 1)
            for n in range(-reach, reach + 1)
            if gcd(e, abs(n)) == 1 and (e > 0 or n > 0) and e * e + n * n <= reach * reach
        ]
        if len(vectors) >= count:
            return sorted(vectors, key=lambda v: (v[0] ** 2 + v[1] ** 2, v))[:count]
        reach *= 2


def slope(vector):
    """Of two vectors with no common divisor and below 2^20, the slopes differ by more than floats round."""
    return vector[1] / vector[0] if vector[0] else inf


def corners(count, margin=LIMIT // 8, limit=LIMIT):
    """The corners counterclockwise from the least by easting, then northing, of coordinates up to a limit."""
    east = sorted(half_plane(count // 2), key=slope)
    edges = east + [(-e, -n) for e, n in east]
    at, places = (0, 0), []
    for e, n in edges:
        places.append(at)
        at = (at[0] + e, at[1] + n)
    least = min(n for _, n in places)
    wide = max(max(e for e, _ in places), max(n for _, n in places) - least)
    scale = (limit - 2 * margin) // wide
    places = [(margin + e * scale, margin + (n - least) * scale) for e, n in places]
    first = places.index(min(places))
    return places[first:] + places[:first]
