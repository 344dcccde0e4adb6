"""What the tests compare with: hulls by another method than the program's, and the percent rule in exact fractions."""
import random
from fractions import Fraction


def turn(a, b, c):
    return (b[0] - a[0]) * (c[1] - a[1]) - (b[1] - a[1]) * (c[0] - a[0])


def half(points):
    """The corners from the first to the last point, those behind a turn to the right or none left out."""
    corners = []
    for point in points:
        while len(corners) > 1 and turn(corners[-2], corners[-1], point) <= 0:
            corners.pop()
        corners.append(point)
    return corners


def hull(points):
    """The corners of the points, counterclockwise from the westernmost, of two such the southern (a monotone chain)."""
    points = sorted({*points})
    return points if len(points) == 1 else half(points)[:-1] + half(points[::-1])[:-1]


def area2(corners):
    return sum(a[0] * b[1] - b[0] * a[1] for a, b in zip(corners, corners[1:] + corners[:1]))


def covers(corners, point):
    """Whether a polygon of three corners or more covers the point, its edges included."""
    return all(turn(a, b, point) >= 0 for a, b in zip(corners, corners[1:] + corners[:1]))


def nearest(points, level):
    """The points that a level keeps."""
    mean = [Fraction(sum(point[axis] for point in points), len(points)) for axis in (0, 1)]
    near = sorted(points, key=lambda point: sum((place - middle) ** 2 for place, middle in zip(point, mean)))
    count = next(count for count in range(len(points) + 1) if 100 * count >= level * len(points))
    return near[:count]


def cloud(seed, count, spread=900, east=562000, north=5134000):
    """Points about a place, on a grid that is coarse enough for some to be equal or on one line."""
    draw = random.Random(seed)
    return [(east + draw.randrange(-spread, spread), north + draw.randrange(-spread, spread)) for _ in range(count)]
