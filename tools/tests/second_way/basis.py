"""What the page says of what areas rest on: how they grew, when and where fixes are, and the fix that makes the most of each; from
the fixes alone, each polygon of some of them made anew."""

from __future__ import annotations

from bisect import bisect_right
from collections import Counter
from fractions import Fraction
from math import isqrt
from typing import Iterable, Iterator, Mapping, Sequence

from . import shown
from .facts import PER_METRE, Animal

Point = tuple[int, int]
DAY = 86_400
PARTS, MOST_CORNERS = 20, 256  # parts of the time whose ends are looked at, and corners of polygons whose one fix is looked for


def side(points: Iterable[Point]) -> list[Point]:
    """The corners along one side of points in their order."""
    found: list[Point] = []
    for e, n in points:
        while len(found) > 1 and (found[-1][0] - found[-2][0]) * (n - found[-2][1]) <= (found[-1][1] - found[-2][1]) * (
                e - found[-2][0]):
            found.pop()
        found.append((e, n))
    return found


def corners_of(points: Iterable[Point]) -> list[Point]:
    places = sorted(set(points))
    return places if len(places) < 3 else side(places)[:-1] + side(places[::-1])[:-1]


def area2_of(points: Iterable[Point]) -> int:
    """The doubled area of the polygon of points."""
    corners = corners_of(points)
    return sum(a[0] * b[1] - b[0] * a[1] for a, b in zip(corners, corners[1:] + corners[:1]))


def kept(points: Sequence[Point], level: int) -> list[Point]:
    """The points that a level keeps."""
    count, east, north = len(points), sum(e for e, _ in points), sum(n for _, n in points)
    near = sorted(points, key=lambda point: (count * point[0] - east) ** 2 + (count * point[1] - north) ** 2)
    return near[:-(-level * count // 100)]


class Basis:
    """What the area of an animal rests on."""

    def __init__(self, animal: Animal, level: int, unit: str, clock: shown.Clock) -> None:
        self.animal, self.level, self.unit, self.clock = animal, level, unit, clock
        self.seconds, self.points = list(animal.seconds), [(e, n) for e, n in animal.points]
        self.days = (animal.last - animal.first) // DAY + 1

    def area_of_first(self, count: int, level: int) -> int:
        points = self.points[:count]
        return area2_of(kept(points, level)) if count else 0

    def before(self, level: int) -> tuple[int, int]:
        """The area of the fixes of the first three quarters of the time, and of the first three quarters of the fixes."""
        end = self.animal.first + 3 * (self.animal.last - self.animal.first) // 4
        return self.area_of_first(bisect_right(self.seconds, end), level), self.area_of_first(3 * len(self.points) // 4, level)

    def since(self, last: int) -> str:
        """The date of the end of the first of equal parts of the time from which on the area stayed."""
        if not last:
            return shown.NOTHING
        first, span = self.animal.first, self.animal.last - self.animal.first
        ends = [first + span * part // PARTS for part in range(1, PARTS + 1)]
        near = [100 * self.area_of_first(bisect_right(self.seconds, end), self.level) >= 95 * last for end in ends]
        return self.clock.date(next(end for part, end in enumerate(ends) if all(near[part:])))

    def grown(self, level: int, names: Sequence[str]) -> Iterator[tuple[str, str]]:
        """The cells of how the area at a level grew."""
        last = self.area_of_first(len(self.points), level)
        yield from zip(names, [change(before, last) for before in self.before(level)])
        if level < 100:
            yield names[-1], self.since(last)

    def one_fix(self) -> tuple[int, int] | None:
        """The number of the fix without which the polygon of all others is least, of several the first, and the area of that."""
        corners = set(corners_of(self.points))
        if len(self.points) < 2 or len(corners) > MOST_CORNERS:
            return None
        others = [self.animal.area2 if place not in corners else area2_of(self.points[:fix] + self.points[fix + 1:])
                  for fix, place in enumerate(self.points)]
        return others.index(min(others)), min(others)

    def growth(self) -> Mapping[str, str]:
        """The cells of the table of growth."""
        within, one = self.animal.within, self.one_fix()
        has_one = one and self.animal.area2
        return {
            **dict(self.grown(self.level, ("quoted_days", "quoted_fixes", "quoted_since")) if self.level < 100 else ()),
            **dict(self.grown(100, ("last_days", "last_quarter"))),
            "within_95_fix": shown.number(within) if within else shown.NOTHING,
            "within_95_date": self.clock.date(self.seconds[within - 1]) if within else shown.NOTHING,
            "one_fix": self.clock.date(self.seconds[one[0]]) if one and has_one else shown.NOTHING,
            "one_fix_share": change(one[1], self.animal.area2) if one and has_one else shown.NOTHING}

    def steps(self) -> list[tuple[Fraction, int, int, int]]:
        """Each step: the square of its speed, and with a minus its number; the square of its length, and how long it took."""
        found = []
        for fix, (before, after) in enumerate(zip(self.seconds, self.seconds[1:])):
            (e, n), (east, north) = self.points[fix:fix + 2]
            if after > before:
                square = (east - e) ** 2 + (north - n) ** 2
                found.append((Fraction(square, (after - before) ** 2), -fix, square, after - before))
        return found

    def fastest(self) -> Mapping[str, str]:
        steps = self.steps()
        if not steps:
            return {"step": shown.NOTHING, "step_date": shown.NOTHING}
        _, fix, square, seconds = max(steps)
        return {"step": f"{length(square, self.unit)} in {shown.interval(seconds)}", "step_date": self.clock.date(self.seconds[-fix])}

    def half_days(self) -> int:
        """In how few days half of the fixes are."""
        counts = Counter((second - self.animal.first) // DAY for second in self.seconds).most_common()
        return next(days for days in range(len(counts) + 1) if 2 * sum(count for _, count in counts[:days]) >= len(self.seconds))

    def gap(self) -> str:
        """The first of the longest gaps."""
        gaps = [(before - after, before, after) for before, after in zip(self.seconds, self.seconds[1:])]
        return self.clock.period(*min(gaps)[1:]) if gaps else shown.NOTHING

    def sampling(self) -> Mapping[str, str]:
        """The cells of the table of when and where fixes are."""
        fixes = set(zip(self.seconds, self.points))
        return {
            "places": shown.number(len(set(self.points))), "repeats": shown.number(len(self.points) - len(fixes)),
            "clashes": shown.number(len(fixes) - len(set(self.seconds))),
            "half_days": f"{shown.number(self.half_days())} of {shown.number(self.days)}", "gap": self.gap(), **self.fastest()}

    def caveats(self, source: str) -> str:
        """What the sentence of the animal says beside its area."""
        left, area2, one = self.animal.records - self.animal.used, self.animal.area2, self.one_fix()
        texts = [f"; {shown.fixes(left)} of the {source} left out"] if left else []
        last, (before, _) = self.area_of_first(len(self.points), self.level), self.before(self.level)
        if last:
            texts.append(f"; over the last quarter of the days it {'fell' if last < before else 'grew'} by "
                         f"{shown.share(abs(last - before), last)}")
        if one and area2 - one[1] > area2 // 10:
            texts.append(f"; one fix ({self.clock.date(self.seconds[one[0]])}) makes {shown.share(area2 - one[1], area2)} of the "
                         "100 % MCP")
        return "".join(texts)


def change(before: int, last: int) -> str:
    """By how much an area grew, as a share of the last one."""
    return f"{chr(0x2212) * (0 < last < before)}{shown.share(abs(last - before), last)}"


def length(square: int, unit: str) -> str:
    """A length in metres or kilometres, of its square in units, rounded once."""
    metre = PER_METRE[unit]
    is_short = square < (1000 * metre) ** 2
    whole = metre if is_short else 1000 * metre
    places = next(places for places, least in ((0, 100), (1, 10), (2, 0)) if square >= (least * whole) ** 2)
    # Halves up: the greatest number of so many decimals that is no more than half a place above.
    scaled = (isqrt(4 * square * 10 ** (2 * places) // whole ** 2) + 1) // 2
    return f"{shown.number(Fraction(scaled, 10 ** places), places)} {'m' if is_short else 'km'}"
