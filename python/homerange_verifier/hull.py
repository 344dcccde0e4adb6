"""Polygons by another method than the program's: corners go round a place within, by their direction from it, and a point
is put among them where its direction is. Most points need not be looked at so: in strips from the west to the east it is
known between which northings a polygon surely covers all. All numbers are whole."""

from __future__ import annotations

from typing import Iterator, Sequence

Point = tuple[int, int]

PIECE = 128  # points that are looked at together
ASKED = 32  # points within that a polygon is asked about until its strips are made anew
BITS = 7  # a box has up to 2 ** 7 strips
FAR = 1 << 62  # farther than any northing


def cross(a: Point, b: Point, c: Point) -> int:
    """Twice the signed area of a triangle, above 0 where the way turns left."""
    return (b[0] - a[0]) * (c[1] - a[1]) - (b[1] - a[1]) * (c[0] - a[0])


class Strips:
    """What a polygon surely covers, in strips of 2 ** shift eastings each, the first of which begins in the west: in a strip
    all from its ``low`` to its ``high``. Where it may cover points at all is from ``least`` to ``most``."""

    def __init__(self, corners: Sequence[Point], west: int, east: int, shift: int) -> None:
        self.west, self.shift, self.count = west, shift, ((east - west) >> shift) + 1
        self.south, self.north = [FAR] * (self.count + 1), [-FAR] * (self.count + 1)  # at the western ends of strips
        for corner, after in zip(corners, [*corners[1:], *corners[:1]]):
            self.cross(corner, after)
        self.low = [max(ends) for ends in zip(self.south, self.south[1:])]
        self.high = [min(ends) for ends in zip(self.north, self.north[1:])]

    def cross(self, corner: Point, after: Point) -> None:
        """Takes the northings, rounded into the polygon, at which an edge crosses the ends of strips."""
        (e, n), west, shift = corner, self.west, self.shift
        way, up = after[0] - e, after[1] - n
        ends = sorted((e, after[0]))
        first, last = -((west - ends[0]) >> shift), (ends[1] - west) >> shift
        places = range(west + (first << shift), west + (last << shift) + 1, 1 << shift)
        if way > 0:
            self.south[first:last + 1] = [n - up * (e - place) // way for place in places]
        elif way < 0:
            self.north[first:last + 1] = [n + up * (place - e) // way for place in places]

    def bounds(self, corners: Sequence[Point]) -> tuple[list[int], list[int]]:
        """The least and the greatest northing that the polygon of these corners may have in each strip."""
        least = [min(ends) for ends in zip(self.south, self.south[1:])]
        most = [max(ends) for ends in zip(self.north, self.north[1:])]
        for easting, northing in corners:
            at = (easting - self.west) >> self.shift
            least[at], most[at] = min(least[at], northing), max(most[at], northing)
        return [northing - 1 for northing in least], [northing + 1 for northing in most]

    def doubtful(self, points: Sequence[Point], start: int, stop: int) -> list[int]:
        """Which of the points from one on, to another, the polygon does not surely cover."""
        low, high, west, shift = self.low, self.high, self.west, self.shift
        return [at for at, (easting, northing) in enumerate(points[start:stop], start)
                if not low[strip := (easting - west) >> shift] <= northing <= high[strip]]


class Hull:
    """The minimum convex polygon of points that come one by one: its corners, counterclockwise, and its doubled area.

    Until three points are not on a line it is a point or a segment. From then on `middle` is three times the mean of these
    three, which lies within, so corners are kept three times as great as well."""

    def __init__(self) -> None:
        self.ends: list[Point] = []
        self.ring: list[Point] = []
        self.middle = (0, 0)
        self.area2 = 0

    def __len__(self) -> int:
        return len(self.ring) or len(self.ends)

    def add(self, point: Point) -> bool:
        """Takes a point, and says whether the polygon is another."""
        return self.add_to_ring(point) if self.ring else self.add_to_ends(point)

    def add_all(self, points: Sequence[Point]) -> Iterator[int]:
        """Takes points in their order. Where one makes the polygon another, says how many were taken before it."""
        eastings = [easting for some in (points, self.corners()) for easting, _ in some]
        box = min(eastings, default=0), max(eastings, default=0)
        shift, asked = max((box[1] - box[0]).bit_length() - BITS, 0), 0
        strips = Strips(self.corners(), *box, shift)
        for start in range(0, len(points), PIECE):
            for at in strips.doubtful(points, start, start + PIECE):
                if self.add(points[at]):
                    yield at
                else:
                    asked += 1
            if asked > ASKED:
                strips, asked = Strips(self.corners(), *box, shift), 0

    def add_to_ends(self, point: Point) -> bool:
        """Takes a point while all are on a line."""
        ends = self.ends
        if not ends:
            self.ends = [point]
        elif len(ends) == 1 or cross(ends[0], ends[1], point) == 0:
            self.ends = sorted({min(*ends, point), max(*ends, point)})
            return self.ends != ends
        else:
            side = cross(ends[0], ends[1], point)
            three = [*ends, point] if side > 0 else [ends[1], ends[0], point]
            self.middle = (sum(each[0] for each in three), sum(each[1] for each in three))
            ring = [(3 * east, 3 * north) for east, north in three]
            # They are in their order round the middle, and the way round begins in the east.
            first = min(range(3), key=lambda at: (self.is_below(ring[at]), not self.is_below(ring[at - 1])))
            self.ring = ring[first:] + ring[:first]
            self.area2 = abs(side)
        return True

    def is_below(self, place: Point) -> bool:
        """Whether a direction from the middle is in the second half of the way round."""
        east, north = place[0] - self.middle[0], place[1] - self.middle[1]
        return north < 0 or north == 0 and east < 0

    def place(self, point: Point) -> int:
        """How many corners have a direction that is not behind the point's."""
        e, n = self.middle
        east, north = point[0] - e, point[1] - n
        below = north < 0 or north == 0 and east < 0
        ring, low, high = self.ring, 0, len(self.ring)
        while low < high:
            at = (low + high) // 2
            corner_east, corner_north = ring[at]
            corner_east -= e
            corner_north -= n
            corner_below = corner_north < 0 or corner_north == 0 and corner_east < 0
            if corner_below == below:
                is_behind = corner_east * north < corner_north * east
            else:
                is_behind = corner_below
            if is_behind:
                high = at
            else:
                low = at + 1
        return low

    def covers(self, point: Point) -> bool:
        """Whether the polygon covers a point, edges included."""
        if not self.ring:
            return self.ends[:1] == [point] or len(self.ends) == 2 and cross(self.ends[0], self.ends[1], point) == 0 and (
                self.ends[0] <= point <= self.ends[1])
        place = (3 * point[0], 3 * point[1])
        at = self.place(place)
        return cross(self.ring[at - 1], self.ring[at % len(self.ring)], place) >= 0

    def add_to_ring(self, point: Point) -> bool:
        """Puts a point between the corners beside its direction, and takes away those that are none any more."""
        place = (3 * point[0], 3 * point[1])
        at, ring = self.place(place), self.ring
        gained = -cross(ring[at - 1], ring[at % len(ring)], place)
        if gained <= 0:
            return False
        ring.insert(at, place)
        while (turn := cross(place, ring[(at + 1) % len(ring)], ring[(at + 2) % len(ring)])) <= 0:
            gained -= turn
            at = self.take_out((at + 1) % len(ring), at)
        while (turn := cross(ring[at - 2], ring[at - 1], place)) <= 0:
            gained -= turn
            at = self.take_out((at - 1) % len(ring), at)
        self.area2 += gained // 9
        return True

    def take_out(self, gone: int, at: int) -> int:
        """Takes a corner away, and says where the one at the other place is then."""
        del self.ring[gone]
        return at - (gone < at)

    def corners(self) -> list[Point]:
        """The corners, counterclockwise from the westernmost, of two such the southern."""
        if not self.ring:
            return list(self.ends)
        corners = [(east // 3, north // 3) for east, north in self.ring]
        first = corners.index(min(corners))
        return corners[first:] + corners[:first]
