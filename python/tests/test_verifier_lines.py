"""The verifier's polygons and overlaps, held to Andrew's chains and to the definition."""

import random

import pytest
from homerange.report import doubled_area, kept_places, polygon_of, turn
from homerange_verifier.hull import Hull, Strips
from homerange_verifier.lines import Distances, Range, Track, hull_of, overlaps_of, read_track

WAYS = {
    "walk": lambda place, dice: (place[0] + dice.randint(-60, 60), place[1] + dice.randint(-60, 60)),
    "grid": lambda place, dice: (dice.randint(0, 9), dice.randint(0, 9)),
    "line": lambda place, dice: (2 * (step := dice.randint(-900, 900)), 7 - 3 * step),
    "meridian": lambda place, dice: (5, dice.randint(0, 500)),
    "away": lambda place, dice: (place[0] + dice.randint(1, 50), place[1] + place[0] // 9),
    "wide": lambda place, dice: (dice.randint(0, 2 ** 27), dice.randint(0, 2 ** 27)),
}


def points_of(way, count, seed):
    dice, place, found = random.Random(seed), (5000, 5000), []
    for _ in range(count):
        place = WAYS[way](place, dice)
        found.append(place)
    return found


def covers(corners, point):
    """Whether a polygon covers a point, by the definition: no edge has it on its right."""
    if len(corners) < 3:
        return polygon_of([*corners, point]) == corners
    return all(turn(*edge, point) >= 0 for edge in zip(corners, corners[1:] + corners[:1]))


@pytest.mark.parametrize("way", WAYS)
def test_a_curve_has_the_polygon_of_the_fixes_up_to_each(way):
    points = points_of(way, 700, 1)
    own = Range(Track("a", list(range(700)), points, 0), [100])
    for count in (*range(1, 40), *range(100, 701, 50)):
        corners = polygon_of(points[:count])
        assert own.curve[count - 1] == (len(corners), doubled_area(corners))
    assert own.hull.corners() == corners
    assert len(own.curve) == 700


@pytest.mark.parametrize("way", WAYS)
def test_levels_keep_the_fixes_nearest_to_the_mean(way):
    points = points_of(way, 600, 2)
    own = Range(Track("a", list(range(600)), points, 0), [1, 50, 95])
    for level, percent in own.percents.items():
        wanted = [points[at] for at in kept_places(*map(list, zip(*points)), level)]
        assert sorted(Distances(points).kept(level)) == sorted(wanted)
        assert percent == (len(wanted), percent.hull)
        assert percent.hull.corners() == polygon_of(wanted)


def test_fixes_in_polygons_are_counted_as_the_definition_has_it():
    tracks = [points_of(way, 150, seed) for seed in range(6) for way in WAYS] + [[(5, 5)], [(0, 0), (9, 9)]]
    ranges = [Range(Track(str(number), list(range(len(own))), own, 0), [100]) for number, own in enumerate(tracks)]
    polygons = [polygon_of(own) for own in tracks]
    found = overlaps_of(ranges)
    assert list(found) == [(one, other) for one in range(38) for other in range(38) if one != other]
    for (one, other), count in found.items():
        assert count == sum(covers(polygons[other], point) for point in tracks[one])


def test_strips_cover_no_more_than_the_polygon():
    points = points_of("walk", 300, 3)
    corners = polygon_of(points)
    west, east = min(points)[0], max(points)[0]
    strips = Strips(corners, west, east, 6)
    least, most = strips.bounds(corners)
    seen = 0
    for easting in range(west, east + 1):
        strip = (easting - west) >> 6
        for northing in range(least[strip] - 2, most[strip] + 3, 3):
            is_sure = strips.low[strip] <= northing <= strips.high[strip]
            assert is_sure <= covers(corners, (easting, northing)) <= (least[strip] <= northing <= most[strip])
            seen += is_sure
    assert seen > 0


def test_a_polygon_takes_points_at_any_time():
    first, later = points_of("walk", 300, 4), points_of("wide", 300, 5)
    hull = hull_of(first)
    changes = list(hull.add_all(later))
    alone = hull_of(first)
    assert changes == [at for at, point in enumerate(later) if alone.add(point)]
    assert hull.corners() == polygon_of(first + later)
    assert list(Hull().add_all([])) == []


def test_a_file_is_read_in_pieces(tmp_path):
    path = tmp_path / "a.csv"
    lines = [f"fox,{n},{2 * n},{3 * n},{n % 2}" for n in range(1000)]
    path.write_text("animal,second,easting,northing,use\n" + "\n\n".join(lines) + "\n")
    points = [(2 * n, 3 * n) for n in range(1, 1000, 2)]
    assert read_track(path) == ("fox", list(range(1, 1000, 2)), points, 500)
