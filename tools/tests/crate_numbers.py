"""Tests that what by_definition.py comes to are the numbers that the tests of crates expect, as they stand in their
sources, and that its ways to a polygon come to the same.

    python3 crate_numbers.py CRATES

CRATES is the folder of the crates. Prints what was compared; the status is 0 where all agree."""

import ast
import itertools
import pathlib
import random
import re
import sys
import tempfile

import by_definition

BYTES = r'b"(?:[^"\\]|\\.)*"'
ROW = re.compile(r"\((\d+), (\d+), (\d+), (\d+)\)")
PAIR = re.compile(r"\((\d+), (\d+)\)")
LIMIT, FIXES = 1 << 27, 1 << 20


def scattered(count, mask):
    """Points of Knuth's generator for MMIX, as the tests of crates draw them."""
    numbers, seed = [], 1
    for _ in range(2 * count):
        seed = (seed * 6364136223846793005 + 1442695040888963407) % (1 << 64)
        numbers.append(seed >> 33 & mask)
    return list(zip(numbers[::2], numbers[1::2]))


FAR = scattered(250, 0xFF_FFFF)
# The lists of points of each test of percent polygons, in its order.
TESTS = {
    "a_square_has_these_percent_polygons": [[(0, 0), (10, 0), (10, 10), (0, 10), (5, 5)]],
    "fixes_in_line_have_percent_polygons_without_area": [[(5, 5), (10, 5), (20, 5)]],
    "fixes_at_one_point_have_one_corner_at_each_level": [[(7, 7)] * 3],
    "one_fix_is_kept_at_each_level": [[(3, 4)]],
    "without_a_fix_no_corner_is_kept": [[]],
    "of_fixes_as_far_from_the_mean_the_first_are_kept": [[(10, 5), (0, 5), (8, 9), (2, 1), (9, 2), (1, 8)]],
    "a_line_has_two_corners_at_each_level": [[(i, 0) for i in range(250)]],
    "scattered_fixes_have_the_polygons_of_another_program": [FAR],
    "levels_may_come_in_any_order_and_twice": [FAR],
    "fixes_with_many_ties_have_the_polygons_of_another_program": [scattered(250, 0xF)],
    "more_fixes_than_are_flagged_at_once_have_the_polygons_of_another_program": [
        scattered(1300, 0xFF_FFFF),
        scattered(1300, 0x3F),
    ],
    "a_hull_of_too_many_corners_for_flags_has_these_percent_polygons": [
        [(i, i * i) for i in range(3000)] + [(1500, 3_000_000 + i) for i in range(600)]
    ],
    "the_farthest_of_the_most_fixes_is_kept_last": [[(LIMIT, LIMIT)] + [(0, 0)] * (FIXES - 1)],
}


def tests_in(text):
    """The name of each test of a source, and the rows that it expects of each list of points."""
    for name, body in re.findall(r"#\[test\]\nfn (\w+)(.*?)\n}", text, re.DOTALL):
        rows = [[*map(int, row)] for row in ROW.findall(re.sub(r"(?<=\d)_(?=\d)", "", body))]
        yield name, rows


def parted(rows, lists):
    """The rows for each list: the levels of a list rise, but for one test's of a single list."""
    if lists == 1:
        return [rows]
    ends = [i for i in range(1, len(rows)) if rows[i][0] < rows[i - 1][0]]
    return [rows[begin:end] for begin, end in itertools.pairwise([0, *ends, len(rows)])]


def wrong_percents(text):
    """Each row of a test of percent polygons that is not by the definition; and how many were compared."""
    found, compared = dict(tests_in(text)), 0
    assert found.keys() == TESTS.keys(), found.keys() ^ TESTS.keys()
    wrong = []
    for name, lists in TESTS.items():
        expected = parted(found[name], len(lists))
        assert len(expected) == len(lists) and all(expected), name
        for points, rows in zip(lists, expected):
            known = {level: by_definition.percent_row(points, level) for level in {row[0] for row in rows}}
            wrong += [(name, row, known[row[0]]) for row in rows if (*row[1:],) != known[row[0]]]
            compared += len(rows)
    return wrong, compared


def influence(points):
    """The fix without which the polygon of all others is least, of several the first, and the doubled area of that."""
    areas = [by_definition.area2(by_definition.wrap(points[:i] + points[i + 1 :])) for i in range(len(points))]
    return areas.index(min(areas)), min(areas)


def pairs_in(text):
    """The pairs of numbers of a stretch of a source."""
    return [(int(one), int(other)) for one, other in PAIR.findall(re.sub(r"(?<=\d)_(?=\d)", "", text))]


def wrong_influences(text):
    """Each test of influence that is not by the definition; and how many were compared."""
    compared, wrong = 0, []
    for places, expected, name in re.findall(r'\(\s*&\[(.*?)\],\s*(\([\d_, ]+\)),\s*"(.*?)"', text, re.DOTALL):
        wrong += [name] * ([influence(pairs_in(places))] != pairs_in(expected))
        compared += 1
    for mask, found in re.findall(r"\(\s*(0x[\dA-F_]+),\s*\[(.*?)\]", text, re.DOTALL):
        points = scattered(len(pairs_in(found)) + 1, int(mask, 16))
        wrong += [(mask, n) for n, pair in enumerate(pairs_in(found), 2) if influence(points[:n]) != pair]
        compared += len(pairs_in(found))
    assert compared
    return wrong, compared


# The fixes of each track of which it is tested how its area grew: second, easting and northing.
TRACKS = {
    "DenseFirst": [(37 * i * i, *place) for i, place in enumerate(scattered(120, 0xFFF))],
    "Drift": [(43_200 * i, 100 * i, i % 7 * 30) for i in range(80)],
    "FarFirst": [(7_200 * i, *place) for i, place in enumerate([(100_000, 100_000), *scattered(100, 0xFF)[1:]])],
    "Corners": [(86_400 * i, *[(0, 0), (100, 0), (100, 100), (0, 100)][i % 4]) for i in range(80)],
    "One": [(5, 3, 4)],
}


def growth(track, level):
    """The areas of all fixes, of the first three quarters of them and of the time, and since when the last one stayed."""
    first, span = track[0][0], track[-1][0] - track[0][0]

    def area(fixes):
        return by_definition.percent_row([fix[1:] for fix in fixes], level)[2] if fixes else 0

    def until(part, parts):
        return area([fix for fix in track if parts * (fix[0] - first) <= part * span])

    last, since = area(track), None
    if last:
        near = [20 * until(part, 20) >= 19 * last for part in range(1, 21)]
        since = next(first + span * part // 20 for part in range(1, 21) if all(near[part - 1:]))
    return last, area(track[:3 * len(track) // 4]), until(3, 4), since


def wrong_growths(text):
    """Each test of growth that is not by the definition; and how many were compared."""
    compared, wrong = 0, []
    for name, rows in re.findall(r"Track::(\w+),\s*\[(.*?)\n        \]", text, re.DOTALL):
        for level, *areas, since in re.findall(r"\((\d+), (\d+), (\d+), (\d+), (?:None|Some\((\d+)\))\)", re.sub(r"(?<=\d)_(?=\d)", "", rows)):
            expected = (*map(int, areas), int(since) if since else None)
            wrong += [(name, level)] * (growth(TRACKS[name], int(level)) != expected)
            compared += 1
    assert compared == 3 * len(TRACKS), compared
    return wrong, compared


def texts_in(text, name):
    """The texts of bytes of a constant of a source."""
    value = re.search(rf"^(?:pub )?const {name}: .*?=\s*(.*?);$", text, re.DOTALL | re.MULTILINE)[1]
    return [ast.literal_eval(literal).decode() for literal in re.findall(BYTES, value)]


def files_in(text, worked):
    """The texts of the herd's files, of which some are constants of the source of worked tracks."""
    value = re.search(r"^const FILES: .*?= \[(.*?)\];$", text, re.DOTALL | re.MULTILINE)[1]
    for item in re.findall(rf"{BYTES}|\w+", value):
        yield ast.literal_eval(item).decode() if item.startswith("b") else texts_in(worked, item)[0]


def herd_of(text, worked):
    """The report of the herd's files, and the one that stands in its source."""
    with tempfile.TemporaryDirectory() as folder:
        files = [pathlib.Path(folder, f"{i}.csv") for i in range(5)]
        for file, track in zip(files, files_in(text, worked), strict=True):
            file.write_text(track)
        tracks = [by_definition.read(file) for file in files]
    return by_definition.report(tracks, [50, 95, 100], "m"), *texts_in(text, "REPORT")


def are_one(points):
    """Whether the ways to the polygons of the first point, the first two, and so on, and to what they cover, agree."""
    corners = points[:1]
    for n, point in enumerate(points, 1):
        corners = by_definition.grown(corners, point)
        places = itertools.product(range(4), repeat=2)
        is_same = by_definition.tried(points[:n]) == by_definition.wrap(points[:n]) == corners
        if not is_same or any(
            by_definition.covers(points[:n], place) != by_definition.polygon_covers(corners, place) for place in places
        ):
            return False
    return True


def main():
    crates = pathlib.Path(sys.argv[1])
    wrong, compared = wrong_percents((crates / "test_geometry/src/percents.rt").read_text())
    print(f"{compared - len(wrong)} of {compared} rows of percent polygons agree", *wrong, sep="\n")
    wrong_fixes, influences = wrong_influences((crates / "test_page_influence/src/influence.rt").read_text())
    print(f"{influences - len(wrong_fixes)} of {influences} influences agree", *wrong_fixes, sep="\n")
    wrong_growth, growths = wrong_growths((crates / "test_page_growth/src/growth.rt").read_text())
    print(f"{growths - len(wrong_growth)} of {growths} growths agree", *wrong_growth, sep="\n")
    herd, worked = crates / "test_command/src/herd.rt", crates / "test_doubles/src/tracks.rt"
    made, kept = herd_of(herd.read_text(), worked.read_text())
    print(f"the herd's report is {'' if made == kept else 'not '}by the definitions")
    draw = random.Random(1)
    clouds = [[(draw.randrange(4), draw.randrange(4)) for _ in range(7)] for _ in range(60)]
    differing = [points for points in clouds if not are_one(points)]
    print(f"{len(clouds) - len(differing)} of {len(clouds)} clouds have one polygon", *differing, sep="\n")
    sys.exit(bool(wrong or wrong_fixes or wrong_growth or made != kept or differing))


if __name__ == "__main__":
    main()
