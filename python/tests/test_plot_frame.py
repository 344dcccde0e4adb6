"""The frame of a picture's map: its steps, the fixes that are drawn, and that numbers cover no other."""
from math import floor

import pytest
from exact import cloud

from homerange.write.boundary import in_order
from homerange.write.plot_frame import Frame, Numbers, Shape, overlaps, step_of, thinned

WIDTH = 680.0


@pytest.mark.parametrize("span, most, size", [
    (10, 5, 2), (11, 5, 5), (10, 1, 10), (1, 4, 0.5), (0.9, 4, 0.5), (4_000_000, 5, 1_000_000), (0.003, 3, 0.001)])
def test_steps_of_a_grid(span, most, size):
    assert step_of(span, most).size == size


def test_a_frame_has_the_north_above_and_one_scale():
    frame = Frame((0, 0, 2000, 1000), 100, WIDTH, 100, 400)
    (west, south), (east, north) = frame.at((0, 0)), frame.at((2000, 1000))
    assert east - west == pytest.approx(2000 * frame.scale) and south - north == pytest.approx(1000 * frame.scale)
    assert frame.at((frame.west, frame.south)) == (0, frame.height)


def square(number, east, north, side):
    return Shape(number, [[(east + side * x, north + side * y) for x, y in ((0, 0), (1, 0), (1, 1), (0, 1))]], [])


def test_numbers_cover_no_other():
    points = cloud(3, 150, 5000)
    frame = Frame((556_000, 5_128_000, 568_000, 5_140_000), 100, WIDTH, 200, 600)
    numbers = Numbers(frame, 7.5)
    for number, (east, north) in enumerate(points, 1):
        numbers.find(square(number, float(east), float(north), 100))
    assert len(numbers.taken) == 150
    for at, box in enumerate(numbers.taken):
        assert not any(overlaps(box, other) for other in numbers.taken[:at])
        assert 0 <= box[0] and box[2] <= frame.width and 0 <= box[1] and box[3] <= frame.height


@pytest.mark.parametrize("cell", [1.0, 1.5, 7.59375])
def test_of_fixes_in_a_cell_the_first_is_drawn(cell):
    frame = Frame((562_000.1, 5_134_000.2, 563_000.7, 5_135_000.9), 100, WIDTH, 200, 600)
    fixes = [(east / 7, north / 7) for east, north in cloud(4, 3000, 3500, 7 * 562_500, 7 * 5_134_500)]
    fixes.append((frame.west - 20, frame.south - 20))
    found = {}
    for fix in fixes:
        x, y = frame.at(fix)
        found.setdefault((floor(x / cell), floor(y / cell)), (x, y))
    assert thinned(fixes, frame, cell) == [*found.values()]
    assert 100 < len(found) < 3000
    assert thinned([], frame, cell) == []


def test_a_ring_begins_in_the_west_whichever_way_it_went():
    ring = [(2, 0), (2, 2), (0, 2), (0, 0), (2, 0)]
    assert in_order(ring) == in_order(ring[::-1]) == [(0, 0), (0, 2), (2, 2), (2, 0)]
