"""How pictures write areas, at the edges of each rule: by hand, and by decimals of Python's library."""
import random

import pytest
from pages import area

from homerange.write.formats import Clock, fixed, hectares, with_sign


@pytest.mark.parametrize("part, whole, places, text", [
    (1, 2, 0, "1"), (3, 2, 0, "2"), (5, 2, 0, "3"), (49, 100, 0, "0"), (1, 8, 2, "0.13"), (1005, 1000, 2, "1.01"),
    (9995, 1000, 2, "10.00"), (12_345_678, 1, 0, "12,345,678"), (10 ** 17 + 1, 2, 1, "50,000,000,000,000,000.5")])
def test_halves_are_rounded_up(part, whole, places, text):
    assert fixed(part, whole, places) == text


@pytest.mark.parametrize("area2, text", [
    (0, "0"), (1, "0.50 m²"), (19, "9.50 m²"), (20, "10.0 m²"), (199, "99.5 m²"), (200, "100 m²"), (19_999, "10,000 m²"),
    (20_000, "1.00"), (199_999, "10.00"), (200_000, "10.0"), (1_999_999, "100.0"), (2_000_000, "100"),
    (26_049_999, "1,302"), (26_050_000, "1,303")])
def test_areas(area2, text):
    assert hectares(area2, "m") == text == area(area2)
    assert with_sign(area2, "m") == (text if "m²" in text else f"{text} ha")


def test_areas_are_those_of_decimals():
    draw = random.Random(1)
    for _ in range(2000):
        area2 = draw.randrange(10 ** draw.randrange(1, 16))
        for unit, scale in (("m", 1), ("dm", 10)):
            assert hectares(area2, unit) == area(area2, scale)


def test_times_are_dates_where_all_are():
    assert [Clock("UTC", seconds).is_calendar for seconds in ([1_726_783_200], [0, 1_726_783_200], [])] == [True, False, True]
