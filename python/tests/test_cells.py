"""Cells of columns of whatever class as text: numbers by their fewest digits, moments in UTC, and what is missing as nothing."""
import datetime as clock
from decimal import Decimal
from fractions import Fraction
from zoneinfo import ZoneInfo

import numpy
import pandas
import pytest

from homerange.read.cells import cells_of

LJUBLJANA = ZoneInfo("Europe/Ljubljana")


@pytest.mark.parametrize("kind, values, wanted", [
    ("float64", [1.0, 2.5, 562000.13, 0.1 + 0.2, -2.0, -0.5, -0.0], ["1", "2.5", "562000.13", "0.30000000000000004", "-2", "-0.5", "0"]),
    ("float64", [1e-7, 0.00012, 5e-324], ["0.0000001", "0.00012", f"0.{'0' * 323}5"]),
    ("float64", [None, float("inf"), float("-inf"), 3.0], ["", "inf", "-inf", "3"]),
    # From 2 ** 53 on not each whole number has a place, so that digits may be lost.
    ("float64", [2.0 ** 53 - 1, 2.0 ** 53, 1e16, -1e22], ["9007199254740991", "9.007199254740992e+15", "1e+16", "-1e+22"]),
    ("float32", [1.1, 16777215, 16777216, 0.5], ["1.1", "16777215", "1.6777216e+07", "0.5"]),
    ("float16", [2047, 2048, 1.5], ["2047", "2.048e+03", "1.5"]),
    (">f8", [1.5, 7.0], ["1.5", "7"]), ("Float32", [1.1, None], ["1.1", ""]), ("Float64", [1.1, None, 2], ["1.1", "", "2"]),
    ("int64", [7, -7, 0], ["7", "-7", "0"]), ("uint8", [255], ["255"]), ("Int64", [2 ** 60, None], ["1152921504606846976", ""]),
    ("bool", [True, False], ["true", "false"]), ("boolean", [True, None], ["true", ""]), ("object", [True, None, 1], ["true", "", "1"]),
    ("object", ["a", None, float("nan"), "NA", "", "a\nb"], ["a", "", "", "NA", "", "a\nb"]), ("string", ["a", None], ["a", ""]),
    ("category", ["a", None, "b", "a"], ["a", "", "b", "a"]), ("category", [1.0, 2.5, None], ["1", "2.5", ""]),
    ("object", [7, "7", 7.0, Decimal("7.0"), Decimal("7.250"), numpy.int8(7), numpy.float32(1.1)], ["7", "7", "7", "7", "7.25", "7", "1.1"]),
    ("object", [Decimal("NaN"), Decimal("sNaN"), Decimal("-Infinity"), Decimal("1E+20")], ["", "", "-inf", "100000000000000000000"]),
    ("object", [10 ** 30, 10 ** 5000, pandas.NA, pandas.NaT], ["1" + "0" * 30, "<int>", "", ""]),
    ("object", [[1], {}, b"a", 2j, Fraction(1, 2), clock.timedelta(1)], ["<list>", "<dict>", "<bytes>", "<complex>", "<Fraction>", "<timedelta>"]),
    ("complex128", [2j], ["<complex128>"]), ("timedelta64[ns]", [37_800_500_000_000, 86_400_000_000_000, None], ["10:30:00.500000", "<timedelta64>", ""]),
    ("object", [clock.date(2024, 5, 1), clock.time(10, 30), clock.datetime(2024, 5, 1, 10)], ["2024-05-01", "10:30:00", "2024-05-01 10:00:00"]),
    ("object", [clock.datetime(2024, 5, 1, 10, tzinfo=LJUBLJANA), clock.datetime(1, 1, 1, tzinfo=clock.timezone(clock.timedelta(hours=2)))],
     ["2024-05-01T08:00:00Z", "0001-01-01T00:00:00+02:00"]),
    ("object", [pandas.Timestamp("2024-05-01 10:00:00.000000001", tz="Asia/Tokyo"), numpy.datetime64("2567-05-01T10")],
     ["2024-05-01T01:00:00.000000001Z", "2567-05-01 10:00:00"]),
    ("object", [pandas.Period("2024-05"), pandas.Timedelta("25h"), numpy.timedelta64("NaT")], ["2024-05-01 00:00:00", "<Timedelta>", ""]),
])
def test_cells(kind, values, wanted):
    series = pandas.Series(values, dtype=kind)
    assert cells_of(series) == wanted
    assert cells_of(series.iloc[:1]) == wanted[:1] and cells_of(series.iloc[:0]) == []


@pytest.mark.parametrize("times, wanted", [
    (["2024-05-01 10:00", None], ["2024-05-01 10:00:00", ""]), (["2024-05-01 10:00:00.5"], ["2024-05-01 10:00:00.500"]),
    (["2024-05-01 10:00:00.000001", "1969-12-31 23:59:59"], ["2024-05-01 10:00:00.000001", "1969-12-31 23:59:59.000000"]),
    (["2024-05-01 10:00:00.000000001"], ["2024-05-01 10:00:00.000000001"]),
])
def test_times_have_the_decimals_that_they_need(times, wanted):
    series = pandas.Series([pandas.Timestamp(time) if time else pandas.NaT for time in times])
    assert cells_of(series) == wanted
    assert cells_of(series.dt.tz_localize("UTC")) == [f"{time.replace(' ', 'T')}Z" if time else "" for time in wanted]


def test_times_of_a_zone_are_moments():
    times = pandas.Series(pandas.to_datetime(["2024-10-27 00:30", "2024-10-27 01:30"]).tz_localize("UTC").tz_convert("Europe/Ljubljana"))
    assert cells_of(times) == cells_of(times.astype("category")) == cells_of(times.astype(object)) == [
        "2024-10-27T00:30:00Z", "2024-10-27T01:30:00Z"]


def test_other_holders_of_values():
    assert cells_of(pandas.Series(pandas.period_range("2024-05", periods=2, freq="M"))) == ["2024-05-01", "2024-06-01"]
    assert cells_of(pandas.Series(pandas.arrays.SparseArray([1.0, numpy.nan]))) == ["1", ""]
    assert cells_of(pandas.Series(pandas.interval_range(0, 1))) == ["<Interval>"]


def test_random_numbers_come_back():
    random = numpy.random.default_rng(7)
    values = numpy.concatenate([random.normal(0, 10.0 ** size, 500) for size in range(-9, 16)])
    cells = cells_of(pandas.Series(values))
    assert [float(cell) for cell in cells] == values.tolist() and not any("e" in cell for cell in cells)
    narrow = values[numpy.abs(values) < 1e7].astype("float32")
    assert [numpy.float32(cell) for cell in cells_of(pandas.Series(narrow))] == narrow.tolist()


def test_decimals_of_metres_are_the_shortest():
    random = numpy.random.default_rng(3)
    values = numpy.concatenate([random.integers(0, 10 ** 9, 2000) / 1000, random.integers(0, 10 ** 15, 2000) / 1000, [0.001, 0.5, 999.999, -0.0]])
    assert cells_of(pandas.Series(values)) == [repr(value) if value % 1 else str(int(value)) for value in values.tolist()]


def test_arrow():
    arrow = pytest.importorskip("pyarrow")
    moments = arrow.array([1714557600], arrow.timestamp("s", "Europe/Ljubljana"))
    assert cells_of(pandas.Series(pandas.arrays.ArrowExtensionArray(moments))) == ["2024-05-01T10:00:00Z"]
    assert cells_of(pandas.Series([1.1, None], dtype=pandas.ArrowDtype(arrow.float32()))) == ["1.1", ""]
    assert cells_of(pandas.Series([clock.date(2024, 5, 1)], dtype=pandas.ArrowDtype(arrow.date32()))) == ["2024-05-01"]
