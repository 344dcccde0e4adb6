"""Numbers of less than 64 bits: what is said of them, and how a number that stands for what is missing is met in a column."""
import warnings

import numpy
import pandas
import pytest
from frames import frame_of, noted

from homerange import home_range, read_fixes

PLACES = [(1000 + 7 * at, 5_000_000 + 40 * (at % 3)) for at in range(6)]
FRAME = frame_of(fox=PLACES)


def with_missing(value, kind):
    """The frame with this value in place of the first and the fourth easting, in a column of a class."""
    return FRAME.assign(easting=FRAME["easting"].astype("float64").where(FRAME.index % 3 > 0, value).astype(kind))


def said_of(frame, **options):
    with warnings.catch_warnings(record=True) as warned:
        warnings.simplefilter("always")
        fixes = read_fixes(frame, **options)
    assert not [str(warning.message) for warning in warned if warning.category is RuntimeWarning]
    return len(fixes), [note for note in noted(warned) if note.startswith(("na", "numbers"))]


@pytest.mark.parametrize("value, kind, na", [
    (-99999999, "float32", -99999999), (-99999999, "float32", -99999999.0), (-99999999, "float32", numpy.float32(-99999999)),
    (-99999999, "float32", "-1e+08"), (-99999999, "Float32", -99999999), (-3.4028235e38, "float32", -3.4028235e38),
    (-1e20, "float64", -1e20), (-1e20, "float64", -10 ** 20), (-1e20, object, -1e20), (-1e20, "category", [-1e20]),
    (2.0 ** 53, "float64", 2.0 ** 53), (-9999, "float16", -9999), (-9999, "int64", -9999.0), (-999.125, "float64", -999.125),
    (numpy.inf, "float32", "inf"), (numpy.nan, "float32", None),
])
def test_a_number_for_what_is_missing_is_met_as_it_is_written(splitter, value, kind, na):
    assert said_of(with_missing(value, kind), na=na) == (4, [])


def test_a_number_is_met_in_columns_of_several_widths(splitter):
    frame = with_missing(-99999999, "float32")
    frame["northing"] = FRAME["northing"].where(FRAME.index != 1, -99999999).astype("float64")
    assert said_of(frame, na=-99999999) == (3, [])


@pytest.mark.parametrize("na, said", [(-7.5, "'-7.5'"), (10 ** 400, "'1" + "0" * 400 + "'")])
def test_a_number_that_no_column_has_is_said_by_its_digits(splitter, na, said):
    assert said_of(FRAME, na=na) == (6, [f"na: no field of the columns that are read is {said}"])


def test_numbers_of_fixes_alone_have_a_width(splitter):
    assert said_of(with_missing(-16_000_000, "float32").assign(use=FRAME.index % 3 > 0)) == (4, [])
    with pytest.warns(UserWarning, match="^numbers of northing have 32 bits, and may be 0.5 m from the places that were measured$"):
        home_range(FRAME.assign(northing=FRAME["northing"].astype("float32")), unit="dm")


def test_metres_near_0_are_no_degrees(splitter):
    frame = pandas.DataFrame({"animal": "a", "second": [0, 60, 120, 180], "easting": [10.5, 20.25, 100, 200.5], "northing": [1.5, 3, 5, 70]})
    with warnings.catch_warnings(record=True) as found:
        warnings.simplefilter("always")
        read_fixes(frame.astype({"easting": "float32", "northing": "float32"}))
    assert not [line for line in found if "bits" in str(line.message)]
    degrees = pandas.DataFrame({"animal": "a", "second": [0, 60, 120], "lon": [150.001, 150.002, 150.003], "lat": [-30.001, -30.002, -30.003]})
    with pytest.warns(UserWarning) as heard:
        read_fixes(degrees.astype({"lon": "float32", "lat": "float32"}))
    assert "numbers of lon have 32 bits, and may be 1.7 m from the places that were measured" in [str(own.message) for own in heard]
