"""The cells of a column of a data frame as text, by the class of the column, or of each cell where it has none. What is missing
is nothing, and what no table of fixes has is named by its class, as <complex>, which is refused where it is read."""

from __future__ import annotations

import datetime as clock
import re
from decimal import Decimal
from functools import lru_cache
from numbers import Real
from typing import Any, Callable, List

import numpy
import pandas
from numpy.typing import NDArray

from ..errors import one_line

Cells = List[str]
EXACT = 2 ** 53  # from here on numbers of floating point are not all whole numbers
WIDTHS = {"float16": 2 ** 11, "float32": 2 ** 24}  # the same of narrower ones
MOST_SHORT = 1e12  # below which numbers of floating point are closer to each other than thousandths
MOST_BITS = 13_000  # of a whole number, which Python writes with up to 4,300 digits
PARTS = {"s": 1, "ms": 10 ** 3, "us": 10 ** 6, "ns": 10 ** 9}  # of a second
TRUTHS = {True: "true", False: "false"}
SECONDS = 86_400  # of a day
DAY = SECONDS * 10 ** 9  # nanoseconds
THOUSAND = 1000
LIKE_THOUSANDS = re.compile("-?[0-9]{1,3}([.][0-9]{3})?")  # a number below 1000 with three decimals, or with none


def cells_of(series: pandas.Series) -> Cells:
    """The cells of a column."""
    kind = series.dtype
    if isinstance(kind, pandas.CategoricalDtype):
        own = [*cells_of(pandas.Series(series.cat.categories)), ""]
        return [own[code] for code in series.cat.codes.tolist()]
    if isinstance(kind, pandas.SparseDtype):
        return cells_of(series.sparse.to_dense())
    if isinstance(kind, pandas.PeriodDtype):
        return cells_of(series.dt.to_timestamp())
    if is_time(kind):
        return times_of(series)
    if isinstance(kind, numpy.dtype) and kind.kind in "biuf":
        return plain_cells(series.to_numpy())
    if not pandas.api.types.is_extension_array_dtype(kind):
        return object_cells(series.to_numpy())
    if pandas.api.types.is_float_dtype(kind):  # one that may be missing, or of Arrow
        return float_cells(series.to_numpy(dtype=kind.numpy_dtype, na_value=numpy.nan))
    return object_cells(series.to_numpy(dtype=object, na_value=None))


def inner_type(kind: Any) -> Any:
    """The class of the values of a column, of categories that of these."""
    return kind.categories.dtype if isinstance(kind, pandas.CategoricalDtype) else kind


def is_time(kind: Any) -> bool:
    """Whether a class of columns is that of date-times."""
    return isinstance(kind, pandas.DatetimeTZDtype) or isinstance(kind, numpy.dtype) and kind.kind == "M"


def times_of(series: pandas.Series) -> Cells:
    """The cells of date-times: in UTC, with a Z, where they have a zone, and else by their own clock. None are turned into another
    unit, in which they may have no place."""
    has_zone = isinstance(series.dtype, pandas.DatetimeTZDtype)
    times = series.dt.tz_convert("UTC").dt.tz_localize(None).to_numpy() if has_zone else series.to_numpy()
    return moments(times, has_zone)


def moments(times: NDArray[Any], has_zone: bool) -> Cells:
    """The cells of date-times of numpy, with as many decimals as they all need; days alone, if none has a zone or a clock."""
    unit = numpy.datetime_data(times.dtype)[0]
    if unit not in PARTS:
        times, unit = times.astype("datetime64[s]"), "s"
    rest = numpy.where(numpy.isnat(times), 0, times.astype("int64"))
    if not has_zone and rest.size and not (rest % (PARTS[unit] * SECONDS)).any():
        return [day.replace("NaT", "") for day in numpy.datetime_as_string(times.astype("datetime64[D]")).tolist()]
    needed = next(name for name, parts in PARTS.items() if not (rest % max(PARTS[unit] // parts, 1)).any())
    if needed == "s":
        return whole_moments(times.astype("datetime64[s]"), "T" if has_zone else " ", "Z" if has_zone else "")
    text = "\n".join(numpy.datetime_as_string(times.astype(f"datetime64[{needed}]")).tolist()).replace("NaT", "")
    if not has_zone:
        return text.replace("T", " ").split("\n")
    return [f"{time}Z" if time else "" for time in text.split("\n")]


def whole_moments(times: NDArray[Any], between: str, behind: str) -> Cells:
    """The cells of whole seconds: days and clocks occur often, and are written once each."""
    is_missing = numpy.isnat(times)
    day, clock = numpy.divmod(numpy.where(is_missing, 0, times.astype("int64")), SECONDS)
    at, days = pandas.factorize(day)
    dates = texts([f"{date}{between}" for date in numpy.datetime_as_string(days.astype("datetime64[D]")).tolist()])
    found = dates[at] + clocks(behind)[clock]
    found[is_missing] = ""
    return list(found.tolist())


@lru_cache(maxsize=None)
def clocks(behind: str) -> NDArray[Any]:
    """All seconds of a day as texts, with what stands behind them."""
    whole = numpy.datetime_as_string(numpy.arange(SECONDS).astype("datetime64[s]")).tolist()
    return texts([f"{text[11:]}{behind}" for text in whole])


def texts(several: Cells) -> NDArray[Any]:
    """Texts as an array, which can be put behind others."""
    found = numpy.empty(len(several), dtype=object)
    found[:] = several
    return found


def plain_cells(values: NDArray[Any]) -> Cells:
    """The cells of numbers, or truths, of numpy."""
    if values.dtype.kind == "b":
        return [TRUTHS[value] for value in values.tolist()]
    return joined(values.tolist()) if values.dtype.kind in "iu" else float_cells(values)


def joined(numbers: list[Any]) -> Cells:
    """The texts of numbers, as one text of them all has them, which is the fastest way."""
    return repr(numbers)[1:-1].split(", ") if numbers else []


def float_cells(values: NDArray[Any]) -> Cells:
    """The cells of numbers of floating point: the fewest digits that give them back, without an exponent as long as all whole
    numbers of such a size are exact."""
    most = WIDTHS.get(values.dtype.name, EXACT)
    sizes = numpy.abs(values)
    is_whole = numpy.isfinite(values) & (sizes < most) & (numpy.floor(values) == values)
    if is_whole.all():
        return joined(values.astype("int64").tolist())
    if values.dtype != numpy.float64:
        return [float_cell(value) for value in values]
    if bool(numpy.isfinite(values).all()) and values.min() >= 0 and values.max() < MOST_SHORT:
        parts = numpy.rint(values * 1000)
        if (parts / 1000 == values).all():
            return short_cells(parts.astype("int64"))
    # Python writes others so small with an exponent.
    is_plain = numpy.isfinite(values) & (sizes < most) & ((sizes >= 1e-4) | (values == 0))
    if is_plain.all() and not is_whole.any():
        return joined(values.tolist())
    cells = joined(values.tolist())
    for at in numpy.flatnonzero(is_whole | ~is_plain).tolist():
        cells[at] = float_cell(values[at])
    return cells


def short_cells(thousandths: NDArray[Any]) -> Cells:
    """The cells of numbers with at most three decimals. What stands before the point occurs often, and is written once each."""
    whole, rest = numpy.divmod(thousandths, 1000)
    at, own = pandas.factorize(whole)
    ends = texts(["", *(f".{end:03}".rstrip("0") for end in range(1, 1000))])
    cells: Cells = (texts(joined(own.tolist()))[at] + ends[rest]).tolist()
    return cells


def float_cell(value: Any) -> str:
    """A number of floating point, of Python's or of numpy's, as a cell."""
    if value != value:
        return ""
    most = WIDTHS.get(getattr(getattr(value, "dtype", None), "name", ""), EXACT)
    if abs(value) < most:
        return str(int(value)) if value == int(value) else numpy.format_float_positional(value, unique=True, trim="-")
    return str(float(value)) if abs(value) == float("inf") else numpy.format_float_scientific(value, unique=True, trim="-")


def object_cells(values: NDArray[Any]) -> Cells:
    """The cells of values of whatever classes."""
    if pandas.api.types.infer_dtype(values, skipna=True) == "string":
        return text_cells(values)
    return [cell_of(value) for value in values]


def text_cells(values: NDArray[Any]) -> Cells:
    """The cells of texts, some of which may be missing."""
    cells: Cells = values.tolist()
    for at in numpy.flatnonzero(pandas.isna(values)).tolist():
        cells[at] = ""
    return cells


def is_missing(value: Any) -> bool:
    """Whether a value stands for none."""
    if value is None or value is pandas.NA or value is pandas.NaT:
        return True
    if isinstance(value, (numpy.datetime64, numpy.timedelta64)):
        return bool(numpy.isnat(value))
    return isinstance(value, (float, numpy.floating)) and bool(value != value)


def cell_of(value: Any) -> str:
    """A value of whatever class as a cell."""
    if is_missing(value):
        return ""
    if isinstance(value, numpy.datetime64):
        return moments(numpy.array([value]), False)[0]
    found = next((write for kinds, write in CLASSES if isinstance(value, kinds)), None)
    return odd_cell(value) if found is None else found(value)


def row_named(labels: pandas.Index, at: int) -> str:
    """A row by its label, and where that is not its place by that too."""
    label = labels[at]
    is_place = isinstance(label, (int, numpy.integer)) and label == at
    return f"row {at}" if is_place else f"row {one_line(str(label))} (frame.iloc[{at}])"


class OddCell(str):
    """A cell of a value of which no text is known, by its class."""


def odd_cell(value: Any) -> str:
    """What a table of fixes cannot have, by its class."""
    return OddCell(f"<{type(value).__name__}>")


def odd_row(series: pandas.Series) -> tuple[int, str] | None:
    """The first row of a column whose value has no text, and its class; None where there is none."""
    kind, types = series.dtype, pandas.api.types
    is_number = types.is_numeric_dtype(kind) and not types.is_complex_dtype(kind)
    is_plain = is_number or is_time(kind) or types.infer_dtype(series, skipna=True) == "string"
    cells = [] if is_plain else cells_of(series)
    return next(((at, cell[1:-1]) for at, cell in enumerate(cells) if isinstance(cell, OddCell)), None)


def are_like_thousands(series: pandas.Series) -> bool:
    """Whether the point of all decimals of a column of numbers could be one before thousands, as in 123.456."""
    own = pandas.Series(series.cat.categories) if isinstance(series.dtype, pandas.CategoricalDtype) else series
    if own.dtype == object or "decimal" in str(own.dtype):
        return are_objects_like_thousands(own)
    if not pandas.api.types.is_float_dtype(own.dtype):
        return False
    kind = getattr(own.dtype, "numpy_dtype", own.dtype)
    numbers = own.to_numpy(dtype=kind if isinstance(kind, numpy.dtype) else "float64", na_value=numpy.nan)
    numbers = numbers[~numpy.isnan(numbers)]
    has_part = numbers[numbers != numpy.floor(numbers)]
    if not len(has_part) or not (numpy.abs(numbers) < THOUSAND).all():
        return False
    wide = has_part.astype("float64")
    thousandths, hundredths = ((numpy.rint(wide * parts) / parts).astype(numbers.dtype) for parts in (1000, 100))
    return bool((thousandths == has_part).all() and (hundredths != has_part).all())


def are_objects_like_thousands(values: pandas.Series) -> bool:
    """The same of numbers of whatever classes, by their cells."""
    known = [value for value in values if not is_missing(value)]
    if not all(isinstance(value, (Real, Decimal)) and not isinstance(value, bool) for value in known):
        return False
    cells = [*filter(None, map(cell_of, known))]
    return any("." in cell for cell in cells) and all(map(LIKE_THOUSANDS.fullmatch, cells))


def whole_cell(value: Any) -> str:
    """A whole number by its digits, if Python writes so many."""
    return str(int(value)) if int(value).bit_length() < MOST_BITS else odd_cell(value)


def decimal_cell(value: Decimal) -> str:
    """A decimal by all its digits."""
    if not value.is_finite():
        return "" if value.is_nan() else "-inf" if value < 0 else "inf"
    text = f"{value:f}"
    return text.rstrip("0").removesuffix(".") if "." in text else text


def length_cell(value: Any) -> str:
    """A length of time below a day as a clock, as databases give clocks; a longer one is none."""
    try:
        own = pandas.Timedelta(value)
    except (OverflowError, ValueError):
        return odd_cell(value)
    if not 0 <= own.value < DAY:
        return odd_cell(value)
    return str((pandas.Timestamp(0) + own).time().isoformat())


def moment_cell(value: clock.datetime) -> str:
    """A date-time: in UTC where it has a zone."""
    if value.utcoffset() is None:
        return value.replace(tzinfo=None).isoformat(" ")
    try:
        return f"{value.astimezone(clock.timezone.utc).replace(tzinfo=None).isoformat()}Z"
    except (OverflowError, ValueError):  # of the first day or the last that there is
        return value.isoformat()


# How values of some classes are written; a class that is a kind of another stands before it.
CLASSES: tuple[tuple[Any, Callable[[Any], str]], ...] = (
    (str, str), ((numpy.timedelta64, clock.timedelta), length_cell), ((bool, numpy.bool_), lambda value: TRUTHS[bool(value)]),
    ((int, numpy.integer), whole_cell), ((float, numpy.floating), float_cell), (Decimal, decimal_cell), (clock.datetime, moment_cell),
    (clock.date, lambda value: str(value.isoformat())), (clock.time, lambda value: str(value.isoformat())),
    (pandas.Period, lambda value: moment_cell(value.to_timestamp())))
