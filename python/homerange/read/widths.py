"""Numbers of floating point of 32 and 16 bits: how far those of fixes may lie from what was measured; and how columns write a number
that stands for what is missing."""

from __future__ import annotations

import sys
from numbers import Real
from typing import TYPE_CHECKING, Any, Iterable, Sequence

import numpy
import pandas
from numpy.typing import NDArray

from ..errors import one_line
from ..record import Record
from ..units import UNITS
from .cells import float_cell, inner_type

if TYPE_CHECKING:
    from .text import Column

DEGREE = 111_320  # metres of one at the equator
NUMBERS = {"floating", "integer", "integer-na", "mixed-integer-float", "mixed-integer", "mixed"}  # what columns that have some are called
NARROW = (numpy.float16, numpy.float32)


def narrowest(values: pandas.Series) -> Any:
    """The class of the narrowest numbers of floating point of a column, if it has some of less than 64 bits, whatever holds them."""
    kind = inner_type(values.dtype)
    own = getattr(kind, "numpy_dtype", getattr(kind, "subtype", kind))
    kinds = {value.dtype for value in values if isinstance(value, numpy.floating)} if own == object else {own}
    return next((narrow for narrow in NARROW if numpy.dtype(narrow) in kinds), None)


def narrow_places(columns: Iterable[Column], record: Record, taken: str) -> list[Column]:
    """The columns of such numbers among those that the program took, by the line in which it says so."""
    titles = f"{next((line for line in record.said if line.startswith(taken)), '').split(';')[0]},"
    return [column for column in columns if f", {one_line(column.title)}," in titles and narrowest(column.values) is not None]


def steps_said(columns: Iterable[Column], rows: NDArray[numpy.int64], record: Record) -> list[str]:
    """What is said of such columns whose numbers, in the rows of fixes, lie farther from each other than the unit."""
    least = 1 / UNITS[record.unit].per_metre
    size = DEGREE if any(line.startswith("longitude and latitude are ") for line in record.said) else 1
    found = ((column, size * step_of(column.values.iloc[rows])) for column in columns)
    return [f"numbers of {column.title} have {8 * numpy.dtype(narrowest(column.values)).itemsize} bits, and may be {step:.2g} m from the "
            "places that were measured" for column, step in found if step > least]


def step_of(values: pandas.Series) -> float:
    """How far the greatest of coordinates lies from the next."""
    return float(numpy.spacing(narrowest(values)(numpy.abs(numpy.asarray(values, dtype="float64")).max(initial=0))))


def missing_as_written(na: Any, columns: Sequence[Column]) -> Any:
    """Words for what is missing, with each number among them as the cells of these columns have it."""
    several = [na] if isinstance(na, Real) else na
    if not isinstance(several, (list, tuple, numpy.ndarray, pandas.Series)):
        return na
    return [cell for word in several for cell in (cells_of_number(word, columns) if is_number(word) else [word])]


def is_number(word: Any) -> bool:
    own: Any = word.item() if isinstance(word, numpy.generic) else word  # numpy would have the greatest of its own width
    is_real = isinstance(own, Real) and not isinstance(own, bool)
    return is_real and bool(abs(own) <= sys.float_info.max)


def cells_of_number(number: Any, columns: Iterable[Column]) -> list[Any]:
    """The cells of a number in the columns that have it; the number itself where none has it."""
    cells: dict[str, None] = {}
    with numpy.errstate(over="ignore"):
        for column in columns:
            own = (narrowest(column.values) or numpy.float64)(number)
            if has_number(column.values, own):
                cells[str(int(number)) if pandas.api.types.is_integer_dtype(column.values.dtype) else float_cell(own)] = None
    return [*cells] or [number]


def has_number(values: pandas.Series, number: Any) -> bool:
    """Whether a number is among values of whatever class."""
    own = pandas.Series(values.cat.categories) if isinstance(values.dtype, pandas.CategoricalDtype) else values
    if pandas.api.types.infer_dtype(own, skipna=True) not in NUMBERS:
        return False
    return bool((pandas.to_numeric(own, errors="coerce") == number).any())
