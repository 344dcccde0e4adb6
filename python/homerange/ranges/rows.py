"""Reads the rows of a report by numpy, many at once, as report.rows_in does."""

from __future__ import annotations

from array import array

import numpy

from ..report import Rows, without_head

COLUMNS = 4  # numbers of a row
ENDS = numpy.frombuffer(b",,,\n", dtype=numpy.uint8)  # what stands behind them
MOST = 17  # digits of a number


def rows_in(text: str, head: str, numbers: range) -> Rows | None:
    """The rows with these numbers, if a text is they, and neither seconds nor areas fall."""
    rest = without_head(text, head, len(numbers))
    whole = None if rest is None else rest.encode("utf-8", "surrogateescape")
    if whole is None or not are_rows(numpy.frombuffer(whole, dtype=numpy.uint8), len(numbers)):
        return None
    number, *columns = numpy.fromstring(whole.replace(b"\n", b","), dtype="int64", sep=",").reshape(-1, COLUMNS).T
    falls = [(numpy.diff(columns[at]) < 0).any() for at in (0, 2)]
    if any(falls) or (number != numpy.arange(numbers.start, numbers.stop)).any():
        return None
    return Rows(*(array("q", column.tobytes()) for column in columns))


def are_rows(signs: numpy.ndarray[tuple[int], numpy.dtype[numpy.uint8]], count: int) -> bool:
    """Whether signs are so many rows of four numbers, of digits alone, at most so many, and with no zero before others."""
    ends = numpy.flatnonzero(signs < ord("0"))
    if len(ends) != COLUMNS * count or signs.max() > ord("9") or (signs[ends].reshape(count, COLUMNS) != ENDS).any():
        return False
    lengths = numpy.diff(ends, prepend=-1) - 1
    has_zero = (signs[ends - lengths] == ord("0")) & (lengths > 1)
    return bool(lengths.min() > 0 and lengths.max() <= MOST and not has_zero.any())
