"""Values for each row of a table that may be those of its rows in another order, as of a table that was sorted or made anew since,
which are refused. docs/TABLES.md, Filters."""

from __future__ import annotations

from collections import Counter
from typing import Any

import pandas

from ..errors import one_line, refuse
from ..read.cells import cells_of
from ..read.changes import are_alike, has_labels, with_named_levels
from ..read.fixes import Fixes, is_known, reading_of
from ..read.reading import rows_counted

BY_PLACES, BY_LABELS = "by.to_numpy() goes by the places of values", ", and by.reindex(frame.index) by their labels"


def is_column_of(frame: pandas.DataFrame, values: pandas.Series) -> bool:
    """Whether a column of a frame has these values."""
    return any(are_alike(values, frame.iloc[:, at]).all() for at in range(len(frame.columns)))


def rows_without_labels(frame: pandas.DataFrame) -> int | None:
    """How many rows a table has whose labels tell no row from that of another table; None where they tell. Fixes may have the labels of
    the table that they were read from; those that were chosen among them keep labels that tell."""
    reading = reading_of(frame) if isinstance(frame, Fixes) and is_known(frame) else None
    if reading is not None and has_labels(frame, reading):
        return reading.rows_counted if len(frame) == sum(reading.counts.values()) else None
    return rows_counted(frame.index)


def check_order(by: Any, values: pandas.Series, frame: pandas.DataFrame) -> None:
    """Refuses values, which were found for the rows of a frame by what was given, if they may be of other rows."""
    is_series = isinstance(by, pandas.Series)
    count = rows_without_labels(frame)
    if is_series and by.index.is_(frame.index):
        return
    rows = with_named_levels(frame)
    if is_series:
        check_name(by, values, rows, count is None)
    if is_series and count is None or is_column_of(rows, values):
        return
    if is_series and not by.index.equals(pandas.RangeIndex(count)):
        refuse_labels(by, len(frame))
    turned = title_turned(values, rows)
    if turned is not None:
        refuse(f"by: the values are those of the column '{one_line(turned)}' of the table in another order than that of its rows: name it, as "
               f"by by={turned!r}, or make others a column of the table, as by frame.assign(group=..), and by='group'")


def check_name(by: pandas.Series, values: pandas.Series, rows: pandas.DataFrame, has_labels_that_tell: bool) -> None:
    """Refuses a series with the title of a column that has other values; where labels tell, as long as they are those of the column in
    other rows, and nothing else that is made of it."""
    same = [rows.iloc[:, at] for at, title in enumerate(rows.columns) if title == by.name]
    if len(same) != 1 or are_alike(values, same[0]).all():
        return
    if not has_labels_that_tell or values.isin(same[0]).all():
        more = "" if by.index.equals(values.index) else BY_LABELS
        refuse(f"by is a Series named {by.name!r}, and the column of that title says otherwise: by={by.name!r} takes the column; if other "
               f"values are meant, {BY_PLACES}{more}")


def refuse_labels(by: pandas.Series, count: int) -> None:
    """Refuses a series whose labels tell as little as those of the rows, of which there are so many."""
    if len(by) == count:
        refuse(f"by is a Series whose labels are 0, 1, 2, .. in another order, and rows are counted from 0 too, so that nobody knows of which "
               f"each value is: {BY_PLACES}{BY_LABELS}")
    refuse(f"by is a Series of {len(by)} values for {count} rows, which are counted from 0 as those of another table are: make it a column "
           "of the table, and name that; if its labels are those of the rows, by.reindex(frame.index) goes by them")


def title_turned(values: pandas.Series, rows: pandas.DataFrame) -> str | None:
    """The title of a column that has values, each as often, in another order, where none has them in this one."""
    own = cells_of(values)
    counts, found = Counter(own), None
    for at, title in enumerate(rows.columns):
        column = rows.iloc[:, at]
        cells = [] if str(column.dtype) == "geometry" else cells_of(column)
        if cells == own:
            return None
        if found is None and Counter(cells) == counts:
            found = str(title)
    return found
