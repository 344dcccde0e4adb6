"""Groups of an animal's fixes, each of which has a range of its own: the periods of a calendar, or what a column, a value for
each fix or a function says."""

from __future__ import annotations

import os
import re
from collections import Counter
from contextlib import contextmanager
from dataclasses import replace
from datetime import timezone
from pathlib import Path
from typing import Any, Callable, Iterable, Iterator, NamedTuple, NoReturn, Sequence

import numpy
import pandas

from ..errors import BYTES, UNPRINTABLE, FrameError, calling, fault_of_text, one_line, refuse, shown
from ..program import find_split_program
from ..read.call import split_table
from ..read.cells import cells_of, is_time, odd_row, row_named
from ..read.changes import are_alike, are_rows_of_table, has_labels, with_named_levels
from ..read.fixes import Fixes, is_known, reading_of
from ..read.letters import like_title
from ..read.reading import OWN, SINCE_1970, ReadTable
from ..read.refusals import HELP_DIGITS, LOST_DIGITS, UNREAD
from ..read.text import quoted
from .order import check_order, is_column_of
from .outer import Track
from .tracks import Tracks

# Seasons are named by their months, since those of north and south have other names.
SEASONS = ("Dec-Feb", "Mar-May", "Jun-Aug", "Sep-Nov")
OF_TABLE = ("by is a table, and a value for each row is wanted: take one column, or join several, as by frame['a'].astype(str) + ' ' + "
            "frame['b'].astype(str)")
OTHERS: dict[type, str] = {dict: ": a column has it for each fix, as by fixes['animal'].map(by)", set: (ORDERED := ": a set has no order, and a list has one"),
                           frozenset: ORDERED}  # what is no value for each fix, and what helps
FORMS = {"year": "%Y", "month": "%Y-%m"}  # of periods as texts
REMEDY = "leave fixes without a group out before"
LABELS = "groups.csv"  # the table of groups as names, of which the program asks whether some are one
ALIKE = re.compile("animals ('.* alone: are they one[?])")
NONE = re.compile("animal '(.*)' has [0-9]+ records: are they of no animal[?]")


class Group(NamedTuple):
    """Of which animal a range is, and of which group of its fixes."""

    animal: str
    group: str


def year_of(year: int, _: int) -> str:
    return f"{year:04}"


def month_of(year: int, month: int) -> str:
    return f"{year:04}-{month:02}"


def season_of(year: int, month: int) -> str:
    """The season of a month, of whose winter December is that of the year before."""
    season = SEASONS[month % 12 // 3]
    if season != SEASONS[0]:
        return f"{year:04} {season}"
    first = year if month == 12 else year - 1
    return f"{first:04}-{first + 1:04} {season}"


PERIODS: dict[str, Callable[[int, int], str]] = {"year": year_of, "month": month_of, "season": season_of}


def check_by(by: Any, is_file: bool = False) -> None:
    """Refuses what says no groups, before a table is looked at, and values for the records of a file."""
    if is_file and not isinstance(by, str) and not callable(by):
        refuse("by goes by rows, and fixes of a file stand in another order: read the file before, as by pandas.read_csv, and hand in "
               "the data frame, with a value for each of its rows")
    if getattr(by, "ndim", 1) > 1:
        refuse(OF_TABLE)
    is_list = pandas.api.types.is_list_like(by) and hasattr(by, "__len__")
    if not isinstance(by, str) and not callable(by) and (not is_list or isinstance(by, (*OTHERS, *BYTES))):
        helps = next((helps for kind, helps in OTHERS.items() if isinstance(by, kind)), "")
        refuse(f"by={shown(by)} is none of {', '.join(map(repr, PERIODS))}, no column of the fixes, no value for each of them, and no "
               f"function of them{helps}")


@contextmanager
def named_by(by: Any) -> Iterator[None]:
    """Of a column of groups that the program refuses, since it may be something else by its title, it is said how it is kept."""
    try:
        yield
    except FrameError as fault:
        said = str(fault)
        if not isinstance(by, str) or by not in said or not re.search(r"\b(rename|remove it)\b", said):
            raise
        refuse(f"{said}; of groups give it another title, as by frame.rename(columns={{{by!r}: 'group'}}), by='group'", fault.kind, fault.record)


def is_period(by: Any) -> bool:
    """Whether groups are those of a calendar."""
    return isinstance(by, str) and by in PERIODS


def labels_of(table: ReadTable, by: Any) -> list[str]:
    """The group of each fix. Values that were given beside a frame, or beside fixes that were read before, go by its rows."""
    fixes, labels = table.fixes, table.fixes.index
    if is_period(by):
        refuse_period(by, fixes if table.frame is None else table.frame)
        return periods(fixes, by)
    if isinstance(by, str):
        return given(column_named(table, by), labels)
    if callable(by):
        with calling("by: the function of the fixes", ": a title, or a period such as 'month', stands in quotes"):
            values = by(fixes)
        return given(values_of_function(values, fixes), labels)
    frame = fixes if table.frame is None else table.frame
    values = values_of_fixes(by, frame) if isinstance(frame, Fixes) and is_known(frame) else values_for(by, frame)
    check_order(by, values, frame)
    return given(values if table.rows is None else values.iloc[table.rows], labels)


def column_named(table: ReadTable, by: str) -> pandas.Series:
    """The column of a title: that of the frame that was read, also where its fixes have one of that title that is not of it; else
    that of the fixes."""
    rows = with_named_levels(table.fixes)
    if by in OWN and table.frame is not None and by in (own := with_named_levels(table.frame)):
        rows = own.iloc[table.rows]
    if [*rows.columns].count(by) > 1:
        refuse(f"by: there are two columns {by!r}: rename one", "ambiguous")
    if is_of_file(table.fixes, by) and (by not in rows or table.frame is None and len(table.said) > 0):
        refuse(f"by: the column {by!r} of a file is not kept: read the file by pandas before, as by pandas.read_csv(..), and take that "
               "in its place", "columns")
    if by not in rows:
        refuse_title(by, [*map(str, rows.columns)])
    return rows[by]


def refuse_period(by: str, frame: pandas.DataFrame) -> None:
    """Refuses a period that is the title of a column too, in whatever capitals."""
    own = next((title for title in map(str, with_named_levels(frame).columns) if title.lower() == by), None)
    if own is not None:
        refuse(f"by={shown(by)} is a period of the calendar, and {'a column' if own == by else f'the column {own!r}'} too: by=fixes[{own!r}] "
               "takes the column")


def refuse_title(by: str, titles: Sequence[str]) -> NoReturn:
    """Refuses the title of no column, with that of these which looks like it."""
    refuse(f"by: there is no column {by!r}, and it is none of {', '.join(map(repr, PERIODS))}{like_title(by, titles)}", "columns")


def is_of_file(fixes: Fixes, by: str) -> bool:
    """Whether fixes are of a file that has a column of this title, which was not read."""
    reading = reading_of(fixes)
    unread = next((line.removeprefix(UNREAD) for line in reading.notes if line.startswith(UNREAD)), "")
    return not reading.titles and f", {one_line(by)}," in f", {unread},"


def said_of_period(fixes: Fixes, by: str) -> list[str]:
    """What is said of a period that is also the title of a column of the file that fixes are of, in whatever capitals."""
    unread = next((line.removeprefix(UNREAD) for line in reading_of(fixes).notes if line.startswith(UNREAD)), "")
    own = next((title for title in unread.split(", ") if title.lower() == by and is_of_file(fixes, title)), None)
    return [] if own is None else [
        f"ranges are by the {by} of the calendar, and not by the column '{own}' of the file, which is not kept: read the file before to take that"]


def without_title(lines: Iterable[str], by: str) -> list[str]:
    """What is said of fixes, of which the column of groups is not among those that are not read."""
    found = []
    for line in lines:
        rest = f", {line.removeprefix(UNREAD)}, ".replace(f", {one_line(by)}, ", ", ", 1)[2:-2]
        if not line.startswith(UNREAD) or rest:
            found.append(f"{UNREAD}{rest}" if line.startswith(UNREAD) else line)
    return found


def may_be_by_place(values: pandas.Series, frame: pandas.DataFrame) -> bool:
    """Whether values that are counted from 0 on say something else by their labels than by their places, so that nobody knows which is meant."""
    are_counted = values.index.equals(pandas.RangeIndex(len(frame))) and not frame.index.equals(values.index)
    return are_counted and frame.index.isin(values.index).all() and not are_alike(values.reindex(frame.index), values).all()


def values_of_function(values: Any, fixes: pandas.DataFrame) -> pandas.Series:
    """A value for each fix, which a function of the fixes gave."""
    if isinstance(values, pandas.Series) and may_be_by_place(values, fixes):
        refuse("by: the function's values are a Series of another index than that of the fixes: give them that, as by pandas.Series(values, "
               "index=fixes.index), or an array, as by values.to_numpy()")
    return values_for(values, fixes)


def values_of_fixes(values: Any, fixes: Fixes) -> pandas.Series:
    """A value for each of fixes that were read before, where it is known of which each is: of a Series with their own index, or by
    the labels of their table; of such as a column of them has; and where the fixes are the rows of their table in its order."""
    reading, is_series = reading_of(fixes), isinstance(values, pandas.Series)
    if is_series and values.index.is_(fixes.index):
        return values
    if is_series and not fixes.index.isin(values.index).any():
        refuse_labels_of_column(values, fixes)
    if is_series and values.index.is_unique and has_labels(fixes, reading) and fixes.index.isin(values.index).all():
        by_label = values.reindex(fixes.index)
        if not may_be_by_place(values, fixes) or is_column_of(fixes, by_label):
            return by_label
    if not is_series or values.index.equals(fixes.index) and values.index.names == fixes.index.names:
        found = values_for(values.array if is_series else values, fixes)
        if are_rows_of_table(fixes, reading) or is_column_of(fixes, found):
            return found
    return refuse("by: it is not known which of the fixes each value is of, since these may stand in another order than the rows that were "
                  "read, or be fewer: make the values a column of that table before read_fixes, or, if they were made of these fixes, a "
                  "column of these, as by fixes.assign(group=..), and name it, as by by='group'")


def values_for(values: Any, frame: pandas.DataFrame) -> pandas.Series:
    """A value for each row of a frame, in their order: those of a Series go by its index."""
    if isinstance(values, pandas.Series):
        return aligned(values, frame)
    is_list = pandas.api.types.is_list_like(values) and hasattr(values, "__len__") and not isinstance(values, BYTES)
    count = len(values) if is_list else None
    if getattr(values, "ndim", 1) > 1:
        refuse(OF_TABLE)
    if count != len(frame):
        refuse_titles(values, frame)
        refuse_lists(values, frame)
        refuse(f"by is {repr(values) if count is None else f'{count} values'} for {len(frame)} rows")
    if not isinstance(values, (list, tuple)):
        return pandas.Series(values)
    return pandas.Series(pandas.array(pandas.Series(values, dtype=object).to_numpy()))  # tuples in it are values too


def refuse_lists(values: Any, frame: pandas.DataFrame) -> None:
    """Refuses a list of a title, and one of columns."""
    several = [*values] if isinstance(values, (list, tuple)) else []
    if len(several) == 1 and isinstance(several[0], str) and several[0] in {*frame.columns, *PERIODS}:
        refuse(f"by is a list of 1 text: write by={several[0]!r}")
    if several and all(pandas.api.types.is_list_like(own) and hasattr(own, "__len__") and len(own) == len(frame) for own in several):
        helps = "take it, as by by[0]" if len(several) == 1 else "join them, as by by[0].astype(str) + ' ' + by[1].astype(str)"
        refuse(f"by is a list of {len(several)} column{'s' * (len(several) > 1)}, and one is wanted: {helps}")


def refuse_titles(values: Any, frame: pandas.DataFrame) -> None:
    """Refuses titles of several columns, periods among them."""
    titles = [*values] if isinstance(values, (list, tuple, numpy.ndarray, pandas.Index)) else []
    columns = [*map(str, with_named_levels(frame).columns)]
    own = [title for title in titles if isinstance(title, str) and title not in columns]
    if len(titles) < 2 or len(own) == len(titles) and not {*own} & {*PERIODS} or not all(isinstance(title, str) for title in titles):
        return
    unknown = next((title for title in own if title not in PERIODS), None)
    if unknown is not None:
        refuse_title(unknown, columns)
    if not own:
        refuse(f"by names {len(titles)} columns: join them, as by {joined_texts(titles)}")
    refuse(f"by names {len(titles)} columns or periods: {help_for_periods(titles, own)}")


def joined_texts(titles: Sequence[str]) -> str:
    """How the texts of columns, or of years and months, are joined."""
    texts = (f"fixes['time'].dt.strftime({FORMS[title]!r})" if title in FORMS else f"fixes[{str(title)!r}].astype(str)" for title in titles)
    return " + ' ' + ".join(texts)


def help_for_periods(titles: Sequence[str], own: Sequence[str]) -> str:
    """What helps where several titles are wanted, some of which are periods: months and seasons are those of a year."""
    if len(own) == len(titles):
        finest = "month" if "month" in own else "season"
        return f"write by={finest!r}, which has {' and '.join(title for title in dict.fromkeys(own) if title != finest)} too"
    if "season" not in own:
        return f"join them, as by lambda fixes: {joined_texts(titles)}"
    other = next(title for title in titles if title not in own)
    return f"write by='season' for fixes of one {other} alone, as by fixes[fixes[{other!r}] == ..]"


def aligned(series: pandas.Series, frame: pandas.DataFrame) -> pandas.Series:
    """A series with a value for each row of a frame, in the order of its rows, by its index."""
    if series.index.equals(frame.index):
        return series
    if series.index.is_unique and frame.index.is_unique and not len(frame.index.difference(series.index)):
        return series.reindex(frame.index)
    if not frame.index.is_unique:
        refuse("by is a Series with another index than the frame, whose labels are there twice: make them unique before, as by "
               "frame.reset_index(drop=True), and by of it")
    refuse_labels_of_column(series, frame)
    refuse("by is a Series with another index than the frame: take by.to_numpy() to go by position, or by.reindex(frame.index)")


def refuse_labels_of_column(series: pandas.Series, frame: pandas.DataFrame) -> None:
    """Refuses a series whose labels are the values of a column, as of a table of animals."""
    if not len(series) or not pandas.api.types.infer_dtype(series.index) in ("string", "categorical"):
        return
    rows = with_named_levels(frame)
    title = next((str(title) for at, title in enumerate(rows.columns) if rows.iloc[:, at].isin(series.index).all()), None)
    if title is not None:
        refuse(f"by is a Series whose labels are those of the column {title!r}, and not of the rows: a column has it for each fix, as by "
               f"frame[{title!r}].map(by)")


def given(values: pandas.Series, labels: pandas.Index) -> list[str]:
    """The groups that values say, each of which has to be there. Periods are those that pandas names."""
    is_period = isinstance(values.dtype, pandas.PeriodDtype)
    cells = moments_by_clock(values) or cells_of(values.astype(str).where(values.notna(), "") if is_period else values)
    refuse_classes(values, labels)
    has_parts = pandas.api.types.is_float_dtype(values.dtype)
    odd = next(((at, fault) for at, fault in enumerate(why_no_group(cell, has_parts) for cell in cells) if fault is not None), None)
    if odd is not None:
        at, fault = odd
        refuse(f"{row_named(labels, at)}: by has {fault}", "option", at + 1)
    return cells


def why_no_group(cell: str, has_parts: bool) -> str | None:
    """Why a cell is no group, of numbers of floating point if it has parts, and what helps; None where it is one."""
    if not cell:
        return f"no group; {REMEDY}"
    if UNPRINTABLE.search(cell):
        return f"a group that is {cell!r}, with a control character: make it text"
    if (fault := fault_of_text(cell)) is not None:
        return f"a group that is {cell!r}, which {fault}: mend it"
    if not has_parts or cell.lstrip("-").isdecimal():
        return None
    if "e+" in cell:
        return f"a group that is '{cell}', {LOST_DIGITS}: {HELP_DIGITS}"
    return f"a group that is '{cell}', a number that is not whole: make it text"


def moments_by_clock(values: pandas.Series) -> list[str] | None:
    """Moments as their own clock shows them, and as days where all are midnights; None of other values, and of parts of seconds."""
    if not is_time(values.dtype):
        return None
    known = values.dropna()
    if (known == known.dt.normalize()).all():
        return [*values.dt.strftime("%Y-%m-%d").fillna("")]
    if known.dt.tz in (None, timezone.utc) or str(known.dt.tz) == "UTC" or not (known == known.dt.floor("s")).all():
        return None
    return ["" if moment is pandas.NaT else moment.isoformat() for moment in values]


def refuse_classes(values: pandas.Series, labels: pandas.Index) -> None:
    """Refuses groups of a class that has no text, such as intervals, all of which would be one."""
    odd = odd_row(values)
    if odd is not None:
        at, kind = odd
        refuse(f"{row_named(labels, at)}: by has a group of the class {kind}, which is no text: make it one, as by .astype(str)",
               "option", at + 1)


def why_no_calendar(fixes: Fixes) -> str:
    """Why seconds have none, and what helps."""
    are_dates = fixes["second"].between(*SINCE_1970).to_numpy()
    if are_dates.all() or not are_dates.any():
        return ("seconds have no calendar, since none is of the years 1973 to 2262: read a table with date-times of these, or name groups "
                "by a column of text")
    return (f"{row_named(fixes.index, int((~are_dates).argmax()))} is not of the years 1973 to 2262, so that the seconds of no row have a "
            "calendar: leave it out, as by since, or name groups by a column of text")


def periods(fixes: Fixes, by: str) -> list[str]:
    """The period of each fix, by the clock of the fixes."""
    if "time" not in fixes:
        refuse(f"by={shown(by)}: {why_no_calendar(fixes)}")
    own = fixes["time"].dt
    months, at = numpy.unique(own.year.to_numpy() * 12 + own.month.to_numpy() - 1, return_inverse=True)
    names = [PERIODS[by](int(month) // 12, int(month) % 12 + 1) for month in months]
    return [names[place] for place in at.tolist()]


def questions_of(labels: Sequence[str], folder: Path, program: str | os.PathLike[str] | None) -> list[str]:
    """What the program asks of groups that may be one, or none, as it does of animals by their names: it reads a table with two
    fixes of each. What it refuses of names, but for numbers that have lost digits, is none of groups."""
    own = Counter(labels)
    lines = ["animal,easting,northing", *(f"{cell},0,{place}" for cell in quoted([*own]) for place in (0, 1)), ""]
    (folder / LABELS).write_bytes("\n".join(lines).encode())
    try:
        said = split_table(LABELS, "groups", [], find_split_program(program), str(folder))
    except FrameError as fault:
        what = str(fault).replace("the name of animal ", "group ").replace("animals ", "groups ", 1).rsplit(": ", 1)[0]
        return refuse(f"by: {what}: {HELP_DIGITS}", "name") if LOST_DIGITS in what else [f"groups are not compared: {what}"]
    none = {name[1]: f"group '{name[1]}' has {own[name[1]]} fixes: are they of no group?" for name in map(NONE.fullmatch, said) if name}
    return [*(f"groups {several[1]}" for several in map(ALIKE.fullmatch, said) if several), *none.values()]


def group_tracks(tracks: Tracks, labels: Sequence[str], questions: Sequence[str]) -> tuple[Tracks, dict[str, Group]]:
    """The tracks of each group, in the order of animals and of times, by names that say both; and what these names mean. What is
    asked of groups is said of the tracks."""
    parts: dict[str, Track] = {}
    known: dict[str, Group] = {}
    own, end = numpy.array(labels, dtype=object), 0
    for animal, track in tracks.by_name.items():
        first, end = end, end + len(track)
        codes, groups = pandas.factorize(own[first:end])
        for code, group in enumerate(groups):
            name = f"{animal} {group}"
            if name in known:
                refuse(f"by: {animal!r} and {known[name].animal!r} both have a range named {name!r}: rename one", "name")
            parts[name], known[name] = track[codes == code], Group(animal, group)
    said = f"ranges are by group: {len(parts)} of {len(tracks.by_name)} animals"
    return replace(tracks, by_name=parts, left_out={}, notes=[*tracks.notes, *questions, said], record=None), known
