"""What is refused of a data frame, with the row: what the program refuses of its text, in the words of the frame, and cells of a
class that has no text, in columns that the program read."""

from __future__ import annotations

import datetime as clock
import re
from decimal import Decimal
from typing import Any, Iterable, Iterator, NamedTuple, NoReturn, Sequence

import numpy
import pandas

from ..errors import FrameError, one_line, refuse
from ..record import Record
from ..units import IANA
from .call import as_arguments
from .cells import cell_of, cells_of, is_missing, is_time, odd_row, row_named
from .clocks import with_labels
from .helps import day_of_all, with_help
from .systems import TITLES_OF_DEGREES
from .text import NAME, Column, Text, has_times, in_own_words, titles_named, with_rename, zones_in

LOST_DIGITS = "a number that has lost digits"
HELP_DIGITS = "read its column as text, as by pandas.read_csv(.., dtype=str)"
# What the program says of files, and what is said of frames in its place.
OF_FILES = {re.compile("(?<=may stand before thousands): export without it"): ": make numbers of its column, if they are decimals",
            re.compile("say so by --lon 'point .*"):
                "give the points the reference system that they have, as by frame.set_crs(4326, allow_override=True)",
            re.compile(f"(?<={LOST_DIGITS}): .*"): f": {HELP_DIGITS}",
            re.compile(f"^{NAME} has (.*): is its separator another[?]$"): r"the data frame has \1"}
HELP_SWAPPED = ("are x and y of the points the other way? frame.set_geometry(geopandas.points_from_xy(frame.geometry.y, frame.geometry.x, "
                "crs=frame.crs)) turns them")
HELP_METRES = ("if they are metres, give the points the reference system that they have, as by frame.set_crs(32633, allow_override=True); a "
               "word for what is missing is named by na")
NO_DATES = {clock.date(1899, 12, 30), clock.date(1899, 12, 31)}  # on which spreadsheets have clocks
TIMES = (clock.date, clock.time, clock.timedelta, pandas.Period, numpy.datetime64, numpy.timedelta64)  # and lengths of them
COLUMNS, UNREAD, NO_ANIMAL = "columns: ", "not read: ", "no column has a usual title for the animal"  # how lines begin


def refuse_text(text: Text, fault: FrameError) -> NoReturn:
    """Refuses a text as the program did, with the row by its label, and with options as arguments. That of the program may name
    the text, which nobody knows, or the class of a cell."""
    said = str(fault).removeprefix(f"{NAME}: ")
    named = [column for column in text.columns if said.startswith(f"{one_line(column.title)} is '")] if fault.kind == "time" else []
    refuse_form(text, named, " of the form " in said)
    odd = [own for own in odd_cells(text.columns if "<" in said else ()) if f"<{own.kind}>" in said]
    if odd:
        refuse_class(text, [own for own in odd if own.title in said] or odd, fault.kind)
    line = with_rename(in_own_words(as_arguments(with_remedy(of_frame(said), text), fault.kind), text), text)
    line = of_levels(of_rows(line, text.labels), text)
    where = "" if fault.record is None else f"{row_named(text.labels, fault.record - 1)}: "
    raise FrameError(f"{where}{line}", fault.kind, fault.record)


def of_rows(said: str, labels: pandas.Index) -> str:
    """What the program says of a record in brackets, as it is said of the row."""
    return re.sub("[(]record ([0-9]+)[)]", lambda found: "({})".format(
        row_named(labels, int(found[1]) - 1).replace(" (frame.iloc", ", frame.iloc").removesuffix(")")), said)


def of_levels(said: str, text: Text) -> str:
    """What is said with the column of a frame that is a level of its index."""
    titles = [column.title for column in text.columns if column.own is not None] + [*text.labels.names]
    found = re.search(r"frame\['([^']*)'\][.]notna", said)
    if found is None or found[1] not in titles:
        return said
    level = "frame.index" if text.labels.nlevels == 1 else f"frame.index.get_level_values({found[1]!r})"
    return said.replace(f"frame[{found[1]!r}].notna", f"{level}.notna")


def with_remedy(said: str, text: Text) -> str:
    """What the program says with what helps: for lengths of time, moments beside days, shapes, and titles that no option can name."""
    length = next((column.title for column in text.columns if said.startswith(f"{column.title} is '") and has_lengths(column)), None)
    if length is not None:
        return re.sub(r": (if it is one|write|name)\b.*", f": {help_for_lengths(length, text)}", said)
    if "both fit the time: " in said or "and not a time " in said:
        own = with_moments_alone(said, text)
        return with_help(said, text.options, text.columns) if own == said else own
    if str(text.options.get("lat")).startswith(TITLES_OF_DEGREES["lat"]):
        said = re.sub(": coordinates in metres are named by .*", f": {HELP_METRES}", said)
        return re.sub(": are their columns to be named the other way.*", f": {HELP_SWAPPED}", said)
    if text.shapes is not None and said.startswith("there are no columns of usual titles"):
        return (f"there are no columns of usual titles for coordinates, and {text.shapes} has shapes: make points of a GeoDataFrame "
                f"of them, as by geopandas.GeoDataFrame(frame, geometry={text.shapes!r}, crs=..)")
    if "there is no column" in said and any(sign in column.title for column in text.columns for sign in ",|"):
        return f"{said}: rename columns whose titles have a comma or |"
    return with_labels(with_help(said, text.options, text.columns), text)


def has_lengths(column: Column) -> bool:
    """Whether a column has lengths of time."""
    return pandas.api.types.infer_dtype(column.values, skipna=True) in ("timedelta", "timedelta64")


def help_for_lengths(title: str, text: Text) -> str:
    """What helps where a column has lengths of time: alone they are seconds, and beside days parts of moments."""
    if title in text.labels.names:
        return "make a column of this level of the index first, as by frame.reset_index()"
    named = titles_named(text.options.get("time"))
    days = next((own for own in named if own != title), None)
    if days is not None:
        return (f"make moments of both, as by pandas.to_datetime(frame[{days!r}]) + pandas.to_timedelta(frame[{title!r}]), in a column "
                "that time names alone")
    return (f"make seconds of its lengths of time, as by pandas.to_timedelta(frame.pop({title!r})).dt.total_seconds(), in a column "
            f"'second' in its place{', which time names' if named else ''}")


def refuse_form(text: Text, columns: Iterable[Column], is_of_maker: bool = False) -> None:
    """Refuses a form of times for columns of moments, which have one form, unless several columns are joined; so is one that a maker has."""
    own = next((column for column in columns if has_times(column.values)), None)
    if own is not None and text.options.get("time_format") is not None and len(titles_named(text.options.get("time"))) < 2:
        refuse(f"time_format is for texts, and {in_own_words(one_line(own.title), text)!r} has moments: leave it out")
    if own is not None and is_of_maker and text.options.get("from_") is not None:
        title = in_own_words(own.title, text)
        refuse(with_rename(f"from_={text.options['from_']!r} has a form for texts, and '{one_line(title)}' has moments: leave from_ out, and name "
                           f"columns, as by animal=.., time={title!r}", text))


def with_moments_alone(said: str, text: Text) -> str:
    """What the program says of days and times that it joins, or would join, where they are more than days and clocks."""
    both, named = re.search("'([^']*)' and column [0-9]+ '([^']*)' both fit the time: ", said), titles_named(text.options.get("time"))
    if text.options.get("from_") is not None:  # whose columns only the program knows
        start = said.partition(" is '")[0].join("  ")
        named = [column.title for column in text.columns if f" {one_line(column.title)} " in start]
    titles = both.groups() if both else named if len(named) > 1 else ()
    own = [column for column in text.columns if one_line(column.title) in titles]
    moments = [column for column in own if has_times(column.values)]
    days_of = {cell[:10] for column in own if not has_times(column.values) or are_midnights(column) for cell in cells_of(column.values)}
    clocks = next((column for column in moments if not are_midnights(column) and (has_no_date(column) or days_of and day_of_all(column) not in {None, *days_of})), None)
    whole = [column.title for column in moments if not are_midnights(column)]
    days = [column for column in moments if None not in zones_in(column.values)]
    if clocks is not None:
        where = "days of 1899, as spreadsheets have them" if has_no_date(clocks) else "one day"
        helps = f"{one_line(clocks.title)} has clocks on {where}: make times of the day of it, as by .dt.time"
    elif len(whole) == 1:
        helps = f"{one_line(whole[0])} has moments: name it alone, as by --time {whole[0]!r}"
    elif days and not whole:
        helps = f"{one_line(days[0].title)} has moments: make days of it, as by .dt.date{with_zone(days[0], text)}"
    else:
        are_full = len(whole) > 1 or all(pandas.api.types.infer_dtype(column.values, skipna=True) == "date" for column in own)
        return said.split(", or both, as by ")[0] if are_full else said
    return f"{re.sub(': (name one|if it is one|write|name) .*', '', said)}: {helps}"


def with_zone(column: Column, text: Text) -> str:
    """What else helps where days are made of moments, whose zone they lose, if none is named."""
    zones = sorted(map(str, zones_in(column.values)))
    if text.clock is None or zones == ["UTC"]:
        return ""
    return f", and name its zone, as by tz={zones[0]!r}" if IANA.fullmatch(zones[0]) else ", and name the zone of its clock by tz"


def are_midnights(column: Column) -> bool:
    """Whether all moments of a column are midnights, of whatever zone."""
    return all(time.time() == clock.time() for time in column.values.dropna().astype(object))


def has_no_date(column: Column) -> bool:
    """Whether all moments of a column are of the days on which spreadsheets have clocks."""
    return {*column.values.dropna().dt.date} <= NO_DATES


def of_frame(said: str) -> str:
    """What the program says of a file, as it is said of a frame."""
    for form, own in OF_FILES.items():
        said = form.sub(own, said)
    return said


class Odd(NamedTuple):
    """The first cell of a column that has no text: its row, the title of its column, and its class."""

    at: int
    title: str
    kind: str


def odd_cells(columns: Iterable[Column]) -> list[Odd]:
    """The first such cell of each column that has some."""
    found = ((column.title, odd_row(column.values)) for column in columns)
    return [Odd(odd[0], title, odd[1]) for title, odd in found if odd is not None]


def refuse_class(text: Text, cells: Sequence[Odd], kind: str) -> NoReturn:
    """Refuses the first of cells that have no text."""
    first = min(cells, key=lambda own: own.at)
    what = f"{in_own_words(first.title, text)} is of the class {first.kind}, of which no cell is known"
    is_length = kind == "time" and first.kind.lower().startswith("timedelta")
    helps = help_for_lengths(first.title, text) if is_length else "make text, numbers or times of it"
    refuse(f"{row_named(text.labels, first.at)}: {what}: {helps}", kind, first.at + 1)


def check_cells(text: Text, record: Record) -> None:
    """Refuses what the program took as words of a column that it read: cells that have no text, and names with decimals."""
    columns = [*columns_read(text, record)]
    refuse_form(text, columns)
    odd = odd_cells(columns)
    if odd:
        refuse_class(text, odd, "unread")
    if any(line.startswith(NO_ANIMAL) for line in record.said):
        if text.options.get("name") is None:
            refuse_unnamed(text)
        return
    taken = next((line for line in record.said if line.startswith(COLUMNS)), "")
    named = titles_named(text.options.get("animal"))
    for column in columns:
        if column.title in named or taken.startswith(f"{COLUMNS}{one_line(column.title)}, "):
            refuse_names(text, column)


def refuse_unnamed(text: Text) -> None:
    """Refuses a table without a column of the animal of which the time was found by its class alone, or whose index may have the
    animals: texts that repeat, without a name."""
    if text.finds_time:
        own = text.options["time"] if text.renamed is None else text.renamed[1]
        refuse(with_rename(f"no column has a usual title, neither for the animal nor for the time: name them, as by animal=.. and time={own!r}",
                           text), "columns")
    labels = text.labels
    for at, name in enumerate(labels.names):
        own = labels.get_level_values(at)
        if name is None and not own.is_unique and pandas.api.types.infer_dtype(own) in ("string", "categorical"):
            level = f"level {at} of the index" if labels.nlevels > 1 else "the index"
            names = ["animal" if place == at else known for place, known in enumerate(labels.names)]
            refuse(f"no column has a usual title for the animal, and {level} has texts that repeat, and no name: if they are the "
                   f"animals, name it, as by frame.index.names = {names!r}", "columns")


def columns_read(text: Text, record: Record) -> Iterator[Column]:
    """The columns of a text that the program read: all but those that it says it has not read, in their order."""
    rest = next((line.removeprefix(UNREAD) for line in record.said if line.startswith(UNREAD)), None)
    for column in text.columns:
        title = one_line(column.title)
        if rest == title:
            rest = None
        elif rest is not None and rest.startswith(f"{title}, "):
            rest = rest[len(title) + 2:]
        else:
            yield column


def refuse_names(text: Text, column: Column) -> None:
    """Refuses truths, times, and numbers that are not whole, as names."""
    values = column.values
    if isinstance(values.dtype, numpy.dtype) and values.dtype.kind in "iu" or pandas.api.types.infer_dtype(values) == "string":
        return
    found = ((at, what_no_name_is(value)) for at, value in enumerate(values.to_numpy() if is_time(values.dtype) else values.tolist()))
    at, what = next(((at, what) for at, what in found if what is not None), (None, None))
    if at is not None:
        refuse(f"{row_named(text.labels, at)}: {column.title} is {cell_of(values.iloc[at])}, {what}: make it text", "name", at + 1)


def what_no_name_is(value: Any) -> str | None:
    """What a value is that is no name; None of one that may be one."""
    if is_missing(value):
        return None
    if isinstance(value, (bool, numpy.bool_)):
        return "a truth"
    if isinstance(value, TIMES):
        return "a time"
    is_number = isinstance(value, (float, numpy.floating)) or isinstance(value, Decimal) and not value.is_finite()
    return "a number that is not whole" if is_number and not float(value).is_integer() else None
