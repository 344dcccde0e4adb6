"""Reads a table of fixes, a file or a data frame, by the program homerange-split: read_fixes, and what it answers with."""

from __future__ import annotations

import os
import re
import shutil
import sys
import tempfile
import warnings
from collections import Counter
from dataclasses import replace
from pathlib import Path
from types import FrameType
from typing import Any, Callable, Iterable, Mapping, NamedTuple, Sequence

import numpy
import pandas
from numpy.typing import NDArray
from pandas.core.groupby import DataFrameGroupBy

from ..arguments import says_ours
from ..errors import FrameError, HomeRangeInfo, HomeRangeNote, check_no_pipe, one_line, path_of, refuse
from ..program import PACKAGE, find_split_program
from ..record import Record, read_record
from ..units import UNITS, zone_text
from ..zones import crs_of, text_of_crs
from .call import as_arguments, split_table
from .cells import cells_of
from .changes import (
    PLACES, are_rows_of_table, checksum_of_rows, has_labels, judged_rows, left_since, own_titles, refuse_changed, refuse_unread,
    refuse_unread_rows, seen, with_named_levels)
from .clocks import refuse_other_clocks, refuse_summers
from .fixes import Fixes, Reading, clock_of, is_known, is_of_classes, reading_of
from .helps import with_help
from .refusals import COLUMNS, check_cells, columns_read, refuse_text
from .systems import are_degrees, check_sides, crs_named, options_of, refuse_beside_zone, refuse_elsewhere, said_of_place, scales_said
from .text import (
    NAME, Text, frame_given, has_times, in_own_words, plain, text_of_frame, with_clock_of, with_time_named, write_text, zones_in)
from .tracks import NAMED, Whole, left_out, own_names, read_tracks, rows_of
from .widths import narrow_places, steps_said
from .words import words_of_options

SINCE_1970 = (10 ** 8, 9_223_372_036)  # seconds that have a calendar: from 1973 to where pandas' times end
DONE = (": left out", ": sorted by time")  # how lines end that say what was done to rows, and was not when these were read
# How lines begin that say what was taken, and nothing that was left out or changed.
READ, NOT_READ = "columns: ", "not read: "
NO_TIME, OF_TIMES = "no column has a usual title for the time: ", ("since", "until", "max_speed", "every")
TAKEN = (READ, "UTM coordinates are", "coordinates are those", "longitude and latitude are", "days and hours are",
         "ranges are by group", NOT_READ, "times are read as ", "points of ", "by column ", "near ")
SUBJECT = re.compile("column [0-9]+ '.*' is read as (eastings|northings|longitudes|latitudes|times)[ :]")  # of titles with unknown words


# Options that want columns of fixes beside their own.
OF_COLUMNS = {"animal", "time", "easting", "northing", "lon", "lat", "argos", "argos_class", "dop", "max_dop", "fix", "fix_type", "sensor"}
OWN = ("animal", "time", "second", *PLACES)  # titles that fixes have
READERS = {(".geojson", ".json", ".shp"): "geopandas.read_file", (".parquet",): "pandas.read_parquet", (".feather",): "pandas.read_feather",
           (".pickle", ".pkl"): "pandas.read_pickle"}  # what reads files of other forms, by how their names end
OFFSET = re.compile("(Z|[+-][0-9]{2}:?[0-9]{2})$")  # of a text of a time
CONTROLS = re.compile("[\x80-\x9f]")  # letters in the encodings of Windows, and none in latin-1
RECORDS = re.compile(r"(?<=: )records ([0-9]+(?:, [0-9]+)*)(?=,? ?[.:]|$)")  # in what is said


class ReadTable(NamedTuple):
    """A table that was read: its fixes; what there is to say; the frame, None where it was a file; and of each fix its row there,
    where that was asked."""

    fixes: Fixes
    said: Sequence[str] = ()
    frame: pandas.DataFrame | None = None
    rows: NDArray[numpy.int64] | None = None


def says_what_was_taken(line: str) -> bool:
    """Whether a line says what was taken, and nothing that was left out or changed."""
    return line.startswith(TAKEN) or SUBJECT.match(line) is not None


def tell(lines: Iterable[str]) -> None:
    """Says in warnings what was taken, left out or changed, as of the line that called the package."""
    depth = 1 + calls_within(sys._getframe(1))
    for line in lines:
        is_info = says_what_was_taken(line) or NAMED.fullmatch(line)
        warnings.warn(line, HomeRangeInfo if is_info else HomeRangeNote, stacklevel=depth)


def calls_within(frame: FrameType | None) -> int:
    """How many calls of functions of the package, one within the other, lead from its user to a frame, and that of the user."""
    calls = 1
    while frame is not None and str(frame.f_globals.get("__name__")).partition(".")[0] == PACKAGE.name:
        frame, calls = frame.f_back, calls + 1
    return calls


@says_ours
def read_fixes(x: Any, *, program: str | os.PathLike[str] | None = None, **options: Any) -> Fixes:
    """The fixes of a table, as a data frame of pandas for ``home_range``, which knows how it was read.

    x: a file, such as an export of Movebank or of a collar, text or GPX; or a data frame of pandas with a row for each fix; or
        a GeoDataFrame of points, or a trajectory or a collection of movingpandas; or fixes that were read before, which keep the
        unit and the zone that they have, and the clock unless another is named.
    options: those of homerange-split, with _ for hyphens (``from_`` for from): unit, zone, crs, animal, name, time, time_format,
        tz, easting, northing, lon, lat, argos, dop, fix, skip_unnamed, sensor, argos_class, max_dop, fix_type, since, until,
        max_speed, every, na and from_; and of files encoding, skip_lines and header. docs/TABLES.md says what each does, and how
        a table is read. crs is the reference system of coordinates in metres, such as 'EPSG:3035'. every is a text such as '2h'
        or '30min', a timedelta, or a number of hours (so 7200 are 300 days).
    program: as in home_range.

    The program homerange-split, which lies beside homerange, reads the table: a data frame is written as a text for it. Fixes are
    in the order of animals, and of times. What was left out or changed is said in warnings (HomeRangeNote), and what was taken
    (HomeRangeInfo). What cannot be right is refused (FrameError), with the row; ProgramError is raised where the program is not
    there.
    """
    table = read_either(x, options, program)
    tell(table.said)
    own = reading_of(table.fixes)
    is_labelled = own.is_labelled and (own.seen is None or has_labels(table.fixes, own))
    known = seen(table.fixes, own.sources, is_labelled)
    table.fixes.reading = replace(own, rows=checksum_of_rows(table.fixes, own.titles), seen=known)
    return table.fixes


def read_either(x: Any, options: Mapping[str, Any], program: str | os.PathLike[str] | None = None) -> ReadTable:
    """Fixes that were read before, read again, or a table that is read for the first time."""
    with tempfile.TemporaryDirectory(prefix="homerange-") as folder:
        is_read = isinstance(x, Fixes) and is_known(x)
        return read_again(x, options, Path(folder), program) if is_read else read_table(x, options, Path(folder), program)


def check_fixes(fixes: Fixes) -> None:
    """Refuses fixes as they are refused that are read again, if their columns are not such as fixes have."""
    if not is_of_classes(fixes) or numpy.isinf(fixes[[*PLACES]].to_numpy(dtype="float64", na_value=numpy.nan)).any():
        read_either(fixes, {})


def read_table(
    x: Any, options: Mapping[str, Any], folder: Path, program: str | os.PathLike[str] | None = None, has_columns: bool = True,
) -> ReadTable:
    """The fixes of a file or a frame, of a frame with its own columns if they are wanted. The folder gets their tracks."""
    refuse_part(x)
    own, options = frame_given(x), {**options, "tz": zone_text(options.get("tz"))}
    words_of_options({**options, "crs": None})  # what cannot be right is refused before anything is looked for
    if isinstance(own, (str, os.PathLike)):
        return read_file(check_no_pipe(path_of(own, "x")), options, folder, find_split_program(program))
    if not isinstance(own, pandas.DataFrame):
        refuse(f"a {type(x).__name__} is neither a path nor a data frame with a row for each fix: {help_for_table(own)}")
    return read_frame(own, options, folder, find_split_program(program), has_columns)


def help_for_table(x: Any) -> str:
    """How what is no table is made one."""
    several = [*(x.values() if isinstance(x, dict) else x)] if isinstance(x, (list, tuple, dict)) else []
    if several and all(isinstance(path, (str, os.PathLike)) for path in several):
        return f"read each path, as by pandas.concat(map(pandas.read_csv, {'x.values()' if isinstance(x, dict) else 'x'}))"
    if several and all(isinstance(frame, pandas.DataFrame) for frame in several):
        named = ", or where its keys are the names of the animals by pandas.concat(x, names=['animal'])" if isinstance(x, dict) else ""
        return f"bind those that are in it, as by pandas.concat({'x.values()' if named else 'x'}, ignore_index=True){named}"
    if isinstance(x, DataFrameGroupBy):
        return "take the frame that was grouped, x.obj: ranges are of each animal anyway, and by makes those of groups"
    if isinstance(x, pandas.Series) and hasattr(x, "geom_type"):
        return "make it one, as by geopandas.GeoDataFrame({'animal': .., 'time': ..}, geometry=x)"
    return f"make it one, as by {'x.to_pandas()' if hasattr(x, 'to_pandas') else 'pandas.DataFrame(..)'}"


def refuse_part(x: Any) -> None:
    """Refuses fixes without one of their columns, of which nothing is known any more. Columns that are there twice the program
    refuses."""
    if isinstance(x, Fixes) and x.reading is not None and not {*own_titles(x)} <= {*x.columns}:
        gone = next(title for title in ("animal", "time", *PLACES) if title not in x)
        refuse(f"these fixes have no column {gone!r} any more: give it back, as by reset_index() or rename(), or read "
               "pandas.DataFrame(fixes) as a new table", "columns")


def read_again(fixes: Fixes, options: Mapping[str, Any], folder: Path, program: str | os.PathLike[str] | None = None,
               has_columns: bool = True, used: Any = None) -> ReadTable:
    """Fixes as they were read, if their rows are still the same and no option is named; else the program reads their rows as a
    frame. Only what was not said before is said, and not what was taken; of columns that were added, but for one that is used
    otherwise, that they are not read."""
    before, wishes = reading_of(fixes), {name: zone_text(value) for name, value in options.items() if value is not None}
    words_of_options({**wishes, "crs": None})
    if not len(fixes):
        refuse("no fix is left", "empty")
    if "time" in fixes:
        refuse_without_zone(fixes["time"])
    if before.rows == checksum_of_rows(fixes, before.titles) and not wishes:
        refuse_changed(fixes, before)
        return with_added_said(ReadTable(fixes), fixes, used)
    refuse_system(before, wishes)
    refuse_without_time(before, wishes)
    refuse_unread_rows(fixes, before)
    found = read_text(text_again(fixes, before, wishes), folder, find_split_program(program), has_columns)
    own = reading_of(found.fixes)
    refuse_unread(fixes, before, own.sources)
    refuse_changed(fixes, before, own.sources)
    further = fixes.loc[:, [title not in OWN for title in fixes.columns]]
    lost = [] if found.rows is None else lost_said(further, before.sources)
    new = [note for note in (*own.notes, *lost) if (note not in before.notes or note.endswith(DONE)) and not says_what_was_taken(note)]
    since = left_since(fixes, before)
    own = replace(own, notes=(*notes_again(before, own, fixes, wishes), *new), left=since.counts + Counter(own.left), is_again=True,
                  titles=before.titles, sources=before.sources | (own.sources - {*OWN}), unknown=since.unknown,
                  rows_counted=before.rows_counted, is_labelled=has_plain_labels(fixes) and has_labels(fixes, before),
                  is_in_order=found.rows is not None and is_in_order(found.rows, fixes) and are_rows_of_table(fixes, before))
    table = found.fixes if found.rows is None else with_columns(found.fixes, fixes, found.rows)
    zone = getattr(fixes["time"].dtype, "tz", None) if "time" in fixes and "tz" not in wishes else None
    if zone is not None and "time" in table:
        table["time"] = table["time"].dt.tz_convert(zone)
    table.reading = own
    return with_added_said(ReadTable(table, new, fixes, found.rows), fixes, used)


def with_added_said(table: ReadTable, fixes: Fixes, used: Any) -> ReadTable:
    """A table of these fixes with what is said of columns that were added to them, and not read."""
    own = reading_of(table.fixes)
    known = {*own.titles, *own.sources, *OWN, *([used] if isinstance(used, str) else [])}
    added = [title for title in dict.fromkeys(map(str, with_named_levels(fixes).columns)) if title not in known]
    if not added:
        return table
    line, found = NOT_READ + ", ".join(map(one_line, added)), table.fixes.copy(deep=False)
    found.reading = replace(own, notes=(*own.notes, line), titles=own.titles | {*added})
    return table._replace(fixes=found, said=[*table.said, line])


def notes_again(before: Reading, own: Reading, fixes: Fixes, wishes: Mapping[str, Any]) -> list[str]:
    """What was said of fixes that are read again, but for titles that were not read and are now; and by which columns they are read,
    where others than their own were named."""
    rest = [note.removeprefix(NOT_READ).split(", ") for note in before.notes if note.startswith(NOT_READ)]
    left = [title for titles in rest for title in titles if title not in own.sources]
    notes = [note for note in before.notes if not note.startswith(NOT_READ)] + [NOT_READ + ", ".join(left)] * bool(left)
    columns = [note.removeprefix(READ).split("; ")[0] for note in own.notes if note.startswith(READ)]
    are_own = columns in ([], [", ".join(own_titles(fixes))])
    return notes if are_own or not OF_COLUMNS & {*wishes} else [*notes, f"read again by columns: {columns[0]}"]


def refuse_without_time(before: Reading, wishes: Mapping[str, Any]) -> None:
    """Refuses an option that looks at the times of fixes that have none, but the order of rows."""
    name = next((name for name in OF_TIMES if name in wishes), None)
    if name is not None and "time" not in wishes and any(note.startswith(NO_TIME) for note in before.notes):
        refuse(f"{name}: these fixes have no time, but the order of rows: name its column, by time, where the table is read", "option")


def refuse_without_zone(times: pandas.Series) -> None:
    """Refuses times of fixes that have no zone any more, as date-times, days or text, in whatever form."""
    if has_times(times):
        has_none = None in zones_in(times)
    else:
        is_text = pandas.api.types.infer_dtype(times, skipna=True) in ("string", "date", "categorical")
        has_none = is_text and any(cell and not OFFSET.search(cell) for cell in cells_of(times))
    if has_none:
        refuse("the times of fixes have no zone any more: keep those that read_fixes gave, or read pandas.DataFrame(fixes) as a new table, "
               "with tz for the clock of its times", "time")


def text_again(fixes: Fixes, before: Reading, wishes: Mapping[str, Any]) -> Text:
    """The text of fixes that are read again: of what they are judged by, or where an option looks at further columns of all."""
    system: dict[str, Any] = {"zone": before.zone} if before.crs is None else {"crs": before.crs}
    known = {"unit": before.unit, **({} if {"zone", "crs"} & {*wishes} else system), "tz": clock_of(fixes)}
    if not {*wishes} & OF_COLUMNS:
        return text_of_frame(judged_rows(fixes, before.titles), {**known, **wishes})._replace(labels=fixes.index)
    rows, own = with_named_levels(fixes), own_titles(fixes)
    known.update(zip(("animal", "time"), own))
    # Places within 180 by 90 that are named would be refused as degrees.
    if not {"lon", "lat", "easting", "northing"} & {*wishes} and not are_degrees(*(fixes[title] for title in PLACES)):
        known.update(zip(PLACES, PLACES))
        rows = rows.drop(columns=[title for title in rows.columns if str(title) in before.sources and plain(str(title)) == "utm-zone"])
    return text_of_frame(rows, {**known, **wishes})._replace(labels=fixes.index)


def refuse_system(before: Reading, wishes: Mapping[str, Any]) -> None:
    """Refuses another unit, and another zone or reference system for coordinates that have one."""
    if wishes.get("unit") in {*UNITS} - {before.unit}:
        refuse(f"these fixes are in whole {UNITS[before.unit].name}, which another unit does not change: read the table anew by "
               "read_fixes")
    name = next((name for name in ("zone", "crs") if name in wishes), None)
    if name is None or before.system_text is None:
        return
    wanted = crs_of(wishes[name].upper().replace(" ", "")) if name == "zone" else crs_named(wishes[name])
    if text_of_crs(wanted) != before.system_text:
        refuse(f"the coordinates of these fixes are of {before.zone or before.system_text}, which another {name} does not change: read "
               "the table anew by read_fixes", name)


def refuse_form(path: Path) -> None:
    """Refuses a file of another form than text with titles, by its name, with what reads it."""
    reader = next((reader for forms, reader in READERS.items() if path.suffix.lower() in forms), None)
    if reader is not None and path.is_file():
        refuse(f"{path} is no text with a line of titles: read what it has, as by read_fixes({reader}(..))", "text")


def read_file(path: Path, options: Mapping[str, Any], folder: Path, program: str) -> ReadTable:
    """The fixes of a file."""
    refuse_form(path)
    crs = None if options.get("crs") is None else crs_named(options["crs"])
    found = {**options, "crs": None, **options_of(crs, options.get("zone"))}
    try:
        split_table(str(path), str(folder / "tracks"), words_of_options(found), program)
    except FrameError as fault:
        shown, text = one_line(str(path)), as_arguments(with_help(str(fault), options), fault.kind)
        text = text if fault.record is None else f"record {fault.record}: {text}"
        raise FrameError(text if text.startswith(shown) else f"{shown}: {text}", fault.kind, fault.record) from None
    record = read_record(folder / "tracks" / "split.txt")
    check_sides(crs, record.said, options)
    whole = read_tracks(folder / "tracks", record)
    fixes = fixes_of(whole, record, folder, options.get("tz"), crs, [])
    return ReadTable(fixes, reading_of(fixes).notes)


def read_frame(frame: pandas.DataFrame, options: Mapping[str, Any], folder: Path, program: str, has_columns: bool) -> ReadTable:
    """The fixes of a data frame, with its own columns if they are wanted."""
    if not len(frame) or not len(frame.columns):
        refuse("the data frame has no row of a fix", "empty")
    found = read_text(text_of_frame(frame, options), folder, program, has_columns)
    if found.rows is None:
        return found._replace(frame=frame)
    lost = lost_said(frame, reading_of(found.fixes).sources)
    fixes = with_columns(found.fixes, frame, found.rows)
    fixes.reading = replace(reading_of(fixes), notes=(*reading_of(fixes).notes, *lost), is_in_order=is_in_order(found.rows, frame),
                            is_labelled=has_plain_labels(frame), rows_counted=rows_counted(frame.index))
    return found._replace(fixes=fixes, frame=frame, said=reading_of(fixes).notes)


def lost_said(frame: pandas.DataFrame, sources: frozenset[str]) -> list[str]:
    """What is said of columns of a frame that its fixes do not have, and that were not read."""
    rows = with_named_levels(frame)
    titles = [str(title) for at, title in enumerate(rows.columns) if str(rows.iloc[:, at].dtype) != "geometry"]
    rest = [title for title in dict.fromkeys(titles) if title not in sources]
    own = [one_line(title) for title in rest if title in OWN]
    twice = [one_line(title) for title in rest if title not in OWN and titles.count(title) > 1]
    return [f"not in the fixes, {why}: {', '.join(several)}" for why, several in (
        ("which have columns of these titles", own), ("since their titles are there twice", twice)) if several]


def read_text(text: Text, folder: Path, program: str, has_rows: bool) -> ReadTable:
    """The fixes of the text of a frame, with the row of each if these are wanted."""
    text = split_text(text, folder, program, ["--records"] if has_rows else [])
    record = read_record(folder / "tracks" / "split.txt")
    whole = read_tracks(folder / "tracks", record)
    check_cells(text, record)
    check_sides(text.crs, record.said, text.options)
    refuse_other_clocks(text, columns_read(text, record), folder, program)
    refuse_summers(text, [*columns_read(text, record)], folder, program)
    narrow, rows = narrow_places(text.columns, record, COLUMNS), rows_of(folder / "tracks", whole) if has_rows else None
    if narrow and rows is None:
        split_table(NAME, "rows", ["--records", *words_of_options(text.options)], program, str(folder))
        rows = rows_of(folder / "rows", whole)
    notes = [*text.notes, *(text.clock or ()), *(() if rows is None else steps_said(narrow, rows, record))]
    fixes = fixes_of(whole, record, folder, text.options.get("tz"), text.crs, notes, lambda line: said_of(line, text))
    titles, sources = (frozenset(in_own_words(column.title, text) for column in several)
                       for several in (text.columns, columns_read(text, record)))
    fixes.reading = replace(reading_of(fixes), titles=titles, sources=sources, is_frame=True)
    return ReadTable(fixes, reading_of(fixes).notes, None, rows if has_rows else None)


def split_text(text: Text, folder: Path, program: str, words: Sequence[str]) -> Text:
    """Has the program make tracks of a text; answers the text that it took at last."""
    while True:
        try:
            write_text(text, folder / NAME)
            split_table(NAME, "tracks", [*words, *words_of_options(text.options)], program, str(folder))
            own = with_clock_of(text, [*columns_read(text, read_record(folder / "tracks" / "split.txt"))])
            if own.options == text.options:
                return own
            text = own
            shutil.rmtree(folder / "tracks")
        except FrameError as fault:
            text = with_time_named(text, str(fault)) or refuse_text(text, fault)


def said_of(line: str, text: Text) -> str:
    """A line that the program says of a text, with rows by their labels."""
    if line.startswith(COLUMNS):
        return in_own_words(line, text)
    return RECORDS.sub(lambda found: "rows " + ", ".join(label_of(text, int(record)) for record in found[1].split(", ")), line)


def label_of(text: Text, record: int) -> str:
    """The label of a row, and its place where labels are there twice."""
    label = one_line(str(text.labels[record - 1]))
    return label if text.labels.is_unique else f"{label} (frame.iloc[{record - 1}])"


def fixes_of(whole: Whole, record: Record, folder: Path, tz: str | None, crs: Any, notes: Iterable[str],
             in_words: Callable[[str], str] = str) -> Fixes:
    """The fixes of tracks with their record, in metres and by the clock of tz."""
    if crs is not None and record.zone is not None and options_of(crs, None).get("zone") != record.zone:
        refuse_beside_zone(record.zone, record.said, crs)
    own, scale, clock = own_names(record), UNITS[record.unit].per_metre, tz or "UTC"
    names = [own.get(name, name) for name in whole.names]
    east, north = (numbers / scale - added for numbers, added in zip((whole.easting, whole.northing), record.shift))
    refuse_elsewhere(crs, record.said, east, north)
    is_dated = len(whole.second) and has_calendar(whole.second.min(), whole.second.max())
    when = {"time": times_of(pandas.Series(whole.second), clock)} if is_dated else {"second": whole.second}
    fixes = Fixes({"animal": whole.per_fix(names), **when, "easting": east, "northing": north})
    middles = {name: (float(east[part].mean()), float(north[part].mean())) for name, part in zip(names, parts_of(whole.counts))}
    said = [as_arguments(in_words(line)) for line in record.said]
    place = [] if crs is None or record.zone else said_of_place(crs, east, north)
    shown = [*notes, *said, *place, *scales_said(crs, record.zone, middles), *encoding_asked(whole.names)]
    fixes.reading = Reading(
        record.unit, record.zone, crs, clock, record.shift, tuple(shown), left_out(record, own), dict(zip(names, whole.counts)),
        {name: file for file, name in own.items()}, (folder / "tracks" / "split.txt").read_bytes())
    return fixes


def encoding_asked(names: Iterable[str]) -> list[str]:
    """What is asked where a name has control characters, as of a text of Windows that was read as latin-1."""
    own = next(filter(CONTROLS.search, names), None)
    return [] if own is None else [f"the name '{one_line(own)}' has control characters: is the encoding of its table another, such as windows-1250?"]


def parts_of(counts: Iterable[int]) -> Iterable[slice]:
    """Where each of several tracks, one behind the other, stands."""
    first = 0
    for count in counts:
        yield slice(first, first + count)
        first += count


def has_calendar(first: int, last: int) -> bool:
    """Whether seconds from the first to the last are dates."""
    return bool(SINCE_1970[0] <= first and last < SINCE_1970[1])


def times_of(seconds: pandas.Series, tz: str) -> pandas.Series:
    """Seconds since 1970 by the clock of tz; NaT after the year 2262, where pandas' times end."""
    whole = seconds.to_numpy("int64")
    nanoseconds = numpy.where(whole < SINCE_1970[1], 10 ** 9 * whole, numpy.iinfo("int64").min)
    times = pandas.Series(nanoseconds.view("datetime64[ns]"), seconds.index, name=seconds.name)
    return times.dt.tz_localize("UTC").dt.tz_convert(tz)


def is_in_order(rows: NDArray[numpy.int64], frame: pandas.DataFrame) -> bool:
    """Whether the rows of fixes are all of a frame, in its order."""
    return numpy.array_equal(rows, numpy.arange(len(frame)))


def rows_counted(labels: pandas.Index) -> int | None:
    """How many rows there are whose labels are 0, 1, 2, .., which tell no row from that of another table; None of other labels."""
    return len(labels) if labels.equals(pandas.RangeIndex(len(labels))) else None


def has_plain_labels(frame: pandas.DataFrame) -> bool:
    """Whether the rows of a frame have labels that its fixes have too."""
    return frame.index.nlevels == 1 and frame.index.name is None and not isinstance(frame.index, pandas.DatetimeIndex)


def with_columns(fixes: Fixes, frame: pandas.DataFrame, rows: NDArray[numpy.int64]) -> Fixes:
    """The fixes with the other columns of their frame and the named levels of its index, and its labels where it has plain ones."""
    columns = with_named_levels(frame)
    titles = [*columns.columns]
    at = [place for place, title in enumerate(titles) if str(columns.iloc[:, place].dtype) != "geometry"
          and str(title) not in OWN and titles.count(title) == 1]
    own = columns.iloc[rows, at].reset_index(drop=True)
    found = Fixes(pandas.concat([pandas.DataFrame(fixes), own], axis="columns"))
    if has_plain_labels(frame):
        found.index = frame.index.take(rows)
    found.reading = fixes.reading
    return found
