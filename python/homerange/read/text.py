"""The text of a data frame, which the program reads as it reads files: all columns with their titles, the levels of the index, and
the places of points. What is no table of fixes is refused by the program, and not here."""

from __future__ import annotations

import datetime as clock
import re
import sys
from itertools import chain, count
from pathlib import Path
from typing import TYPE_CHECKING, Any, Mapping, NamedTuple, NoReturn, Sequence

import numpy
import pandas

from ..errors import fault_of_text, one_line, refuse
from ..units import IANA, zone_name
from .cells import Cells, are_like_thousands, cells_of, inner_type, is_missing, is_time
from .systems import TITLES, TITLES_OF_DEGREES, columns_of_points, crs_named, is_local, options_of
from .widths import missing_as_written

if TYPE_CHECKING:
    import geopandas

CELLS = 2 ** 18  # that are written together
BETWEEN = re.compile("[,|]")  # signs between titles that an option names
NAME = "fixes.csv"
INDEX = "index"  # what pandas calls the one level of an index that has no name
COORDINATES = ("easting", "northing", "lon", "lat")
OF_FILES = ("encoding", "skip_lines", "header")  # options
TIMES = {"second", "timestamp", "t-", "date", "time", "datetime", "date-time", "acquisition-time", "tracked-at"}  # usual titles


class Column(NamedTuple):
    """A column of the text, with its own title where it is a level of the index that got another."""

    title: str
    values: pandas.Series
    own: str | None = None


class Text(NamedTuple):
    """A frame as it is written: its columns, the options by which the program reads it, the reference system of its coordinates
    as far as it is known, what is to be said, what of its clock (None where that was named), the title that a column got, with its
    own, whether its only moments are taken as the time though nobody named them, and the title of a column of shapes that are no
    points of the frame."""

    columns: list[Column]
    labels: pandas.Index
    options: dict[str, Any]
    crs: Any
    notes: list[str]
    clock: list[str] | None = None
    renamed: tuple[str, str] | None = None
    finds_time: bool = False
    shapes: str | None = None


def frame_given(frame: Any) -> Any:
    """A frame as it was given, or that of the points of a trajectory or a collection of movingpandas."""
    points = None if isinstance(frame, pandas.DataFrame) else getattr(frame, "to_point_gdf", None)
    return points() if callable(points) else frame


def text_of_frame(frame: pandas.DataFrame, options: Mapping[str, Any]) -> Text:
    """The text of a frame that is read with these options."""
    check_options(options)
    if frame.columns.nlevels > 1:
        refuse(f"the titles of columns have {frame.columns.nlevels} levels: make one of them, as by frame.columns = "
               "[' '.join(map(str, title)) for title in frame.columns]", "columns")
    columns, found = columns_of(frame, options), dict(options)
    crs, notes = found.pop("crs", None), list[str]()
    points = None if any(found.get(name) is not None for name in COORDINATES) else points_of(frame)
    if points is not None:
        if crs is not None:
            refuse("crs: points bring their own CRS; frame.set_crs names it, and frame.to_crs projects them into another")
        places, notes = columns_of_points(points, frame.index)
        for option, values in places.items():
            found[option] = title_of_place(option, columns)
            columns.append(Column(found[option], values))
        crs = None if is_local(points.crs) or "lon" in places else points.crs
    elif crs is not None:
        crs = crs_named(crs)
    found.update(options_of(crs, found.get("zone")), na=missing_as_written(found.get("na"), columns))
    shapes = title_of_shapes(frame) if points is None else None
    text = Text(columns, frame.index, found, crs, notes, None if found.get("tz") is not None else [], shapes=shapes)
    return with_clock_of(text, columns)


def title_of_shapes(frame: pandas.DataFrame) -> str | None:
    """The title of the first column of a frame that has shapes of shapely, if there is one."""
    firsts = ((str(title), frame.iloc[:, at].dropna().head(1)) for at, title in enumerate(frame.columns)
              if frame.iloc[:, at].dtype == object or str(frame.iloc[:, at].dtype) == "geometry")
    return next((title for title, first in firsts if len(first) and hasattr(first.iloc[0], "geom_type")), None)


def check_options(options: Mapping[str, Any]) -> None:
    """Refuses options that only files have."""
    odd = next((name for name in OF_FILES if options.get(name) is not None), None)
    if odd is not None:
        refuse(f"{odd} is for files, and not for a data frame: leave it out")
    if options.get("from_") == "gpx":
        refuse("from_='gpx' is for files of GPX, and not for a data frame: leave it out")


def columns_of(frame: pandas.DataFrame, options: Mapping[str, Any]) -> list[Column]:
    """The columns of a frame but for shapes, and behind them the levels of its index."""
    found = [Column(str(title), frame.iloc[:, at]) for at, title in enumerate(frame.columns)
             if str(frame.iloc[:, at].dtype) != "geometry"]
    found += [level for level in levels_of(frame, options) if not is_there(level, found)]
    if not found:
        return found
    first = found[0].title
    if ";" in first or "\t" in first:
        refuse(f"the first column is titled {first!r}, whose sign would be taken for what stands between fields: rename it",
               "columns")
    return found


def levels_of(frame: pandas.DataFrame, options: Mapping[str, Any]) -> list[Column]:
    """The levels of an index that have a name, or are times, or are among others, as columns."""
    named, found = [title for name in ("animal", "time") for title in titles_named(options.get(name))], []
    if is_of_rows(frame.index) and frame.index.name not in named:
        return []
    for at, name in enumerate(frame.index.names):
        values = frame.index.get_level_values(at).to_series(index=pandas.RangeIndex(len(frame)))
        title = str(name) if name is not None else f"level_{at}" if frame.index.nlevels > 1 else INDEX
        own = None
        if has_times(values) and (name is None or plain(title) not in TIMES) and title not in named:
            title, own = "datetime", title
        elif title == INDEX and title not in named:
            continue
        found.append(Column(title, values, own))
    return found


def is_of_rows(index: pandas.Index) -> bool:
    """Whether an index numbers rows, as pandas does without a name, and trackintel as id."""
    name = index.name
    return name is None and isinstance(index, pandas.RangeIndex) or name == "id" and is_number(index) and index.is_unique


def is_there(level: Column, columns: Sequence[Column]) -> bool:
    """Whether a level of the index is a column too, as set_index(.., drop=False) leaves it."""
    same = [column.values for column in columns if column.title == level.title]
    return len(same) == 1 and bool(same[0].reset_index(drop=True).equals(level.values))


def plain(title: str) -> str:
    """A title as the program compares it: in small letters, without blanks beside it, with hyphens for other signs."""
    return re.sub("[ .:_]", "-", title.strip().lower())


def titles_named(value: Any) -> list[str]:
    """The titles that an option names."""
    several = value.split(",") if isinstance(value, str) else value
    return [str(title) for title in several] if isinstance(several, (list, tuple)) else []


def points_of(frame: pandas.DataFrame) -> geopandas.GeoSeries | None:
    """The points of a GeoDataFrame; None of another frame."""
    geopandas = sys.modules.get("geopandas")
    if geopandas is None or not isinstance(frame, geopandas.GeoDataFrame):
        return None
    try:
        return frame.geometry
    except AttributeError:
        return None


def title_of_place(option: str, columns: Sequence[Column]) -> str:
    """The title of a column of points, which the frame has not."""
    return free_title({**TITLES, **TITLES_OF_DEGREES}[option], columns)


def free_title(title: str, columns: Sequence[Column]) -> str:
    """A title that no column has: this one, or with a number behind it."""
    titles, several = {column.title for column in columns}, (f"{title} {number}" for number in count(2))
    return next(found for found in chain([title], several) if found not in titles)


def has_times(values: pandas.Series) -> bool:
    """Whether a column has date-times, whatever holds them."""
    kind = inner_type(values.dtype)
    if is_time(kind) or isinstance(kind, pandas.PeriodDtype) or "timestamp" in str(kind):
        return True
    return bool(kind == object and pandas.api.types.infer_dtype(values, skipna=True) in ("datetime", "datetime64"))


def zones_in(values: pandas.Series) -> set[str | None]:
    """The zones of the date-times of a column; None is that of those without one."""
    kind = inner_type(values.dtype)
    if kind == object:
        own = values.cat.categories if isinstance(values.dtype, pandas.CategoricalDtype) else values
        return {zone_name(getattr(value, "tzinfo", None)) for value in own
                if isinstance(value, (clock.datetime, numpy.datetime64)) and not is_missing(value)}
    zone = getattr(getattr(kind, "pyarrow_dtype", kind), "tz", None)
    return {zone_name(zone)}


def with_clock_of(text: Text, columns: Sequence[Column]) -> Text:
    """The text with the time zone of the date-times of some of its columns, if no zone was named."""
    if text.clock is None:
        return text
    zone, said = zone_of_times(columns, text.options)
    return text._replace(options={**text.options, "tz": zone}, clock=[in_own_words(line, text) for line in said])


def zone_of_times(columns: Sequence[Column], options: Mapping[str, Any]) -> tuple[str | None, list[str]]:
    """The only time zone that the date-times of columns have, where no other of them may be the time, and what is to be said of
    it."""
    times = {column.title: zones_in(column.values) for column in columns if has_times(column.values)}
    found = {zone for zones in times.values() for zone in zones}
    zones = sorted(zone for zone in found if zone is not None)
    if not zones or zones == ["UTC"]:
        return None, []
    named = titles_named(options.get("time"))
    others = [column.title for column in columns if column.title not in times and not is_number(column.values)
              and (column.title in named or not named and plain(column.title) in TIMES)]
    if len(zones) > 1 or None in found or others or options.get("from_") is not None:
        more = " and of other clocks" if None in found or others else ""
        return None, [f"days and hours are those of UTC, since times are of {', '.join(zones)}{more}"]
    if not IANA.fullmatch(zones[0]):
        return None, [f"days and hours are those of UTC, since the zone {zones[0]} of {[*times][0]} has no name"]
    return zones[0], [f"days and hours are those of {zones[0]}, the zone of {[*times][0]}"]


def with_time_named(text: Text, refusal: str) -> Text | None:
    """The text with a column of moments named as the time, where no title is a usual one and that is the only one, or under
    another title, where its own says a clock: the program cannot know that these are moments. None where it refused something
    else."""
    moments = [column for column in text.columns if has_times(column.values) and None not in zones_in(column.values)]
    own = re.sub("^column [0-9]+ ", "", refusal)
    odd = next((column for column in moments if own.startswith(f"'{one_line(column.title)}' says ")), None)
    if "which is a time among seconds" in refusal:
        odd = next((column for column in text.columns if has_times(column.values) and own.startswith(f"{column.title.strip()} is ")), None)
    if odd is None or text.renamed is not None:
        is_only = "no column has a usual title for the time" in refusal and text.options.get("time") is None and len(moments) == 1
        if not is_only:
            return None
        text, odd = text._replace(finds_time=True), moments[0]
        if not BETWEEN.search(odd.title):
            return text._replace(options={**text.options, "time": odd.title})
    title = free_title("datetime", text.columns)
    columns = [column._replace(title=title) if column is odd else column for column in text.columns]
    return text._replace(columns=columns, options={**text.options, "time": title}, renamed=(title, odd.title))


def in_own_words(said: str, text: Text) -> str:
    """What is said of a text with the title that a column, or a level of the index, has itself, where it got another."""
    titles = [column.title for column in text.columns]
    levels = [(column.title, column.own) for column in text.columns
              if column.own is not None and column.own in text.labels.names and titles.count(column.title) == 1]
    for title, own in [text.renamed] if text.renamed is not None else levels:
        said = re.sub(rf"(?<![\w-]){re.escape(title)}(?![\w-])", one_line(str(own)).replace("\\", r"\\"), said)
    return said


def with_rename(said: str, text: Text) -> str:
    """What is said, with what is to be done before where it names a column for an option which takes its title for several."""
    titles = [own for own in (text.renamed[1] if text.renamed else "", *(column.title for column in text.columns)) if BETWEEN.search(own)]

    def is_named(title: str) -> bool:
        own, options = re.escape(one_line(title)), "[a-z]" if "|" in title else r"\b(?:animal|time)"
        return re.search(rf"{options}=(['\"])(?:(?!\1).)*{own}|'{own}'.*COLUMN'", said) is not None

    odd = next(filter(is_named, titles), None)
    return said if odd is None else f"{said}; rename '{one_line(odd)}' before, since a comma or | stands between titles"


def is_number(values: pandas.Series | pandas.Index) -> bool:
    return bool(pandas.api.types.is_numeric_dtype(values.dtype))


def write_text(text: Text, path: Path) -> None:
    """Writes the text of a frame."""
    rows = max(CELLS // len(text.columns), 1)
    longer = [are_like_thousands(column.values) for column in text.columns]
    with open(path, "wb") as file:
        file.write(encoded([[title] for title in quoted([column.title for column in text.columns])], text, None))
        for first in range(0, len(text.labels), rows):
            cells = [quoted_of(column.values.iloc[first:first + rows], own) for column, own in zip(text.columns, longer)]
            file.write(encoded(cells, text, first))


def encoded(columns: Sequence[Cells], text: Text, first: int | None) -> bytes:
    """Lines of cells, of the rows from a first one on, or of the titles."""
    lines = "\n".join(map(",".join, zip(*columns)))
    if "\0" in lines:
        refuse_text(columns, text, first)
    try:
        return f"{lines}\n".encode()
    except UnicodeEncodeError:
        refuse_text(columns, text, first)


def refuse_text(columns: Sequence[Cells], text: Text, first: int | None) -> NoReturn:
    """Refuses the first cell that is no text."""
    for row, cells in enumerate(zip(*columns)):
        for column, cell in zip(text.columns, cells):
            fault = fault_of_text(cell)
            if fault is not None:
                place = f"the title {cell!r}" if first is None else f"{column.title} is {cell!r}, which"
                refuse(f"{place} {fault}: mend it", "text", None if first is None else first + row + 1)
    raise AssertionError("all cells are text")


def quoted_of(values: pandas.Series, is_longer: bool) -> Cells:
    """The cells of a column, in quotes where they need some, or with a further 0 behind decimals."""
    cells = cells_of(values)
    if is_longer:
        return [f"{cell}0" if "." in cell else cell for cell in cells]
    return cells if isinstance(values.dtype, numpy.dtype) and values.dtype.kind in "biufM" else quoted(cells)


def quoted(cells: Cells) -> Cells:
    """Cells in quotes where they have a sign that stands between cells, or ends a line."""
    text = "\n".join(cells)
    if text.count("\n") == len(cells) - 1 and not any(sign in text for sign in ',"\r'):
        return cells
    return ['"{}"'.format(cell.replace('"', '""')) if any(sign in cell for sign in ',"\r\n') else cell for cell in cells]
