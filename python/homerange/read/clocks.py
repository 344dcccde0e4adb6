"""Moments whose title says another clock than they have: the program says of a title what it does of one of texts."""

from __future__ import annotations

import re
import shutil
from pathlib import Path
from typing import Iterable, Sequence

import pandas

from ..errors import FrameError, one_line, refuse
from ..units import OF_UTC
from .call import as_arguments, split_table
from .cells import cells_of, is_time, row_named
from .text import TIMES, Column, Text, has_times, is_number, plain, quoted, titles_named, zones_in

NAME = "clock.csv"
ZONE = re.compile("as by tz='([^']*)'")  # that of a title
EXAMPLE = "Europe/Ljubljana"
OF_ZONES = re.compile("(column [0-9]+ '.*' says of which zone times are, and is not read): name the zone, .*")
OF_SUMMERS = re.compile("' says that times are by the clock of a summer [(]record ([0-9]+)[)]")
SOME, MOST = 1000, 4  # cells that are looked at before all, and kinds of them of a column of flags


def refuse_other_clocks(text: Text, columns: Iterable[Column], folder: Path, program: str) -> None:
    """Refuses times of UTC, or of no zone, among columns that were read, whose own title says another clock."""
    tz = text.options.get("tz")
    for column in columns:
        zones = zones_in(column.values) if has_times(column.values) else {""}
        are_utc = all(zone is not None and OF_UTC.fullmatch(zone) for zone in zones)
        if are_utc and not OF_UTC.fullmatch(tz or "") or zones == {None} and tz is None:
            refuse_clock(text, column, are_utc, folder, program)


def refuse_clock(text: Text, column: Column, is_utc: bool, folder: Path, program: str) -> None:
    """Refuses a column of times whose title says another clock than that of UTC, which moments are labelled with."""
    own = own_title(text, column)
    said = None if own == column.title and text.options.get("tz") is None else said_of_clock(own, folder, program)
    if said is not None and not is_utc:
        refuse(said, "columns")
    if said is not None:
        zone = (ZONE.findall(said) or [EXAMPLE])[0]
        refuse(f"{said.partition(', and without')[0]}, and its moments are labelled UTC: if they are, name tz='UTC', and else "
               f"{zone_of_clock(text, column, zone)}", "columns")


def own_title(text: Text, column: Column) -> str:
    """The title that a column has itself, where the program got another."""
    renamed = text.renamed is not None and column.title == text.renamed[0]
    return text.renamed[1] if text.renamed is not None and renamed else column.own or column.title


def zone_of_clock(text: Text, column: Column, zone: str = EXAMPLE) -> str:
    """How moments get the zone of their clock in place of UTC: those of the index, of a column, and of a column of objects."""
    title = own_title(text, column)
    if column.own is not None or title in text.labels.names:
        level = title if title in text.labels.names else int(title.rpartition("_")[2]) if text.labels.nlevels > 1 else 0
        own = "frame.index" if text.labels.nlevels == 1 else f"frame.index.get_level_values({level!r})"
        between = ""
    else:
        own = f"frame[{title!r}].dt" if is_time(column.values.dtype) else f"pandas.to_datetime(frame[{title!r}]).dt"
        between = ".dt"
    return f"give them the zone of their clock, as by {own}.tz_localize(None){between}.tz_localize('{zone}')"


def is_labelled(column: Column) -> bool:
    """Whether a column has moments that are all labelled UTC."""
    zones = zones_in(column.values) if has_times(column.values) else {None}
    return len(zones) > 0 and all(zone is not None and OF_UTC.fullmatch(zone) for zone in zones)


def beside_labels(text: Text, column: Column) -> str:
    """What is said of a column that says another clock than UTC, with which the moments of a column are labelled."""
    return (f", and the moments of {one_line(own_title(text, column))} are labelled UTC: if they are, remove it, and else "
            f"{zone_of_clock(text, column)}")


def with_labels(said: str, text: Text) -> str:
    """What the program says of a column that says of which zone times are, beside moments labelled UTC, to which the zone of an option
    does nothing."""
    found, named = OF_ZONES.fullmatch(said), titles_named(text.options.get("time"))
    usual = [column for column in text.columns
             if (column.title in named if named else plain(column.title) in TIMES and not is_number(column.values))]
    times = usual or [column for column in text.columns if has_times(column.values)]
    labelled = next(filter(is_labelled, times), None)
    if found is None or labelled is None or not all(has_times(column.values) for column in times):
        return said
    return f"{found[1]}{beside_labels(text, labelled)}"


def refuse_summers(text: Text, columns: Sequence[Column], folder: Path, program: str) -> None:
    """Refuses a column that is not among those that were read and says that times which are moments labelled UTC are by the clock of a
    summer, which UTC has not."""
    labelled = next(filter(is_labelled, columns), None)
    for at, column in enumerate(text.columns if labelled is not None else ()):
        kinds = [] if any(column is own for own in columns) else flags_of(column.values)
        kind = kind_of_summer(column.title, kinds, folder, program) if kinds else None
        if labelled is not None and kind is not None:
            row = row_named(text.labels, cells_of(column.values).index(kind))
            refuse(f"column {at + 1} '{one_line(column.title)}' says that times are by the clock of a summer "
                   f"({row.replace(' (frame.iloc', ', frame.iloc').removesuffix(')')}){beside_labels(text, labelled)}", "columns")


def flags_of(values: pandas.Series) -> list[str]:
    """The few kinds of cells of a column that may be flags; none of another one."""
    try:
        kinds = values.drop_duplicates() if values.iloc[:SOME].nunique() <= MOST else values.iloc[:0]
    except TypeError:  # of cells that are lists
        return []
    return list(dict.fromkeys(filter(None, cells_of(kinds)))) if len(kinds) <= MOST else []


def kind_of_summer(title: str, kinds: list[str], folder: Path, program: str) -> str | None:
    """Which of these cells of a column says of a time that it is by the clock of a summer, as the program takes its title."""
    lines = [f"{quoted([title])[0]},datetime,easting,northing",
             *(f"{kind},2024-01-15 12:00:{at:02},500000,5000000" for at, kind in enumerate(quoted(kinds)))]
    (folder / NAME).write_text("".join(f"{line}\n" for line in lines), encoding="utf-8", errors="surrogatepass")
    try:
        split_table(NAME, "summer", ["--time=datetime"], program, str(folder))
    except FrameError as fault:
        found = OF_SUMMERS.search(str(fault))
        return None if found is None else kinds[int(found[1]) - 1]
    shutil.rmtree(folder / "summer")
    return None


def said_of_clock(title: str, folder: Path, program: str) -> str | None:
    """What the program refuses of a column of times with this title, if that says another clock than that of UTC."""
    (folder / NAME).write_bytes(f"{quoted([title])[0]},easting,northing\n2024-05-01T00:00:00Z,500000,5000000\n".encode())
    try:
        split_table(NAME, "clock", [f"--time={title}"], program, str(folder))
    except FrameError as fault:
        said = as_arguments(str(fault), fault.kind)
        return re.sub("^column 1 ", "", said) if said.startswith(f"column 1 '{one_line(title)}' says ") else None
    return None
