"""Tracks: the fixes of each animal in the order of time, in whole units, as the program takes them; of fixes that were read, or of
the files of a report."""

from __future__ import annotations

import csv
import itertools
import os
from collections import Counter
from dataclasses import dataclass, field
from operator import itemgetter
from typing import Iterable, Iterator

import numpy
import pandas
from numpy.typing import NDArray

from ..errors import FrameError, ReportError
from ..read.changes import PLACES
from ..read.fixes import Fixes, reading_of
from ..report import Report, polygon_of
from ..units import UNITS, Unit
from .outer import Track, outer_fixes

Whole = NDArray[numpy.int64]
ROWS = 1_000  # of a file that are read or written together
HEAD = b"animal,second,easting,northing\n"


@dataclass
class Tracks:
    """The fixes of each animal, and what became of the others."""

    by_name: dict[str, Track]
    left_out: dict[str, int]  # how many fixes of each animal are not there, if it is known
    shift: tuple[int, int] = (0, 0)  # metres that were added to coordinates
    notes: list[str] = field(default_factory=list)
    reasons: Counter[tuple[str, str]] = field(default_factory=Counter)  # fixes left out, by animal and why
    names: dict[str, str] = field(default_factory=dict)  # in files, of animals that have another one there
    record: bytes | None = None  # what the program wrote of these tracks
    is_frame: bool = False  # whether the export that it names is the text of a frame, which nobody has
    is_again: bool = False  # whether they are of fixes that were read before, and changed


def tracks_of_fixes(fixes: Fixes) -> Tracks:
    """The tracks of fixes that are as the program wrote them."""
    reading = reading_of(fixes)
    sides = [whole_units(fixes[title], UNITS[reading.unit], added) for title, added in zip(PLACES, reading.shift)]
    whole = numpy.column_stack([seconds_of(fixes), *sides])
    parts = numpy.split(whole, numpy.cumsum([*reading.counts.values()])[:-1])
    left_out = Counter[str]()
    for (name, _), count in reading.left.items():
        left_out[name] += count
    known = [name for name in reading.counts if name not in reading.unknown]
    return Tracks(dict(zip(reading.counts, parts)), {name: left_out[name] for name in known}, reading.shift,
                  [*reading.notes], Counter(reading.left), dict(reading.names), reading.record, reading.is_frame, reading.is_again)


def seconds_of(fixes: Fixes) -> Whole:
    """The seconds of fixes."""
    if "time" not in fixes:
        return numpy.asarray(fixes["second"], dtype="int64")
    times = pandas.DatetimeIndex(fixes["time"]).tz_convert("UTC").tz_localize(None)
    return numpy.asarray(times.to_numpy().astype("datetime64[s]").astype("int64"))


def whole_units(metres: pandas.Series, unit: Unit, added: int) -> Whole:
    """One side of fixes in whole units."""
    return numpy.asarray(numpy.rint(unit.per_metre * (metres.to_numpy(dtype="float64") + added)), dtype="int64")


def track_text(name: str, track: Track) -> bytes:
    """The file of an animal of this name, byte by byte as the program writes it."""
    numbers = track.ravel().tolist()
    row = f"{name.replace('%', '%%')},%d,%d,%d\n".encode()
    return HEAD + b"".join(pieces(row, numbers, 3))


def pieces(row: bytes, numbers: list[int], count: int) -> Iterator[bytes]:
    """Rows of so many numbers each, some together."""
    for first in range(0, len(numbers), count * ROWS):
        cells = tuple(numbers[first:first + count * ROWS])
        yield row * (len(cells) // count) % cells


def read_track(path: str | os.PathLike[str]) -> tuple[str, Track, int]:
    """The animal of a file, its used fixes, of which there may be none, and how many are not used."""
    numbers: dict[str, list[int]] = {title: [] for title in ("second", "easting", "northing")}
    animals, count = list[str](), 0
    with open(path, encoding="utf-8-sig", errors="surrogateescape", newline="") as file:
        lines = csv.reader(line.replace("\0", "") for line in file)  # of a file that is no text too
        at = {title: place for place, title in enumerate(next(lines, []))}
        rows = filter(None, lines) if {"animal", *numbers} <= {*at} else iter(())
        while some := list(itertools.islice(rows, ROWS)):
            used = [row for row in some if row[at["use"]:][:1] == ["1"]] if "use" in at else some
            try:
                for title, column in numbers.items():
                    column += map(int, map(itemgetter(at[title]), used))
            except (IndexError, ValueError) as fault:
                raise FrameError(f"{path} has a fix whose second, easting or northing is no number") from fault
            animals, count = animals or some[0][at["animal"]:], count + len(some)
    if not count:
        raise FrameError(f"{path} has no fix with animal, second, easting and northing")
    track = numpy.array([*numbers.values()], dtype="int64").T
    return "".join(animals[:1]), track, count - len(track)


def tracks_of_files(report: Report, files: Iterable[str | os.PathLike[str]]) -> Tracks | None:
    """The fixes of the files of a report; None where there are no files."""
    read = {name: (track, left_out) for name, track, left_out in map(read_track, files)}
    if not read:
        return None
    for name, table in report.tables.items():
        if name not in read:
            raise ReportError(f"no file has the animal {name} of the report")
        if read[name][0][:, 0].tolist() != table.rows.seconds.tolist():
            raise ReportError(f"the file of {name} has other fixes than the report")
        if polygon_of(outer_fixes(read[name][0][:, 1:], table.corners)) != table.corners:
            raise ReportError(f"the polygon of the file of {name} is not that of the report")
    unused = {name: read[name][1] for name in report.tables}
    if not any(unused.values()):
        unused = {}  # what was left out before is not in the files
    reasons = Counter({(name, "use"): count for name, count in unused.items()})
    return Tracks({name: read[name][0] for name in report.tables}, unused, reasons=reasons)
