"""Reads back what the program made of a table: its record, the tracks, and which record of the table is which fix."""

from __future__ import annotations

import csv
import os
import re
from collections import Counter
from pathlib import Path
from typing import Any, Iterable, Mapping, NamedTuple

import numpy
import pandas
from numpy.typing import NDArray

from ..errors import ProgramError, one_line
from ..record import Record, unescaped

NAMED = re.compile("animal '(.*)' is named (.*)")  # what is said of an animal whose file has another name
NUMBERS = ["second", "easting", "northing"]


class Whole(NamedTuple):
    """The fixes of all tracks, one track behind the other, in whole units."""

    names: list[str]  # of the files, in their order
    counts: list[int]  # of the fixes of each
    second: NDArray[numpy.int64]
    easting: NDArray[numpy.int64]
    northing: NDArray[numpy.int64]

    def per_fix(self, values: Iterable[Any]) -> NDArray[Any]:
        """A value of each file for each of its fixes."""
        return numpy.repeat(numpy.array([*values], dtype=object), self.counts)


def path_of_track(folder: str | os.PathLike[str], name: str) -> bytes:
    """The path of the file of an animal, whose name is in UTF-8 in whatever locale."""
    return os.path.join(os.fsencode(folder), f"{name}.csv".encode())


def read_tracks(folder: Path, record: Record) -> Whole:
    """The fixes of the tracks of a folder, which has this record."""
    tracks = [track_in(folder, name) for name in record.tracks]
    for (name, made), track in zip(record.tracks.items(), tracks):
        if len(track) != made.records:
            raise ProgramError(f"the program wrote {len(track)} fixes of {name}, and says {made.records}")
    numbers = numpy.concatenate(tracks) if tracks else numpy.empty((0, 3), dtype="int64")
    return Whole([*record.tracks], [len(track) for track in tracks], *numbers.T)


def track_in(folder: Path, name: str) -> NDArray[numpy.int64]:
    """The seconds, eastings and northings of the track of an animal."""
    with open(path_of_track(folder, name), encoding="utf-8", newline="") as file:
        track = pandas.read_csv(file, dtype="int64", usecols=NUMBERS, quoting=csv.QUOTE_NONE)
    return numpy.asarray(track[NUMBERS], dtype="int64")


def rows_of(folder: Path, whole: Whole) -> NDArray[numpy.int64]:
    """Of each fix of the tracks its record in the table, counted from 0, by the records that the program wrote. The fixes of a
    file stand in the order of their moments, and those of one moment in that of the table."""
    with open(folder / "records.txt", encoding="utf-8", newline="") as file:
        table = pandas.read_csv(
            file, usecols=["file", "second", "nanosecond", "reason"], keep_default_na=False, quoting=csv.QUOTE_NONE,
            na_values={"second": [""], "nanosecond": [""]},
            dtype={"file": "category", "second": "float64", "nanosecond": "float64", "reason": "category"})
    rows = numpy.flatnonzero((table["reason"] == "").to_numpy())
    second, part = (table[title].to_numpy()[rows] for title in ("second", "nanosecond"))
    files = table["file"].cat
    place_of = {name: at for at, name in enumerate(whole.names)}
    places = numpy.array([place_of.get(unescaped(name)) for name in files.categories], dtype="float64")
    order = numpy.lexsort((part, second, places[files.codes.to_numpy()[rows]]))
    if len(rows) != len(whole.second) or (second[order] != whole.second).any():
        raise ProgramError("records.txt of the program has other fixes than its tracks")
    return numpy.asarray(rows[order], dtype="int64")


def own_names(record: Record) -> dict[str, str]:
    """The name that each animal has in its table, in one line, by that in files, of all that have another one. Names that differ
    in what is escaped are not told apart, and stay those of files."""
    known = {*record.tracks, *(name for name, _, _ in record.left)}
    found = {name: one_line(name) for name in known if one_line(name) != name}
    for said in map(NAMED.fullmatch, record.said):
        if said and unescaped(said[2]) in known:
            found[unescaped(said[2])] = said[1]
    counts = Counter(found.get(name, name) for name in known)
    return {file: name for file, name in found.items() if counts[name] == 1}


def left_out(record: Record, own: Mapping[str, str]) -> dict[tuple[str, str], int]:
    """How many fixes were left out, by the own name of the animal and the reason."""
    return {(own.get(name, name), reason): count for name, count, reason in record.left}
