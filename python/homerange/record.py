"""The record of tracks, split.txt in their folder: of which export or of what frame they were made, how, and by what.
docs/TABLES.md, The record, has its lines."""

from __future__ import annotations

import os
import re
from collections import Counter
from pathlib import Path
from typing import Iterator, NamedTuple, NoReturn, Optional

from .errors import FrameError, one_line
from .zones import system_of_text, text_of_zone

SUM = re.compile("[0-9a-f]{64}")
COUNT = re.compile("[0-9]{1,9}")
ESCAPED = re.compile(r"\\(\\|x[0-9a-f]{2}|u[0-9a-f]{4})")
SINGLE = ("export", "sha256", "unit", "zone", "shift", "crs")  # kinds of which there is one line
# What such a line may have: the export is a plain name of a file, since a record may be a stranger's.
FORMS = {"export": re.compile("(?!\\.{1,2}\\Z)[^/]+"), "sha256": SUM, "unit": re.compile("d?m"),
         "zone": re.compile("none|([1-9]|[1-5][0-9]|60)[NS]")}
REASONS = ("animal", "coordinates", "zero", "sensor", "outlier", "class", "no dop", "dop", "type", "before", "after",
           "grid", "speed", "months", "hours", "every", "use", "chosen")  # use is an argument that left rows out, once


class Made(NamedTuple):
    """The track of an animal: how many records its file has and how many of them are used, and its checksum, which
    records of older versions do not have."""

    records: int
    used: int
    checksum: str | None


class Record(NamedTuple):
    """What split.txt says."""

    export: str | None  # None where the tracks were made of a data frame
    checksum: str | None
    unit: str
    zone: str | None
    shift: tuple[int, int]  # metres that were added to eastings and northings
    crs: str | None  # a reference system that is known and is that of no UTM zone, as older records of data frames have it
    options: list[tuple[str, str | None]]  # None is the value of an option that has none
    said: list[str]
    left: list[tuple[str, int, str]]  # animal, how many fixes were left out, reason
    tracks: dict[str, Made]
    tools: list[str]

    def left_out(self) -> Counter[tuple[str, str]]:
        """How many fixes were left out, by animal and reason. Records that are written and not used are outliers that are
        marked."""
        found: Counter[tuple[str, str]] = Counter()
        for name, count, reason in self.left:
            found[name, reason] += count
        for name, made in self.tracks.items():
            if made.used < made.records:
                found[name, "outlier"] += made.records - made.used
        return found

    def of_source(self) -> Counter[str]:
        """How many records of the export or the frame each animal has."""
        found = Counter({name: made.records for name, made in self.tracks.items()})
        for name, count, _ in self.left:
            found[name] += count
        return found

    @property
    def crs_text(self) -> str | None:
        """The reference system that is that of no UTM zone, as it is written; None where none is known."""
        return dict(self.options).get("crs") if self.export is not None else self.crs

    @property
    def system_text(self) -> str | None:
        """The reference system as it is written; None where none is known."""
        return text_of_zone(self.zone) if self.zone else self.crs_text

    @property
    def system(self) -> str | None:
        """The reference system by its code or its definition; None where none is known, or where it has neither."""
        return None if self.system_text is None else system_of_text(self.system_text)

    @property
    def used(self) -> dict[str, int]:
        """How many fixes the program has to report of each animal: one none of whose fixes is used has no report."""
        return {name: made.used for name, made in self.tracks.items() if made.used}


def escaped(value: str) -> str:
    """A value in one line, from which it can be had again."""
    return one_line(value.replace("\\", "\\\\"))


def unescaped(text: str) -> str:
    return ESCAPED.sub(lambda found: "\\" if found[1] == "\\" else chr(int(found[1][1:], 16)), text)


def record_lines(record: Record) -> Iterator[str]:
    """The lines of a record."""
    if record.export is not None:
        yield f"export,{record.export}"
        yield f"sha256,{record.checksum}"
    yield f"unit,{record.unit}"
    yield f"zone,{record.zone or 'none'}"
    if any(record.shift):
        yield "shift,{},{}".format(*record.shift)
    if record.crs is not None:
        yield f"crs,{record.crs}"
    yield from (f"option,{name}" if value is None else f"option,{name},{escaped(value)}" for name, value in record.options)
    yield from (f"said,{line}" for line in record.said)
    yield from (f"left,{name},{count},{reason}" for name, count, reason in record.left)
    yield from (f"track,{name},{made.records},{made.used},{made.checksum}" for name, made in record.tracks.items())
    yield from (f"tool,{tool}" for tool in record.tools)


def record_text(record: Record) -> str:
    """A record as it is written."""
    return "".join(f"{one_line(line)}\n" for line in record_lines(record))


class Reader:
    """The lines of a record, by their kinds."""

    def __init__(self, path: Path) -> None:
        self.path, self.number = path, 0
        self.single: dict[str, str] = {}
        self.options: list[tuple[str, str | None]] = []
        self.said: list[str] = []
        self.left: list[tuple[str, int, str]] = []
        self.tracks: dict[str, Made] = {}
        self.tools: list[str] = []

    def refuse(self, line: str) -> NoReturn:
        raise FrameError(f"{self.path}: line {self.number} is '{one_line(line)}', which does not fit there", "text")

    def take(self, line: str) -> None:
        """Takes the next line."""
        self.number += 1
        kind, comma, rest = line.partition(",")
        if not comma:
            self.refuse(line)
        elif kind == "export" and kind in self.single:
            raise FrameError(f"{self.path}: its tracks are of several exports: evidence is made of those of one", "text")
        elif kind in SINGLE and kind not in self.single and (kind not in FORMS or FORMS[kind].fullmatch(rest)):
            self.single[kind] = rest
        elif kind == "option":
            name, has_value, value = rest.partition(",")
            self.options.append((name, unescaped(value) if has_value else None))
        elif kind == "said":
            self.said.append(rest)
        elif kind == "tool":
            self.tools.append(rest)
        elif kind not in ("left", "track") or not self.take_counts(kind, rest.split(",")):
            self.refuse(line)

    def take_counts(self, kind: str, fields: list[str]) -> bool:
        """Takes a line of an animal, and says whether it fits. Names of files have no backslash, so one stands for a sign that
        ends lines."""
        name = unescaped(fields[0])
        if kind == "left" and len(fields) == 3 and COUNT.fullmatch(fields[1]):
            self.left.append((name, int(fields[1]), fields[2]))
            return True
        numbers, checksum = fields[1:3], fields[3] if len(fields) == 4 else None
        fits = len(fields) in (3, 4) and all(map(COUNT.fullmatch, numbers)) and (not checksum or SUM.fullmatch(checksum))
        if kind == "left" or not fits or name in self.tracks:
            return False
        self.tracks[name] = Made(int(numbers[0]), int(numbers[1]), checksum)
        return True

    def shift(self) -> tuple[int, int]:
        """The line of the shift, which is there where coordinates were shifted."""
        text = self.single.get("shift", "0,0")
        found = re.fullmatch("(-?[0-9]{1,9}),(-?[0-9]{1,9})", text)
        return (int(found[1]), int(found[2])) if found else self.refuse(f"shift,{text}")

    def record(self) -> Record:
        has_export = "export" in self.single or "sha256" in self.single
        for kind in (*(("export", "sha256") if has_export else ()), "unit", "zone"):
            if kind not in self.single:
                raise FrameError(f"{self.path} has no line '{kind}': is it a record of split?", "text")
        single, zone = self.single, self.single["zone"]
        return Record(single.get("export"), single.get("sha256"), single["unit"], None if zone == "none" else zone,
                      self.shift(), single.get("crs"), self.options, self.said, self.left, self.tracks, self.tools)


def read_record(path: str | os.PathLike[str]) -> Record:
    """What the record of tracks says."""
    reader = Reader(Path(path))
    with open(path, encoding="utf-8", errors="surrogateescape", newline="\n") as file:
        lines = file.read().split("\n")
    if not lines[-1]:
        lines.pop()
    for line in lines:
        reader.take(line)
    return reader.record()


def record_in(folder: Path) -> Optional[Record]:
    """The record of the tracks of a folder; None where there is none."""
    path = folder / "split.txt"
    return read_record(path) if path.is_file() else None


def difference_from_record(record: Record, fixes: dict[str, int], is_part: bool = False) -> str | None:
    """How the animals and numbers of fixes of a report, which may be one of a part of them, are not those that the record has; None
    where they are."""
    wanted = {name: used for name, used in record.used.items() if name in fixes or not is_part}
    if not record.tracks or wanted == fixes:
        return None
    name = sorted({*wanted.items()} ^ {*fixes.items()})[0][0]
    return (f"the report has {fixes.get(name, 0)} fixes of {name}, and split.txt has {wanted.get(name, 0)}: was a track "
            "changed, or left out?")
