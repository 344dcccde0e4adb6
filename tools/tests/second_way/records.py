"""The records of a folder, read by code of its own: evidence.txt of the run, and split.txt of the tracks."""

from __future__ import annotations

import hashlib
import re
from pathlib import Path
from typing import NamedTuple

SINGLE = ("export", "sha256", "unit", "zone", "shift", "crs")  # lines of split.txt of which there is one
SHIFT = re.compile("(-?[0-9]+),(-?[0-9]+)")
ESCAPED = re.compile(r"\\(\\|x[0-9a-f]{2}|u[0-9a-f]{4})")
UTM = re.compile(r"EPSG:32[67][0-9]{2} \(WGS 84 / UTM zone ([0-9]+[NS])\)")


def checksum_of(path: Path) -> str:
    with open(path, "rb") as file:
        return hashlib.file_digest(file, "sha256").hexdigest()


def lines_of(path: Path) -> list[str]:
    return path.read_bytes().decode("utf-8", "surrogateescape").removesuffix("\n").split("\n")


def unescaped(text: str) -> str:
    return ESCAPED.sub(lambda found: "\\" if found[1] == "\\" else chr(int(found[1][1:], 16)), text)


def shift_of(text: str) -> tuple[int, int]:
    found = SHIFT.fullmatch(text)
    assert found, text
    return int(found[1]), int(found[2])


class Split:
    """The record of tracks, by the lines of docs/TABLES.md, The record."""

    def __init__(self, path: Path) -> None:
        fields = [line.partition(",") for line in lines_of(path)]
        self.single = {kind: rest for kind, _, rest in fields if kind in SINGLE}
        self.options = [rest.partition(",") for kind, _, rest in fields if kind == "option"]
        self.said = [rest for kind, _, rest in fields if kind == "said"]
        self.left = [(name, int(count), reason) for kind, _, rest in fields if kind == "left"
                     for name, count, reason in [rest.split(",")]]
        tracks = [rest.split(",") for kind, _, rest in fields if kind == "track"]
        self.tracks = {name: (int(made), int(used)) for name, made, used, _ in tracks}

    @property
    def has_export(self) -> bool:
        """Whether the tracks were made of an export, and not of a data frame."""
        return "export" in self.single

    @property
    def zone(self) -> str | None:
        """The UTM zone; None where it is not known."""
        return None if self.single["zone"] == "none" else self.single["zone"]

    @property
    def system(self) -> str | None:
        """The reference system as it is written; None where none is known."""
        if self.zone is None:
            named = [unescaped(value) for name, _, value in self.options if name == "crs"]
            return named[0] if named and self.has_export else self.single.get("crs")
        return f"EPSG:{326 if self.zone.endswith('N') else 327}{self.zone[:-1]:0>2} (WGS 84 / UTM zone {self.zone})"

    @property
    def shift(self) -> tuple[int, int]:
        """By how many metres coordinates were shifted."""
        return shift_of(self.single.get("shift", "0,0"))

    def left_of(self, name: str) -> dict[str, int]:
        """How many fixes of an animal were left out, by reason."""
        return {reason: count for animal, count, reason in self.left if animal == name and count}


class Run(NamedTuple):
    """What is known of the run: the fields of its record, the checksum of the report, and the record of the tracks, which is
    None where there is none."""

    fields: dict[str, str]
    report_sum: str
    split: Split | None

    @property
    def unit(self) -> str:
        return self.fields["unit"]

    @property
    def levels(self) -> list[int]:
        return list(map(int, self.fields["levels"].split(",")))

    @property
    def program(self) -> str:
        return self.fields["program"]

    def typed(self, name: str) -> str:
        """What was typed in; nothing where it was not."""
        return unescaped(self.fields.get(name, ""))

    @property
    def system(self) -> str | None:
        """The reference system as it is written: by the record of the tracks, or else by that of the run."""
        return (self.split.system if self.split else None) or self.typed("crs") or None

    @property
    def zone(self) -> str | None:
        """The UTM zone of the reference system."""
        found = UTM.fullmatch(self.system or "")
        return found[1] if found else None

    @property
    def shift(self) -> tuple[int, int]:
        """By how many metres coordinates were shifted."""
        if "shift" in self.fields:
            return shift_of(self.fields["shift"])
        return self.split.shift if self.split else (0, 0)


def run_of(folder: Path) -> Run:
    """The run of a folder of evidence."""
    split = folder / "tracks" / "split.txt"
    fields = dict(line.partition(": ")[::2] for line in lines_of(folder / "evidence.txt"))
    return Run(fields, checksum_of(folder / "report.txt"), Split(split) if split.is_file() else None)
