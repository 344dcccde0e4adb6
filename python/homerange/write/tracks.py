"""Puts the fixes of ranges into a folder as files, with the record of how they were made."""

from __future__ import annotations

import shutil
from pathlib import Path
from typing import Mapping

from ..ranges.home import HomeRanges
from ..ranges.tracks import Tracks, track_text
from ..read.tracks import path_of_track
from ..report import Report
from .evidence import TRACKS, copy_files, copy_tracks

RECORD = "split.txt"
COUNTS = (b"left,", b"track,", b"tool,")  # how the lines of a record begin that stand behind what was said


def put_record(ranges: HomeRanges, folder: Path) -> None:
    """Puts the record that was named into the folder of tracks."""
    if ranges.split is not None:
        shutil.copyfile(ranges.split, folder / TRACKS / RECORD)


def put_tracks(ranges: HomeRanges, tracks: Tracks, folder: Path) -> dict[str, str]:
    """Puts tracks into a folder with their record: the files that were read, with the record that was named or lies beside them, or
    those that the program made of the fixes. Answers the name in files of each animal."""
    if ranges.files:
        copy_tracks(ranges.files, folder)
        put_record(ranges, folder)
        return {name: name for name in ranges.animals}
    return put_fixes(ranges, tracks, folder)


def put_fixes(ranges: HomeRanges, tracks: Tracks, folder: Path) -> dict[str, str]:
    """Puts fixes into a folder as the program made tracks of them. Answers the name in files of each animal."""
    (folder / TRACKS).mkdir()
    if tracks.record is not None:
        (folder / TRACKS / RECORD).write_bytes(record_of(tracks, tracks.record))
    names = {name: tracks.names.get(name, name) for name in ranges.animals}
    for name, track in tracks.by_name.items():
        with open(path_of_track(folder / TRACKS, names[name]), "xb") as file:
            file.write(track_text(names[name], track))
    return names


def put_known(ranges: HomeRanges, folder: Path) -> dict[str, str]:
    """Puts into a folder what is known of the fixes of ranges: the files that were read, the record that was named, or fixes. Answers
    the name in files of each animal."""
    if ranges.tracks is not None and not ranges.files:
        return put_fixes(ranges, ranges.tracks, folder)
    copy_files(ranges.files, folder)
    put_record(ranges, folder)
    return {name: name for name in ranges.animals}


def chosen_since(tracks: Tracks) -> str:
    """What is said of fixes that were changed since they were read."""
    gone = sum(count for (_, reason), count in tracks.reasons.items() if reason == "chosen")
    taken = f"{gone} of them {'was' if gone == 1 else 'were'} taken away since, and " if gone else ""
    return f"the fixes are not as they were read: {taken}what was left out before is neither in the folder nor on its page"


def record_of(tracks: Tracks, record: bytes) -> bytes:
    """The record of tracks, in which it is said where they are of fixes that were changed since they were read."""
    if not tracks.is_again:
        return record
    lines = record.splitlines(keepends=True)
    at = next((at for at, line in enumerate(lines) if line.startswith(COUNTS)), len(lines))
    return b"".join([*lines[:at], f"said,{chosen_since(tracks)}\n".encode(), *lines[at:]])


def renamed(report: Report, names: Mapping[str, str]) -> Report:
    """The report with the names that files have."""
    return Report(report.unit, {names[name]: table for name, table in report.tables.items()},
                  {(names[name], names[other]): count for (name, other), count in report.overlaps.items()})


def said_of_tracks(tracks: Tracks, names: Mapping[str, str]) -> list[str]:
    """What is said of fixes that were changed since they were read, and of animals that have other names in files."""
    changed = [chosen_since(tracks)] if tracks.is_again else []
    return [*changed, *(f"animal '{name}' is named {own}" for name, own in names.items() if name != own)]
