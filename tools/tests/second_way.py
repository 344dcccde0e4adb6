#!/usr/bin/env python3
"""second_way.py FOLDER ..: whether tables, page and layers of folders of evidence are what a second way comes to.

The package second_way computes them of tracks and records by code that shares nothing with their makers. Prints for each
folder 'ok FOLDER', or 'failed FOLDER: ..' with how a file of it differs, or how its record of the tracks contradicts itself;
the status is 1 where one differs."""
from __future__ import annotations

import sys
from pathlib import Path
from typing import Iterator

TOOLS = Path(__file__).resolve().parents[1]
sys.path.insert(0, str(TOOLS.parent / "python"))

from homerange_verifier.lines import Fault, Range, overlaps_of, read_track
from second_way import layers, page, said, tables
from second_way.facts import Animal
from second_way.records import Run, run_of


def ranges_of(folder: Path, levels: list[int]) -> list[Range]:
    """The ranges of the tracks that have used fixes, in the order of their files."""
    names = sorted((path.name for path in (folder / "tracks").glob("*.csv")), key=lambda name: name.encode())
    tracks = [read_track(folder / "tracks" / name) for name in names]
    return [Range(track, levels) for track in tracks if track.points]


def faults_of(folder: Path, run: Run) -> Iterator[tuple[str, str | None]]:
    """What is held, and what is wrong with it."""
    ranges = ranges_of(folder, run.levels)
    animals = [Animal(number, own, run.split) for number, own in enumerate(ranges, 1)]
    counts = overlaps_of(ranges)
    for name, rows in tables.tables(animals, counts, run.levels, run.unit).items():
        yield name, tables.difference((folder / name).read_bytes(), rows)
    yield "report.html", page.difference(folder / "report.html", animals, counts, run)
    yield "ranges.gpkg", layers.difference(folder / "ranges.gpkg", animals, run)
    if run.split:
        yield "split.txt", said.fault_of(run.split)


def is_fine(folder: Path) -> bool:
    """Says whether a folder is what the second way comes to."""
    try:
        faults = [f"{name}: {fault}" for name, fault in faults_of(folder, run_of(folder)) if fault]
    except (Fault, AssertionError) as fault:
        faults = [str(fault)]
    print(f"failed {folder}: {'; '.join(faults)!r}" if faults else f"ok {folder}", flush=True)
    return not faults


if __name__ == "__main__":
    sys.exit(not all([is_fine(Path(word)) for word in sys.argv[1:]]))
