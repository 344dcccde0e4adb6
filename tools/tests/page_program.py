#!/usr/bin/env python3
"""page_program.py FOLDER NAME ..: whether the tables of a folder that homerange-page wrote have the numbers of its tracks, and
its page names what it has to. Ranges are computed here of the fixes alone, by a monotone chain and in exact fractions: no
code of the packages and no number of the report takes part. NAMES are those of the animals, in the order of the report."""

import csv
import hashlib
import sys
from fractions import Fraction
from pathlib import Path
from typing import Iterator

sys.dont_write_bytecode = True
sys.path.insert(0, str(Path(__file__).resolve().parents[2] / "python" / "tests"))

from exact import area2, covers, hull, nearest

LEVELS = (50, 95, 100)
DAY = 86400
Points = list[tuple[int, int]]


def rows_of(path: Path) -> list[dict[str, str]]:
    """The rows of a table."""
    with path.open(encoding="utf-8", newline="") as file:
        return list(csv.DictReader(file))


class Track:
    """The fixes of an animal, and its polygons."""

    def __init__(self, folder: Path, name: str) -> None:
        rows = rows_of(folder / "tracks" / f"{name}.csv")
        self.name = name
        self.seconds = [int(row["second"]) for row in rows]
        self.points: Points = [(int(row["easting"]), int(row["northing"])) for row in rows]
        self.kept = {level: nearest(self.points, level) for level in LEVELS}
        self.corners = {level: hull(kept) for level, kept in self.kept.items()}

    def hectares(self, level: int) -> Fraction:
        return Fraction(area2(self.corners[level]), 20_000)


def is_rounded(cell: str, number: Fraction, places: int) -> bool:
    """Whether a cell is the number, rounded to so many decimals."""
    return abs(Fraction(cell) - number) <= Fraction(1, 2 * 10 ** places) and len(cell.partition(".")[2]) <= places


def summary_faults(folder: Path, tracks: list[Track]) -> Iterator[str]:
    wanted = [(track, level) for track in tracks for level in LEVELS]
    rows = rows_of(folder / "summary.csv")
    if len(rows) != len(wanted):
        yield f"summary.csv has {len(rows)} rows, and not {len(wanted)}"
    for row, (track, level) in zip(rows, wanted):
        numbers = (track.seconds[0], track.seconds[-1], len(track.points), level, len(track.kept[level]), len(track.corners[level]))
        found = tuple(int(row[title]) for title in ("first", "last", "fixes", "level", "kept", "corners"))
        if row["animal"] != track.name or found != numbers or Fraction(row["hectares"]) != track.hectares(level):
            yield f"summary.csv: {row}, and not {track.name}, {numbers}, {float(track.hectares(level))}"


def overlap_faults(folder: Path, tracks: list[Track]) -> Iterator[str]:
    rows = rows_of(folder / "overlaps.csv")
    if [row["fixes_of"] for row in rows] != [track.name for track in tracks]:
        yield f"overlaps.csv has other animals: {rows}"
    for row, track in zip(rows, tracks):
        for other in tracks:
            inside = sum(covers(other.corners[100], point) for point in track.points)
            if not is_rounded(row[other.name], Fraction(inside, len(track.points)), 4):
                yield f"overlaps.csv: {track.name} in {other.name}: {row[other.name]}, and not {inside} of {len(track.points)}"


def animal_faults(folder: Path, tracks: list[Track]) -> Iterator[str]:
    rows = rows_of(folder / "animals.csv")
    if [row["animal"] for row in rows] != [track.name for track in tracks]:
        yield f"animals.csv has other animals: {rows}"
    for row, track in zip(rows, tracks):
        length = Fraction(track.seconds[-1] - track.seconds[0], DAY)
        are_same = [int(row["used"]), int(row["first"]), int(row["last"])] == [len(track.points), track.seconds[0], track.seconds[-1]]
        are_areas = all(Fraction(row[f"hectares_{level}"]) == track.hectares(level) for level in LEVELS)
        if not are_same or not are_areas or not is_rounded(row["days"], length, 4):
            yield f"animals.csv: {row}"


def page_faults(folder: Path, tracks: list[Track]) -> Iterator[str]:
    """What the page lacks: each name, and the checksum of the report, which it was not told. It fetches nothing."""
    page = (folder / "report.html").read_text("utf-8")
    report = hashlib.sha256((folder / "report.txt").read_bytes()).hexdigest()
    yield from (f"report.html lacks {text}" for text in (*(track.name for track in tracks), report) if text not in page)
    yield from (f"report.html has {text}" for text in ("<script", " src=", "@import", "url(") if text in page)


def main() -> None:
    folder, names = Path(sys.argv[1]), sys.argv[2:]
    tracks = [Track(folder, name) for name in names]
    looks = (summary_faults, overlap_faults, animal_faults, page_faults)
    faults = [fault for look in looks for fault in look(folder, tracks)]
    print(*faults, sep="\n")
    sys.exit(1 if faults else 0)


if __name__ == "__main__":
    main()
