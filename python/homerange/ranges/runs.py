"""Has homerange make the report of tracks, in as many runs as their number takes."""

from __future__ import annotations

import re
import subprocess
import tempfile
from concurrent.futures import ThreadPoolExecutor
from pathlib import Path
from typing import Callable, Mapping, Sequence, Tuple

from ..errors import FAULTS, ProgramError, ReportError, one_line
from ..program import Step, steps_of, workers
from ..read.tracks import path_of_track
from ..report import Corners, Report, lines_of, overlaps_of, parse
from .outer import Track
from .rows import rows_in
from .tracks import track_text

Progress = Callable[[int, int], object]  # is called with how many of how many runs are done
Box = Tuple[int, int, int, int]


def _call(program: str, levels: str, unit: str, folder: str, files: Mapping[str, str]) -> bytes:
    """The report of a run of the tracks of animals, by the names of their files in the folder. Faults name the animal and not its
    file."""
    command: list[str | bytes] = [program, "--percent", levels, "--unit", unit, *(path_of_track(".", name) for name in files)]
    try:
        run = subprocess.run(command, cwd=folder, stdin=subprocess.DEVNULL, capture_output=True)
    except OSError as fault:
        raise ProgramError(f"{program} does not run: {fault.strerror}") from fault
    if run.returncode == 0:
        return run.stdout
    said = run.stderr.decode("utf-8", errors="replace").strip() or f"{program} ended with status {run.returncode}"
    line = re.sub(r"[.]/(.*?)[.]csv\b", lambda found: files.get(found[1], found[1]), said.splitlines()[-1])
    raise FAULTS.get(run.returncode, ProgramError)(one_line(line.replace("homerange: --percent: ", "levels: ")))


def _write_tracks(folder: str, tracks: Mapping[str, Track]) -> None:
    """Writes the tracks into the folder, into files that have their numbers as names, as the animals in them have."""
    for number, track in enumerate(tracks.values()):
        Path(folder, f"{number}.csv").write_bytes(track_text(str(number), track))


class Runs:
    """The runs of tracks, whose files may be known: their folder, and the names that they have there, but for those that are
    the animals' own."""

    def __init__(self, program: str, tracks: Mapping[str, Track], levels: str, unit: str, folder: Path | None = None,
                 files: Mapping[str, str] = {}) -> None:
        self.program, self.tracks, self.levels, self.unit, self.folder = program, tracks, levels, unit, folder
        self.files = {name: str(number) if folder is None else files.get(name, name) for number, name in enumerate(tracks)}
        self.steps = steps_of(list(tracks))

    def named(self, step: Step) -> dict[str, str]:
        """The animals of a step, by the names of their files."""
        return {self.files[name]: name for group in step for name in group}

    def text(self, folder: str, step: Step) -> bytes:
        """The report of a step, of a pair of groups the overlaps alone."""
        text = _call(self.program, self.levels, self.unit, folder, self.named(step))
        return text if len(step) == 1 else text[text.find(b"\noverlap,") + 1:]

    def add(self, report: Report, step: Step, text: bytes) -> None:
        """Takes into the report what a step gave."""
        names = self.named(step)
        fixes = {file: len(self.tracks[name]) for file, name in names.items()}
        if len(step) == 2:
            overlaps = overlaps_of(lines_of(text, self.program), fixes)
        else:
            found = parse(lines_of(text, self.program), rows_in)
            overlaps = found.overlaps
            reported = {file: table.fixes for file, table in found.tables.items()}
            if found.unit != self.unit or [*reported.items()] != [*fixes.items()]:
                raise ReportError(f"{self.program} reports another unit, other animals or fixes than those it was given")
            report.tables.update({names[file]: table for file, table in found.tables.items()})
        report.overlaps.update({(names[one], names[other]): count for (one, other), count in overlaps.items()})

    def report(self, progress: Progress | None = None, jobs: int | None = None) -> Report:
        """The report of all tracks, by so many processors. Of animals in two groups those are run whose boxes meet; no polygon
        covers a fix outside its box."""
        report = Report(self.unit, {}, {})
        with tempfile.TemporaryDirectory(prefix="homerange-") as room, workers(jobs) as pool:
            folder = room if self.folder is None else str(self.folder)
            if self.folder is None:
                _write_tracks(room, self.tracks)
            try:
                self.run(report, [step for step in self.steps if len(step) == 1], folder, pool, progress)
                self.run(report, self.pairs(report), folder, pool, progress)
            except BaseException:
                pool.shutdown(cancel_futures=True)
                raise
        if progress is not None:
            progress(len(self.steps), len(self.steps))
        return report

    def pairs(self, report: Report) -> list[Step]:
        """The runs of pairs of groups. Of all others the report gets that they have no fix in each other's polygons."""
        boxes, found = {name: box_of(table.corners) for name, table in report.tables.items()}, list[Step]()
        for one, other in (step for step in self.steps if len(step) == 2):
            report.overlaps.update(dict.fromkeys(((a, b) for a in one for b in other), 0))
            report.overlaps.update(dict.fromkeys(((b, a) for a in one for b in other), 0))
            met = [(a, b) for a in one for b in other if meets(boxes[a], boxes[b])]
            if met:
                found.append(tuple([*dict.fromkeys(side)] for side in zip(*met)))
        return found

    def run(self, report: Report, steps: Sequence[Step], folder: str, pool: ThreadPoolExecutor, progress: Progress | None) -> None:
        """Makes runs, and takes into the report what they gave."""
        before = len(self.steps) - len(steps) if steps and len(steps[0]) == 2 else 0
        texts = pool.map(lambda step: self.text(folder, step), steps)
        for done, (step, text) in enumerate(zip(steps, texts), before + 1):
            self.add(report, step, text)
            if progress is not None and done < len(self.steps):
                progress(done, len(self.steps))


def box_of(corners: Corners) -> Box:
    """The least and the greatest easting, and those of northings."""
    eastings, northings = zip(*corners)
    return min(eastings), max(eastings), min(northings), max(northings)


def meets(one: Box, other: Box) -> bool:
    """Whether two boxes have a place in common."""
    return one[0] <= other[1] and other[0] <= one[1] and one[2] <= other[3] and other[2] <= one[3]
