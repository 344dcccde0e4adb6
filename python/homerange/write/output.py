"""The folder of evidence of ranges in memory, with all that is handed in."""

from __future__ import annotations

import os
from dataclasses import replace
from pathlib import Path
from typing import Any, Mapping

from ..about import Words, read_about
from ..arguments import refuse_argument
from ..errors import ReportError, check_place, files_as_said, path_of, refuse
from ..program import Program, checksum_of, find_program, program_of
from ..ranges.home import HomeRanges, check_whole, ranges_of
from ..ranges.rows import rows_in
from ..ranges.tracks import Tracks
from ..record import read_record
from ..report import Report
from ..units import zone_of_time, zone_text
from .boundary import rings_given, write_rings
from .evidence import ABOUT, REPORT, TRACKS, Wish, make_report, new_folder, used_tracks
from .page import refuse_name_alone, words_beside, words_typed
from .results import write_results
from .tracks import put_tracks, renamed, said_of_tracks

ARGUMENTS = ("title", "study", "species", "by", "reference", "purpose", "reserve", "reserve_name", "tz", "made")  # of the page


def tracks_of(ranges: HomeRanges) -> Tracks:
    """The fixes of ranges, which have to be known."""
    if ranges.tracks is None:
        refuse("evidence needs the fixes: read_report(path, files=..)")
    return ranges.tracks


def in_order(tracks: Tracks, names: Mapping[str, str], report: Report) -> Tracks:
    """The tracks by the names that files have, in the order of the report."""
    animal_of = {names[name]: name for name in tracks.by_name}
    left_out = {names[name]: count for name, count in tracks.left_out.items()}
    return replace(tracks, by_name={own: tracks.by_name[animal_of[own]] for own in report.tables}, left_out=left_out)


def ranges_in(folder: Path, report: Report, ranges: HomeRanges, tracks: Tracks, names: Mapping[str, str],
              program: Program) -> HomeRanges:
    """The ranges of the report that a program made in a folder, which has to have the numbers of these."""
    split = folder / TRACKS / "split.txt"
    if report != renamed(ranges.report, names):
        raise ReportError("the program reports other numbers of these tracks than the ranges have: make them again")
    if ranges.files:
        files = [folder / name for name in used_tracks(folder)]
        return ranges_of(report, folder / REPORT, files, ranges.crs, ranges.tz, ranges.shift, split if split.is_file() else None,
                         program.path)
    found = HomeRanges(report, in_order(tracks, names, report), crs=ranges.crs, tz=ranges.tz, program=program)
    found.record, found.checksum = read_record(split), checksum_of(folder / REPORT)
    return found


def write_folder(ranges: HomeRanges, into: str | os.PathLike[str], page: Mapping[str, Any]) -> list[str]:
    """Makes the folder of evidence of some ranges, whose page is written with these arguments; answers what there is to
    say of it."""
    path, tracks = path_of(into, "folder"), tracks_of(ranges)
    odd = next((name for name in page if name not in ARGUMENTS), None)
    if odd is not None:
        refuse_argument(odd, ARGUMENTS)
        refuse(f"there is no argument {odd}")
    check_whole(ranges, "evidence")
    said: list[str] = []
    wish = Wish(",".join(map(str, ranges.levels)), ranges.unit, program_of(find_program(ranges.named)))
    words, reserve = words_of_page(ranges, **page)
    rings = rings_given(ranges, reserve)

    def fill(folder: Path) -> None:
        names = put_tracks(ranges, tracks, folder)
        write_rings(rings, folder)
        report = make_report(folder, wish, words_beside(folder, ranges, words), rows_in)
        found = ranges_in(folder, report, ranges, tracks, names, wish.program)
        said.extend([*said_of_tracks(tracks, names), *write_results(folder, found, read_about(folder / ABOUT))])

    if not os.path.lexists(path):
        check_place(path)
    with files_as_said():
        new_folder(path, fill)
    return said


def words_of_page(ranges: HomeRanges, *, reserve: Any = None, reserve_name: str | None = None, tz: str | None = None,
                  **typed: Any) -> tuple[Words, Any]:
    """What the arguments of a page come to, and its boundary."""
    words = words_typed(reserve_name=reserve_name, **typed)
    refuse_name_alone(reserve, reserve_name)
    zone = ranges.tz if tz is None else zone_text(tz)
    zone_of_time(zone)
    return words._replace(clock=zone, boundary=None if reserve is None else words.boundary or "boundary"), reserve
