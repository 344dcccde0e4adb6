"""Has homerange-page write the tables and the page of a folder, and the page of ranges in memory by way of such a folder."""

from __future__ import annotations

import os
import shutil
import subprocess
import tempfile
from datetime import date, datetime
from pathlib import Path
from typing import Any

from ..about import Words
from ..arguments import says_ours
from ..errors import FAULTS, ProgramError, check_place, files_as_said, one_line, path_of, refuse, shown, truth_of
from ..program import PAGE as PROGRAM, Program, checksum_of, find_page_program, find_program, program_of
from ..ranges.home import HomeRanges, check_ranges, check_whole
from ..read.reading import tell
from ..record import record_in
from ..units import zone_of_time, zone_text
from ..zones import scales_of_crs, text_of_crs, zone_of_crs
from .boundary import rings_given, write_rings
from .evidence import REPORT, TRACKS, is_utf8
from .replace import check_ending, refuse_other_page
from .report_text import write_report
from .tracks import put_known, renamed, said_of_tracks

PAGE = "report.html"
TABLES = ("summary.csv", "animals.csv", "overlaps.csv")


def words_typed(title: str | None = None, study: str | None = None, species: str | None = None, by: str | None = None,
                reference: str | None = None, purpose: str | None = None, reserve_name: str | None = None,
                made: date | None = None) -> Words:
    """What was typed in for a page; what is no text, and no day, is refused."""
    for name, text in (("title", title), ("study", study), ("species", species), ("by", by), ("reference", reference),
                       ("purpose", purpose), ("reserve_name", reserve_name)):
        if text is not None and not isinstance(text, str):
            refuse(f"{name}={text!r} is no text")
        if text is not None and not is_word(text):
            refuse(f"{name}={text!r} is no text in UTF-8 without a zero byte: mend it")
    if made is not None and (not isinstance(made, date) or made != made):
        refuse(f"made={shown(made)} is no date")
    return Words(title=title or None, study=study or None, species=species or None, by=by or None, reference=reference or None,
                 purpose=purpose or None, boundary=reserve_name or None, day=made.strftime("%Y-%m-%d").zfill(10) if made else None)


def is_word(text: str) -> bool:
    """Whether a text can be a word of a command."""
    return "\0" not in text and is_utf8(text)


def refuse_name_alone(reserve: Any, name: str | None) -> None:
    """Refuses what a reserve is called where there is none."""
    if reserve is None and name:
        refuse("reserve_name is the name of no reserve: give its shape as reserve")


def words_beside(folder: Path, ranges: HomeRanges, words: Words) -> Words:
    """The words of a page, with the reference system and the shift of its ranges where the record of a folder has not these."""
    record, own = record_in(folder / TRACKS), text_of_crs(ranges.crs) if ranges.crs is not None else None
    has_own = record is not None and own == record.system_text
    has_shift = record is not None and record.shift == ranges.shift
    return words._replace(crs=None if has_own else own, shift=(0, 0) if has_shift else ranges.shift)


def levels_drawn(ranges: HomeRanges) -> list[int]:
    """The levels of a map from the highest on; without the fixes that of all is the only one that is known."""
    return sorted(ranges.levels, reverse=True) if ranges.has_fixes else [100]


def middle(corners: list[tuple[float, float]]) -> tuple[float, float]:
    """The middle of the box of a polygon."""
    eastings, northings = zip(*corners)
    return (min(eastings) + max(eastings)) / 2, (min(northings) + max(northings)) / 2


def area_difference(ranges: HomeRanges) -> str | None:
    """By how much areas on the grid differ from those on the ellipsoid, in per cent, at the least and at the most; None where it
    is not known here. That of UTM is known to the program."""
    scales_at = None if ranges.crs is None or zone_of_crs(ranges.crs) else scales_of_crs(ranges.crs)
    if scales_at is None:
        return None
    scales = [scales_at(*middle(corners)).areas for corners in ranges.corners(levels_drawn(ranges)[0]).values()]
    return ",".join("%+.2f" % (100 * (end - 1)) for end in (min(scales), max(scales)))


def options_of(words: Words, day: date, program: Program, difference: str | None) -> list[str]:
    """The options of the page's program."""
    named = {**words._asdict(), "boundary-name": words.boundary, "system": words.crs, "made": day.strftime("%Y-%m-%d").zfill(10),
             "area-difference": difference, "program": program.version, "program-sum": program.checksum,
             "shift": "{},{}".format(*words.shift) if any(words.shift) else None}
    left = ("boundary", "crs", "day")
    return [f"--{name}={value}" for name, value in named.items() if value is not None and name not in left]


def make_page(program: str, folder: Path, words: list[str]) -> None:
    """Has the page's program write its files into a folder."""
    try:
        run = subprocess.run([program, *words, "--", "."], cwd=folder, stdin=subprocess.DEVNULL, capture_output=True)
    except OSError as fault:
        raise ProgramError(f"{program} does not run: {fault.strerror}") from fault
    if run.returncode == 0:
        return
    lines = run.stderr.decode("utf-8", "replace").strip().split("\n")
    own, said = FAULTS.get(run.returncode), lines[-1].removeprefix(f"{PROGRAM}: ")
    if own is None or said == lines[-1]:
        raise ProgramError(one_line(f"{program} ended with status {run.returncode}: {said or 'it says no more'}"))
    raise own(one_line(said))


def flags_of(ranges: HomeRanges, folder: Path) -> list[str]:
    """The flags of the page of ranges of which no report is kept, or that were made of a frame."""
    is_kept = ranges.checksum == checksum_of(folder / REPORT)
    is_frame = ranges.tracks is not None and ranges.tracks.is_frame
    return [*([] if is_kept else ["--alone"]), *(["--data"] if is_frame else [])]


def put_ranges(ranges: HomeRanges, folder: Path) -> list[str]:
    """Puts the report of ranges into a folder, and their tracks as far as these are known; answers what there is to say."""
    names = put_known(ranges, folder)
    write_report(renamed(ranges.report, names), folder / REPORT)
    return [] if ranges.tracks is None else said_of_tracks(ranges.tracks, names)


@says_ours
def write_page(
    ranges: HomeRanges, path: str | os.PathLike[str], *, title: str | None = None, study: str | None = None,
    species: str | None = None, by: str | None = None, reference: str | None = None, purpose: str | None = None,
    reserve: Any = None, reserve_name: str | None = None, tz: str | None = None, made: date | None = None, overwrite: bool = False,
) -> None:
    """Writes a page of ranges to read, to print and to hand in: one HTML file with nothing outside it.

    path: the file, such as report.html, whose name ends in .html or .htm. A page that was written before is written over.
    title, study, species, by: text for the head of the page.
    reference, purpose: the reference of the case that the page belongs to, such as its file number, and what the page is for.
    reserve, reserve_name: a boundary for the map, as share_inside takes it, and what it is called.
    tz: the time zone of dates; if left out, that of the ranges.
    made: the day of making; if left out, today.
    overwrite: whether a file that is there and no such page is written over; else it is refused (FileError).

    Animals have the names that their files have, as homerange-split makes them. The program homerange-page writes it.
    """
    check_ranges(ranges)
    check_whole(ranges, "a page")
    words = words_typed(title, study, species, by, reference, purpose, reserve_name, made)
    refuse_name_alone(reserve, reserve_name)
    file, zone, is_over = check_place(path_of(path, "path")), ranges.tz if tz is None else zone_text(tz), truth_of(overwrite, "overwrite")
    check_ending(file, ".html", ".htm")
    today, rings = datetime.now(zone_of_time(zone)).date(), rings_given(ranges, reserve)
    program, own = find_page_program(ranges.named), ranges.program or program_of(find_program(ranges.named))
    with files_as_said(), tempfile.TemporaryDirectory(prefix="homerange-") as room:
        folder = Path(room)
        said = put_ranges(ranges, folder)
        write_rings(rings, folder)
        call = options_of(words_beside(folder, ranges, words._replace(clock=zone)), made or today, own, area_difference(ranges))
        make_page(program, folder, [*call, *flags_of(ranges, folder)])
        if not is_over:
            refuse_other_page(file, folder / PAGE)
        shutil.copyfile(folder / PAGE, file)
    tell(said)
