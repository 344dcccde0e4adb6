"""What is made of a folder with report.txt, its tracks and evidence.txt: tables and page by homerange-page, layers, and pictures. All
but the pictures follows from these files and from boundary.csv, where there is one, so that it can be made again."""

from __future__ import annotations

import csv
import sys
from importlib.util import find_spec
from pathlib import Path
from typing import TYPE_CHECKING, NoReturn

from ..about import About, Words, read_about
from ..errors import HomeRangeError, ProgramError, one_line, refuse
from ..program import Program, find_page_program
from ..record import Record, difference_from_record, record_in
from ..report import Report, read
from ..zones import system_of_text
from .evidence import ABOUT, REPORT, TRACKS
from .page import PAGE, area_difference, make_page, options_of

if TYPE_CHECKING:
    from ..ranges.home import HomeRanges

LAYERS = "ranges.gpkg"
NOT_THERE = 3  # the status of a call that lacks something


def crs_of(words: Words, record: Record | None) -> str | None:
    """The reference system that is known in words alone: that of the record, or the one that was named. None where it has no
    code and is not defined."""
    if words.crs is not None:
        return system_of_text(words.crs)
    return record.system if record else None


def read_ranges(folder: Path, about: About, program: str | None, report: Report | None = None) -> HomeRanges:
    """The ranges of the report, which may be known, once it is seen that they are those of the tracks as they were split."""
    from ..ranges.home import check_grid, ranges_of

    record = record_in(folder / TRACKS)
    split = folder / TRACKS / "split.txt" if record else None
    there = {f"{TRACKS}/{path.name}" for path in (folder / TRACKS).iterdir()}
    odd = [name for name in about.files if name not in there]
    if odd:
        refuse(f"{odd[0]} is not there", "text")
    crs, tz = crs_of(about.words, record), about.words.clock or "UTC"
    check_grid(crs, tz, about.words.shift)
    ranges = ranges_of(report or read(folder / REPORT), folder / REPORT, [folder / name for name in about.files], crs, tz,
                       about.words.shift, split, program)
    fixes = {row.animal: row.used for row in ranges.rows()}
    fault = record and difference_from_record(record, fixes)
    if fault:
        refuse(fault, "text")
    return ranges


def make_files(folder: Path, ranges: HomeRanges, about: About) -> None:
    """Has homerange-page write tables and page."""
    program = Program("", about.program, about.checksum)
    make_page(find_page_program(ranges.named), folder, options_of(about.words, about.day(), program, area_difference(ranges)))


def make_layers(folder: Path, ranges: HomeRanges) -> list[str]:
    """Writes layers where geopandas is there; answers what there is to say of them."""
    if not find_spec("geopandas"):
        return []
    from .layers import put_layers

    return put_layers(ranges, folder / LAYERS)


def write_results(folder: Path, ranges: HomeRanges, about: About) -> list[str]:
    """Writes tables, page and layers; answers what there is to say of them."""
    make_files(folder, ranges, about)
    return make_layers(folder, ranges)


def main() -> None:
    """Makes the results of the working folder again, by the program that is named. The status is 3 where this machine, or what
    the records say, has not what is needed."""
    folder, program = Path(), sys.argv[1]
    try:
        find_page_program(program)
    except ProgramError as fault:
        refuse_here(str(fault))
    try:
        about = read_about(folder / ABOUT)
        record = record_in(folder / TRACKS)
        text = about.words.crs or record and record.system_text
        ranges = read_ranges(folder, about, program)
        make_files(folder, ranges, about)
        if text and crs_of(about.words, record) is None:
            (folder / PAGE).unlink()
            refuse_here(f"the reference system '{text}' has no code and no definition, so they cannot be made again")
        make_layers(folder, ranges)
    except ImportError as fault:
        refuse_here(f"to make them again {fault.name} is needed: apt-get install python3-geopandas")
    except (HomeRangeError, OSError, ValueError, csv.Error) as fault:
        sys.exit(one_line(str(fault)))
    except (OverflowError, LookupError) as fault:
        sys.exit(one_line(f"a moment or a zone of dates in {ABOUT} is none that can be shown: {fault}"))


def refuse_here(text: str) -> NoReturn:
    print(one_line(text), file=sys.stderr)
    sys.exit(NOT_THERE)
