"""From an export, of Movebank or of a collar, to what a plan needs, in the new folder INTO:

    tracks         a file for each animal, as homerange-split makes them, and the record of their split
    report.txt     what homerange reports of them; of more than 64 animals it is made of several runs
    evidence.txt   the record of the run
    animals.csv, summary.csv, overlaps.csv, ranges.gpkg, curves.png, ranges.png, report.html     of the report and the
                   tracks
    SHA256SUMS     the checksums of all these: homerange-verify holds the folder to them, and to the export

Needs geopandas and matplotlib. A folder that is there is refused, and a call that fails leaves none. The status is 0 where
all was made, 2 where options are wrong, else 1."""

from __future__ import annotations

import argparse
import os
import sys
from pathlib import Path

from ..about import TYPED, read_about
from ..bar import Log
from ..errors import FrameError, HomeRangeError, OptionError, check_no_pipe, one_line
from ..program import program_of
from ..read.call import split_table
from ..units import UNITS
from ..write.evidence import ABOUT, Wish, make_report, new_folder
from .options import Options, program_of_command, show_all, split_program_of_command, text_of_fault
from .tables import add_page_options, check_libraries, words_of, write_all
from .words import check_clock, check_levels

OWN = {"export", "into", "percent", "over", "clock", *TYPED}  # options that are not those of the split
OPTIONS = {
    "zone": ("33N", "the UTM zone of all coordinates"),
    "sensor": ("gps", "the types of sensors to take, separated by commas"),
    "from": ("MAKER", "options for a maker: vectronic, lotek, telonics, eobs, ornitela, argos, gpx"),
    "animal": ("COLUMN", "the column of the animal; of COLUMN,COLUMN the second where the first is empty"),
    "name": ("NAME", "the name of the one animal, where no column has it"),
    "time": ("COLUMN", "the column of the time; COLUMN,COLUMN are joined"),
    "time-format": ("FORM", "the form of times, such as '%%d.%%m.%%Y %%H:%%M:%%S'"),
    "tz": ("ZONE", "the zone of times, such as Europe/Ljubljana [default: UTC]"),
    "lon": ("COLUMN", "the column of the longitude"),
    "lat": ("COLUMN", "the column of the latitude"),
    "easting": ("COLUMN", "the column of the easting in metres"),
    "northing": ("COLUMN", "the column of the northing in metres"),
    "na": ("WORDS", "words for what is missing, between commas, beside NA and nothing"),
    "encoding": ("latin-1", "the coding of the text [default: utf-8]"),
    "header": ("TITLE", "the start of the line of titles, where others stand before it"),
    "skip-lines": ("N", "lines before the line of titles"),
    "argos-class": ("3,2,1", "the Argos classes to take"),
    "argos": ("COLUMN", "the column of Argos classes"),
    "max-dop": ("5", "the greatest dilution of precision"),
    "dop": ("COLUMN", "the column of the dilution of precision"),
    "fix-type": ("3D", "the types of fixes to take, separated by commas"),
    "fix": ("COLUMN", "the column of the types of fixes"),
    "since": ("TIME", "the first moment or day"),
    "until": ("TIME", "the last moment or day"),
    "max-speed": ("M/S", "the greatest speed from the last fix that is kept"),
    "every": ("2h", "one fix in each piece of time"),
}


def add_split_options(parser: argparse.ArgumentParser) -> None:
    """Adds the options of homerange-split."""
    parser.add_argument("--unit", choices=[*UNITS], default="m", help="metres or decimetres [default: m]")
    for name, (value, text) in OPTIONS.items():
        parser.add_argument(f"--{name}", metavar=value, help=text)
    parser.add_argument("--mark", action="store_true", help="write outliers too, with 0 in a column use")
    parser.add_argument("--skip-unnamed", action="store_true", help="leave records of no animal out")


def read_options(name: str) -> argparse.Namespace:
    parser = Options(name, __doc__)
    parser.add_argument("export", metavar="EXPORT", nargs="?", type=Path, help="the export, text with a line of titles")
    parser.add_argument("into", metavar="INTO", nargs="?", type=Path, help="the folder to make")
    parser.add_argument("--percent", metavar="LIST", default="50,95,100", help="the levels [default: 50,95,100]")
    add_split_options(parser)
    add_page_options(parser)
    parser.add_argument("--clock", metavar="ZONE", help="the zone of dates on the page [default: that of --tz, or UTC]")
    options, others = parser.parse_known_args()
    if others:
        parser.error(f"{others[0]} is no option, or too much: {name} [OPTION ..] EXPORT INTO")
    if options.into is None:
        parser.error(f"the export and the folder to make are wanted: {name} [OPTION ..] EXPORT INTO")
    return options


def check_call(options: argparse.Namespace) -> None:
    """Refuses files that cannot be read, and a machine without what is needed."""
    check_libraries()
    check_clock(options.clock or "UTC", "clock")
    check_levels(options.percent)
    for path in [options.export, *([] if options.over is None else [options.over])]:
        if not os.access(path, os.R_OK):
            raise HomeRangeError(f"{one_line(str(path))} cannot be read")
        check_no_pipe(path)


def split_words(options: argparse.Namespace) -> list[str]:
    """The options of homerange-split as they were given."""
    given = {own.replace("_", "-"): value for own, value in vars(options).items() if own not in OWN and value not in (None, False)}
    return [f"--{name}" if value is True else f"--{name}={value}" for name, value in given.items()]


def fill(folder: Path, options: argparse.Namespace, log: Log, program: str, splitter: str) -> None:
    """Makes all in a folder, in which it works, so that nothing has the folder's name."""
    os.chdir(folder)
    log.at("reading the export")
    for line in split_table(str(options.export), "tracks", split_words(options), splitter):
        log.say(line, by="split")
    log.at("running the program")
    words = words_of(options, options.clock or options.tz or "UTC")
    from ..ranges.rows import rows_in

    report = make_report(Path(), Wish(options.percent, None, program_of(program)), words, rows_in)
    write_all(Path(), options.over, read_about(Path(ABOUT)), log, program, report)


def make(options: argparse.Namespace, name: str) -> None:
    """Makes the folder, which is there only once it is whole."""
    check_call(options)
    program, splitter, into = program_of_command(), split_program_of_command(), options.into.absolute()
    options.export, options.over = options.export.resolve(), options.over and options.over.resolve()
    log = Log(name)
    try:
        new_folder(into, lambda folder: fill(folder, options, log, program, splitter))
    finally:
        log.clear()


def status_of(fault: HomeRangeError) -> int:
    """2 where options are wrong, else 1."""
    is_option = isinstance(fault, OptionError) or isinstance(fault, FrameError) and fault.kind == "option"
    return 2 if is_option else 1


def main(name: str = "homerange-ranges") -> None:
    options = read_options(name)
    show_all(sys.stderr)
    try:
        make(options, name)
    except HomeRangeError as fault:
        print(f"{name}: {fault}", file=sys.stderr)
        sys.exit(status_of(fault))
    except (OSError, ValueError) as fault:
        sys.exit(f"{name}: {text_of_fault(fault)}")


if __name__ == "__main__":
    main()
