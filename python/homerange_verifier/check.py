"""Recomputes each line of a report from the files, by other methods than the program's (lines.py), and says how many lines
agree; the status is 0 where all do and none is missing. Lines are compared as bytes, and end in a line feed alone. Of a
folder of evidence homerange-verify does this too."""

from __future__ import annotations

import argparse
import gc
import itertools
import re
import sys
from collections import Counter
from pathlib import Path

from .findings import one_line
from .lines import Fault, Range, overlaps_of, read_track, report_lines, shown
from .options import Options

LEVELS = re.compile("(100|[1-9][0-9]?)(,(100|[1-9][0-9]?)){0,7}")


def read_options(name: str) -> argparse.Namespace:
    parser = Options(name, __doc__)
    parser.add_argument("report", metavar="REPORT", type=Path)
    parser.add_argument("files", metavar="FILE", nargs="+", type=Path, help="the files of the run, in its order")
    parser.add_argument("--percent", metavar="LIST", help="the levels that were asked for [default: as in the report]")
    parser.add_argument("--unit", choices=("m", "dm"), help="the unit that was asked for [default: as in the report]")
    options = parser.read()
    if options.percent is not None and not LEVELS.fullmatch(options.percent):
        parser.error(f"--percent {options.percent}: up to eight levels from 1 to 100 are wanted, such as 50,95,100")
    return options


def levels_of(lines: list[str], name: str) -> str:
    """The levels that the report has for an animal."""
    first = f"percent,{name},"
    levels = [line[len(first):].split(",")[0] for line in lines if line.startswith(first)]
    if not LEVELS.fullmatch(",".join(levels)):
        raise Fault(f"the report has no levels of {shown(name)}: name them by --percent")
    return ",".join(levels)


def check(options: argparse.Namespace) -> bool:
    """Whether a report is what the files come to."""
    tracks = list(map(read_track, options.files))
    twice = [name for name, count in Counter(track.name for track in tracks).items() if count > 1]
    if twice:
        raise Fault(f"two files have the animal {shown(twice[0])}")
    found = options.report.read_bytes().decode("latin-1").split("\n")
    if found.pop():
        raise Fault("the last line of the report has no end")
    unit = options.unit or ("dm" if found[:1] == ["unit,dm"] else "m")
    levels = options.percent or levels_of(found, tracks[0].name)
    ranges = [Range(track, list(map(int, levels.split(",")))) for track in tracks]
    wanted = list(report_lines(ranges, overlaps_of(ranges), unit))
    agree = [line == other for line, other in itertools.zip_longest(wanted, found)]
    if not all(agree):
        at = agree.index(False)
        line = shown(wanted[at]) if at < len(wanted) else "nothing"
        other = shown(found[at]) if at < len(found) else "not there"
        print(f"line {at + 1} is {other}; {line} is wanted")
    print(f"in {'decimetres' if unit == 'dm' else 'metres'}, at the levels {levels}")
    print(f"{sum(agree)} of {len(wanted)} lines agree; the report has {len(found)}")
    return all(agree)


def main(name: str = "homerange-check") -> None:
    options = read_options(name)
    gc.disable()  # fixes are many and refer to nothing
    try:
        sys.exit(not check(options))
    except Fault as fault:
        sys.exit(f"{name}: {one_line(fault)}")
    except OSError as fault:
        sys.exit(f"{name}: {one_line(fault.filename)}: {fault.strerror}")


if __name__ == "__main__":
    main()
