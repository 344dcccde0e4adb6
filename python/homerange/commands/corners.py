"""The corners of the percent polygon of a file, as the report has them at 100 per cent: lines
'corner,NAME,i,easting,northing', counterclockwise from the westernmost.

It marks the fixes that the level keeps, of n used ones the (level * n + 99) // 100 nearest to the mean of all, of fixes as
near the earlier, and has homerange make the polygon of these. Where that has another area, or another number of corners,
than the report of the whole file says at this level, it prints nothing and ends with status 1."""

from __future__ import annotations

import argparse
import csv
import io
import subprocess
import sys
import tempfile
from pathlib import Path
from typing import NoReturn

from ..errors import HomeRangeError, one_line
from ..report import kept_places
from .options import Options, program_of_command, text_of_fault

COLUMNS = ("animal", "second", "easting", "northing")
Fix = tuple[str, int, int, int]


def run(program: str, *words: str) -> list[str]:
    """The lines of a report. Where there is none, ends with the program's status, once the program has said why."""
    try:
        ended = subprocess.run([program, *words], stdout=subprocess.PIPE)
    except OSError as fault:
        refuse(f"{program} does not run: {fault.strerror}")
    if ended.returncode != 0:
        sys.exit(max(ended.returncode, 1))
    return ended.stdout.decode("utf-8", errors="surrogateescape").split("\n")[:-1]


def refuse(text: str) -> NoReturn:
    raise HomeRangeError(one_line(text))


def read(path: str) -> list[Fix]:
    """The records of a file that are used."""
    with open(path, encoding="utf-8-sig", errors="surrogateescape", newline="") as file:
        rows = [row for row in csv.DictReader(file) if row.get("use", "1") == "1"]
    return [(row["animal"], int(row["second"]), int(row["easting"]), int(row["northing"])) for row in rows]


def write_marked(path: Path, fixes: list[Fix], used: set[int]) -> None:
    with open(path, "w", encoding="utf-8", errors="surrogateescape", newline="\n") as file:
        print(*COLUMNS, "use", sep=",", file=file)
        for at, fix in enumerate(fixes):
            print(*fix, int(at in used), sep=",", file=file)


def line_of(lines: list[str], kind: str, program: str) -> str:
    """The first line of a kind."""
    found = next((line for line in lines if line.startswith(f"{kind},")), None)
    return found if found is not None else refuse(f"{program} reports no line '{kind}'")


def corners(program: str, level: int, unit: str, path: str) -> list[str]:
    """The corners' lines, once what they come to is what the report of the whole file says."""
    whole = run(program, "--percent", str(level), "--unit", unit, "--", path)
    wanted = line_of(whole, "percent", program)
    fixes = read(path)
    used = {*kept_places([fix[2] for fix in fixes], [fix[3] for fix in fixes], level)}
    with tempfile.TemporaryDirectory() as folder:
        marked = Path(folder, "kept.csv")
        write_marked(marked, fixes, used)
        lines = run(program, "--percent", "100", "--unit", unit, str(marked))
    row = line_of(lines[::-1], "row", program).split(",")
    found = f"percent,{row[1]},{level},{len(used)},{row[4]},{row[5]}"
    if found != wanted:
        refuse(f"the kept fixes come to '{found}', and the report says '{wanted}'")
    return [line for line in lines if line.startswith("corner,")]


def read_options(name: str) -> argparse.Namespace:
    parser = Options(name, __doc__)
    parser.add_argument("level", type=int, metavar="LEVEL", help="a whole number from 1 to 100")
    parser.add_argument("file", metavar="FILE", help="a file of one animal's fixes, as homerange reads it")
    parser.add_argument("--unit", choices=("m", "dm"), default="m", help="the unit of its coordinates [default: m]")
    return parser.parse_args()


def main(name: str = "homerange-corners") -> None:
    options = read_options(name)
    if isinstance(sys.stdout, io.TextIOWrapper):
        sys.stdout.reconfigure(errors="surrogateescape")
    try:
        print(*corners(program_of_command(), options.level, options.unit, options.file), sep="\n")
    except (HomeRangeError, OSError) as fault:
        sys.exit(f"{name}: {text_of_fault(fault)}")


if __name__ == "__main__":
    main()
