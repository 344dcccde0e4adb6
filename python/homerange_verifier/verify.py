"""Whether a folder of evidence is what it says.

What can be made again is made again, by this copy's code, and compared byte for byte; what can't be is named:

    the checksums are those of all files, and no file is without one
    evidence.txt is a whole record of this run, with the unit, levels and arguments of the report and of the tracks
    the tracks are those of their record, and those that homerange-split makes of the EXPORT, with the options of the record
    the program is a released one, and makes the same report of them
    each line of the report is what another method computes
    summary.csv, animals.csv, overlaps.csv and report.html are what is made of tracks, records and report
    ranges.gpkg is the same as one that is made of them, in its schema, its rows, its shapes and how it is drawn

The EXPORT may also lie in the folder, by its own name. The folder is a stranger's: nothing in it is run, no name, path or option is taken from it
that is none of the few that such folders have, and all that is looked at is copied into a room of its own first. The program
is the release of this clone or package, unless --program names another one. Needs Python 3.11; to make tables, layers and page
again geopandas. Sentences say what held, what did not, and what was not
looked at. The status is 0 where all held, 1 where something did not, 2 where the call is wrong, 3 where nothing failed and
something was not looked at, and 4 where what was found could not be written."""

from __future__ import annotations

import argparse
import io
import os
import sys
import tempfile
from pathlib import Path

from homerange.errors import HomeRangeError

from .findings import Findings, Unwritten
from .lines import Fault
from .options import Options
from .steps import Verification

UNKNOWN = (
    "who made the run, and when: names and dates in the folder are the words of whoever handed it in",
    "whether the export is what the collar or Movebank gave, and what was left out before it was made: get it there yourself",
    "whether the program is right: that is what its proofs say, and tools/release.sh --check builds it from them",
)


def read_options(name: str) -> argparse.Namespace:
    parser = Options(name, __doc__)
    parser.add_argument("folder", metavar="FOLDER", type=Path, help="the folder that was handed in")
    parser.add_argument("export", metavar="EXPORT", type=Path, nargs="?", help="the export that its tracks were made of")
    parser.add_argument("--program", metavar="PATH", help="the program, by a path with a / in it [default: the release]")
    options = parser.read()
    if not options.folder.is_dir():
        parser.error(f"there is no folder {options.folder}")
    for path in (options.export, options.program):
        if path is not None and not Path(path).is_file():
            parser.error(f"there is no file {path}")
    fault = program_fault(options.program, options.folder, options.export)
    if fault:
        parser.error(f"--program {options.program} {fault}")
    return options


def program_fault(program: str | None, folder: Path, export: Path | None) -> str | None:
    """How a program may be one that was handed in, which nobody named: a file --program=x beside the folder is an option where
    a shell puts names in the place of *."""
    if program is None or "/" not in program:
        return program and "has no / in it: name the program by its path, such as ./homerange"
    above, handed_in = Path(program).resolve().parents, {path.resolve().parent for path in (folder, *filter(None, [export]))}
    is_handed_in = above[0] in handed_in or folder.resolve() in above
    return "lies where the folder or the export lies: no program that was handed in is run" if is_handed_in else None


def verify(options: argparse.Namespace, findings: Findings) -> None:
    """Takes all steps; what ends them is said."""
    room, program = "", options.program and Path(options.program)
    try:
        with tempfile.TemporaryDirectory(prefix="homerange-") as room:
            Verification(findings, options.folder, options.export, program, Path(room)).run()
    except (Fault, HomeRangeError, OSError, MemoryError) as fault:
        findings.stopped(fault, room)


def speak_utf8() -> None:
    """Begins anew in UTF-8 where the locale has names of files in another coding, which those of the folder are not in."""
    if sys.getfilesystemencoding() != "utf-8" and os.environ.get("PYTHONUTF8") != "1":
        os.environ["PYTHONUTF8"] = "1"
        os.execv(sys.executable, [sys.executable, *sys.orig_argv[1:]])


def main(name: str = "homerange-verify") -> None:
    speak_utf8()
    options = read_options(name)
    if os.name == "nt":
        sys.exit(f"{name}: it runs on Linux, and on Windows within WSL: the program is for Linux")
    if isinstance(sys.stdout, io.TextIOWrapper):
        sys.stdout.reconfigure(encoding="utf-8", errors="backslashreplace")
    if sys.stdout is None:  # it was closed before the call
        sys.exit(4)
    findings = Findings()
    try:
        verify(options, findings)
        for text in UNKNOWN:
            findings.note(text)
        counts = findings.counts
        findings.write(f"{name}: {counts['held']} held, {counts['did not hold']} did not, {counts['not looked at']} not looked at")
    except Unwritten:
        os.dup2(os.open(os.devnull, os.O_WRONLY), sys.stdout.fileno())  # in which what is left to write goes
        sys.exit(4)
    sys.exit(findings.status())


if __name__ == "__main__":
    main()
