"""The report of tracks as evidence, in the new folder INTO.

TRACKS are files of fixes, or folders of them; where homerange-split made them, they have to be as its record beside them
says. Written are

    tracks         copies of the files, with the record of their split
    report.txt     what homerange reports of them
    evidence.txt   the record of the run: program, arguments, unit, levels, commit, export
    SHA256SUMS     the checksums of all these

With --herd OUT it does the same of the report that homerange-herd made in the folder OUT, by Slurm perhaps. homerange-verify
checks what was made. What cannot be right is refused: one line, no folder, and status 2 where options are wrong, else 1."""

from __future__ import annotations

import argparse
import sys
from pathlib import Path

from ..errors import HomeRangeError, OptionError
from ..program import program_of
from ..write.evidence import Wish, write_evidence, write_herd_evidence
from .options import Options, program_of_command, show_all, text_of_fault


def read_options(name: str) -> argparse.Namespace:
    parser = Options(name, __doc__)
    parser.add_argument("--percent", metavar="LIST", default="50,95,100", help="the levels [default: 50,95,100]")
    parser.add_argument("--unit", choices=("m", "dm"), help="the unit of the tracks [default: as they were split, or m]")
    parser.add_argument("--herd", metavar="OUT", type=Path, help="take the report of the herd in this folder")
    parser.add_argument("into", metavar="INTO", nargs="?", help="the folder to make")
    parser.add_argument("tracks", metavar="TRACKS", nargs="*", help="the files of fixes, or folders of them")
    options = parser.parse_args()
    if not options.into:
        parser.error("give the folder to make, and the tracks")
    elif bool(options.tracks) == bool(options.herd):
        parser.error("give the tracks, or the folder of a herd by --herd")
    return options


def main(name: str = "homerange-evidence") -> None:
    options = read_options(name)
    show_all(sys.stderr)
    try:
        program = program_of(program_of_command())
        if options.herd:
            write_herd_evidence(options.into, options.herd, program)
        else:
            write_evidence(options.into, options.tracks, Wish(options.percent, options.unit, program))
    except HomeRangeError as fault:
        print(f"{name}: {fault}", file=sys.stderr)
        sys.exit(OptionError.status if isinstance(fault, OptionError) else 1)
    except OSError as fault:
        sys.exit(f"{name}: {text_of_fault(fault)}")


if __name__ == "__main__":
    main()
