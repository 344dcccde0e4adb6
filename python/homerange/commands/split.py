"""homerange-split: replaces itself by the program of that name, with the same words."""

from __future__ import annotations

import os
import sys

from ..errors import HomeRangeError
from .options import split_program_of_command

NAME = "homerange-split"


def main() -> None:
    try:
        program = split_program_of_command()
        os.execv(program, [NAME, *sys.argv[1:]])
    except HomeRangeError as fault:
        sys.exit(f"{NAME}: {fault}")
    except OSError as fault:
        sys.exit(f"{NAME}: {program} does not run: {fault.strerror}")


if __name__ == "__main__":
    main()
