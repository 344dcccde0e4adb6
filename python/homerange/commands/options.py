"""What the commands share: options whose faults are one line, and the program that they run."""

from __future__ import annotations

import argparse
import io
import os
import signal
import subprocess
import sys
from typing import Callable, NoReturn, TextIO

from .. import __version__
from ..errors import one_line
from ..program import CLONE, find_program, find_split_program


def end_by_signals() -> None:
    """Has INT, TERM and HUP end a command by a status, and not at once, so that nothing temporary is left."""
    for number in (signal.SIGINT, signal.SIGTERM, signal.SIGHUP):
        signal.signal(number, lambda number, _: sys.exit(128 + number))


class Options(argparse.ArgumentParser):
    """Options of a command of this name; what is wrong with them is said in one line, and with status 2."""

    def __init__(self, name: str, about: str | None, said_by: str | None = None) -> None:
        end_by_signals()
        super().__init__(prog=name, description=about, formatter_class=argparse.RawDescriptionHelpFormatter, allow_abbrev=False)
        self.said_by = said_by or name
        self.add_argument("--version", action="version", version=f"homerange for Python {__version__}")

    def error(self, message: str) -> NoReturn:
        self.exit(2, f"{self.said_by}: {one_line(message)}\n")


def show_all(stream: TextIO) -> None:
    """Has a stream write escaped what its coding does not have."""
    if isinstance(stream, io.TextIOWrapper):
        stream.reconfigure(errors="backslashreplace")


def text_of_fault(fault: Exception) -> str:
    """What is said of a fault, in one line: of one of the system's the file, and what is wrong with it."""
    if isinstance(fault, OSError) and fault.filename is not None:
        return one_line(f"{fault.filename}: {fault.strerror}")
    return one_line(str(fault))


def program_of_command() -> str:
    """The path of the program homerange."""
    return _path_by(find_program, "homerange")


def split_program_of_command() -> str:
    """The path of the program homerange-split."""
    return _path_by(find_split_program, "homerange-split")


def _path_by(find: Callable[[None], str], name: str) -> str:
    """The path of a program. In a clone it is that of the sources as they stand, which is built where there is none."""
    if os.environ.get("HOMERANGE") or CLONE is None:
        return find(None)
    found = subprocess.run([CLONE / "tools" / "program.sh", name], stdout=subprocess.PIPE, text=True)
    if found.returncode != 0:
        sys.exit(found.returncode)
    return found.stdout.rstrip("\n")
