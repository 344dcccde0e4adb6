"""The options of the verifier's commands."""

from __future__ import annotations

import argparse
import signal
import sys
from typing import NoReturn

from . import beside
from .findings import one_line


def end_by_signals() -> None:
    """Has INT, TERM and HUP end a command by a status, and not at once, so that nothing temporary is left."""
    for number in (signal.SIGINT, signal.SIGTERM, signal.SIGHUP):
        signal.signal(number, lambda number, _: sys.exit(128 + number))


class Options(argparse.ArgumentParser):
    """Options of a command of this name; what is wrong with them is said in one line."""

    def __init__(self, name: str, about: str | None) -> None:
        end_by_signals()
        super().__init__(prog=name, description=about, formatter_class=argparse.RawDescriptionHelpFormatter, allow_abbrev=False)
        self.add_argument("--version", action="version", version=f"homerange for Python {beside.version()}")

    def read(self) -> argparse.Namespace:
        """The options of this call. A file may be called as an option is, so that one which ends a call has to be alone."""
        words = sys.argv[1:]
        ends = [word for word in words if word in ("-h", "--help", "--version")]
        if ends and len(words) > 1:
            self.error(f"{ends[0]} is taken alone: a file of this name is ./{ends[0]}")
        return self.parse_args()

    def error(self, message: str) -> NoReturn:
        self.exit(2, f"{self.prog}: {one_line(message)}\n")
