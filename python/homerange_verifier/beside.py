"""What a verification takes of the package homerange that stands beside this one, in a clone or where both are installed:
the programs, the list of releases, the version, and what makes tables, layers and page of a report in a process of its own."""

from __future__ import annotations

import os
import re
import sys
from pathlib import Path

from homerange.record import Record

PACKAGE = Path(__file__).resolve().parents[1] / "homerange"
RELEASE = PACKAGE / "release" if (PACKAGE / "release" / "homerange").is_file() else PACKAGE.parents[1] / "release"
# A room has files of any name, of which Python is to import none. Its option -P is not yet known to 3.10.
MAKE = (sys.executable, "-c",
        "import sys; sys.path = [sys.argv.pop(1), *filter(None, sys.path)]; from homerange.write.results import main; main()",
        str(PACKAGE.parent))


def version() -> str:
    """The version of the package."""
    found = re.search('^__version__ = "(.*)"$', (PACKAGE / "__init__.py").read_text("utf-8"), re.M)
    return found[1] if found else "of no version"


def program() -> tuple[Path, str]:
    """The program of the release, and whose it is."""
    return RELEASE / "homerange", "package" if RELEASE.parent == PACKAGE else "clone"


def splitter(named: Path | None) -> Path | None:
    """The program homerange-split of the release, or else the one beside the program that was named; None where there is none."""
    folders = [RELEASE, *([] if named is None else [named.resolve().parent])]
    paths = [folder / "homerange-split" for folder in folders]
    return next((path for path in paths if path.is_file() and os.access(path, os.X_OK)), None)


def releases() -> Path:
    """The list of released programs."""
    return RELEASE / "RELEASES"


def words_of_split(record: Record) -> list[str]:
    """The options of a split as words of a command."""
    words = [f"--{name}" if value is None else f"--{name}={value}" for name, value in record.options]
    return [f"--unit={record.unit}", *words]
