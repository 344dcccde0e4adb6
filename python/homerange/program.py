"""Finds the programs, and says how many runs the report of many animals takes."""

from __future__ import annotations

import hashlib
import itertools
import os
import shutil
import subprocess
import sys
from concurrent.futures import ThreadPoolExecutor
from pathlib import Path
from typing import NamedTuple, Sequence, Tuple

from .errors import UNPRINTABLE, ProgramError, one_line, path_of

MOST_ANIMALS = 64  # of one run
GROUP = 32  # animals of a group, where there are more
PIECE = 2 ** 20  # bytes of a file that are read together
PACKAGE = Path(__file__).resolve().parent
Step = Tuple[Sequence[str], ...]  # a run: the animals of a group, or of a pair of groups
OWN = PACKAGE / "release" / "homerange"  # what a wheel has
SPLIT, PAGE = "homerange-split", "homerange-page"  # what lies beside the program


class Program(NamedTuple):
    """A program: its path, what it says of its version, and its checksum."""

    path: str
    version: str
    checksum: str


def clone_of(package: Path) -> Path | None:
    """The clone whose sources a package is; None where it is installed."""
    top = package.parent.parent
    is_clone = (package.parent / "pyproject.toml").is_file() and (top / "crates.txt").is_file()
    return top if is_clone else None


CLONE = clone_of(PACKAGE)


def checksum_of(path: str | os.PathLike[str]) -> str:
    """The SHA-256 checksum of a file."""
    found = hashlib.sha256()
    with open(path, "rb") as file:
        while piece := file.read(PIECE):
            found.update(piece)
    return found.hexdigest()


def find_program(program: str | os.PathLike[str] | None = None) -> str:
    """The path of the program, by the rule of README.md, Which program runs."""
    named = os.environ.get("HOMERANGE") if program is None else path_of(program, "program")
    released = CLONE and CLONE / "release" / "homerange"
    if not named and OWN.is_file():
        check_own(OWN)
        return str(OWN)
    if not named and released and os.access(released, os.X_OK):
        return str(released)
    found = shutil.which(named or "homerange")
    if found is None:
        raise ProgramError(one_line(
            f"there is no program {named or 'homerange'}: name it by program=.. or in the environment as HOMERANGE"))
    return os.path.abspath(found)


def find_split_program(program: str | os.PathLike[str] | None = None) -> str:
    """The path of homerange-split, which lies beside the program that find_program finds."""
    return find_beside(SPLIT, program)


def find_page_program(program: str | os.PathLike[str] | None = None) -> str:
    """The path of homerange-page, which lies there too."""
    return find_beside(PAGE, program)


def find_beside(name: str, program: str | os.PathLike[str] | None) -> str:
    """The path of the program of this name beside that which find_program finds."""
    path = find_program(program)
    own = OWN.with_name(name)
    if path == str(OWN):
        check_own(own)
        return str(own)
    # The command of this package has the same name, and would call itself for ever.
    for beside in (Path(each).with_name(name) for each in (path, os.path.realpath(path))):
        if shutil.which(beside) and not is_called(beside):
            return str(beside)
    raise ProgramError(one_line(
        f"there is no program {name} beside {path}: install it there, from release/{name} of homerange's repository"))


def is_called(path: Path) -> bool:
    """Whether a file is the command that runs."""
    return os.path.isfile(sys.argv[0]) and os.path.samefile(path, sys.argv[0])


def check_own(path: Path) -> None:
    """Refuses a program of a wheel that is not as it was built."""
    sums = path.with_name("SHA256SUMS")
    wanted = sums.read_text("utf-8").splitlines() if sums.is_file() else []
    if not os.access(path, os.X_OK) or f"{checksum_of(path)}  release/{path.name}" not in wanted:
        raise ProgramError(f"{path} is not the program that this package was built with: install the package again")


def program_of(path: str) -> Program:
    """The program at a path, which has to say that it is homerange."""
    try:
        said = subprocess.run([path, "--version"], stdin=subprocess.DEVNULL, capture_output=True)
    except OSError as fault:
        raise ProgramError(f"{path} does not run: {fault.strerror}") from fault
    version = said.stdout.decode("utf-8", "replace").rstrip("\n")
    if said.returncode != 0 or not version.startswith("homerange ") or UNPRINTABLE.search(version):
        raise ProgramError(f"{path} is not homerange: its --version says {one_line(version)!r}")
    return Program(path, version, checksum_of(path))


def steps_of(names: Sequence[str]) -> list[Step]:
    """The runs of animals: one of all. More than 64 are put in groups of 32, of which each has a run for its tables, and
    each pair of groups one for its overlaps."""
    size = len(names) if len(names) <= MOST_ANIMALS else GROUP
    groups = [names[first:first + size] for first in range(0, len(names), size)]
    return [*((group,) for group in groups), *itertools.combinations(groups, 2)]


def workers(jobs: int | None) -> ThreadPoolExecutor:
    """Threads that call programs, as many as there are processors for this process, or as were wished: then what they call
    is kept to so many processors."""
    own = sorted(os.sched_getaffinity(0))
    if jobs is None:
        return ThreadPoolExecutor(len(own))
    return ThreadPoolExecutor(jobs, initializer=os.sched_setaffinity, initargs=(0, own[:jobs]))
