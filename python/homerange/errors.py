"""What is raised and said: errors of this package, notes, and text in which each thing said is one line."""

from __future__ import annotations

import os
import re
from contextlib import contextmanager
from pathlib import Path
from typing import Iterable, Iterator, NoReturn

LONGEST = 500  # signs of what is said of an argument
BYTES = (bytes, bytearray, memoryview)  # neither texts nor numbers, though Python makes either of them
ADDRESS = re.compile("[A-Za-z][A-Za-z0-9+.-]+:/+[^/]")  # of something that is not on this machine
LONGEST_SHOWN = 100  # signs of a value that is shown as Python writes it
UNPRINTABLE = re.compile("[\x00-\x1f\x7f-\x9f\u2028\u2029]")
HALF = re.compile("[\ud800-\udfff]")  # halves of signs, and bytes that are not of UTF-8


class HomeRangeInfo(UserWarning):
    """Says what was taken: the columns, how many animals, and the box of the fixes."""


class HomeRangeNote(UserWarning):
    """Says which fixes were left out, or what was changed in them."""


class HomeRangeError(Exception):
    """What all errors of this package are. ``status`` is that of the program, None where it was not the program's."""

    status: int | None = None


class FrameError(HomeRangeError, ValueError):
    """Fixes or an argument cannot be right. ``kind`` is the word that docs/TABLES.md has for it, and ``record`` the number
    of the row, counted from 1, where one row has the fault."""

    def __init__(self, text: str, kind: str = "option", record: int | None = None) -> None:
        super().__init__(text)
        self.kind, self.record = kind, record


class ReportError(HomeRangeError, ValueError):
    """A report is cut off, or its lines do not fit each other."""


class ProgramError(HomeRangeError):
    """The program is not there, does not run, or was ended."""


class FileError(HomeRangeError):
    """A file cannot be read or written, or the program found in it what cannot be right."""

    status = 1


class OptionError(HomeRangeError):
    """The program refused the levels or the unit."""

    status = 2


class OutOfMemoryError(HomeRangeError):
    """The program had not enough memory."""

    status = 3


class OutputError(HomeRangeError):
    """The program could not write its report."""

    status = 4


class CutError(HomeRangeError):
    """The program found that the fixes of a file were not all handed on."""

    status = 5


FAULTS: dict[int | None, type[HomeRangeError]] = {
    fault.status: fault for fault in (FileError, OptionError, OutOfMemoryError, OutputError, CutError)}


def one_line(text: str) -> str:
    """The text with its control characters and separators of lines escaped."""
    def escaped(found: re.Match[str]) -> str:
        code = ord(found[0])
        return f"\\x{code:02x}" if code < 256 else f"\\u{code:04x}"

    return UNPRINTABLE.sub(escaped, text)


def fault_of_text(text: str) -> str | None:
    """Why a text is none that a file in UTF-8 can have; None where it is one."""
    if "\0" in text:
        return "has a byte 0"
    return "is no text in UTF-8" if HALF.search(text) else None


def refuse(text: str, kind: str = "option", record: int | None = None) -> NoReturn:
    """Refuses a table or an option. The text says neither the record nor which front end it is. Of one that quotes much the
    middle is left out."""
    line = one_line(text)
    raise FrameError(line if len(line) <= LONGEST else f"{line[:LONGEST // 2]} .. {line[-LONGEST // 2:]}", kind, record)


def shown(value: object) -> str:
    """A value that was given, as a refusal has it: texts and what Python writes in one short line as they are, all else by its class."""
    own = repr(value)
    return own if isinstance(value, str) or len(own) <= LONGEST_SHOWN and "\n" not in own else type(value).__name__


def is_several(values: object) -> bool:
    """Whether a value has several, and is no text."""
    return isinstance(values, Iterable) and not isinstance(values, (str, *BYTES)) and getattr(values, "ndim", 1) > 0


def truth_of(value: object, what: str, helps: str = "") -> bool:
    """A flag, of Python or of numpy."""
    if not isinstance(value, bool) and type(value).__name__ not in ("bool_", "bool"):
        refuse(f"{what}={shown(value)} is neither True nor False{helps}")
    return bool(value)


@contextmanager
def calling(what: str, helps: str = "") -> Iterator[None]:
    """A fault of a function that was given as an argument is refused by the name of that, and what the package itself refuses there as it is."""
    try:
        yield
    except (HomeRangeError, Warning):
        raise
    except Exception as fault:
        line = one_line(f"{what} has failed: {type(fault).__name__}: {fault}{helps}")
        raise FrameError(line) from fault


def check_file(path: Path) -> Path:
    """A file that is there; what is none is refused."""
    if os.path.isdir(path):
        raise FileError(one_line(f"{path} is a folder, and a file is wanted"))
    if not os.path.isfile(path):
        is_odd = os.path.exists(path)
        raise FileError(one_line(f"{path} is a pipe or a device, and a file is wanted" if is_odd else f"{path}: there is no such file"))
    return path


def check_place(path: Path) -> Path:
    """A path at which a file or a folder may be written; what is none is refused."""
    if os.path.isdir(path):
        raise FileError(one_line(f"{path} is a folder"))
    check_folder(path.parent)
    return path


def check_folder(path: Path) -> Path:
    """A folder that is there; what is none is refused."""
    if not os.path.isdir(path):
        raise FileError(one_line(f"{path}: there is no such folder"))
    return path


def check_no_pipe(path: Path) -> Path:
    """A path by which a program that is called finds a file: one that this process has open has another one. What has none, as a
    pipe, is refused."""
    own = Path(os.path.realpath(path))
    if os.path.exists(path) and not os.path.exists(own):
        raise FileError(one_line(f"{path} is a pipe, or a file without a name: write what it gives into a file"))
    return own if str(path).startswith(("/dev/", "/proc/")) else path


@contextmanager
def files_as_said() -> Iterator[None]:
    """What the system says of a file is said by an error of this package."""
    try:
        yield
    except OSError as fault:
        raise FileError(one_line(f"{fault.filename}: {fault.strerror}")) from fault


def is_path(text: str) -> bool:
    """Whether the system takes a text as a path."""
    try:
        return b"\0" not in os.fsencode(text)
    except UnicodeEncodeError:  # half a sign, or one that the coding of names has not
        return False


def path_of(value: object, what: str) -> Path:
    """A path that was given; what is none is refused."""
    if not isinstance(value, (str, os.PathLike)) or not isinstance(text := os.fspath(value), str) or not is_path(text):
        refuse(f"{what}={shown(value)} is no path")
    if ADDRESS.match(text):
        refuse(f"{what}={shown(value)} is an address, and a path is wanted: load the file down before")
    return Path(text) if text else refuse(f"{what}={shown(value)} is no path: it is empty")
