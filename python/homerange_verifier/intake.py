"""The folder that was handed in is a stranger's. It is walked once before anything of it is read: a link, pipe, device, a name
that is no plain one, a file past its size or more files than there may be end the verification. Then each file is read once,
for its checksum, and copied into a room of its own, where all steps look at it: what is changed meanwhile changes nothing."""

from __future__ import annotations

import hashlib
import os
import re
import stat
import unicodedata
from pathlib import Path
from typing import BinaryIO, Iterable, Iterator, Mapping

from homerange.names import folded

from .lines import Fault

SUMS = "SHA256SUMS"
SIGNATURES = (f"{SUMS}.sig", f"{SUMS}.tsq", f"{SUMS}.tsr")  # of the list, and stamps of time
ABOUT, REPORT, LOG, BOUNDARY, LAYERS, PAGE = (
    "evidence.txt", "report.txt", "build.log", "boundary.csv", "ranges.gpkg", "report.html")
TRACKS, SPLIT = "tracks", "tracks/split.txt"
TABLES, PICTURES = ("summary.csv", "animals.csv", "overlaps.csv"), ("curves.png", "ranges.png")
KEPT = {ABOUT, REPORT, BOUNDARY, LAYERS, PAGE, *TABLES}  # that steps look at
KNOWN = {*KEPT, LOG, *PICTURES}
LEFT_BY_SYSTEMS = re.compile(r"(.*/)?(?:\.DS_Store|Thumbs\.db|desktop\.ini|\._([^/]+))")  # by a Mac or by Windows, where one looked
APPLE_DOUBLE, MOST_LEFT = b"\0\5\x16\7", 1 << 16  # how a file ._x begins, and how many bytes what a system leaves may have
SIDECAR = re.compile(r"ranges\.(gpkg.+|qml|qmd|sld)", re.I)  # what SQLite, GDAL or QGIS look for beside the layers
TABULAR = (".csv", ".txt", ".tsv", ".gpx")  # how the name of an export may end that lies in the folder
ODD = re.compile('[<>:"|?*]|  |^[ .]')  # what it may not have, since other systems cannot, or since it is not seen
UNSEEN = ("Cf", "Zl", "Zp", "Zs", "Co", "Cn", "Cc")  # signs that it may not have, by their kinds in Unicode
UNPRINTABLE = re.compile("[\x00-\x1f\x7f-\x9f\u2028\u2029\\\\\ud800-\udfff]")
MEBIBYTE = 1 << 20
MOST_FILES, MOST_BYTES, DEEPEST = 20_000, 4096 * MEBIBYTE, 4
SMALL, TRACK = 32 * MEBIBYTE, 256 * MEBIBYTE  # the greatest record, and the greatest track
LARGE = 2048 * MEBIBYTE  # the greatest report, base of layers and export
PIECE = MEBIBYTE
FLAGS = os.O_RDONLY | getattr(os, "O_NOFOLLOW", 0) | getattr(os, "O_NONBLOCK", 0) | getattr(os, "O_CLOEXEC", 0)


def most_of(name: str) -> int:
    """How many bytes a file may have."""
    if name in (SUMS, ABOUT, SPLIT, BOUNDARY, *SIGNATURES):
        return SMALL
    return TRACK if name in (PAGE, LOG, *TABLES, *PICTURES) or name.startswith(f"{TRACKS}/") else LARGE


def check_name(name: str, path: str) -> None:
    if UNPRINTABLE.search(name) or len(os.fsencode(name)) > 255:
        raise Fault(f"{path} is no plain name of a file: nothing was looked at")


def check_entry(path: str, about: os.stat_result) -> None:
    """Refuses what is neither a folder nor a file of a size that it may have."""
    if not stat.S_ISDIR(about.st_mode) and not stat.S_ISREG(about.st_mode):
        raise Fault(f"{path} is no plain file, but a link, a pipe or a device: nothing was looked at")
    if stat.S_ISREG(about.st_mode) and about.st_size > most_of(path):
        raise Fault(f"{path} has {about.st_size} bytes, and such a file may have {most_of(path)}: nothing was looked at")


def walked(folder: Path, above: str = "") -> Iterator[tuple[str, int | None]]:
    """The names of all files below a folder with their sizes, and of all folders, which have none."""
    if above.count("/") > DEEPEST:
        raise Fault(f"{above} lies too deep: nothing was looked at")
    try:
        found = sorted((entry.name, entry.stat(follow_symlinks=False)) for entry in os.scandir(folder))
    except OSError as fault:
        raise Fault(f"{above or 'the folder'} cannot be read: {fault.strerror}") from None
    for name, about in found:
        path = f"{above}{name}"
        check_name(name, path)
        check_entry(path, about)
        if stat.S_ISDIR(about.st_mode):
            yield path, None
            yield from walked(folder / name, f"{path}/")
        else:
            yield path, about.st_size


def check_beside(names: Iterable[str]) -> None:
    """Refuses names that are one on other systems, and files that change what a reader finds in the layers."""
    seen: dict[str, str] = {}
    for name in names:
        other = seen.setdefault(folded(name), name)
        if other != name:
            raise Fault(f"'{other}' and '{name}' are one name on other systems: nothing was looked at")
        if SIDECAR.fullmatch(name):
            raise Fault(f"{name} lies beside {LAYERS}, and can change what a reader finds in it: nothing was looked at")


def is_plain_export(name: str) -> bool:
    """Whether an export may lie in the folder by this name: a table's, which looks as what it is, and as no other file."""
    is_seen = not any(sign != " " and unicodedata.category(sign) in UNSEEN for sign in name)
    return is_seen and name.lower().endswith(TABULAR) and not ODD.search(name) and name not in KNOWN and not name.startswith(SUMS)


def opened(path: Path, name: str) -> BinaryIO:
    """A file of the folder, which has to be what it was when it was walked."""
    try:
        file = os.fdopen(os.open(path, FLAGS), "rb")
    except OSError as fault:
        raise Fault(f"{name} cannot be read: {fault.strerror}") from None
    check_entry(name, os.fstat(file.fileno()))
    return file


class Intake:
    """What was handed in: the files that there are, and a room with those that are looked at, as they were read."""

    def __init__(self, folder: Path, room: Path) -> None:
        self.folder, self.room = folder, room
        self.names: list[str] = []
        self.folders: list[str] = []
        self.passed_over: list[str] = []
        self.sums: dict[str, str] = {}
        self.walk()

    def walk(self) -> None:
        """Takes the names, and refuses what no such folder has."""
        sizes = self.sizes()
        check_beside(sizes)
        for path, size in sizes.items():
            kind = self.folders if size is None else self.passed_over if self.is_left(path, sizes) else self.names
            kind.append(path)

    def sizes(self) -> dict[str, int | None]:
        """All that lies in the folder, with its sizes; folders have none."""
        left, sizes = MOST_BYTES, dict[str, int | None]()
        for path, size in walked(self.folder):
            sizes[path] = size
            left -= size or 0
            if left < 0 or len(sizes) > MOST_FILES:
                raise Fault(f"the folder has more than {MOST_FILES} files or {MOST_BYTES} bytes: nothing was looked at")
        return sizes

    def is_left(self, path: str, sizes: Mapping[str, int | None]) -> bool:
        """Whether a file has the name, and may have the size and the head, of what a system leaves."""
        found = LEFT_BY_SYSTEMS.fullmatch(path)
        if not found or (sizes[path] or 0) > MOST_LEFT:
            return False
        if found[2] is None:
            return True
        with opened(self.folder / path, path) as file:
            return f"{found[1] or ''}{found[2]}" in sizes and file.read(len(APPLE_DOUBLE)) == APPLE_DOUBLE

    def take(self, name: str) -> str:
        """Reads a file once, puts a copy into the room where a step looks at it, and answers its checksum."""
        checksum, into = hashlib.sha256(), self.room / name if is_kept(name) else Path(os.devnull)
        into.parent.mkdir(parents=True, exist_ok=True)
        with opened(self.folder / name, name) as file, open(into, "wb") as copy:
            left = most_of(name)
            while piece := file.read(PIECE):
                left -= len(piece)
                if left < 0:
                    raise Fault(f"{name} grew while it was read")
                checksum.update(piece)
                copy.write(piece)
        self.sums[name] = checksum.hexdigest()
        return self.sums[name]

    def text_fault(self, name: str, wanted: str) -> str | None:
        """Whether a text has another checksum only because of the line ends of another system."""
        if not is_kept(name):
            return None
        checksum = hashlib.sha256()
        with open(self.room / name, "rb") as file:
            for line in file:
                checksum.update(line[:-2] + b"\n" if line.endswith(b"\r\n") else line)
        return f"only its line ends are other ones ({name}), as a mail gateway makes them: send the folder as a zip" \
            if checksum.hexdigest() == wanted else None


def is_kept(name: str) -> bool:
    """Whether steps look at a file."""
    return name in KEPT or name in (SUMS, *SIGNATURES) or name.startswith(f"{TRACKS}/")
