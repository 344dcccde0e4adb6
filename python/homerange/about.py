"""The record of a run, evidence.txt: its fields in their order, as they are written and read back. The one form of a field
is the one that is written here, so that a record can be made again from what it says and compared byte for byte."""

from __future__ import annotations

import re
import shlex
from datetime import date, datetime, timezone
from pathlib import Path
from typing import Iterator, NamedTuple, NoReturn, Sequence

from .units import zone_of_time
from .errors import ReportError, one_line
from .program import GROUP, MOST_ANIMALS, Program
from .record import Record, escaped, unescaped
from .report import TEXT

FORM = 2  # of tables, layers, page, record and evidence.txt: another byte that their makers write takes another number
FORMER = (1,)  # forms that older copies of this version wrote
MOMENT = "%Y-%m-%dT%H:%M:%SZ"
FIRST = ("form", "made", "program", "program sha256", "arguments", "unit", "levels", "runs", "commit", "sources", "logic")
TYPED = ("title", "study", "species", "by", "reference", "purpose")
OTHERS = ("export", "export sha256", "crs", "shift", *TYPED, "day", "boundary", "clock")
SHIFT = re.compile("(-?[0-9]{1,9}),(-?[0-9]{1,9})")
BESIDE = "not known, since it does not stand beside the program"  # where there is no SOURCES
NO_COMMIT = ("not known, since git finds no clone here", "not known, since git does not say it",
             "not known, since the package for R stands in no clone")
SUM = "[0-9a-f]{64}"
FORMS = {name: re.compile(form) for name, form in {
    "form": str(FORM), "made": "[0-9]{4}(-[0-9]{2}){2}T[0-9]{2}(:[0-9]{2}){2}Z", "program": "homerange .*", "program sha256": SUM,
    "arguments": "--percent .*", "unit": "d?m", "levels": "(100|[1-9][0-9]?)(,(100|[1-9][0-9]?)){0,7}",
    "commit": "|".join(["[0-9a-f]{40}(, changed)?", *NO_COMMIT]), "sources": f"{SUM}|{BESIDE}", "logic": f"[0-9a-f]{{16}}|{BESIDE}",
    "export": "[^/]+", "export sha256": SUM, "shift": SHIFT.pattern, "day": "[0-9]{4}-[0-9]{2}-[0-9]{2}"}.items()}


class Words(NamedTuple):
    """What is known of ranges from their call alone, and not from their tracks: where these have no such record, the reference
    system and how many metres were added to eastings and northings; what was typed in for the page, the day among it (None is
    that of making), what its boundary is called, and the zone of its dates, which is None where no page was made."""

    crs: str | None = None
    shift: tuple[int, int] = (0, 0)
    title: str | None = None
    study: str | None = None
    species: str | None = None
    by: str | None = None
    reference: str | None = None
    purpose: str | None = None
    day: str | None = None
    boundary: str | None = None
    clock: str | None = None


class About(NamedTuple):
    """The record of a run."""

    made: str
    program: str
    checksum: str
    files: Sequence[str]
    unit: str
    levels: str
    commit: str
    sources: str
    logic: str
    export: tuple[str, str | None] | None  # its name and checksum; 'none' where tracks are of a frame, None without a record
    words: Words

    @property
    def identity(self) -> Program:
        """The program of the run, which is not looked for."""
        return Program("", self.program, self.checksum)

    def day(self) -> date:
        """The day that the page has: the one that was typed in, or that of making by the page's clock."""
        if self.words.day is not None:
            return date.fromisoformat(self.words.day)
        moment = datetime.strptime(self.made, MOMENT).replace(tzinfo=timezone.utc)
        return moment.astimezone(zone_of_time(self.words.clock or "UTC")).date()


def now() -> str:
    return datetime.now(timezone.utc).strftime(MOMENT)


def export_of(record: Record | None) -> tuple[str, str | None] | None:
    """The export that the record of the tracks names, and its checksum."""
    return None if record is None else ("none", None) if record.export is None else (record.export, record.checksum)


def runs_of(animals: int) -> str:
    """How many runs a report of so many animals is of."""
    groups = -(-animals // GROUP)
    return "1" if animals <= MOST_ANIMALS else f"{groups * (groups + 1) // 2} of groups of {GROUP} animals"


def fields_of(about: About) -> Iterator[tuple[str, str]]:
    """The fields, by their names."""
    words = about.words
    yield "form", str(FORM)
    yield "made", about.made
    yield "program", about.program
    yield "program sha256", about.checksum
    yield "arguments", shlex.join(["--percent", about.levels, "--unit", about.unit, "--", *about.files])
    yield "unit", about.unit
    yield "levels", about.levels
    yield "runs", runs_of(len(about.files))
    yield "commit", about.commit
    yield "sources", about.sources
    yield "logic", about.logic
    if about.export:
        yield "export", about.export[0]
    if about.export and about.export[1]:
        yield "export sha256", about.export[1]
    if words.crs is not None:
        yield "crs", escaped(words.crs)
    if any(words.shift):
        yield "shift", "{},{}".format(*words.shift)
    for name in (*TYPED, "day", "boundary", "clock"):
        value = getattr(words, name)
        if value is not None:
            yield name, escaped(value)


def text_of(about: About) -> str:
    """The record as it is written."""
    return "".join(f"{one_line(name)}: {one_line(value)}\n" for name, value in fields_of(about))


def write_about(path: Path, about: About) -> None:
    with open(path, "x", **TEXT) as file:
        file.write(text_of(about))


def refuse(path: Path, text: str) -> NoReturn:
    raise ReportError(one_line(f"{path.name} {text}"))


def fields_in(path: Path) -> dict[str, str]:
    """The fields of a record, each once."""
    with open(path, **TEXT) as file:
        lines = file.read().split("\n")
    if lines.pop():
        refuse(path, "has no end of its last line")
    found: dict[str, str] = {}
    for number, line in enumerate(lines, 1):
        name, colon, value = line.partition(": ")
        if not colon or name in found or name not in (*FIRST, *OTHERS):
            refuse(path, f"has a line {number} that is no field which stands there once")
        if name in FORMS and not FORMS[name].fullmatch(value):
            refuse(path, f"has the {name} {value[:80]}, which is none")
        found[name] = value
    missing = [name for name in FIRST if name not in found]
    if missing:
        refuse(path, f"has no field {missing[0]}")
    return found


def read_about(path: Path) -> About:
    """A record, which has to be in the form that is written."""
    found = fields_in(path)
    try:
        words, _ = shlex.split(found["arguments"]), datetime.strptime(found["made"], MOMENT)
    except ValueError:
        refuse(path, "has arguments or a moment that are none")
    if "--" not in words:
        refuse(path, "has arguments without --")
    shift = tuple(map(int, found.get("shift", "0,0").split(",")))
    export = (found["export"], found.get("export sha256")) if "export" in found else None
    typed = {name: unescaped(found[name]) if name in found else None for name in ("crs", *TYPED, "day", "boundary", "clock")}
    own = Words(shift=(shift[0], shift[1]), **typed)
    about = About(
        found["made"], found["program"], found["program sha256"], words[words.index("--") + 1:], found["unit"], found["levels"],
        found["commit"], found["sources"], found["logic"], export, own)
    fields = dict(fields_of(about))
    other = next((name for name in {**fields, **found} if one_line(fields.get(name, "")) != found.get(name, "")), None)
    if other is not None or [*fields] != [*found]:
        refuse(path, f"has its fields in another order or form than such records have: {other or 'their order'}")
    return about
