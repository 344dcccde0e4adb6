"""The tables that ranges.py writes, each computed anew, as bytes: numbers are as Python writes them, halves are rounded to
even digits, times are those of UTC or, where a second of a fix is no date, seconds, nothing is written where there is none, and no
text is a formula."""

from __future__ import annotations

import csv
import io
from datetime import datetime, timedelta
from typing import Iterable, Sequence

from homerange_verifier.lines import Counts

from .facts import HECTARE, Animal, reasons_of

Rows = Iterable[Sequence[object]]
DATES = range(10 ** 8, (2 ** 63 - 1) // 10 ** 9)  # seconds that are dates: from 1973 to where pandas ends, in 2262


def are_dates(animals: Sequence[Animal]) -> bool:
    """Whether the seconds of all fixes are dates."""
    return all(second in DATES for animal in animals for second in animal.seconds)


def moment(second: int) -> str:
    """A time of UTC."""
    return (datetime(1970, 1, 1) + timedelta(seconds=second)).strftime("%Y-%m-%dT%H:%M:%SZ")


def time_of(second: int | None, dated: bool) -> str | int:
    """What a cell has of a second: a time where it is a date."""
    return "" if second is None else moment(second) if dated else second


def rounded(part: int | None, whole: int) -> float | str:
    """A quotient with at most four decimals, as numpy rounds it; nothing where there is none."""
    return "" if part is None or not whole else round(part / whole * 10_000) / 10_000


def summary(animals: Sequence[Animal], levels: Sequence[int], unit: str) -> Rows:
    """What each level of each animal comes to."""
    yield "animal", "first", "last", "fixes", "level", "kept", "corners", "hectares"
    dated = are_dates(animals)
    for animal in animals:
        for level in levels:
            kept, hull = animal.percents[level]
            yield (animal.name, time_of(animal.first, dated), time_of(animal.last, dated), animal.used, level, kept, len(hull),
                   hull.area2 / HECTARE[unit])


def overview(animals: Sequence[Animal], levels: Sequence[int], unit: str) -> Rows:
    """A row for each animal."""
    reasons, dated = reasons_of(animals), are_dates(animals)
    yield ("animal", "records", *(f"left_{reason.replace(' ', '_')}" for reason in reasons), "used", "first", "last", "days",
           "median_hours", "longest_hours", *(f"hectares_{level}" for level in levels), "within_95_fix", "within_95_time",
           "last_tenth", "last_quarter")
    for animal in animals:
        within = animal.within
        yield (animal.name, animal.records, *(animal.left.get(reason, 0) for reason in reasons), animal.used,
               time_of(animal.first, dated), time_of(animal.last, dated), rounded(animal.last - animal.first, 86_400),
               rounded(animal.median2, 7200), rounded(animal.intervals[-1] if animal.intervals else None, 3600),
               *(animal.percents[level].hull.area2 / HECTARE[unit] for level in levels),
               within or "", time_of(within and animal.seconds[within - 1], dated),
               rounded(animal.tenth, animal.area2), rounded(animal.quarter, animal.area2))


def overlaps(animals: Sequence[Animal], counts: Counts) -> Rows:
    """Which share of the fixes of the row's animal lie in the polygon of the column's."""
    yield "fixes_of", *(animal.name for animal in animals)
    for one, animal in enumerate(animals):
        shares = (1.0 if one == other else rounded(counts[one, other], animal.used) for other in range(len(animals)))
        yield animal.name, *shares


def tables(animals: Sequence[Animal], counts: Counts, levels: Sequence[int], unit: str) -> dict[str, Rows]:
    """The tables by the names of their files."""
    return {"summary.csv": summary(animals, levels, unit), "animals.csv": overview(animals, levels, unit),
            "overlaps.csv": overlaps(animals, counts)}


def cell_of(value: object) -> object:
    """What a cell has of a value: a text that a spreadsheet may compute, or that begins with an apostrophe, is behind one."""
    return f"'{value}" if isinstance(value, str) and value.startswith(tuple("=+-@\t\r'")) else value


def bytes_of(rows: Rows) -> bytes:
    text = io.StringIO(newline="")
    csv.writer(text, lineterminator="\n").writerows(map(cell_of, row) for row in rows)
    return text.getvalue().encode("utf-8")


def difference(content: bytes, rows: Rows) -> str | None:
    """How a table is not these rows; None where it is."""
    wanted = bytes_of(rows)
    if content == wanted:
        return None
    lines, wishes = (text.decode("utf-8", "replace").split("\n") for text in (content, wanted))
    number = next((at for at, (line, wish) in enumerate(zip(lines, wishes), 1) if line != wish), min(len(lines), len(wishes)))
    line, wish = (each[number - 1] if number <= len(each) else "" for each in (lines, wishes))
    return f"line {number} is {line!r}; {wish!r} is wanted"
