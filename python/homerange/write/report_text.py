"""Writes a report as the program does, by the grammar of docs/GUIDE.md, section The report."""

from __future__ import annotations

from itertools import permutations
from pathlib import Path
from typing import Iterator

import numpy

from ..ranges.tracks import pieces
from ..report import TEXT, Report, Rows, Table


def write_report(report: Report, path: Path) -> None:
    """Writes a report into a new file, byte for byte as the program wrote it."""
    with open(path, "xb") as file:
        file.writelines(parts_of(report))


def parts_of(report: Report) -> Iterator[bytes]:
    """The text of a report, in parts."""
    if report.unit == "dm":
        yield b"unit,dm\n"
    for name, table in report.tables.items():
        yield from parts_of_animal(encoded(name), table)
    for name, other in permutations(report.tables, 2):
        yield b"overlap,%b,%b,%d,%d\n" % (encoded(name), encoded(other), report.overlaps[name, other], report.tables[name].fixes)
    yield b"end,%d\n" % len(report.tables)


def encoded(name: str) -> bytes:
    return name.encode(TEXT["encoding"], TEXT["errors"])


def parts_of_animal(name: bytes, table: Table) -> Iterator[bytes]:
    """The lines of an animal."""
    yield b"animal,%b,fixes,%d\n" % (name, table.fixes)
    yield b"box,%b,%d,%d,%d,%d\n" % (name, *(end(side) for end in (min, max) for side in zip(*table.corners)))
    yield from parts_of_rows(name, table.rows)
    for number, corner in enumerate(table.corners, 1):
        yield b"corner,%b,%d,%d,%d\n" % (name, number, *corner)
    for percent in table.percents:
        yield b"percent,%b,%d,%d,%d,%d\n" % (name, *percent)


def parts_of_rows(name: bytes, rows: Rows) -> Iterator[bytes]:
    """The rows of an animal."""
    numbers = numpy.column_stack([numpy.arange(1, len(rows.seconds) + 1), *rows])
    row = b"row,%b,%%d,%%d,%%d,%%d\n" % name.replace(b"%", b"%%")
    return pieces(row, numbers.ravel().tolist(), 4)
