"""What the package refuses by its arguments, said by the words of a command line: the zone of dates, the levels, the zone of
coordinates, and the boundary in a file."""

from __future__ import annotations

import re
from contextlib import contextmanager
from pathlib import Path
from typing import TYPE_CHECKING, Any, Iterator, Sequence

from ..errors import FileError, FrameError, one_line, refuse
from ..units import zone_of_time
from ..zones import text_of_zone

if TYPE_CHECKING:
    from ..record import Record

READERS = ("fiona", "pyogrio")  # whose faults are none of Python's own
CALL = re.compile(", as by [a-z_.]*[(].*")  # a remedy of Python at the end of a refusal


def check_clock(zone: str, option: str) -> None:
    """Refuses what is no zone of dates, which an option names."""
    try:
        zone_of_time(zone)
    except FrameError as fault:
        raise FrameError(one_line(f"--{option} {zone} is no time zone such as Europe/Ljubljana"), fault.kind) from None


def check_levels(percent: str) -> None:
    """Refuses levels of which one is there twice; the program knows the others."""
    levels = percent.split(",")
    if len({*levels}) < len(levels):
        refuse(f"--percent {percent} has a level twice")


def check_levels_of(report: str, levels: Sequence[int]) -> None:
    """Refuses a report that has a level twice, of which no tables are made."""
    odd = next((level for level in levels if levels.count(level) > 1), None)
    if odd is not None:
        refuse(f"{report} has the level {odd} twice: make it anew with each level once", "text")


def check_zone(zone: str, record: Record | None) -> None:
    """Refuses a zone, in its one form, that is not that of the record of the tracks."""
    known = record.system_text if record else None
    if known not in (None, text_of_zone(zone)):
        refuse(f"--zone {zone} is not that of the tracks, which are of {known}, by split.txt: leave --zone out", "zone")


def boundary_in(path: Path | None, crs: Any) -> object:
    """The boundary in a file, if one was named, for ranges of this reference system."""
    if path is None:
        return None
    import geopandas

    try:
        found = geopandas.read_file(path)
    except Exception as fault:
        if type(fault).__module__.partition(".")[0] not in READERS:
            raise
        raise FileError(one_line(f"--over {path} cannot be read: {fault}")) from fault
    if not isinstance(found, geopandas.GeoDataFrame) or not found.geometry.notna().any():
        refuse("it has no shapes: take a file such as a GeoPackage or a Shapefile", "text")
    if crs is None and found.crs is not None:
        refuse("it has a reference system, and none is known of the tracks: name their UTM zone by --zone", "crs")
    if crs is not None and found.crs is None:
        refuse("it has no reference system, and the tracks have one: write it with its own, as a Shapefile with its .prj", "crs")
    return found


@contextmanager
def said_of_boundary(path: Path | None) -> Iterator[None]:
    """Has what is refused of a boundary say of which file, and not how Python would mend it."""
    try:
        yield
    except FrameError as fault:
        raise FrameError(one_line(f"--over {path}: {CALL.sub('', str(fault))}"), fault.kind) from None
