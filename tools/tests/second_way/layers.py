"""The layers of ranges.gpkg, read by sqlite3 and struct: `ranges` has a polygon for each animal and level with an area, and
`fixes` each used fix, in metres and where the tracks were before they were shifted."""

from __future__ import annotations

import re
import sqlite3
import struct
from contextlib import closing
from pathlib import Path
from sqlite3 import Connection
from typing import Any, Sequence

from homerange_verifier.hull import Point
from homerange_verifier.lines import Percent

from .facts import HECTARE, PER_METRE, Animal
from .records import Run
from .tables import are_dates, moment

Place = tuple[float, float]
# A time with thousandths of a second, which some versions of GDAL leave out.
FIRST, LAST, TIME = (f"CASE typeof({title}) WHEN 'integer' THEN {title} ELSE strftime('%Y-%m-%dT%H:%M:%fZ', {title}) END"
                     for title in ("first", "last", "time"))
COLUMNS = {"ranges": f"geom, animal, level, fixes, kept, corners, hectares, {FIRST}, {LAST}, unit",
           "fixes": f"geom, animal, n, {TIME}"}
ENVELOPES = {0: 0, 1: 4}  # how many numbers the box of a shape has, by its kind
PARAMETER = re.compile(r'PARAMETER\["([a-z_]+)",([-0-9.]+)\]')
METRES = ('DATUM["WGS_1984"', 'PROJECTION["Transverse_Mercator"]', 'UNIT["metre",1')
CODED = re.compile(r"([A-Za-z]+:[A-Za-z0-9]+) \((.*)\)", re.DOTALL)  # a reference system with its code
UNDEFINED = -1  # the number of an undefined plane one
POINT, POLYGON = 1, 3
NEAR = 1e-6  # of a unit: what is lost where a number of decimetres is written in metres


def number_of(zone: str) -> int:
    """The number of a UTM zone in EPSG."""
    return (32600 if zone.endswith("N") else 32700) + int(zone[:-1])


def parameters_of(zone: str) -> dict[str, float]:
    """What the definition of a UTM zone has to say."""
    return {"latitude_of_origin": 0, "central_meridian": 6 * int(zone[:-1]) - 183, "scale_factor": 0.9996,
            "false_easting": 500_000, "false_northing": 0 if zone.endswith("N") else 10_000_000}


def is_named(crs: str, organization: str, number: int | None, definition: str) -> bool:
    """Whether a reference system has this code and name; one that is given by its definition in PROJ has no name."""
    found = CODED.fullmatch(crs)
    code, name = found.groups() if found else (None, "unknown" if crs.startswith("+proj=") else crs)
    own = re.match(r'[A-Z]+\["([^"]*)"', definition)
    return (code is None or f"{organization}:{number}".upper() == code.upper()) and own is not None and own[1] == name


class Reader:
    """The bytes of a shape, from the first on."""

    def __init__(self, content: bytes) -> None:
        self.content, self.at, self.order = content, 0, "<"

    def take(self, form: str) -> tuple[Any, ...]:
        form = self.order + form
        found = struct.unpack_from(form, self.content, self.at)
        self.at += struct.calcsize(form)
        return found

    def order_of(self, is_little: int) -> None:
        self.order = "<" if is_little else ">"


def shape_of(content: bytes) -> tuple[int, int, list[Place]]:
    """The reference system, the kind and the places of a shape: a point, or a polygon without holes, whose last corner is the
    first again and is left out. Its box, where it has one, has to be its own."""
    reader = Reader(content)
    magic, version, flags = reader.take("2sBB")
    reader.order_of(flags & 1)
    (system,) = reader.take("i")
    box = reader.take(f"{ENVELOPES[flags >> 1 & 7]}d")
    reader.order_of(reader.take("B")[0])
    (kind,) = reader.take("I")
    rings, count = reader.take("II") if kind == POLYGON else (1, 1)
    numbers = reader.take(f"{2 * count}d")
    places = list(zip(numbers[::2], numbers[1::2]))
    assert (magic, version, rings, reader.at) == (b"GP", 0, 1, len(content)) and places[:1] == places[-1:]
    assert not box or [*box] == [end(side) for side in zip(*places) for end in (min, max)]
    return system, kind, places[:-1] if kind == POLYGON else places


def round_from_first(corners: list[Point]) -> list[Point]:
    """The corners counterclockwise from the westernmost, of two such the southern."""
    pairs = zip(corners, corners[1:] + corners[:1])
    if sum(a[0] * b[1] - b[0] * a[1] for a, b in pairs) < 0:
        corners = corners[::-1]
    first = corners.index(min(corners))
    return corners[first:] + corners[:first]


class Layers:
    """The layers of a file, and those that are wanted."""

    def __init__(self, animals: Sequence[Animal], run: Run) -> None:
        self.animals, self.run = animals, run

    def time_of(self, second: int) -> int | str:
        """A time as a GeoPackage has it, or the second where not all have a date."""
        if not are_dates(self.animals):
            return second
        return f"{moment(second)[:-1]}.000Z"

    def with_area(self) -> dict[tuple[str, int], Percent]:
        """The kept fixes and the polygons that have an area, by animal and level."""
        return {(animal.name, level): animal.percents[level] for animal in self.animals for level in self.run.levels
                if animal.percents[level].hull.area2}

    def fault_of(self, base: Connection) -> str | None:
        """What is wrong; None where nothing is."""
        wanted = ["fixes", "ranges"] if self.with_area() else ["fixes"]
        names = [name for name, in base.execute(
            "SELECT table_name FROM gpkg_contents WHERE data_type = 'features' ORDER BY table_name")]
        if names != wanted:
            return f"it has the layers {', '.join(names)}"
        faults = (self.system_fault(base, name) for name in wanted)
        return next(filter(None, faults), None) or self.ranges_fault(base) or self.fixes_fault(base)

    def system_fault(self, base: Connection, name: str) -> str | None:
        """How the reference system of a layer is not the one that is known."""
        systems = base.execute(
            "SELECT contents.srs_id, columns.srs_id, organization, organization_coordsys_id, definition FROM gpkg_contents AS "
            "contents JOIN gpkg_geometry_columns AS columns USING (table_name) JOIN gpkg_spatial_ref_sys AS systems ON "
            "systems.srs_id = contents.srs_id WHERE contents.table_name = ?", (name,)).fetchall()
        if len(systems) != 1 or systems[0][0] != systems[0][1]:
            return f"its layer {name} has not one reference system"
        identity, _, organization, number, definition = systems[0]
        if not self.is_system(identity, organization, number, definition):
            return f"its layer {name} has another reference system than {self.run.system or 'none'}"
        return None

    def is_system(self, identity: int, organization: str, number: int, definition: str) -> bool:
        """Whether a reference system is that of the ranges."""
        zone, crs = self.run.zone, self.run.system
        if crs is None:
            return (identity, organization.upper()) == (UNDEFINED, "NONE")
        if zone is None:
            return is_named(crs, organization, number, definition)
        said = {key: float(value) for key, value in PARAMETER.findall(definition)}
        return (organization.upper(), number, said) == ("EPSG", number_of(zone), parameters_of(zone)) and all(
            part in definition for part in METRES)

    def rows_of(self, base: Connection, name: str) -> tuple[int, list[tuple[Any, ...]]]:
        """The reference system of a layer, and its rows."""
        system = base.execute("SELECT srs_id FROM gpkg_contents WHERE table_name = ?", (name,)).fetchone()[0]
        return system, base.execute(f"SELECT {COLUMNS[name]} FROM {name} ORDER BY fid").fetchall()

    def ranges_fault(self, base: Connection) -> str | None:
        """How the polygons are not those of the animals and levels."""
        wanted = self.with_area()
        if not wanted:
            return None
        system, rows = self.rows_of(base, "ranges")
        if [row[1:3] for row in rows] != [*wanted]:
            return "its polygons are not of the animals and levels with an area"
        animals, unit = {animal.name: animal for animal in self.animals}, self.run.unit
        for (geometry, name, level, *numbers), (kept, hull) in zip(rows, wanted.values()):
            own = animals[name]
            wishes = [own.used, kept, len(hull), hull.area2 / HECTARE[unit], self.time_of(own.first), self.time_of(own.last), unit]
            if numbers != wishes:
                said, wish = (", ".join(map(str, each)) for each in (numbers, wishes))
                return f"its polygon of {name} at {level} % has {said}; {wish} are wanted"
            if round_from_first(self.places(geometry, system, POLYGON)) != hull.corners():
                return f"its polygon of {name} at {level} % has other corners"
        return None

    def fixes_fault(self, base: Connection) -> str | None:
        """How the fixes are not the used ones of the tracks, in their order."""
        (system, rows), wanted = self.rows_of(base, "fixes"), [
            (animal.name, n, self.time_of(second), place) for animal in self.animals
            for n, (second, place) in enumerate(zip(animal.seconds, animal.points), 1)]
        if len(rows) != len(wanted):
            return f"it has {len(rows)} fixes; {len(wanted)} are wanted"
        for (geometry, *numbers), (name, n, time, place) in zip(rows, wanted):
            if numbers != [name, n, time]:
                said, wish = (", ".join(map(str, each)) for each in (numbers, (name, n, time)))
                return f"it has the fix {said}; {wish} is wanted"
            if self.places(geometry, system, POINT) != [place]:
                return f"its fix {n} of {name} lies elsewhere"
        return None

    def places(self, geometry: bytes, system: int, kind: int) -> list[Point]:
        """The places of a shape in whole units of the tracks."""
        own, own_kind, found = shape_of(geometry)
        scale = PER_METRE[self.run.unit]
        exact = [tuple(scale * (number + shift) for number, shift in zip(place, self.run.shift)) for place in found]
        places = [(round(east), round(north)) for east, north in exact]
        assert (own, own_kind) == (system, kind)
        assert all(abs(number - whole) <= NEAR for pair in zip(exact, places) for number, whole in zip(*pair))
        return places


def difference(path: Path, animals: Sequence[Animal], run: Run) -> str | None:
    """How the layers of a file are not those that are wanted; None where they are."""
    with closing(sqlite3.connect(f"{path.resolve().as_uri()}?mode=ro&immutable=1", uri=True)) as base:
        return Layers(animals, run).fault_of(base)
