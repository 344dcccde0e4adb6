"""Layers for a GIS: a GeoPackage with the polygons, the fixes, and how QGIS draws them. Two runs write the same bytes, so its
dates are those of a run that is not known. Wants geopandas."""

from __future__ import annotations

import os
import shutil
import sqlite3
import tempfile
from contextlib import closing, contextmanager
from itertools import chain, islice
from pathlib import Path
from typing import TYPE_CHECKING, Any, Iterator

import numpy
import pandas
from pandas.api.types import is_integer_dtype as is_whole

from ..arguments import says_ours
from ..errors import FileError, check_place, fault_of_text, files_as_said, one_line, path_of, truth_of
from ..program import PACKAGE
from ..ranges.home import HomeRanges, check_ranges
from ..read.reading import has_calendar, tell, times_of
from ..units import UNITS
from ..zones import code_of_crs
from .replace import check_ending, refuse_other_layers

if TYPE_CHECKING:
    import geopandas

    from ..ranges.tracks import Tracks

ROWS = 100  # that are written together
WRITERS = ("fiona", "pyogrio", "sqlite3")  # whose faults are none of Python's own
NO_DATE = "1970-01-01T00:00:00.000Z"
# Where no reference system is known: GDAL would take coordinates without one for degrees.
LOCAL = 'LOCAL_CS["Undefined Cartesian SRS",UNIT["metre",1]]'
POINT = numpy.dtype([("magic", "S2"), ("version", "u1"), ("flags", "u1"), ("system", "<i4"), ("order", "u1"), ("kind", "<u4"),
                     ("east", "<f8"), ("north", "<f8")])
STYLES = """
CREATE TABLE layer_styles (
    id INTEGER PRIMARY KEY AUTOINCREMENT NOT NULL, f_table_catalog TEXT, f_table_schema TEXT, f_table_name TEXT,
    f_geometry_column TEXT, styleName TEXT, styleQML TEXT, styleSLD TEXT, useAsDefault BOOLEAN, description TEXT, owner TEXT,
    ui TEXT, update_time DATETIME)
"""
STYLE = "INSERT INTO layer_styles VALUES (NULL, '', '', ?, 'geom', 'homerange', ?, '', 1, 'homerange', '', NULL, ?)"
LISTED = """
INSERT INTO gpkg_contents (table_name, data_type, identifier, description, last_change, srs_id)
    VALUES ('layer_styles', 'attributes', 'layer_styles', '', ?, 0)
"""


@contextmanager
def without_date() -> Iterator[None]:
    """Has GDAL write one date in place of the day's."""
    before = os.environ.get("OGR_CURRENT_DATE")
    os.environ["OGR_CURRENT_DATE"] = NO_DATE
    try:
        yield
    finally:
        os.environ.pop("OGR_CURRENT_DATE")
        if before is not None:
            os.environ["OGR_CURRENT_DATE"] = before


@contextmanager
def plain_path(path: Path) -> Iterator[Path]:
    """A path in UTF-8, as GDAL takes them, of a file that comes to another one's place where that is none. pyogrio reads paths as
    addresses, and so leaves out ends of lines and blanks at the start."""
    whole = os.path.abspath(path)
    if fault_of_text(whole) is None and whole.isprintable():
        yield Path(whole)
        return
    with tempfile.TemporaryDirectory(prefix="homerange-") as folder:
        own = Path(folder, "ranges.gpkg")
        yield own
        if own.is_file():
            shutil.copyfile(own, path)


def placed(layer: geopandas.GeoDataFrame) -> geopandas.GeoDataFrame:
    """A layer with a reference system: its own, or an undefined one of metres. A definition without a code stays one: pyogrio,
    which asks for a code, would write that of a system which looks like it, and fiona would not."""
    from pyproj import CRS

    class Definition(CRS):
        def to_epsg(self, min_confidence: int = 100) -> None:
            return None

    if layer.crs is None:
        return layer.set_crs(CRS.from_wkt(LOCAL))
    return layer.set_crs(Definition(layer.crs), allow_override=True) if code_of_crs(layer.crs) == "unknown" else layer


def polygons_of(ranges: HomeRanges) -> geopandas.GeoDataFrame:
    """The polygons of all levels, those of an animal together, with its times and the unit."""
    polygons, summary = ranges.polygons(ranges.levels), ranges.summary()
    levels, animals = len(ranges.levels), len(ranges.animals)
    ends = {title: in_utc(summary[title]).iloc[::levels].tolist() * levels for title in ("first", "last")}
    order = numpy.arange(levels * animals).reshape(levels, animals).T.ravel()
    shapes = polygons.pop("geometry")
    return polygons.assign(**ends, unit=ranges.unit).set_geometry(shapes).iloc[order]


def fixes_of(ranges: HomeRanges, tracks: Tracks) -> pandas.DataFrame:
    """The fixes, numbered by the order of time, with their places in metres."""
    counts = [*map(len, tracks.by_name.values())]
    second, *sides = numpy.concatenate([*tracks.by_name.values()]).T
    east, north = (side / UNITS[ranges.unit].per_metre - added for side, added in zip(sides, ranges.shift))
    seconds = pandas.Series(second)
    return ranges.by_group(pandas.DataFrame({
        "animal": numpy.repeat(numpy.array([*tracks.by_name], dtype=object), counts), "easting": east, "northing": north,
        "n": numpy.concatenate([numpy.arange(1, count + 1) for count in counts]),
        "time": times_of(seconds, "UTC") if has_calendar(second.min(), second.max()) else seconds}))


def in_utc(times: pandas.Series) -> pandas.Series:
    """Times in UTC; seconds that have no date as they are."""
    return times if is_whole(times) else times.dt.tz_convert("UTC")


def write_fixes(fixes: pandas.DataFrame, crs: object, path: Path) -> None:
    """Writes the layer of fixes: GDAL makes it of the first, and the others are put behind it, since one by one they take
    150 microseconds each."""
    import geopandas

    titles = [title for title in fixes if title not in ("easting", "northing")]
    first, rest = fixes.iloc[:1], fixes.iloc[1:]
    points = geopandas.points_from_xy(first["easting"], first["northing"])
    placed(geopandas.GeoDataFrame(first[titles], geometry=points, crs=crs)).to_file(
        path, driver="GPKG", layer="fixes", SPATIAL_INDEX="NO")
    columns = ", ".join(f'"{title}"' for title in titles)
    with closing(sqlite3.connect(path)) as base:
        system, = base.execute("SELECT srs_id FROM gpkg_geometry_columns WHERE table_name = 'fixes'").fetchone()
        # The one row of GDAL's has no thousandths of a second where GDAL is young.
        base.execute("UPDATE fixes SET time = ?", times_cells(first["time"]))
        cells = [times_cells(rest[title]) if title == "time" else rest[title].tolist() for title in titles]
        rows, places = zip(shapes_of(rest, system), *cells), f"(?{', ?' * len(titles)})"
        while some := list(islice(rows, ROWS)):
            row = f"INSERT INTO fixes (geom, {columns}) VALUES {', '.join([places] * len(some))}"
            base.execute(row, [*chain.from_iterable(some)])
        box = [float(end(fixes[title])) for end in (min, max) for title in ("easting", "northing")]
        base.execute("UPDATE gpkg_contents SET min_x = ?, min_y = ?, max_x = ?, max_y = ? WHERE table_name = 'fixes'", box)
        base.commit()


def shapes_of(fixes: pandas.DataFrame, system: int) -> list[bytes]:
    """The points of fixes as a GeoPackage has them."""
    shapes = numpy.zeros(len(fixes), dtype=POINT)
    shapes["magic"], shapes["flags"], shapes["system"], shapes["order"], shapes["kind"] = b"GP", 1, system, 1, 1
    shapes["east"], shapes["north"] = fixes["easting"], fixes["northing"]
    content = shapes.tobytes()
    return [content[at:at + POINT.itemsize] for at in range(0, len(content), POINT.itemsize)]


def times_cells(times: pandas.Series) -> list[Any]:
    """Times, or whole seconds, as a GeoPackage has them."""
    if is_whole(times):
        return list(times.tolist())
    whole = times.dt.tz_localize(None).to_numpy()
    return [f"{text}Z" for text in numpy.datetime_as_string(whole, unit="ms").tolist()]


def write_styles(path: Path, layers: list[str]) -> None:
    """Writes how QGIS draws the layers."""
    with closing(sqlite3.connect(path)) as base:
        base.execute(STYLES)
        for name in layers:
            base.execute(STYLE, (name, (PACKAGE / f"{name}.qml").read_text("utf-8"), NO_DATE))
        base.execute(LISTED, (NO_DATE,))
        base.commit()


def put_layers(ranges: HomeRanges, path: Path) -> list[str]:
    """Writes the layer of polygons that have an area, and that of fixes where these are known; answers which polygons have
    none."""
    polygons = polygons_of(ranges)
    has_area = polygons["corners"] > 2
    names = polygons["animal"] + " " + polygons["group"] if ranges.groups else polygons["animal"]
    flat = {level: names[~has_area & (polygons["level"] == level)] for level in ranges.levels}
    written = ["ranges"] * bool(has_area.any()) + ["fixes"] * ranges.has_fixes
    open(path, "ab").close()  # what the system says where it cannot be written GDAL would not say
    path.unlink()
    with plain_path(path) as own, without_date():
        if "ranges" in written:
            placed(polygons[has_area]).to_file(own, driver="GPKG", layer="ranges")
        if ranges.tracks is not None:
            write_fixes(fixes_of(ranges, ranges.tracks), ranges.crs, own)
        if written:
            write_styles(own, written)
    return [f"not in {path.name}, since they have no area at {level} %: {', '.join(dict.fromkeys(names))}"
            for level, names in flat.items() if len(names)]


@says_ours
def write_layers(ranges: HomeRanges, path: str | os.PathLike[str], *, overwrite: bool = False) -> None:
    """Writes a GeoPackage for a GIS, in place of one that was written before: the layer ``ranges``, with a polygon for each animal and level
    that has an area (``animal``, ``level``, ``fixes``, ``kept``, ``corners``, ``hectares``, ``first`` and ``last`` in UTC, and
    ``unit``); the layer ``fixes`` (``animal``, ``n``, ``time``), where they are known; and how QGIS draws both. Seconds that have
    no date stand there as whole numbers. Ranges by groups have a column ``group`` in both. Without a reference system it is an
    undefined one of metres. Two runs write the same bytes. Which polygons have no area is said in warnings. A file that is there
    and has other layers, or is none of write_layers, is refused (FileError), unless ``overwrite`` says that it goes. Wants
    geopandas."""
    check_ranges(ranges)
    file, is_over = check_place(path_of(path, "path")), truth_of(overwrite, "overwrite")
    check_ending(file, ".gpkg")
    try:
        with files_as_said():
            if not is_over:
                refuse_other_layers(file)
            said = put_layers(ranges, file)
    except Exception as fault:
        if type(fault).__module__.partition(".")[0] not in WRITERS:
            raise
        raise FileError(one_line(f"{file}: {fault}")) from fault
    tell(said)
