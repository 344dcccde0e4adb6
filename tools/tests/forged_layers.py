#!/usr/bin/env python3
"""forged_layers.py GIVEN MADE: whether the verifier finds what was forged in a GeoPackage.

GIVEN was handed in, and MADE is the one that is made again, of animals in zone 33N. Each forgery changes a copy of GIVEN, and
names what homerange_verifier/layers.py has to say of it; where it names nothing, the copy has another form that writers may
write. Prints 'ok NAME' or 'failed NAME: ..' for each."""
import re
import shutil
import sqlite3
import struct
import sys
import tempfile
from contextlib import closing, contextmanager
from functools import partial
from pathlib import Path

sys.path.insert(0, str(Path(__file__).resolve().parents[2] / "python"))

from homerange_verifier.layers import difference
from homerange_verifier.lines import Fault

NAME = "WGS 84 / UTM zone 33N"
ONE, OTHER = (f"level = 95 AND animal = (SELECT {end}(animal) FROM ranges)" for end in ("min", "max"))
ALL, FIX = "level = 100 AND animal = (SELECT min(animal) FROM ranges)", "animal = (SELECT min(animal) FROM fixes) AND n = 3"
IN_RANGES, IN_FIXES = "in row [0-9]+ of ranges, column", "in row [0-9]+ of fixes, column"
SHAPE = r"has a shape of [0-9]+ bytes, [0-9a-f]{32}"
COUNTED = ("UPDATE gpkg_ogr_contents SET feature_count = (SELECT seq FROM sqlite_sequence WHERE name = 'ranges') "
           "WHERE table_name = 'ranges'")
HEAD = "has another head than such files have"
FORGERIES = {}


def forgery(name, wanted):
    """Keeps the function below it by this name; wanted is what has to be said."""
    def keep(forge):
        assert name not in FORGERIES, f"{name} stands there twice"
        FORGERIES[name] = (forge, wanted)
        return forge
    return keep


def end_of(shape, at):
    """An end of the box of a shape, which a point has not: west, east, south, north."""
    return struct.unpack_from("<d", shape, 8 + 8 * at if shape[3] & 2 else 13 + at // 2 * 8)[0]


@contextmanager
def opened(path):
    """A base with the functions that the triggers of its index want."""
    with closing(sqlite3.connect(path)) as base:
        base.execute("PRAGMA synchronous = OFF")
        base.create_function("ST_IsEmpty", 1, lambda shape: 0)
        for at, name in enumerate(("ST_MinX", "ST_MaxX", "ST_MinY", "ST_MaxY")):
            base.create_function(name, 1, partial(end_of, at=at))
        yield base
        base.commit()


def execute(path, *statements):
    with opened(path) as base:
        for statement, *values in statements:
            assert base.execute(statement, values).rowcount != 0, statement


def of_sql(name, wanted, *statements):
    """Keeps a forgery by statements."""
    forgery(name, wanted)(lambda path: execute(path, *((statement,) for statement in statements)))


def of_schema(name, wanted, table, old, new):
    """Keeps a forgery of how a table is declared."""
    @forgery(name, wanted)
    def _(path):
        with opened(path) as base:
            base.execute("PRAGMA writable_schema = ON")
            before, = base.execute("SELECT sql FROM sqlite_master WHERE name = ?", (table,)).fetchone()
            after = re.sub(old, new, before)
            assert after != before, before
            base.execute("UPDATE sqlite_master SET sql = ? WHERE name = ?", (after, table))


def of_bytes(name, wanted, change):
    """Keeps a forgery of the bytes of the file."""
    @forgery(name, wanted)
    def _(path):
        content = bytearray(path.read_bytes())
        change(content)
        path.write_bytes(content)


def of_shape(name, wanted, where, change):
    """Keeps a forgery of the bytes of a polygon."""
    @forgery(name, wanted)
    def _(path):
        with opened(path) as base:
            shape = bytearray(base.execute(f"SELECT geom FROM ranges WHERE {where}").fetchone()[0])
        before = bytes(shape)
        change(shape)
        assert shape != before
        execute(path, (f"UPDATE ranges SET geom = ? WHERE {where}", bytes(shape)))


def moved(shape, by):
    """Moves the second corner of a polygon, and its box with it."""
    numbers = [*struct.unpack_from(f"<{(len(shape) - 53) // 8}d", shape, 53)]
    numbers[3] += by
    struct.pack_into(f"<{len(numbers)}d", shape, 53, *numbers)
    struct.pack_into("<2d", shape, 24, min(numbers[1::2]), max(numbers[1::2]))


def with_bit(shape, bit):
    """Sets a bit of the head of a shape."""
    shape[3] |= 1 << bit


of_shape("a corner is moved", f"{SHAPE} {IN_RANGES} 2; a shape of", OTHER, lambda shape: moved(shape, -300))
of_shape("a corner is moved by a millimetre", f"{SHAPE} {IN_RANGES} 2; a shape of", ALL, lambda shape: moved(shape, 0.001))
of_shape("a polygon is said to be empty", f"{SHAPE} {IN_RANGES} 2; a shape of", ONE, lambda shape: with_bit(shape, 4))
of_shape("a polygon is said to be an extension", f"{SHAPE} {IN_RANGES} 2; a shape of", ONE, lambda shape: with_bit(shape, 5))
of_sql("a polygon is that of another", f"{SHAPE} {IN_RANGES} 2; a shape of",
       f"UPDATE ranges SET geom = (SELECT geom FROM ranges WHERE {OTHER}) WHERE {ONE}")
of_sql("a polygon is a point", f"{SHAPE} {IN_RANGES} 2; a shape of",
       f"UPDATE ranges SET geom = (SELECT geom FROM fixes) WHERE {ONE}")
of_sql("a number of a polygon", f"has 12.5 {IN_RANGES} 8; [0-9.]+ is wanted", f"UPDATE ranges SET hectares = 12.5 WHERE {ONE}")
of_sql("a number as a text", f"has '12.5 ha' {IN_RANGES} 8", f"UPDATE ranges SET hectares = '12.5 ha' WHERE {ONE}")
of_sql("a unit of a polygon", f"has 'dm' {IN_RANGES} 11; 'm' is wanted", f"UPDATE ranges SET unit = 'dm' WHERE {ONE}")
of_sql("no time of a polygon", f"has None {IN_RANGES} 10", f"UPDATE ranges SET last = NULL WHERE {ONE}")
of_sql("a polygon is taken out", "has [0-9]+ in row [0-9] of gpkg_ogr_contents, column 2", f"DELETE FROM ranges WHERE {ONE}")
of_sql("a polygon is taken out and not counted", f"{IN_RANGES} 1", f"DELETE FROM ranges WHERE {ONE}", COUNTED)
of_sql("the last polygon is taken out and not counted", "has too few rows in ranges",
       "DELETE FROM ranges WHERE fid = (SELECT max(fid) FROM ranges)", COUNTED)
of_sql("a polygon stands twice", "has [0-9]+ in row [0-9] of gpkg_ogr_contents, column 2",
       f"INSERT INTO ranges SELECT 999, geom, animal, level, fixes, kept, corners, hectares, first, last, unit FROM ranges "
       f"WHERE {ONE}")
of_sql("a fix lies elsewhere", f"{SHAPE} {IN_FIXES} 2",
       f"UPDATE fixes SET geom = (SELECT geom FROM fixes WHERE n = 1) WHERE {FIX}")
of_sql("a fix was at another time", f"has '2020-01-01T00:00:00Z' {IN_FIXES} 5",
       f"UPDATE fixes SET time = '2020-01-01T00:00:00Z' WHERE {FIX}")
of_sql("a fix was a thousandth later", rf"has '20.*\.001Z' {IN_FIXES} 5",
       f"UPDATE fixes SET time = substr(time, 1, 19) || '.001Z' WHERE {FIX}")
of_sql("a fix is of another animal", f"has '[^']+' {IN_FIXES} 3",
       f"UPDATE fixes SET animal = (SELECT max(animal) FROM fixes) WHERE {FIX}")

of_sql("a style that hides its layer", "in row [0-9]+ of layer_styles, column 7",
       "UPDATE layer_styles SET styleQML = replace(styleQML, 'alpha=\"1\"', 'alpha=\"0\"')")
of_sql("a form of a layer", "has '<ui/>' in row 1 of layer_styles, column 12", "UPDATE layer_styles SET ui = '<ui/>'")
of_sql("a second style", "has .* in (row [0-9] of sqlite_sequence|layer_styles|gpkg_ogr_contents)",
       "INSERT INTO layer_styles (f_table_name, styleQML, styleSLD) VALUES ('ranges', '', '')")
of_sql("a description", "has 'Bor: 900 ha' in row [0-9] of gpkg_contents, column 4",
       "UPDATE gpkg_contents SET description = 'Bor: 900 ha' WHERE table_name = 'ranges'")
of_sql("another extent", "has 0.0 in row [0-9] of gpkg_contents, column 6",
       "UPDATE gpkg_contents SET min_x = 0.0 WHERE table_name = 'ranges'")
of_sql("another count of fixes", "has 7 in row [0-9] of gpkg_ogr_contents, column 2",
       "UPDATE gpkg_ogr_contents SET feature_count = 7 WHERE table_name = 'fixes'")
of_sql("another type of shapes", "has 'LINESTRING' in row [0-9] of gpkg_geometry_columns, column 3",
       "UPDATE gpkg_geometry_columns SET geometry_type_name = 'LINESTRING' WHERE table_name = 'ranges'")
of_sql("another number of a zone", "has 32634 in row [0-9] of gpkg_spatial_ref_sys, column 4",
       "UPDATE gpkg_spatial_ref_sys SET organization_coordsys_id = 32634 WHERE srs_id = 32633")
of_sql("another name of a zone", "has 'WGS 84 / UTM zone 34N' in row [0-9] of gpkg_spatial_ref_sys, column 1",
       "UPDATE gpkg_spatial_ref_sys SET srs_name = 'WGS 84 / UTM zone 34N' WHERE srs_id = 32633")
of_sql("another scale of a zone", "in row [0-9] of gpkg_spatial_ref_sys, column 5",
       "UPDATE gpkg_spatial_ref_sys SET definition = replace(definition, '0.9996', '0.9') WHERE srs_id = 32633")
of_sql("another spheroid of a zone", "in row [0-9] of gpkg_spatial_ref_sys, column 5",
       "UPDATE gpkg_spatial_ref_sys SET definition = replace(definition, '6378137', '6377397') WHERE srs_id = 32633")
of_sql("another spheroid of degrees", "in row [0-9] of gpkg_spatial_ref_sys, column 5",
       "UPDATE gpkg_spatial_ref_sys SET definition = replace(definition, '6378137', '6377397') WHERE srs_id = 4326")
of_sql("layers without a reference system", "has -1 in row [0-9] of gpkg_contents, column 10",
       "UPDATE gpkg_contents SET srs_id = -1 WHERE table_name <> 'layer_styles'",
       "UPDATE gpkg_geometry_columns SET srs_id = -1")

of_sql("a box of the index is moved", "in row 1 of rtree_ranges_geom, column 2",
       "UPDATE rtree_ranges_geom SET minx = 0, maxx = 1 WHERE id = 1")
of_sql("the index lacks a polygon", "in row 1 of rtree_ranges_geom, column 1", "DELETE FROM rtree_ranges_geom WHERE id = 1")
# Younger versions of SQLite say it of the whole file.
of_sql("the index is not whole", "has an index rtree_ranges_geom that is not whole|is not whole: In RTree main.rtree_ranges_geom",
       "DELETE FROM rtree_ranges_geom_rowid WHERE rowid = 1")
of_sql("a column is added", "has another table ranges", "ALTER TABLE ranges ADD COLUMN area_ha REAL DEFAULT 12.5")
of_sql("a column that is generated", "has another table ranges",
       "ALTER TABLE ranges ADD COLUMN area_ha REAL GENERATED ALWAYS AS (10 * hectares) VIRTUAL")
of_schema("a column has a default", "has another table ranges", "ranges", '"hectares" REAL', '"hectares" REAL DEFAULT 9')
of_schema("a column has a check", "has another table ranges", "ranges", '"hectares" REAL',
          '"hectares" REAL CHECK (hectares > 9)')
of_schema("a column has a collation", "has another table fixes", "fixes", '"animal" TEXT', '"animal" TEXT COLLATE NOCASE')
of_schema("a column is of truths", "has another table ranges", "ranges", '"kept" (MEDIUMINT|INTEGER)', '"kept" BOOLEAN')
of_sql("a layer is renamed", "has (no )?table (mcp|ranges)", "ALTER TABLE ranges RENAME TO mcp",
       "UPDATE gpkg_contents SET table_name = 'mcp' WHERE table_name = 'ranges'")
of_sql("other names of columns", "has table gpkg_data_columns",
       "CREATE TABLE gpkg_data_columns (table_name TEXT, column_name TEXT, name TEXT, title TEXT, constraint_name TEXT)",
       "INSERT INTO gpkg_data_columns VALUES ('ranges', 'level', 'hectares', 'hectares', 'area')")
of_sql("other words for values", "has table gpkg_data_column_constraints",
       "CREATE TABLE gpkg_data_column_constraints (constraint_name TEXT, constraint_type TEXT, value TEXT, description TEXT)",
       "INSERT INTO gpkg_data_column_constraints VALUES ('area', 'enum', '95', '900 ha')")
of_sql("remarks", "has table gpkg_metadata", "CREATE TABLE gpkg_metadata (id INTEGER PRIMARY KEY, metadata TEXT)",
       "INSERT INTO gpkg_metadata VALUES (1, 'seen by the authority')")
for table in ("rtree_mcp", "gpkg_mcp", "sqlitemcp"):
    of_sql(f"a second layer, {table}", f"has table {table}", f"CREATE TABLE {table} AS SELECT * FROM ranges",
           f"INSERT INTO gpkg_contents (table_name, data_type, srs_id) VALUES ('{table}', 'features', 32633)",
           f"INSERT INTO gpkg_geometry_columns VALUES ('{table}', 'geom', 'POLYGON', 32633, 0, 0)")
of_sql("a trigger", "has trigger later", "CREATE TRIGGER later AFTER UPDATE ON ranges BEGIN DELETE FROM fixes; END")
of_sql("a trigger by the name of one that counts styles", "has (another )?trigger trigger_insert_feature_count_layer_styles",
       "DROP TRIGGER IF EXISTS trigger_insert_feature_count_layer_styles",
       "CREATE TRIGGER trigger_insert_feature_count_layer_styles AFTER UPDATE ON ranges BEGIN DELETE FROM fixes; END")
of_sql("a table by the name of a trigger that counts styles", "has table trigger_delete_feature_count_layer_styles",
       "DROP TRIGGER IF EXISTS trigger_delete_feature_count_layer_styles",
       "CREATE TABLE trigger_delete_feature_count_layer_styles AS SELECT * FROM ranges")
of_sql("another count of styles", "in row [0-9] of gpkg_ogr_contents|too many rows in gpkg_ogr_contents",
       "INSERT OR REPLACE INTO gpkg_ogr_contents VALUES ('layer_styles', 7)")
of_sql("an index", "has index later", "CREATE INDEX later ON ranges (hectares)")
of_sql("another definition of reference systems", "has another table gpkg_spatial_ref_sys",
       "ALTER TABLE gpkg_spatial_ref_sys ADD COLUMN definition_12_063 TEXT",
       "UPDATE gpkg_spatial_ref_sys SET definition_12_063 = 'undefined'")
of_sql("a view in place of a table", "has no index sqlite_autoindex_gpkg_contents_1", "PRAGMA legacy_alter_table = ON",
       "ALTER TABLE gpkg_contents RENAME TO own",
       "CREATE VIEW gpkg_contents AS SELECT * FROM own WHERE table_name <> 'fixes'")

of_sql("another application", HEAD, "PRAGMA application_id = 7")
of_sql("another version of the format", HEAD, "PRAGMA user_version = 10500")
of_bytes("bytes behind the base", "has other bytes than its pages", lambda content: content.extend(b"900 ha"))
of_bytes("a base that is cut off", "has other bytes than its pages", lambda content: content.__delitem__(slice(3000, None)))
of_bytes("no base", "is no GeoPackage", lambda content: content.__delitem__(slice(50, None)))
of_bytes("a log of changes is wanted", HEAD, lambda content: content.__setitem__(slice(18, 20), b"\2\2"))
of_bytes("a page is overwritten", "is not whole|cannot be read|has ",
         lambda content: content.__setitem__(slice(4096, 8192), bytes(4096)))

of_sql("moments without thousandths", None, "UPDATE fixes SET time = substr(time, 1, 19) || 'Z'")
of_sql("a version of the format that GDAL writes", None, "PRAGMA user_version = 10400")
of_schema("another name of whole numbers", None, "ranges", '"level" (INTEGER|MEDIUMINT)',
          lambda found: f'"level" {"INTEGER" if found[1] == "MEDIUMINT" else "MEDIUMINT"}')


def fault_of(path, made, wanted):
    """How the verifier does not say what is wanted; None where it does."""
    try:
        said, _ = difference(path, made, [NAME])
    except Fault as fault:
        said = str(fault)
    is_said = said == wanted or None not in (said, wanted) and re.search(f"^ranges.gpkg .*{wanted}", said)
    return None if is_said else f"it says {said}"


def main(given, made):
    """Tries all forgeries."""
    said, _ = difference(given, made, [NAME])
    print(f"failed an honest base: {said!r}" if said else "ok an honest base")
    with tempfile.TemporaryDirectory() as room:
        for name, (forge, wanted) in FORGERIES.items():
            path = Path(room, "ranges.gpkg")
            shutil.copyfile(given, path)
            forge(path)
            fault = fault_of(path, made, wanted)
            print(f"failed {name}: {fault!r}" if fault else f"ok {name}", flush=True)


if __name__ == "__main__":
    main(*map(Path, sys.argv[1:]))
