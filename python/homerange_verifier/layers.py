"""The layers of ranges.gpkg, compared with those that were made again: the head of the file, each entry of its schema, and
each row of each table as values. What may differ is named here: moments and definitions of reference systems are compared
by what they say, since writers have several forms of them; a few columns and one table have two declarations; and SQLite
counts changes and writes its version into the head. docs/EVIDENCE.md, Layers, says so."""

from __future__ import annotations

import re
import sqlite3
import struct
from contextlib import closing
from hashlib import sha256
from itertools import zip_longest
from pathlib import Path
from sqlite3 import Connection
from typing import Any, Iterator, Sequence

from .lines import Fault

HEAD = 100
SIZES = struct.Struct(">H10xI")  # of a page, and how many there are, from byte 16 on
VERSION, VERSIONS = slice(60, 64), (10200, 10300, 10400)  # of the format, by its place in the head, that GDAL 3.6 to 3.13 write
# Bytes of the head that count changes and pages, and that say which version of SQLite wrote.
COUNTED = [range(24, 28), range(28, 32), range(40, 44), range(92, 100)]
Entry = tuple[str, str, str, str | None]  # of a schema: type, name, table and statement
Row = tuple[Any, ...]
SCHEMA = "SELECT type, name, tbl_name, sql FROM sqlite_master"
STYLES = "layer_styles"
# What GDAL makes of the styles where they come from R; Python makes the table by a statement of its own.
BY_R = re.compile('CREATE TABLE "layer_styles" [(] "id" INTEGER PRIMARY KEY AUTOINCREMENT NOT NULL(, "[A-Za-z_]+" '
                  '(TEXT|BOOLEAN|DATETIME)){12}[)]')
COUNTERS = [f"trigger_{what}_feature_count_fixes" for what in ("insert", "delete")]
MICROMETRE, MILLIMETRE = 1e-6, 5e-9  # in metres; in degrees, and less
MOMENT = re.compile("([0-9]{4}-[0-9]{2}-[0-9]{2}T[0-9]{2}:[0-9]{2}:[0-9]{2})[.]000Z")
SYSTEMS, ALWAYS = "gpkg_spatial_ref_sys", (-1, 0, 4326)  # the numbers of the reference systems that each file has
# Names within the definition of a reference system, which versions of PROJ change.
NAME = re.compile('\\b(COMPD_CS|PROJCS|GEOGCS|DATUM|SPHEROID|PRIMEM|VERT_CS|VERT_DATUM)\\["[^"]*"')
AUTHORITY = re.compile(',AUTHORITY\\["[A-Za-z]+","[0-9]+"\\]')
# How GDAL before 3.13 has a spatial index follow its layer where a shape is another, or a row has another number, and how it does
# since.
IS_SHAPE, IS_NONE = ('({row}."geom" NOTNULL AND NOT ST_IsEmpty({row}."geom"))', '({row}."geom" ISNULL OR ST_IsEmpty({row}."geom"))')
NEW, OLD, WAS_NONE = IS_SHAPE.format(row="NEW"), IS_SHAPE.format(row="OLD"), IS_NONE.format(row="OLD")
ENDS = 'ST_MinX(NEW."geom"), ST_MaxX(NEW."geom"),ST_MinY(NEW."geom"), ST_MaxY(NEW."geom")'
PUT = 'INTO "rtree_ranges_geom" VALUES (NEW."fid",' + ENDS + "); END"
ROW = f'AFTER UPDATE ON "ranges" WHEN OLD."fid" != NEW."fid" AND {NEW} BEGIN DELETE FROM "rtree_ranges_geom" WHERE id = OLD."fid"; '
SHAPE = f'AFTER UPDATE OF "geom" ON "ranges" WHEN OLD."fid" = NEW."fid" AND {NEW}'
SET = ('UPDATE "rtree_ranges_geom" SET minx = ST_MinX(NEW."geom"), maxx = ST_MaxX(NEW."geom"),miny = ST_MinY(NEW."geom"), '
       'maxy = ST_MaxY(NEW."geom") WHERE id = NEW."fid";END')
BEFORE = {1: f"{SHAPE} BEGIN INSERT OR REPLACE {PUT}", 3: f"{ROW}INSERT OR REPLACE {PUT}"}
SINCE = {5: BEFORE[3], 6: f"{SHAPE} AND {OLD} BEGIN {SET}", 7: f"{SHAPE} AND {WAS_NONE} BEGIN INSERT {PUT}"}
# What GDAL since 3.13 has besides where a reference system has a second definition: an epoch, which no system here has.
EXTENSIONS, EPOCH, SECOND = "gpkg_extensions", ", epoch DOUBLE)", "gpkg_crs_wkt"
OF_EPOCH = (SYSTEMS, "epoch", f"{SECOND}_1_1", "http://www.geopackage.org/spec/#extension_crs_wkt", "read-write")
OF_SECOND = (SYSTEMS, "definition_12_063", f"{SECOND}_1_1", "http://www.geopackage.org/spec120/#extension_crs_wkt", "read-write")
INDEX = re.compile('CREATE VIRTUAL TABLE "(rtree_[a-z]+_geom)" USING rtree[(]id, minx, maxx, miny, maxy[)]')


def triggers(statements: dict[int, str]) -> set[Entry]:
    """Entries of triggers of the spatial index, by their numbers."""
    names = {f"rtree_ranges_geom_update{number}": statement for number, statement in statements.items()}
    return {("trigger", name, "ranges", f'CREATE TRIGGER "{name}" {statement}') for name, statement in names.items()}


def head_fault(path: Path, wanted: Path) -> str | None:
    """How the head of a file is not that of such files, or its length not that of its pages."""
    with open(path, "rb") as file, open(wanted, "rb") as other:
        own, wish = bytearray(file.read(HEAD)), bytearray(other.read(HEAD))
    if len(own) < HEAD:
        return f"{path.name} is no GeoPackage"
    size, count = SIZES.unpack_from(own, 16)
    if size * count != path.stat().st_size:
        return f"{path.name} has other bytes than its pages"
    if int.from_bytes(own[VERSION], "big") in VERSIONS:
        own[VERSION] = wish[VERSION]
    for at in (place for each in COUNTED for place in each):
        own[at] = wish[at] = 0
    return None if own == wish else f"{path.name} has another head than such files have"


def entries_of(base: Connection) -> set[Entry]:
    """The entries of a schema, in the one form that they have here."""
    found: set[Entry] = set()
    entries = base.execute(SCHEMA).fetchall()
    # GDAL counts styles as it counts fixes, where they come from R.
    counters = [statement.replace("fixes", STYLES) for _, name, _, statement in entries if name in COUNTERS]
    for kind, name, table, statement in entries:
        if statement in counters:
            continue
        if kind == "table" and name in ("ranges", "fixes"):
            statement = str(statement).replace(" MEDIUMINT", " INTEGER")
        elif kind == "table" and name == SYSTEMS:
            statement = str(statement).replace(EPOCH, ")")
        elif kind == "table" and name == STYLES:
            statement = "" if BY_R.fullmatch(str(statement)) else statement
        found.add((kind, name, table, statement))
    if len({(kind, name) for kind, name, _, _ in entries}) < len(entries):
        raise sqlite3.DatabaseError("two entries of its schema have one name")
    is_since = triggers(SINCE) <= found and not triggers(BEFORE) & found
    return found - triggers(SINCE) | triggers(BEFORE) if is_since else found


def schema_fault(base: Connection, wanted: Connection, name: str) -> str | None:
    """Which entry of a schema is not one that such files have, or is not there."""
    own, wish = entries_of(base), entries_of(wanted)
    if ("table", STYLES, STYLES, "") in own:
        wish = {entry for entry in wish if entry[1] != STYLES} | {("table", STYLES, STYLES, "")}
    odd = sorted(own ^ wish, key=str)
    if not odd:
        return None
    kind, entry = odd[0][:2]
    other = "another " if any(each[1] == entry for each in own) and any(each[1] == entry for each in wish) else ""
    return f"{name} has {other}{kind} {entry}" if odd[0] in own else f"{name} has {'another' if other else 'no'} {kind} {entry}"


def normal(value: Any) -> Any:
    """A value in its one form: a moment without thousandths of a second, a definition without codes of its parts."""
    if isinstance(value, str):
        found = MOMENT.fullmatch(value)
        return f"{found[1]}Z" if found else AUTHORITY.sub("", value) if value.startswith(("PROJCS[", "GEOGCS[")) else value
    return value


def is_near(table: str, value: Any, other: Any) -> bool:
    """Whether the ends of a layer's box are the same to a micrometre: SQLite reads them from text, and may lose as much."""
    return table == "gpkg_contents" and isinstance(value, float) and abs(value - other) <= MICROMETRE


def is_same_system(row: Row, wish: Row, names: Sequence[str], wanted: Connection) -> bool:
    """Whether a row has the reference system that is wanted: its code, its numbers, its place on the earth and its name, which
    may be the one that the record of the tracks has. What is behind the sixth column, such as a second definition, has no other
    form."""
    title = NAME.match(str(row[4]))
    is_named = {row[0], title[0].split('"')[1] if title else row[0]} <= {wish[0], *names}
    is_it = is_named and row[1] not in ALWAYS and (row[1:4], row[6:]) == (wish[1:4], wish[6:]) and row[5] in (None, wish[5])
    place = wanted.execute("SELECT min(min_x), min(min_y) FROM gpkg_contents WHERE data_type = 'features'").fetchone()
    return is_it and has_same_numbers(row, wish) and is_same_place(str(row[4]), str(wish[4]), place)


def has_same_numbers(row: Row, wish: Row) -> bool:
    """Whether the definitions of two systems are the same but for names and codes of their parts."""
    own, other = (AUTHORITY.sub("", NAME.sub(r"\1", str(each[4]))) for each in (row, wish))
    return own == other


def is_same_place(definition: str, wanted: str, place: Row) -> bool:
    """Whether a place of two definitions is one on the earth, to a millimetre."""
    if definition == wanted:
        return True
    from pyproj import Transformer
    from pyproj.exceptions import ProjError

    try:
        ends = [Transformer.from_crs(text, "EPSG:4326", always_xy=True).transform(*place) for text in (definition, wanted)]
    except ProjError:
        return False
    return all(abs(one - other) <= MILLIMETRE for one, other in zip(*ends))


def has_other_form(row: Row, wish: Row, names: Sequence[str]) -> bool:
    """Whether a system without a code, and thus without names, differs from the one that is wanted in the form of its definition
    alone."""
    is_it = not names and row[1] not in ALWAYS and (*row[:4], *row[5:]) == (*wish[:4], *wish[5:])
    return is_it and not has_same_numbers(row, wish)


def rows_of(base: Connection, table: str, order: str = "") -> Iterator[Row]:
    """The rows of a table, without an epoch that is none."""
    rows: Iterator[Row] = base.execute(f'SELECT * FROM "{table}"{order}')
    if table == SYSTEMS:
        return (row[:7] if row[7:] == (None,) else row for row in rows)
    if table == EXTENSIONS:
        return ((*row[:2], SECOND, *row[3:]) if row == OF_SECOND else row for row in rows if row != OF_EPOCH)
    return rows


def table_fault(base: Connection, wanted: Connection, table: str, names: Sequence[str]) -> str | None:
    """How a row of a table is not the one that is wanted."""
    order = " ORDER BY 1" if table.startswith("rtree_") else ""
    counted = [(STYLES, count) for count, in wanted.execute(f"SELECT count(*) FROM {STYLES}")]  # as GDAL does, from R
    own = (row for row in rows_of(base, table, order) if table != "gpkg_ogr_contents" or row not in counted)
    for number, (row, wish) in enumerate(zip_longest(own, rows_of(wanted, table, order)), 1):
        if row == wish:
            continue
        if row is None or wish is None:
            return f"has {'too few' if row is None else 'too many'} rows in {table}"
        if table == SYSTEMS and (is_same_system(row, wish, names, wanted) or has_other_form(row, wish, names)):
            continue
        for at, (value, other) in enumerate(zip_longest(row, wish)):
            if type(value) is not type(other) or normal(value) != normal(other) and not is_near(table, value, other):
                return f"has {shown(value)} in row {number} of {table}, column {at + 1}; {shown(other)} is wanted"
    return None


def shown(value: Any) -> str:
    """A value as what is said has it, a shape by its checksum."""
    text = repr(value) if not isinstance(value, bytes) else f"a shape of {len(value)} bytes, {sha256(value).hexdigest()[:32]}"
    return text if len(text) <= 80 else f"{text[:60]} .. {text[-15:]}"


def index_fault(base: Connection, table: str) -> str | None:
    """How a spatial index is not whole, so that a window would not show what is in it."""
    said = base.execute("SELECT rtreecheck(?)", (table,)).fetchone()[0]
    return None if said == "ok" else f"has an index {table} that is not whole"


def tables_in(base: Connection) -> tuple[list[str], list[str]]:
    """The tables whose rows are compared, and those of them that are spatial indices, whose own tables are not: two versions of
    SQLite fill these in two ways."""
    tables = {name: str(statement) for kind, name, _, statement in base.execute(SCHEMA) if kind == "table"}
    indices = [name for name, statement in tables.items() if INDEX.fullmatch(statement)]
    shadows = {f"{name}_{part}" for name in indices for part in ("node", "parent", "rowid")}
    return [name for name in tables if name not in shadows], indices


def fault_of(base: Connection, wanted: Connection, name: str, names: Sequence[str]) -> str | None:
    fault = schema_fault(base, wanted, name)
    if fault:
        return fault
    tables, indices = tables_in(wanted)
    said = base.execute("PRAGMA integrity_check(1)").fetchone()[0]
    if said != "ok":
        return f"{name} is not whole: {' '.join(said.split())}"
    faults = (fault for table in tables for fault in (
        table in indices and index_fault(base, table) or None, table_fault(base, wanted, table, names)) if fault)
    found = next(faults, None)
    return found and f"{name} {found}"


def opened(path: Path) -> Connection:
    return sqlite3.connect(f"{path.resolve().as_uri()}?mode=ro&immutable=1", uri=True)


def difference(path: Path, wanted: Path, names: Sequence[str] = ()) -> tuple[str | None, bool]:
    """How a GeoPackage is not the one that was made again; None where it is. Its reference system may have one of these names.
    Without one it has no code, and its definition may have another form: whether it has."""
    if path.read_bytes() == wanted.read_bytes():
        return None, False
    fault = head_fault(path, wanted)
    if fault:
        return fault, False
    try:
        with closing(opened(path)) as base, closing(opened(wanted)) as other:
            base.execute("PRAGMA trusted_schema = OFF")
            fault = fault_of(base, other, path.name, names)
            rows, wishes = ([*rows_of(each, SYSTEMS)] if fault is None else [] for each in (base, other))
            return fault, any(has_other_form(row, wish, names) for row, wish in zip(rows, wishes))
    except (sqlite3.Error, UnicodeDecodeError) as error:
        raise Fault(f"{path.name} cannot be read: {error}") from None
