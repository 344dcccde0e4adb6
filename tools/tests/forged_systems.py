#!/usr/bin/env python3
"""forged_systems.py PROGRAM: whether tools/verify.py finds layers that lie elsewhere, by another reference system.

Folders are made of a data frame on a grid of ESRI, on one that has a definition and no code, on one with heights, and on one that
has a second definition in ranges.gpkg, by PROGRAM. Each forgery changes the definition in ranges.gpkg, or a row beside it, with all
checksums made anew, and names what verify.py has to say; where it names nothing, nobody can know. Prints 'ok NAME' or
'failed NAME: ..' for each. Needs geopandas."""
import os
import sqlite3
import sys
import warnings
from contextlib import closing
from pathlib import Path

from forged_layers import execute
from forging import Forgeries, Hand, try_all
from honest import frame  # which finds the package

ESRI, LAEA = "ESRI:102013", "+proj=laea +lat_0=46 +lon_0=14 +x_0=100000 +y_0=100000 +datum=WGS84 +units=m +no_defs"
ELSEWHERE = "ranges.gpkg has .* in row 4 of gpkg_spatial_ref_sys, column 5; 'PROJCS.*' is wanted"
OTHER_FORM = "not looked at: the definition of the reference system in ranges.gpkg: '.*' has no code, and writers have several"
HEIGHTS, EQUAL_EARTH = "EPSG:5972", "EPSG:8857"
of_esri, of_laea, of_heights, of_equal_earth = Forgeries(), Forgeries(), Forgeries(), Forgeries()


class Grid(Hand):
    """One who forges what the package for Python made of a data frame on a grid."""

    honest, export = 3, None

    def __init__(self, program, room, crs, place):
        from homerange import home_range

        self.program, self.room, self.folder, self.outside = program, room, room / "hand-in", room / "outside"
        home_range(frame(place), levels=(95,), crs=crs).evidence(self.folder)

    def system(self, old, new, column="definition"):
        """Changes the reference system of the layers."""
        with closing(sqlite3.connect(self.path("ranges.gpkg"))) as base:
            before, number = base.execute(f"SELECT {column}, srs_id FROM gpkg_spatial_ref_sys WHERE srs_id NOT IN (-1, 0, 4326)").fetchone()
            assert old in before, before
            base.execute(f"UPDATE gpkg_spatial_ref_sys SET {column} = ? WHERE srs_id = ?", (before.replace(old, new), number))
            base.commit()
        self.seal()


def renamed(forgeries, name, *wanted, changes):
    """Keeps a forgery that changes the reference system."""
    forgeries(name, *wanted)(lambda hand: [hand.system(*change) for change in changes])


DATUM = ('DATUM["European_Datum_1950"', 'DATUM["WGS_1984"')
NO_CODES = ((',AUTHORITY["EPSG","6230"]', ""), (',AUTHORITY["EPSG","4230"]', ""))
renamed(of_esri, "another datum", ELSEWHERE, changes=[DATUM, *NO_CODES])
renamed(of_esri, "another datum and its ellipsoid", ELSEWHERE,
        changes=[DATUM, *NO_CODES, ('GEOGCS["ED50"', 'GEOGCS["WGS 84"'), ('"International 1924"', '"WGS 84"')])
renamed(of_esri, "another datum and its codes", ELSEWHERE,
        changes=[('DATUM["European_Datum_1950"', 'DATUM["Pulkovo_1942"'), ('"6230"', '"6284"'), ('"4230"', '"4284"')])
renamed(of_esri, "another meridian", "ranges.gpkg has .* of gpkg_spatial_ref_sys, column 5",
        changes=[('PRIMEM["Greenwich",0', 'PRIMEM["Ferro",-17.6666666666667')])
renamed(of_esri, "another name of the system", "ranges.gpkg has .* of gpkg_spatial_ref_sys, column 5",
        changes=[('PROJCS["Europe', 'PROJCS["Approved_Europe')])
renamed(of_esri, "another authority", "ranges.gpkg has 'EPSG' in row 4 of gpkg_spatial_ref_sys, column 3",
        changes=[("ESRI", "EPSG", "organization")])
renamed(of_esri, "the same datum by the name that ESRI has", changes=[('"European_Datum_1950"', '"D_European_1950"')])
renamed(of_esri, "the same datum with blanks", changes=[('"European_Datum_1950"', '"European Datum 1950"')])
renamed(of_esri, "the same datum without codes", changes=NO_CODES)
renamed(of_laea, "another datum of a definition", ELSEWHERE,
        changes=[('DATUM["WGS_1984"', 'DATUM["Pulkovo_1942"'), ('AUTHORITY["EPSG","6326"]', 'AUTHORITY["EPSG","6284"]')])
renamed(of_laea, "another form of a definition", OTHER_FORM, changes=[(',AXIS["Easting",EAST],AXIS["Northing",NORTH]', "")])
renamed(of_laea, "another name beside a definition", "ranges.gpkg has 'approved' in row 4 of gpkg_spatial_ref_sys, column 1",
        changes=[("unknown", "approved", "srs_name")])

renamed(of_heights, "the names of parts that a later version of PROJ has",
        changes=[('PROJCS["ETRS89 / UTM', 'PROJCS["ETRS89-NOR [EUREF89] / UTM'), ('GEOGCS["ETRS89"', 'GEOGCS["ETRS89-NOR [EUREF89]"'),
                 ('VERT_CS["NN2000 height"', 'VERT_CS["NN2000:2018 height"'),
                 ('VERT_DATUM["Norway Normal Null 2000"', 'VERT_DATUM["Norway Normal Null 2000:2018"')])
renamed(of_heights, "another name of the system with heights", "ranges.gpkg has .* of gpkg_spatial_ref_sys, column 5",
        changes=[('COMPD_CS["ETRS89', 'COMPD_CS["Approved')])
renamed(of_heights, "another meridian of the system with heights", "ranges.gpkg has .* of gpkg_spatial_ref_sys, column 5",
        changes=[('PARAMETER["central_meridian",9]', 'PARAMETER["central_meridian",15]')])
renamed(of_equal_earth, "another meridian of a second definition", "ranges.gpkg has .* of gpkg_spatial_ref_sys, column 7",
        changes=[('natural origin",0,', 'natural origin",10,', "definition_12_063")])

EPOCH = [("ALTER TABLE gpkg_spatial_ref_sys ADD COLUMN epoch DOUBLE",),
         ("UPDATE gpkg_extensions SET extension_name = 'gpkg_crs_wkt_1_1' WHERE extension_name = 'gpkg_crs_wkt'",),
         ("INSERT INTO gpkg_extensions VALUES ('gpkg_spatial_ref_sys', 'epoch', 'gpkg_crs_wkt_1_1', "
          "'http://www.geopackage.org/spec/#extension_crs_wkt', 'read-write')",)]


@of_equal_earth("a second definition as GDAL 3.13 writes it")
def _(hand):
    execute(hand.path("ranges.gpkg"), *EPOCH)
    hand.seal()


@of_equal_earth("an epoch", "ranges.gpkg has 2040.5 in row 4 of gpkg_spatial_ref_sys, column 8; None is wanted")
def _(hand):
    execute(hand.path("ranges.gpkg"), *EPOCH, ("UPDATE gpkg_spatial_ref_sys SET epoch = 2040.5 WHERE srs_id = ?", 8857))
    hand.seal()


@of_laea("a table beside a system of words alone", "summary.csv is another one than is made again: line 2 has",
         "not looked at: layers and page: the reference system 'grid of the park' has no code and no definition")
def _(hand):
    hand.sub("tracks/split.txt", "^option,crs,.*", "option,crs,grid of the park")
    hand.sub("summary.csv", "[0-9]$", "")
    hand.seal_files()


@of_laea("an area beside another form of a definition", "ranges.gpkg has 12.5 in row 1 of ranges, column 8")
def _(hand):
    execute(hand.path("ranges.gpkg"), ("UPDATE ranges SET hectares = 12.5 WHERE fid = 1",))
    hand.system(',AXIS["Easting",EAST],AXIS["Northing",NORTH]', "")


if __name__ == "__main__":
    warnings.simplefilter("ignore")
    os.environ["HOMERANGE"] = sys.argv[1]
    program = Path(sys.argv[1]).resolve()
    try_all(lambda room: Grid(program, room, ESRI, (460_000, 2_200_000)), of_esri)
    try_all(lambda room: Grid(program, room, LAEA, (100_000, 100_000)), of_laea)
    try_all(lambda room: Grid(program, room, HEIGHTS, (834_000, 6_667_000)), of_heights)
    try_all(lambda room: Grid(program, room, EQUAL_EARTH, (845_000, 4_715_000)), of_equal_earth)
