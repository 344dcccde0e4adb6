"""qgis_ranges.py: whether what the plugin for QGIS made in this folder (ranges.gpkg, corners.gpkg, curve.csv,
overlaps.csv) is what the report in report.txt says, and what QGIS's own convex hulls in hulls.gpkg have. With files as
arguments, it makes of them, one animal in each, the layer fixes.gpkg that this is asked of."""

import csv
import sys
from collections import defaultdict
from pathlib import Path

import geopandas
import pandas


def lines_of(path):
    """The lines of a report by their first word, without it."""
    found = defaultdict(list)
    for line in Path(path).read_text("utf-8").splitlines():
        kind, *fields = line.split(",")
        found[kind].append(fields)
    return found


def check_ranges(lines):
    """Each level of each animal has the kept fixes, corners and area of the report, and a polygon of that area."""
    ranges = geopandas.read_file("ranges.gpkg")
    fixes = {name: int(count) for name, _, count in lines["animal"]}
    wanted = {(name, int(level)): (fixes[name], int(kept), int(corners), int(area2) / 20_000)
              for name, level, kept, corners, area2 in lines["percent"]}
    found = {(row.animal, row.level): (row.fixes, row.kept, row.corners, row.hectares) for row in ranges.itertuples()}
    assert found == wanted, (found, wanted)
    for row in ranges.itertuples():
        has_none = row.geometry is None or row.geometry.is_empty
        assert has_none == (row.corners < 3), row
        assert has_none or abs(row.geometry.area / 10_000 - row.hectares) < 1e-9, row
    assert ranges.crs.to_epsg() == 32633, ranges.crs


def check_corners(lines):
    """The corners at 100 per cent are those of the report, in its order."""
    corners = geopandas.read_file("corners.gpkg")
    whole = corners[corners["level"] == 100]
    found = [[row.animal, str(row.corner), f"{row.geometry.x:.0f}", f"{row.geometry.y:.0f}"] for row in whole.itertuples()]
    assert found == lines["corner"], found[:3]


def check_tables(lines):
    """The curve is that of the rows, and overlaps are those of the report."""
    with open("curve.csv", encoding="utf-8", newline="") as file:
        curve = [(row["animal"], row["n"], row["corners"], round(float(row["hectares"]) * 20_000))
                 for row in csv.DictReader(file)]
    assert curve == [(name, n, corners, int(area2)) for name, n, _, corners, area2 in lines["row"]], curve[:3]
    with open("overlaps.csv", encoding="utf-8", newline="") as file:
        overlaps = [[row["animal"], row["other"], row["count"], row["fixes"]] for row in csv.DictReader(file)]
    assert overlaps == lines["overlap"], overlaps


def check_hulls():
    """The polygons of all fixes have the areas and the places of QGIS's own convex hulls."""
    ranges = geopandas.read_file("ranges.gpkg")
    own = ranges[ranges["level"] == 100].set_index("animal").geometry
    hulls = geopandas.read_file("hulls.gpkg").set_index("animal").geometry
    assert sorted(own.index) == sorted(hulls.index), (own.index, hulls.index)
    for animal, hull in hulls.items():
        assert abs(own[animal].area - hull.area) < 1e-3, (animal, own[animal].area, hull.area)
        assert own[animal].symmetric_difference(hull).area < 1e-3, animal


def write_fixes(paths):
    """Writes the fixes of files of the program as a layer of points."""
    table = pandas.concat(map(pandas.read_csv, paths), ignore_index=True)
    points = geopandas.points_from_xy(table["easting"], table["northing"], crs="EPSG:32633")
    geopandas.GeoDataFrame(table[["animal", "second"]], geometry=points).to_file("fixes.gpkg", driver="GPKG")


def main():
    if len(sys.argv) > 1:
        return write_fixes(sys.argv[1:])
    lines = lines_of("report.txt")
    check_ranges(lines)
    check_corners(lines)
    check_tables(lines)
    check_hulls()
    print(f"{len(lines['animal'])} animals")


if __name__ == "__main__":
    sys.exit(main())
