"""ranges.py FOLDER EPSG UNITS LEVELS FIXES: whether the tables, layers and the page in the folder are those of the fixes, lines
of an animal, an easting and a northing, of which so many units are a metre."""
import csv
import sys
from pathlib import Path

import geopandas
import pandas
from exact import area2, covers, hull, nearest
from pages import Page, area, share

sys.path.insert(0, str(Path(__file__).resolve().parents[2] / "python"))


def cell_text(cell):
    """The text of a cell of a table, which has an apostrophe before it where a spreadsheet would compute it or hide one."""
    return cell.removeprefix("'")


def read_tracks(path):
    """The points of each animal."""
    tracks = {}
    with open(path, encoding="utf-8", newline="") as file:
        for name, easting, northing in csv.reader(file):
            tracks.setdefault(name, []).append((int(easting), int(northing)))
    return tracks


def check_summary(folder, units, levels, tracks):
    summary = pandas.read_csv(folder / "summary.csv", keep_default_na=False, dtype={"animal": str})
    summary["animal"] = summary["animal"].map(cell_text)
    summary = summary.set_index(["animal", "level"])
    assert {*summary.index} == {(name, level) for name in tracks for level in levels}
    for (name, level), row in summary.iterrows():
        kept = nearest(tracks[name], level)
        assert row["hectares"] == area2(hull(kept)) / (20000 * units ** 2), (name, level)
        assert (row["fixes"], row["kept"], row["corners"]) == (len(tracks[name]), len(kept), len(hull(kept)))


def check_layer(folder, epsg, units, level, tracks):
    corners = {name: hull(nearest(points, level)) for name, points in tracks.items()}
    drawn = {name for name in corners if area2(corners[name])}
    if not drawn:
        return
    layer = geopandas.read_file(folder / "ranges.gpkg", layer="ranges")
    layer = layer[layer["level"] == level]
    assert layer.crs.to_epsg() == epsg
    assert {*layer["animal"]} == drawn
    for name, polygon in zip(layer["animal"], layer.geometry):
        points = [(round(units * east), round(units * north)) for east, north in polygon.exterior.coords]
        assert hull(points) == corners[name], (name, level)


def check_fixes(folder, epsg, units, tracks):
    layer = geopandas.read_file(folder / "ranges.gpkg", layer="fixes")
    assert layer.crs.to_epsg() == epsg
    found = {}
    for name, point in zip(layer["animal"], layer.geometry):
        found.setdefault(name, []).append((round(units * point.x), round(units * point.y)))
    assert found == tracks


def check_overlaps(folder, tracks):
    overlaps = pandas.read_csv(folder / "overlaps.csv", keep_default_na=False, index_col=0)
    overlaps = overlaps.rename(index=cell_text, columns=cell_text)
    for name, points in tracks.items():
        for other, others in tracks.items():
            corners = hull(others)
            if len(corners) > 2:
                share = sum(covers(corners, point) for point in points) / len(points)
                assert overlaps.loc[name, other] == round(share, 4), (name, other)


def check_page(folder, units, levels, tracks):
    page = Page(folder / "report.html")
    assert {*page.animals} == {*tracks}
    for name, points in tracks.items():
        assert page.animals[name]["used"] == str(len(points))
        for level in levels:
            assert page.animals[name][f"hectares_{level}"] == area(area2(hull(nearest(points, level))), units), (name, level)
    for (name, other), text in page.overlaps.items():
        corners = hull(tracks[other])
        if len(corners) > 2:
            count = sum(covers(corners, point) for point in tracks[name])
            assert text == share(count, len(tracks[name])), (name, other)


def main():
    folder, epsg, units, levels, fixes = Path(sys.argv[1]), int(sys.argv[2]), int(sys.argv[3]), sys.argv[4], sys.argv[5]
    tracks, levels = read_tracks(fixes), [int(level) for level in levels.split(",")]
    check_summary(folder, units, levels, tracks)
    for level in levels:
        check_layer(folder, epsg, units, level, tracks)
    check_fixes(folder, epsg, units, tracks)
    check_overlaps(folder, tracks)
    check_page(folder, units, levels, tracks)
    for picture in ("curves.png", "ranges.png"):
        assert (folder / picture).read_bytes().startswith(b"\x89PNG")


if __name__ == "__main__":
    main()
