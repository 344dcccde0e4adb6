"""The GeoPackage of ranges: its layers as sqlite3 and geopandas read them, against polygons by hand and the fixes themselves."""
import os
import sqlite3
import struct
import time
import warnings
from contextlib import closing
from pathlib import Path

import pandas
import pytest
from exact import area2, cloud, hull, nearest
from frames import frame_of, noted

import homerange
from homerange import FileError, home_range, write_layers
from homerange.write.layers import put_layers

geopandas = pytest.importorskip("geopandas")
SQUARE = [(500000, 5000000), (500100, 5000000), (500100, 5000100), (500000, 5000100)]


def query(path, text):
    with closing(sqlite3.connect(path)) as base:
        return base.execute(text).fetchall()


@pytest.fixture(scope="module")
def herd():
    return {"fox": cloud(4, 40), "a 'b'": cloud(5, 25), "one": [(500004, 5000005)]}


def test_polygons_of_all_levels_stand_in_one_layer(herd, tmp_path):
    said = put_layers(home_range(frame_of(**herd), (50, 95), zone="33N"), tmp_path / "ranges.gpkg")
    assert said == ["not in ranges.gpkg, since they have no area at 50 %: one",
                    "not in ranges.gpkg, since they have no area at 95 %: one"]
    layer = geopandas.read_file(tmp_path / "ranges.gpkg", layer="ranges")
    assert [*layer.columns] == ["animal", "level", "fixes", "kept", "corners", "hectares", "first", "last", "unit", "geometry"]
    assert [*zip(layer["animal"], layer["level"])] == [("fox", 50), ("fox", 95), ("a 'b'", 50), ("a 'b'", 95)]
    assert layer.crs.to_epsg() == 32633 and {*layer["unit"]} == {"m"}
    for row in layer.itertuples():
        kept = nearest(herd[row.animal], row.level)
        assert (row.fixes, row.kept, row.corners) == (len(herd[row.animal]), len(kept), len(hull(kept)))
        assert row.hectares == area2(hull(kept)) / 20000
        assert {(round(x), round(y)) for x, y in row.geometry.exterior.coords} == {*hull(kept)}


@pytest.mark.parametrize("text", ["+proj=utm +zone=33 +datum=WGS84 +units=m", "+proj=laea +lat_0=46 +lon_0=15 +x_0=500000 +y_0=5000000 +units=m"])
def test_a_definition_has_no_code_in_the_layers(tmp_path, text):
    """Whatever writes them: pyogrio would write the code of the first, EPSG:32633, and fiona writes none."""
    from homerange.write.layers import placed

    frame = geopandas.GeoDataFrame(geometry=geopandas.points_from_xy([500000], [5000000]), crs=text)
    assert placed(frame).crs.to_epsg() is None and placed(frame).crs == frame.crs
    put_layers(home_range(frame_of(fox=SQUARE), 100, crs=text), tmp_path / "ranges.gpkg")
    systems = "SELECT srs_name, organization FROM gpkg_spatial_ref_sys WHERE srs_id = {}"
    for layer, system in query(tmp_path / "ranges.gpkg", "SELECT table_name, srs_id FROM gpkg_geometry_columns"):
        assert query(tmp_path / "ranges.gpkg", systems.format(system)) == [("unknown", "NONE")], layer


def test_fixes_are_numbered_with_their_times(herd, tmp_path):
    put_layers(home_range(frame_of(**herd), 100), tmp_path / "ranges.gpkg")
    layer = geopandas.read_file(tmp_path / "ranges.gpkg", layer="fixes")
    assert [*layer.columns] == ["animal", "n", "time", "geometry"]
    for name, points in herd.items():
        own = layer[layer["animal"] == name]
        assert own["n"].tolist() == [*range(1, len(points) + 1)]
        assert [(point.x, point.y) for point in own.geometry] == points
    box = query(tmp_path / "ranges.gpkg", "SELECT min_x, min_y, max_x, max_y FROM gpkg_contents WHERE table_name = 'fixes'")[0]
    sides = [*zip(*(point for points in herd.values() for point in points))]
    assert box == (min(sides[0]), min(sides[1]), max(sides[0]), max(sides[1]))


def test_many_fixes_are_written(tmp_path):
    points = {"fox": cloud(6, 230), "owl": cloud(7, 173)}
    put_layers(home_range(frame_of(**points), 100), tmp_path / "ranges.gpkg")
    rows = query(tmp_path / "ranges.gpkg", "SELECT fid, animal, n, time, geom FROM fixes ORDER BY fid")
    assert [row[3] for row in rows] == [f"{time:%Y-%m-%dT%H:%M}:00.000Z" for time in frame_of(**points)["timestamp"]]
    assert [row[:3] for row in rows] == [
        (fid, name, n) for fid, (name, n) in enumerate([("fox", n) for n in range(1, 231)] + [("owl", n) for n in range(1, 174)], 1)]
    assert [struct.unpack("<dd", row[4][-16:]) for row in rows] == [*points["fox"], *points["owl"]]
    assert query(tmp_path / "ranges.gpkg", "SELECT feature_count FROM gpkg_ogr_contents WHERE table_name = 'fixes'") == [(403,)]


def test_times_are_those_of_utc(tmp_path):
    """A clock that is two hours before UTC, and a time that pandas has not."""
    frame = frame_of(a=SQUARE)
    frame["timestamp"] = ["2024-05-01 00:00:02", "2024-05-01 01:00", "2024-05-01 02:00", "2024-05-01 03:00"]
    ranges = home_range(frame, 100, tz="Europe/Ljubljana")
    put_layers(ranges, tmp_path / "ranges.gpkg")
    assert query(tmp_path / "ranges.gpkg", "SELECT datetime(first), datetime(last) FROM ranges") == [
        ("2024-04-30 22:00:02", "2024-05-01 01:00:00")]
    assert query(tmp_path / "ranges.gpkg", "SELECT time FROM fixes WHERE n < 3") == [
        ("2024-04-30T22:00:02.000Z",), ("2024-04-30T23:00:00.000Z",)]


def test_without_a_reference_system_it_is_an_undefined_one_of_metres(tmp_path):
    put_layers(home_range(frame_of(a=SQUARE), 100), tmp_path / "ranges.gpkg")
    assert query(tmp_path / "ranges.gpkg", "SELECT table_name, srs_id FROM gpkg_contents WHERE data_type = 'features'") == [
        ("ranges", -1), ("fixes", -1)]
    assert geopandas.read_file(tmp_path / "ranges.gpkg", layer="fixes").crs.axis_info[0].unit_name.lower() in ("meter", "metre")


def test_two_runs_write_the_same_bytes(herd, tmp_path):
    for name in ("one.gpkg", "two.gpkg"):
        put_layers(home_range(frame_of(**herd), 100, zone="33N"), tmp_path / name)
        time.sleep(1.1)
    assert (tmp_path / "one.gpkg").read_bytes() == (tmp_path / "two.gpkg").read_bytes()


def test_each_layer_has_its_style(tmp_path):
    put_layers(home_range(frame_of(a=SQUARE), 100), tmp_path / "ranges.gpkg")
    styles = query(tmp_path / "ranges.gpkg", "SELECT f_table_name, f_geometry_column, styleQML, useAsDefault FROM layer_styles")
    folder = Path(homerange.__file__).parent
    assert styles == [(name, "geom", (folder / f"{name}.qml").read_text("utf-8"), 1) for name in ("ranges", "fixes")]


def test_ranges_without_an_area_have_their_fixes_alone(tmp_path):
    put_layers(home_range(frame_of(a=[(1, 2), (3, 4)]), 100), tmp_path / "ranges.gpkg")
    assert query(tmp_path / "ranges.gpkg", "SELECT table_name FROM gpkg_contents") == [("fixes",), ("layer_styles",)]


def test_what_was_there_is_gone(tmp_path):
    (tmp_path / "ranges.gpkg").write_bytes(b"x")
    put_layers(home_range(frame_of(a=SQUARE), 100), tmp_path / "ranges.gpkg")
    assert query(tmp_path / "ranges.gpkg", "SELECT count(*) FROM fixes") == [(4,)]


def test_ranges_by_groups_have_a_column_of_groups(tmp_path):
    frame = frame_of(fox=cloud(4, 40), otter=cloud(5, 40))
    groups = pandas.Series(["b", "a"] * 40)
    ranges = home_range(frame, (50, 100), by=groups)
    write_layers(ranges, tmp_path / "ranges.gpkg")
    layer = geopandas.read_file(tmp_path / "ranges.gpkg", layer="ranges")
    assert [*layer.columns[:3]] == ["animal", "group", "level"]
    assert [*zip(layer["animal"], layer["group"], layer["level"])] == [
        (animal, group, level) for animal in ("fox", "otter") for group in "ba" for level in (50, 100)]
    for row in layer[layer["level"] == 100].itertuples():
        own = frame[(frame["animal"] == row.animal) & (groups == row.group)]
        assert row.hectares == area2(hull([*zip(own["easting"], own["northing"])])) / 20000
        assert (row.first, row.last) == (own["timestamp"].iloc[0], own["timestamp"].iloc[-1])
    fixes = geopandas.read_file(tmp_path / "ranges.gpkg", layer="fixes")
    assert [*fixes.columns[:3]] == ["animal", "group", "n"] and fixes["n"].tolist() == [*range(1, 21)] * 4
    own = frame[(frame["animal"] == "otter") & (groups == "a")]
    found = fixes[(fixes["animal"] == "otter") & (fixes["group"] == "a")]
    assert [(point.x, point.y) for point in found.geometry] == [*zip(own["easting"], own["northing"])]


def test_write_layers_says_what_has_no_area(tmp_path):
    ranges = home_range(frame_of(a=SQUARE, b=[(500000, 5000000)]), (50, 100))
    with pytest.warns(homerange.HomeRangeNote) as notes:
        write_layers(ranges, tmp_path / "ranges.gpkg")
    assert noted(notes) == ["not in ranges.gpkg, since they have no area at 50 %: a, b",
                            "not in ranges.gpkg, since they have no area at 100 %: b"]
    with pytest.raises(homerange.FrameError, match="path=5 is no path"):
        write_layers(ranges, 5)


@pytest.mark.parametrize("start", [0, 2 ** 34])
def test_seconds_without_a_date_are_whole_numbers(tmp_path, start):
    frame = frame_of(fox=SQUARE, a=SQUARE).drop(columns="timestamp").assign(second=[start, start + 1, start + 2, start + 3] * 2)
    ranges = home_range(frame, 100)
    write_layers(ranges, tmp_path / "ranges.gpkg")
    summary = ranges.summary()
    assert query(tmp_path / "ranges.gpkg", "SELECT first, last FROM ranges") == [*zip(summary["first"], summary["last"])] == [(start, start + 3)] * 2
    assert query(tmp_path / "ranges.gpkg", "SELECT time FROM fixes") == [(second,) for second in frame["second"]]
    for layer, titles in (("ranges", ["first", "last"]), ("fixes", ["time"])):
        types = {title: kind for _, title, kind, *_ in query(tmp_path / "ranges.gpkg", f"PRAGMA table_info({layer})")}
        assert {types[title] for title in titles} == {"INTEGER"}


def test_groups_without_an_area_are_named_with_their_group(tmp_path):
    ranges = home_range(frame_of(fox=SQUARE), 100, by=["x", "x", "x", "y"])
    with pytest.warns(homerange.HomeRangeNote) as notes:
        write_layers(ranges, tmp_path / "ranges.gpkg")
    assert noted(notes) == ["not in ranges.gpkg, since they have no area at 100 %: fox y"]


def test_layers_are_written_over_their_like_and_over_another_file_if_it_is_said(herd, tmp_path):
    ranges, path, other = home_range(frame_of(**herd), 100), tmp_path / "ranges.gpkg", tmp_path / "other.gpkg"
    remedy = "name another file, or say overwrite=True, which removes what is in it$"
    path.touch()
    with warnings.catch_warnings():
        warnings.simplefilter("ignore", homerange.HomeRangeNote)
        for _ in range(2):
            write_layers(ranges, path)
        whole = path.read_bytes()
        roads = geopandas.GeoDataFrame({"name": ["A"]}, geometry=geopandas.points_from_xy([1], [2]), crs=32633)
        for layer, said in (("roads", "and has a layer 'roads'"), ("fixes", "and is no file of write_layers")):
            other.unlink(missing_ok=True)
            roads.to_file(other, driver="GPKG", layer=layer)
            with pytest.raises(FileError, match=f"other.gpkg is there, {said}: {remedy}"):
                write_layers(ranges, other)
            assert geopandas.read_file(other, layer=layer)["name"].tolist() == ["A"]
        roads.to_file(path, driver="GPKG", layer="roads")
        with pytest.raises(FileError, match=f"ranges.gpkg is there, and has a layer 'roads': {remedy}"):
            write_layers(ranges, path)
        other.write_bytes(b"animal,second\n")
        with pytest.raises(FileError, match=f"other.gpkg is there, and is no file of write_layers: {remedy}"):
            write_layers(ranges, other)
        for file in (path, other):
            write_layers(ranges, file, overwrite=True)
            assert file.read_bytes() == whole


def test_a_file_that_cannot_be_written_is_refused(herd, tmp_path, monkeypatch):
    ranges = home_range(frame_of(**herd), 100)
    with pytest.raises(FileError, match="^/proc/ranges.gpkg: [A-Z][A-Za-z ]+$"):
        write_layers(ranges, "/proc/ranges.gpkg")

    def full(*_):
        raise sqlite3.OperationalError("database or disk is full")

    monkeypatch.setattr("homerange.write.layers.put_layers", full)
    with pytest.raises(FileError, match="ranges.gpkg: database or disk is full$"):
        write_layers(ranges, tmp_path / "ranges.gpkg")


def test_a_path_that_is_not_in_utf8(herd, tmp_path):
    ranges = home_range(frame_of(**herd), 100)
    folder = Path(os.fsdecode(os.fsencode(tmp_path) + b"/M\xfcller"))
    folder.mkdir()
    for path in (folder / "ranges.gpkg", tmp_path / "plain.gpkg"):
        with pytest.warns(homerange.HomeRangeNote, match="no area"):
            write_layers(ranges, path)
    assert (folder / "ranges.gpkg").read_bytes() == (tmp_path / "plain.gpkg").read_bytes()
    with pytest.raises(FileError, match="there is no such folder"):
        write_layers(ranges, folder / "none" / "ranges.gpkg")
