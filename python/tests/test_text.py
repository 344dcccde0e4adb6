"""The text of a data frame: its columns and titles, the levels of its index, points, time zones, and what cannot be text."""
from decimal import Decimal

import numpy
import pandas
import pytest
from frames import frame_of

from homerange import FrameError, HomeRangeNote, read_fixes
from homerange.read.text import text_of_frame, write_text

SQUARE = [(0, 0), (200, 0), (200, 200), (0, 200)]
TIMES = [f"2024-03-01T00:{minute}:00Z" for minute in ("00", "30")]


def written(frame, folder, **options):
    """The lines of the text of a frame, and the options with which the program reads it."""
    text = text_of_frame(frame, options)
    write_text(text, folder / "fixes.csv")
    own = {name: value for name, value in text.options.items() if value is not None}
    return (folder / "fixes.csv").read_bytes().decode(), own, text


def test_all_columns_are_written(tmp_path):
    frame = frame_of(a=SQUARE[:2]).assign(note=["x", None], **{"a, b": ['say "so"', "two\nlines"], "c\r": ["", " "]})
    text, options, _ = written(frame, tmp_path)
    assert text == ('animal,timestamp,easting,northing,note,"a, b","c\r"\n'
                    f'a,{TIMES[0]},0,0,x,"say ""so""",\na,{TIMES[1]},200,0,,"two\nlines", \n')
    assert options == {}


@pytest.mark.parametrize("values, wanted", [
    ([123.456, 1, None, -0.125], ["123.4560", "1", "", "-0.1250"]), (["123.456"], ["123.456"]), ([123.456, 0.5], ["123.456", "0.5"]),
    ([123.456, 1000], ["123.456", "1000"]), ([999.999], ["999.9990"]), ([1, 2], ["1", "2"]), ([1.0, 2.0], ["1", "2"]), ([0.0625], ["0.0625"]),
    (pandas.Series([123.456, None, 2.0], dtype=object), ["123.4560", "", "2"]), (pandas.Series([123.456, "x"], dtype=object), ["123.456", "x"]),
    (pandas.Series([Decimal("123.456"), None, Decimal(2)], dtype=object), ["123.4560", "", "2"]),
    (pandas.Series([Decimal("123.456"), 0.125, 7, numpy.float32(0.123)], dtype=object), ["123.4560", "0.1250", "7", "0.1230"]),
    (pandas.Series([Decimal("123.456"), Decimal("0.5")], dtype=object), ["123.456", "0.5"]),
    (pandas.Series([Decimal("123.456"), Decimal("Infinity")], dtype=object), ["123.456", "inf"]),
    (pandas.Series([123.456, True], dtype=object), ["123.456", "true"]), (pandas.Series([Decimal(1), 2], dtype=object), ["1", "2"]),
    (pandas.Categorical([Decimal("123.456"), None]), ["123.4560", ""]),
    (pandas.Categorical([123.456, None, 0.125]), ["123.4560", "", "0.1250"]), (pandas.Categorical(["123.456"]), ["123.456"]),
    (pandas.array([123.456], dtype="float32"), ["123.4560"]), (pandas.array([123.456, None], dtype="Float64"), ["123.4560", ""])])
def test_decimals_are_not_groups_of_thousands(tmp_path, monkeypatch, values, wanted):
    monkeypatch.setattr("homerange.read.text.CELLS", 2)  # a row at a time: the whole column counts
    text, _, _ = written(pandas.DataFrame({"x": values, "y": "a"}), tmp_path)
    assert text.split("\n")[1:-1] == [f"{cell},a" for cell in wanted]


def test_numbers_with_three_decimals_are_coordinates(splitter):
    frame = frame_of(a=[(562.125, 134.252), (571.236, 134.917), (561.125, 188.111)])
    with pytest.warns(HomeRangeNote, match="rounded to whole decimetres"):
        assert read_fixes(frame, unit="dm")["easting"].tolist() == [562.1, 571.2, 561.1]
    with pytest.raises(FrameError, match="thousands"):
        read_fixes(frame.astype({"easting": str, "northing": str}), unit="dm")


def test_many_rows_are_written_piece_by_piece(tmp_path, monkeypatch):
    monkeypatch.setattr("homerange.read.text.CELLS", 13)  # of three rows of four columns
    frame = frame_of(a=SQUARE, b=SQUARE, c=SQUARE)
    text, _, _ = written(frame, tmp_path)
    assert [line.split(",")[0] for line in text.split("\n")] == ["animal", *"aaaabbbbcccc", ""]


@pytest.mark.parametrize("index, titles", [
    (["animal"], ["timestamp", "easting", "northing", "animal"]), (["timestamp"], ["animal", "easting", "northing", "timestamp"]),
    (["timestamp", "animal"], ["easting", "northing", "timestamp", "animal"])])
def test_levels_of_the_index_are_columns(tmp_path, index, titles):
    frame = frame_of(a=SQUARE[:2])
    assert written(frame.set_index(index), tmp_path)[0].split("\n")[0].split(",") == titles
    kept = frame.set_index(index, drop=False)
    assert written(kept, tmp_path)[0].split("\n")[0] == "animal,timestamp,easting,northing"


def test_times_of_the_index_have_a_usual_title(tmp_path):
    frame = frame_of(a=SQUARE[:2]).set_index("timestamp")
    for name in (None, "t", "when"):
        assert written(frame.rename_axis(name), tmp_path)[0].split("\n")[0] == "animal,easting,northing,datetime"
    assert written(frame.rename_axis("when"), tmp_path, time="when")[0].split("\n")[0] == "animal,easting,northing,when"
    assert written(frame.rename_axis(None), tmp_path, time="index")[0].split("\n")[0] == "animal,easting,northing,index"
    labels = frame.reset_index(drop=True).set_index(pandas.Index([5, 7]))
    for index, title in ((pandas.RangeIndex(2, name="second"), ",second"), (pandas.Index([5, 7], name="id"), ""), (pandas.Index([5, 5], name="id"), ",id")):
        assert written(labels.set_index(index), tmp_path)[0].split("\n")[0] == f"animal,easting,northing{title}"
    assert written(labels, tmp_path)[0].split("\n")[0] == "animal,easting,northing"
    several = pandas.concat({"fox": labels.drop(columns="animal")})
    assert written(several, tmp_path)[0].split("\n")[:2] == ["easting,northing,level_0,level_1", "0,0,fox,5"]


def test_the_zone_of_times_is_told(tmp_path):
    frame = frame_of(a=SQUARE[:2])
    local = frame.assign(timestamp=frame["timestamp"].dt.tz_convert("Europe/Ljubljana"))
    for own in (local, local.astype({"timestamp": object}), local.astype({"timestamp": "category"}), local.set_index("timestamp")):
        text, options, _ = written(own, tmp_path)
        assert options == {"tz": "Europe/Ljubljana"} and TIMES[1] in text
    assert written(local, tmp_path, tz="Asia/Tokyo")[1] == {"tz": "Asia/Tokyo"}
    # Where another column may be the time, the zone would move its times.
    naive = pandas.Series(pandas.to_datetime(["2024-03-01", "2024-03-02"]))
    for other in ({"seen": naive}, {"seen": frame["timestamp"].dt.tz_convert("Asia/Tokyo")}, {"date": "2024-03-01"}):
        _, options, text = written(local.assign(**other), tmp_path)
        assert options == {} and text.clock[0].startswith("days and hours are those of UTC, since times are of ")
    fixed = frame.assign(timestamp=pandas.to_datetime(["2024-03-01T02:00+02:00", "2024-03-01T02:30+02:00"]))
    _, options, text = written(fixed, tmp_path)
    assert options == {} and text.clock[0].startswith("days and hours are those of UTC, since the zone ")


@pytest.mark.parametrize("change, kind, said", [
    ({"columns": ["a;b", "timestamp", "x", "y"]}, "columns", "the first column is titled 'a;b', whose sign would be taken for"),
    ({"columns": ["a\tb", "timestamp", "x", "y"]}, "columns", "whose sign would be taken for"),
    ({"columns": ["animal", "timestamp", "x\udc80", "y"]}, "text", "the title 'x.*' is no text in UTF-8"),
    ({"cell": "fox\ud800"}, "text", "animal is 'fox.*', which is no text in UTF-8"),
    ({"cell": "fox\0"}, "text", "animal is 'fox.x00', which has a byte 0: mend it$"),
    ({"columns": ["animal", "timestamp", "x\0", "y"]}, "text", "the title 'x.x00' has a byte 0: mend it$"),
])
def test_what_is_no_text_is_refused(tmp_path, change, kind, said):
    frame = frame_of(a=SQUARE).astype({"animal": object})
    frame.columns = pandas.Index(change.get("columns", frame.columns), dtype=object)
    frame.loc[2, frame.columns[0]] = change.get("cell", "a")
    with pytest.raises(FrameError, match=said) as fault:
        written(frame, tmp_path)
    assert (fault.value.kind, fault.value.record) == (kind, 3 if "cell" in change else None)


def test_points_are_columns(tmp_path):
    geopandas = pytest.importorskip("geopandas")
    frame = frame_of(a=SQUARE[:2])[["animal", "timestamp"]].assign(**{"point easting": 1})
    metres = geopandas.GeoDataFrame(frame.copy(), geometry=geopandas.points_from_xy([500000.5, None], [5000000, None]), crs=32633)
    text, options, _ = written(metres, tmp_path)
    assert text == (f"animal,timestamp,point easting,point easting 2,point northing\na,{TIMES[0]},1,500000.5,5000000\na,{TIMES[1]},1,,\n")
    assert options == {"zone": "33N", "easting": "point easting 2", "northing": "point northing"}
    laea = metres.set_crs(3035, allow_override=True)
    assert written(laea, tmp_path)[1]["crs"] == "EPSG:3035 (ETRS89-extended / LAEA Europe)"
    assert written(metres, tmp_path, easting="point easting", northing="point easting")[1] == {
        "easting": "point easting", "northing": "point easting"}
    none = geopandas.GeoDataFrame(frame[["animal", "timestamp", "point easting"]].copy(), geometry=geopandas.points_from_xy([1, 2], [3, 4]))
    assert written(none, tmp_path)[1] == {"easting": "point easting 2", "northing": "point northing"} and written(none, tmp_path)[2].crs is None
    degrees = geopandas.GeoDataFrame(frame.copy(), geometry=geopandas.points_from_xy([15.5, 15.25], [46, 46.5]))
    with pytest.raises(FrameError, match="the points have no CRS, and lie as longitude and latitude do: frame.set_crs") as fault:
        written(degrees, tmp_path)
    assert fault.value.kind == "degrees"
    mixed = metres.assign(geometry=[metres.geometry[0], metres.geometry[0].buffer(1)])
    with pytest.raises(FrameError, match="^row 1: the geometry is a polygon, and points are wanted: its vertices are no fixes unless they say when$"):
        written(mixed, tmp_path)


def test_points_in_degrees_are_of_wgs_84(tmp_path):
    geopandas = pytest.importorskip("geopandas")
    frame = frame_of(a=SQUARE[:2])[["animal", "timestamp"]]
    points = geopandas.points_from_xy([15.5, 15.25], [46, 46.5])
    text, options, own = written(geopandas.GeoDataFrame(frame, geometry=points, crs=4326), tmp_path)
    assert text.split("\n")[:3] == ["animal,timestamp,point longitude,point latitude", f"a,{TIMES[0]},15.5,46", f"a,{TIMES[1]},15.25,46.5"]
    assert options == {"lon": "point longitude", "lat": "point latitude"} and own.crs is None and own.notes == []
    # Degrees of Paris, which lies 2.5969213 gon east of Greenwich.
    paris = geopandas.GeoDataFrame(frame, geometry=points, crs="+proj=longlat +datum=WGS84 +pm=paris")
    text, _, own = written(paris, tmp_path)
    assert [round(float(cell), 6) for cell in text.split("\n")[1].split(",")[2:]] == [round(15.5 + 2.5969213 * 0.9, 6), 46]
    assert own.notes[0].endswith(" are turned into longitude and latitude of WGS 84")


@pytest.mark.parametrize("crs, said", [
    ("EPSG:2263", "is in US survey foot and not in metres"), ("EPSG:4978", "is not a plane one in metres"),
    ("EPSG:3857", "grow away from the equator"), ("+proj=utm +zone=33 +units=km", "is in kilometre")])
def test_systems_that_are_no_plane_in_metres_are_refused(crs, said, tmp_path):
    geopandas = pytest.importorskip("geopandas")
    frame = frame_of(a=SQUARE)
    points = geopandas.GeoDataFrame(frame, geometry=geopandas.points_from_xy(frame["easting"], frame["northing"]), crs=crs)
    with pytest.raises(FrameError, match=said):
        written(points, tmp_path)
    with pytest.raises(FrameError, match=said):
        written(frame, tmp_path, crs=crs)
    with pytest.raises(FrameError, match="points bring their own CRS"):
        written(points, tmp_path, crs="EPSG:3035")


def test_local_systems_are_planes_without_a_place(tmp_path):
    pytest.importorskip("pyproj")
    frame = frame_of(a=SQUARE)
    _, options, text = written(frame, tmp_path, crs='LOCAL_CS["site",UNIT["metre",1]]')
    assert options == {} and text.crs is None
    assert written(frame, tmp_path, crs="EPSG:32733")[1] == {"zone": "33S"}
    assert written(frame, tmp_path, crs="EPSG:25833", zone="33N")[1] == {"crs": "EPSG:25833 (ETRS89 / UTM zone 33N)"}
    with pytest.raises(FrameError, match="the coordinates are of the zone 34N, and the CRS .* is that of 33N: give one of the two"):
        written(frame, tmp_path, crs="EPSG:32633", zone="34N")
    with pytest.raises(FrameError, match="encoding is for files"):
        written(frame, tmp_path, encoding="latin-1")
