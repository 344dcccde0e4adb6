"""GeoDataFrames: which are taken, which are refused, and the CRS of the answers."""
import re

import pandas
import pytest
from exact import cloud, hull
from frames import frame_of, quietly, told

from homerange import FrameError, HomeRangeNote, home_range, read_fixes

geopandas = pytest.importorskip("geopandas")
POINTS = cloud(5, 30)


def geo(crs="EPSG:32633", points=POINTS):
    frame = frame_of(vixen=points)
    places = geopandas.points_from_xy(frame.pop("easting"), frame.pop("northing"))
    return geopandas.GeoDataFrame(frame, geometry=places, crs=crs)


def test_points_are_fixes_and_the_crs_stays():
    found = home_range(geo())
    assert found.corners() == {"vixen": hull(POINTS)}
    assert found.polygons(95).crs == "EPSG:32633"
    assert found.polygons().geometry.area.tolist() == [pytest.approx(found.hectares("vixen") * 10_000)]


def test_columns_that_are_named_go_before_points():
    frame = geo("EPSG:3857").assign(e=range(1000, 1030), n=2000)
    assert home_range(frame, easting="e", northing="n").corners() == {"vixen": [(1000, 2000), (1029, 2000)]}


def test_points_in_a_column_of_another_name():
    assert home_range(geo().rename_geometry("where")).corners() == {"vixen": hull(POINTS)}


@pytest.mark.parametrize("crs, said", [
    ("EPSG:2264", "the CRS .* is in US survey foot and not in metres: project it first"),
    ("EPSG:3857", "areas in the CRS WGS 84 / Pseudo-Mercator grow away from the equator: project it first"),
])
def test_a_crs_that_cannot_be_right_is_refused(crs, said):
    with pytest.raises(FrameError, match=said):
        home_range(geo(crs))


def test_points_without_a_crs_are_metres_of_no_place():
    found = home_range(geo(None))
    assert found.corners() == {"vixen": hull(POINTS)} and found.crs is None


@pytest.mark.parametrize("crs", ["EPSG:4326", "OGC:CRS84", "EPSG:4979"])
def test_points_in_degrees_are_projected(crs):
    with told("^longitude and latitude are projected into zone 33N"):
        found = home_range(geo().to_crs(crs))
    assert found.corners() == {"vixen": hull(POINTS)} and found.crs == "EPSG:32633"
    degrees = geo().to_crs(crs)
    assert home_range(degrees.to_crs(degrees.estimate_utm_crs())).corners() == found.corners()
    with told("rounded"):
        other = home_range(degrees, zone="34N")
    assert other.crs == "EPSG:32634"
    assert other.polygons().to_crs(32633).geometry[0].hausdorff_distance(found.polygons().geometry[0]) < 1.5


def without_first(shape):
    frame = geo()
    frame.geometry = [shape, *frame.geometry[1:]]
    return frame


def test_rows_without_a_point_are_left_out():
    from shapely.geometry import Point

    for shape in (None, Point(), Point(float("nan"), float("nan")), Point(float("nan"), 5134000)):
        with pytest.warns(HomeRangeNote, match="^1 records have no coordinates: left out"):
            assert home_range(without_first(shape)).summary()["fixes"].tolist() == [29] * 3


def test_another_shape_than_a_point_is_refused():
    from shapely.geometry import LineString

    frame = without_first(LineString([(0, 0), (1, 1)]))
    with pytest.raises(FrameError, match="^row 0: the geometry is a linestring, and points are wanted: its vertices are no fixes unless they say when$") as fault:
        home_range(frame)
    assert (fault.value.kind, fault.value.record) == ("number", 1)
    assert home_range(frame.iloc[1:]).summary()["fixes"].tolist() == [29] * 3


@pytest.mark.parametrize("crs", ["EPSG:32634", None])
def test_points_bring_their_own_crs(crs):
    with pytest.raises(FrameError, match="^crs: points bring their own CRS") as fault:
        home_range(geo(crs), crs="EPSG:32633")
    assert fault.value.kind == "option"


def test_degrees_with_the_crs_of_metres_are_refused():
    with pytest.raises(FrameError, match="all of point easting and point northing lie within 180 by 90") as fault:
        home_range(geo(points=[(15.8, 46.3), (15.9, 46.4)]))
    assert fault.value.kind == "degrees"


def test_points_in_decimetres_come_back_in_metres():
    points = [(500010.2, 20.0), (500030.0, 20.1), (500030.0, 40.3)]
    found = home_range(geo(points=points), unit="dm")
    assert [*found.polygons().geometry[0].exterior.coords][:-1] == points


WKT = """PROJCS["own",GEOGCS["WGS 84",DATUM["WGS_1984",SPHEROID["WGS 84",6378137,298.257223563]],PRIMEM["Greenwich",0],
UNIT["degree",0.0174532925199433]],PROJECTION["Transverse_Mercator"],PARAMETER["latitude_of_origin",0],PARAMETER["central_meridian",15],
PARAMETER["scale_factor",0.9996],PARAMETER["false_easting",500000],PARAMETER["false_northing",0],UNIT["Meter",1]]"""


@pytest.mark.parametrize("crs, said", [
    (WKT.replace("Transverse_Mercator", "Of_Nobody"),
     "the CRS own has no way to longitude and latitude that pyproj knows: name another one, such as by its code$"),
    ("+proj=tmerc +lon_0=15 +k=0.9996 +x_0=500000 +axis=wsu +datum=WGS84",
     "the CRS unknown has no way to longitude and latitude that pyproj knows: name another one, such as by its code$"),
    (WKT.replace('"Meter",1', '"Meter",0.3048'), "the CRS own is in Meter of 0.3048 m and not in metres: "),
    (WKT.replace('"Meter",1', '"foot",1'), "the CRS own is in foot and not in metres: "),
    (WKT, None), (WKT.replace('"Meter"', '"METRES"'), None), ('LOCAL_CS["own",UNIT["Meter",1]]', None)])
def test_a_crs_is_of_metres_that_have_a_way_to_degrees(splitter, crs, said):
    table = frame_of(a=POINTS)
    points = geopandas.GeoDataFrame(table[["animal", "timestamp"]], geometry=geopandas.points_from_xy(table["easting"], table["northing"]), crs=crs)
    for call in (lambda: read_fixes(table, crs=crs), lambda: read_fixes(points)):
        if said is None:
            assert call()["easting"].tolist() == table["easting"].tolist()
        else:
            with pytest.raises(FrameError, match=f"^crs: {said}"):
                call()


@pytest.mark.parametrize("crs, is_theirs", [(3794, True), (27700, False), (3763, False), (2154, False)])
def test_a_crs_is_that_of_degrees_beside_the_metres(crs, is_theirs):
    """Eastings and northings of D96/TM, as PROJ has them."""
    table = pandas.DataFrame({"animal": "hare", "second": range(4), "lon": [14.2, 14.2512, 14.1833, 14.2301], "lat": [46.3, 46.3121, 46.2887, 46.3554]})
    points = geopandas.points_from_xy(table["lon"], table["lat"], crs=4326).to_crs(3794)
    table["x"], table["y"] = points.x.round(), points.y.round()
    if is_theirs:
        assert read_fixes(table, crs=crs)["easting"].tolist() == table["x"].tolist()
        return
    name = geopandas.GeoSeries([], crs=crs).crs.name
    with pytest.raises(FrameError, match=f"^crs: by column 3 'lon' and column 4 'lat', which are not read, the first fix is near 14.2 E 46.3 N, and by {re.escape(name)} "
                                         "no fix is within 20 km of there: name the system of easting and northing, or leave out the columns that are not theirs$"):
        read_fixes(table, crs=crs)


def test_points_in_metres_that_are_called_degrees_are_refused_with_what_helps():
    points = geo("EPSG:4326")
    with pytest.raises(FrameError, match=r": if they are metres, give the points .*, as by frame.set_crs\(32633, allow_override=True\)"):
        read_fixes(points)
    assert len(read_fixes(points.set_crs(32633, allow_override=True))) == len(POINTS)


def test_points_whose_sides_are_the_other_way_are_turned():
    frame = geo(4326, [(46.0 + at / 1000, 96.0 + at * at / 1000) for at in range(5)])
    said = r"^row 0: there is no place of longitude 46 and latitude 96: are x and y of the points the other way\? frame.set_geometry\(.*\) turns them$"
    with pytest.raises(FrameError, match=said):
        home_range(frame)
    turned = frame.set_geometry(geopandas.points_from_xy(frame.geometry.y, frame.geometry.x, crs=frame.crs))
    with told("^coordinates are rounded"):
        assert home_range(turned).crs == "EPSG:32647"
    columns = frame_of(a=[(46.0, 96.0)] * 3).rename(columns={"easting": "lon", "northing": "lat"})
    with pytest.raises(FrameError, match="are their columns to be named the other way, by lon and lat[?]$"):
        home_range(columns)


def test_multipoints_are_refused_with_what_makes_points_of_them():
    shapes = geopandas.GeoSeries.from_wkt(["MULTIPOINT (562000 5134000)", "MULTIPOINT (562200 5134000)"], crs=32633)
    table = geopandas.GeoDataFrame({"animal": "hare"}, geometry=shapes, index=[0, 1])
    with pytest.raises(FrameError, match="^row 0: the geometry is a multipoint, and points are wanted: frame.explode\\(\\) makes points of it$"):
        read_fixes(table)
    assert quietly(read_fixes, table.explode(index_parts=False))["easting"].tolist() == [562_000, 562_200]
