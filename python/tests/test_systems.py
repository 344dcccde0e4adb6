"""Reference systems that mislead: axes that go west or south, and grids on which lengths differ by direction."""
import re

import numpy
import pandas
import pytest
from frames import START, quietly

from homerange import FrameError, HomeRangeInfo, home_range, read_fixes
from homerange.read.systems import worst_said

geopandas = pytest.importorskip("geopandas")
pyproj = pytest.importorskip("pyproj")

WAY = [(0, 0), (0.004, 0.001), (-0.003, 0.006), (0.001, -0.005), (0.002, 0.002)]  # degrees around a place


def degrees_at(longitude, latitude):
    """Points around a place, in longitude and latitude."""
    places = geopandas.points_from_xy(*zip(*((longitude + east, latitude + north) for east, north in WAY)))
    times = pandas.date_range(START, periods=len(WAY), freq="h")
    return geopandas.GeoDataFrame({"animal": "lynx", "timestamp": times}, geometry=places, crs=4326)


def columns_of(points):
    """Points as eastings and northings in columns."""
    return points[["animal", "timestamp"]].assign(easting=points.geometry.x, northing=points.geometry.y)


def refusals_of(points, crs):
    """How points are refused, and the same places in columns, whose reference system is named."""
    for call in (lambda: read_fixes(points), lambda: read_fixes(pandas.DataFrame(columns_of(points)), crs=crs)):
        with pytest.raises(FrameError) as fault:
            call()
        yield fault.value.kind, str(fault.value)


@pytest.mark.parametrize("crs, place, name, ways", [
    ("EPSG:2048", (19, -33), "Hartebeesthoek94 / Lo19", ("west", "south")),
    ("EPSG:5513", (15, 50), "S-JTSK / Krovak", ("south", "west")),
    ("+proj=tmerc +lon_0=-19 +axis=wnu +ellps=GRS80", (-19, 65), "unknown", ("west", "north")),
    ("+proj=tmerc +lon_0=-19 +axis=esu +ellps=GRS80", (-19, 65), "unknown", ("east", "south"))])
def test_axes_that_go_west_or_south_are_refused(crs, place, name, ways):
    degrees = degrees_at(*place)
    points = degrees.to_crs(crs)
    said = f"crs: the axes of the CRS {name} go {ways[0]} and {ways[1]}, and not east and north: "
    columns = f"make points of its columns and project these first, as by geopandas.points_from_xy({ways[0]}ings, {ways[1]}ings, crs=..) and to_crs"
    assert [*refusals_of(points, crs)] == [("crs", f"{said}project it first, as by frame.to_crs(frame.estimate_utm_crs())"), ("crs", f"{said}{columns}")]
    # What is said to help gives the ranges of the same places in degrees.
    wanted = quietly(home_range, degrees).corners()
    assert quietly(home_range, points.to_crs(points.estimate_utm_crs())).corners() == wanted
    table = columns_of(points)
    again = geopandas.GeoDataFrame(table[["animal", "timestamp"]], geometry=geopandas.points_from_xy(table["easting"], table["northing"], crs=crs))
    assert quietly(home_range, again.to_crs(again.estimate_utm_crs())).corners() == wanted


def test_axes_of_a_site_that_go_west_are_refused():
    site = 'ENGCRS["plant",EDATUM["plant"],CS[Cartesian,2],AXIS["y",west],AXIS["x",{}],LENGTHUNIT["metre",1]]'
    points = degrees_at(19, 50).to_crs(32634)
    for way in ("north", "south"):
        turned = points.set_crs(site.format(way), allow_override=True)
        assert {*refusals_of(turned, site.format(way))} == {
            ("crs", f"crs: the axes of the CRS plant go west and {way}, and not east and north: make eastings and northings of its coordinates, which "
                    "need no CRS")}


def test_axes_around_a_pole_and_negative_eastings_are_taken():
    arctic = degrees_at(15, 71).to_crs(3995)  # whose axes both go south
    assert len(quietly(read_fixes, arctic)) == len(quietly(read_fixes, columns_of(arctic), crs=3995)) == len(WAY)
    krovak = degrees_at(15, 50).to_crs(5514)  # eastings and northings, which are below 0
    assert quietly(read_fixes, krovak)["easting"].max() < 0


def by_geodesics(crs, middle):
    """By how many per cent areas are too great at a place of a grid, and by how many lengths differ there by direction: by geodesics
    between places that lie on a circle of the grid, and the area of a square of it."""
    back = pyproj.Transformer.from_crs(crs, 4326, always_xy=True)
    angles = numpy.arange(0, 2 * numpy.pi, numpy.pi / 1800)
    circle = back.transform(middle[0] + 300 * numpy.cos(angles), middle[1] + 300 * numpy.sin(angles))
    earth = pyproj.Geod(ellps="WGS84")
    lengths = earth.inv(*(side[:1800] for side in circle), *(side[1800:] for side in circle))[2]
    square = back.transform(middle[0] + 300 * numpy.array([-1, 1, 1, -1]), middle[1] + 300 * numpy.array([-1, -1, 1, 1]))
    return 100 * (600 ** 2 / abs(earth.polygon_area_perimeter(*square)[0]) - 1), 100 * (lengths.max() / lengths.min() - 1)


GRIDS = [
    ("EPSG:3035", (16.4, 48.2)), ("EPSG:3035", (-6.4, 37)), ("EPSG:3035", (27, 70)), ("EPSG:3035", (-16.6, 28.3)), ("EPSG:3577", (146.8, -43.5)),
    ("EPSG:5070", (-81.4, 25.2)), ("EPSG:3338", (-156.7, 71.2)), ("EPSG:6933", (20, 30.2)), ("EPSG:6933", (20, 31)), ("EPSG:6933", (16, 48)),
    ("ESRI:54009", (31, -24)), ("EPSG:8857", (16, 48)), ("+proj=laea +lat_0=45 +lon_0=-100 +R=6370997", (-115, 47)),
    ("+proj=tmerc +lon_0=15 +ellps=GRS80", (16.5, 46)), ("+proj=laea +lat_0=0 +lon_0=179.9995 +ellps=GRS80", (179.9999, 18))]


@pytest.mark.parametrize("crs, place", GRIDS)
def test_areas_and_lengths_are_told_as_geodesics_have_them(crs, place):
    points = degrees_at(*place).to_crs(crs)
    middle = points.geometry.x.mean(), points.geometry.y.mean()
    areas, lengths = by_geodesics(crs, middle)
    wanted = [f"areas of lynx are {abs(areas):.2f} % too {'great' if areas > 0 else 'small'} on this grid"] if abs(areas) > 0.1 else []
    wanted += [f"lengths of lynx differ by up to {lengths:.2f} % by direction on this grid"] if lengths > 1 else []
    if lengths > 10:
        refusal = ("scale", f"crs: {wanted[-1]}: take a zone or a reference system of the place")
        assert [*refusals_of(points, crs)] == [refusal, refusal]
    else:
        for fixes in (quietly(read_fixes, points), quietly(read_fixes, columns_of(points), crs=crs)):
            assert [note for note in fixes.reading.notes if note.endswith("on this grid")] == wanted


def test_lengths_of_the_animal_where_they_differ_most_are_told():
    both = pandas.concat([degrees_at(10, 52), degrees_at(-6.4, 37).assign(animal="boar"), degrees_at(-4, 57).assign(animal="hare")]).to_crs(3035)
    notes = quietly(read_fixes, both).reading.notes
    assert [note.split(" differ")[0] for note in notes if note.endswith("on this grid")] == ["lengths of boar"]


def arc_to(latitude):
    """Metres from the equator to a latitude on GRS80, by the integral of the radius of the meridian."""
    square = 0.0066943800229
    middles = (numpy.arange(200_000) + 0.5) * numpy.radians(latitude) / 200_000
    return float((6378137 * (1 - square) / (1 - square * numpy.sin(middles) ** 2) ** 1.5).sum() * numpy.radians(latitude) / 200_000)


@pytest.mark.parametrize("crs, meridian, latitude, scale, south", [
    (2180, 19, 52, 0.9993, 5_300_000), (3059, 24, 57, 0.9996, 6_000_000), (31467, 9, 50, 1, None), (23700, 19.5, 47, 1, None)])
def test_points_of_systems_whose_x_is_the_northing(splitter, crs, meridian, latitude, scale, south):
    points = degrees_at(meridian, latitude).to_crs(crs)
    fixes = quietly(read_fixes, points)
    if south is not None:
        assert fixes["easting"].iloc[0] == 500_000 and fixes["northing"].iloc[0] == round(scale * arc_to(latitude) - south)
    box = quietly(home_range, fixes, levels=100).polygons().to_crs(4326).total_bounds
    assert box == pytest.approx([meridian - 0.003, latitude - 0.005, meridian + 0.004, latitude + 0.006], abs=2e-5)
    table = points[["animal", "timestamp"]].assign(x=points.geometry.x, y=points.geometry.y)
    for titles in (("x", "y"), ("X", "Y")):
        own = pandas.DataFrame(table.rename(columns=dict(zip("xy", titles))))
        with pytest.raises(FrameError, match=f"^crs: x of {re.escape(points.crs.name)} is the northing, and that of a table the easting: say which it is, as by "
                           "easting='y', northing='x', or by easting='x', northing='y'$") as fault:
            read_fixes(own, crs=crs)
        assert fault.value.kind == "ambiguous"
        named = quietly(read_fixes, own, crs=crs, easting=titles[0], northing=titles[1])
        turned = quietly(read_fixes, own.rename(columns=dict(zip(titles, titles[::-1]))), crs=crs, easting=titles[1], northing=titles[0])
        for read in (named, turned):
            assert read[["easting", "northing"]].equals(fixes[["easting", "northing"]])
    assert quietly(read_fixes, pandas.DataFrame(columns_of(points)), crs=crs)["easting"].equals(fixes["easting"])


def test_x_and_y_of_other_systems_and_of_files(splitter, tmp_path):
    points = degrees_at(19, 52)
    for crs in (3035, 32634, 5514):
        moved = points.to_crs(crs)
        own = pandas.DataFrame(points[["animal", "timestamp"]].assign(x=moved.geometry.x, y=moved.geometry.y))
        assert quietly(read_fixes, own, crs=crs)["easting"].tolist() == moved.geometry.x.round().tolist()
    moved = points.to_crs(2180)
    points[["animal", "timestamp"]].assign(x=moved.geometry.x, y=moved.geometry.y).to_csv(tmp_path / "t.csv", index=False)
    with pytest.raises(FrameError, match="^.*t.csv: crs: x of |^crs: x of "):
        read_fixes(tmp_path / "t.csv", crs=2180)
    assert quietly(read_fixes, tmp_path / "t.csv", crs=2180, easting="x", northing="y")["easting"].iloc[0] == 500_000


def fixes_near(easting, northing, animal="lynx"):
    """Fixes at a place as columns of eastings and northings."""
    times = pandas.date_range(START, periods=3, freq="h")
    return pandas.DataFrame({"animal": animal, "time": times, "easting": [easting, easting + 200, easting], "northing": [northing, northing, northing + 200]})


def near_said(table, **options):
    """Where fixes are said to lie."""
    return [note for note in quietly(read_fixes, table, **options).reading.notes if note.startswith("near ")]


KROVAK = "S-JTSK / Krovak East North is of 12.1 E to 22.6 E, 47.7 N to 51.1 N: easting and northing are"


@pytest.mark.parametrize("easting, northing, crs, said", [
    (742_000, 1_043_000, 5514, f"crs: the fixes lie near 41.5 E 68.5 N, and {KROVAK} without their signs, perhaps: give them a minus"),
    (1_043_000, 742_000, 5514, f"{KROVAK} exchanged and without their signs, perhaps: give them the other way, and a minus"),
    (463_000, 150_000, 28992, "7.2 E, 50.8 N to 53.7 N: easting and northing are exchanged, perhaps: give them the other way"),
    (150_000, 463_000, 31370, "51.5 N: name the system that they have, or are easting and northing exchanged, or without their signs?")])
def test_fixes_that_lie_elsewhere_than_their_system_are_refused(easting, northing, crs, said):
    with pytest.raises(FrameError, match=f"{re.escape(said)}$") as fault:
        read_fixes(fixes_near(easting, northing), crs=crs)
    assert fault.value.kind == "crs"


def test_where_fixes_lie_is_said():
    with pytest.warns(HomeRangeInfo, match="^near 14.4 E 50.1 N by EPSG:5514$"):
        fixes = read_fixes(fixes_near(-742_000, -1_043_000), crs=5514)
    assert near_said(fixes_near(400_000, 4_630_000), crs=25833) == ["near 13.8 E 41.8 N by EPSG:25833"]  # a zone that is used beside its area
    assert near_said(fixes_near(562_000, 5_134_000), crs=32633) == []  # of which the program says the place
    both = pandas.concat([fixes_near(-742_000, -1_043_000), fixes_near(742_000, 1_043_000, "hare")])
    assert near_said(both, crs=5514) == near_said(fixes) == ["near 14.4 E 50.1 N by EPSG:5514"]


def test_degrees_are_held_to_the_area_of_their_system():
    assert near_said(degrees_at(14.5, 46.1).set_crs(4258, allow_override=True)) == ["near 14.5 E 46.1 N by EPSG:4258"]
    for place, crs, said in (((46.1, 14.5), 4258, "longitude and latitude are exchanged, perhaps: give them the other way"),
                             ((110, 44), 4269, "longitude is without its sign, perhaps: give it a minus")):
        with pytest.raises(FrameError, match=f": {said}$"):
            read_fixes(degrees_at(*place).set_crs(crs, allow_override=True))


def test_areas_are_asked_whether_the_axes_are_exchanged():
    helps = "crs: areas of lynx are 127.19 % too great on this grid: take a zone or a reference system of the place"
    for turned, asked in (({"lynx"}, ", or are easting and northing exchanged?"), ((), "")):
        with pytest.raises(FrameError, match=f"^{re.escape(helps + asked)}$"):
            worst_said("areas", {"lynx": 1.2719}, turned)
