"""The share of ranges in a reserve, also of ranges that lie outside it."""
import re
import warnings

import pandas
import pytest
from frames import frame_of, quietly

from homerange import FrameError, HomeRangeNote, home_range, share_inside

geopandas = pytest.importorskip("geopandas")
import shapely.ops  # noqa: E402
from shapely.geometry import GeometryCollection, MultiPolygon, Point, Polygon, box  # noqa: E402

from homerange import plot_ranges, read_report, write_page  # noqa: E402


def square(east, north, side=200):
    return [(east, north), (east + side, north), (east + side, north + side), (east, north + side)]


HERD = {
    "inside": square(562_000, 5_134_000), "outside": square(570_000, 5_134_000), "half": square(562_900, 5_134_000),
    "far": square(580_000, 5_134_000), "point": [(562_000, 5_134_000)]}
RESERVE = box(561_000, 5_133_000, 563_000, 5_135_000)


def ranges(crs="EPSG:32633"):
    return home_range(frame_of(**HERD), crs=crs)


@pytest.mark.parametrize("reserve", [
    geopandas.GeoDataFrame(geometry=[RESERVE], crs=32633), geopandas.GeoSeries([RESERVE], crs=32633), RESERVE,
    geopandas.GeoSeries([box(561_000, 5_133_000, 562_500, 5_135_000), box(562_000, 5_133_000, 563_000, 5_135_000)], crs=32633),
])
def test_each_animal_has_its_own_share(reserve):
    found = share_inside(ranges(), reserve)
    assert found["animal"].tolist() == [*HERD]
    assert found["hectares"].tolist() == [4, 4, 4, 4, 0]
    assert found["inside"].tolist() == [4, 0, 2, 0, 0]
    assert found["share"].tolist()[:4] == [1, 0, 0.5, 0]
    assert found["share"].isna().tolist() == [False] * 4 + [True]


def test_a_reserve_in_another_reference_system_is_projected():
    reserve = geopandas.GeoSeries([RESERVE], crs=32633).to_crs(4326)
    found = share_inside(ranges(), reserve, 100)
    assert found["share"].tolist()[:4] == pytest.approx([1, 0, 0.5, 0], abs=0.01)


def test_a_level_below_100():
    found = share_inside(ranges(), RESERVE, 50)
    assert found["level"].tolist() == [50] * 5
    assert (found["inside"] <= found["hectares"] + 1e-9).all()


@pytest.mark.parametrize("crs, reserve, said", [
    ("EPSG:32633", geopandas.GeoSeries([RESERVE]), "the reserve has no CRS, and the other has"),
    (None, geopandas.GeoSeries([RESERVE], crs=32633), "the ranges have no CRS"),
    (None, Polygon([(0, 0), (10, 10), (10, 0), (0, 10)]), "the boundary of the reserve crosses itself"),
    ("EPSG:32633", pandas.DataFrame({"geometry": [RESERVE]}), "neither a GeoDataFrame.*: make a GeoDataFrame of a table with shapes, as by geopandas"),
    (None, pandas.DataFrame({"geometry": [RESERVE], "crs": "x"}), "neither a GeoDataFrame"),
    (None, "reserve.shp", "neither a GeoDataFrame"), (None, RESERVE.centroid, "has no area"),
    (None, geopandas.GeoSeries([RESERVE]).values, "neither a GeoDataFrame.*: make a GeoSeries of shapes, as by geopandas.GeoSeries"),
    (None, [RESERVE], "neither a GeoDataFrame.*: make a GeoSeries of shapes, as by geopandas.GeoSeries"),
    (None, geopandas.GeoDataFrame({"geometry": [RESERVE]}).iloc[0], r"neither a GeoDataFrame.*: take the shape of a row, as by reserve\['geometry'\]"),
])
def test_what_is_no_reserve_is_refused(crs, reserve, said):
    with pytest.raises(FrameError, match=said):
        share_inside(ranges(crs), reserve)


def test_a_reserve_in_degrees_without_a_system_is_refused():
    with pytest.raises(FrameError, match="^the reserve has no CRS, and lies as longitude and latitude do: make a GeoSeries of it") as fault:
        share_inside(ranges(), box(15.7, 46.3, 15.9, 46.4))
    assert fault.value.kind == "degrees"
    small = home_range(frame_of(a=square(100, 50)))  # on a grid of its own, within which a reserve may be as small
    assert share_inside(small, box(100, 50, 150, 70))["share"].tolist() == [50 * 20 / 200 ** 2]


BOW = Polygon([(0, 0), (10, 10), (10, 0), (0, 10)])
SPLIT = Polygon([(0, 0), (9, 0), (9, 9)], [[(50, 50), (60, 50), (60, 60)]])
LOST = Polygon([(0, 0), (9, float("nan")), (9, 9)])


@pytest.mark.parametrize("shapes, labels, said", [
    ([BOW], [0], "^row 0: the boundary of the reserve crosses itself: mend it, as by reserve.make_valid"),
    ([RESERVE, None, BOW], ["a", "b", "a"], r"^row a \(frame.iloc\[2\]\): the boundary of the reserve crosses itself"),
    ([RESERVE, SPLIT], [0, 1], "^row 1: the boundary of the reserve has a hole that lies outside of it: mend it"),
    ([LOST, RESERVE], [0, 1], "^row 0: the boundary of the reserve has a corner that is no number"),
])
def test_each_shape_of_a_reserve_is_looked_at(tmp_path, shapes, labels, said):
    own, reserve = ranges(), geopandas.GeoDataFrame(geometry=shapes, index=labels, crs=32633)
    for make in (lambda: share_inside(own, reserve), lambda: write_page(own, tmp_path / "page.html", reserve=reserve)):
        with pytest.raises(FrameError, match=said):
            make()
    pytest.importorskip("matplotlib")
    with pytest.raises(FrameError, match=said):
        plot_ranges(own, over=reserve)


def test_a_shape_is_mended_as_is_said():
    bow = Polygon([(562_000, 5_134_000), (562_200, 5_134_200), (562_200, 5_134_000), (562_000, 5_134_200)])
    mended = geopandas.GeoSeries([bow], crs=32633).make_valid()
    assert share_inside(ranges(), mended)["share"][0] == pytest.approx(0.5)  # two of four triangles about its middle


def wide_box(west, south, east, north):
    """A box with corners in the middle of its long sides."""
    middle = (west + east) / 2
    return Polygon([(west, south), (middle, south), (east, south), (east, north), (middle, north), (west, north)])


@pytest.mark.parametrize("shape, crs, share", [
    (wide_box(-170, -80, 170, 85), 4326, 1), (box(-180, 0, 180, 90), 4326, 1), (box(-180, -90, 180, 90), 4326, 1),
    (box(-180, 47, 180, 90), 4326, 0), (box(16.1, -90, 180, 90), 4326, 0), (box(-20e6, -20e6, 20e6, 20e6), 3857, 1),
    (wide_box(-170, -80, 15, 85), 4326, 0), (box(-180, -90, 180, -60), 4326, 0),
])
def test_a_wide_reserve_is_taken_around_the_ranges(shape, crs, share):
    with warnings.catch_warnings(record=True) as heard:
        warnings.simplefilter("always")
        found = share_inside(ranges(), geopandas.GeoSeries([shape], crs=crs))
    is_at_the_pole = shape.bounds[3] == -60
    assert [str(own.message) for own in heard if own.category is HomeRangeNote] == [
        "the reserve lies more than 100 km away from all ranges: is it the right one, and its CRS?"] * is_at_the_pole
    assert found["share"].tolist()[:4] == pytest.approx([share] * 4)  # they lie from 15.80 to 16.05 degrees east, near 46.36 degrees north


def test_long_edges_go_straight_in_degrees():
    # At 15 degrees east the parallel of 46.3 degrees runs 2.6 km south of the ranges, and the straight line of UTM between its ends
    # north of them: (9 degrees of longitude * 76.9 km / 2) ** 2 / 2 / 6379 km * tan(46.3 degrees) = 9.8 km north of the parallel.
    own = home_range(frame_of(a=square(500_000, 5_130_000)), crs="EPSG:32633")
    north = geopandas.GeoSeries([box(10.5, 46.3, 19.5, 50)], crs=4326)
    south = geopandas.GeoSeries([box(10.5, 40, 19.5, 46.3)], crs=4326)
    assert [share_inside(own, reserve)["share"][0] for reserve in (north, south)] == pytest.approx([1, 0])


def test_a_reserve_that_no_box_around_the_ranges_can_cut_is_refused():
    beside_180 = home_range(frame_of(a=square(720_000, 5_130_000)), crs="EPSG:32660")
    with pytest.raises(FrameError, match="^the reserve reaches to where the CRS of the ranges has no places: cut it") as fault:
        share_inside(beside_180, geopandas.GeoSeries([box(-180, -90, 180, 90)], crs=4326))
    assert fault.value.kind == "crs"


def test_a_reserve_that_ends_at_the_date_line_is_whole():
    across = home_range(frame_of(a=square(294_000, 5_764_000)), crs="EPSG:32601")  # from 179.99 E to 179.99 W
    west, east = box(179.9, 51.9, 180, 52.1), box(-180, 51.9, -179.9, 52.1)
    halves = [share_inside(across, geopandas.GeoSeries([half], crs=4326))["share"][0] for half in (west, east)]
    assert 0 < halves[0] < 1 and sum(halves) == pytest.approx(1)
    assert share_inside(across, geopandas.GeoSeries([west, east], crs=4326))["share"][0] == pytest.approx(1)


def test_points_and_lines_of_a_reserve_bound_nothing(tmp_path):
    shapes = geopandas.GeoSeries([RESERVE.centroid, RESERVE.exterior, RESERVE], crs=32633)
    with pytest.warns(HomeRangeNote, match="^left out of the reserve, without an area: row 0, row 1$"):
        assert share_inside(ranges(), shapes.to_crs(4326))["share"][2] == pytest.approx(0.5, abs=0.01)
    own, page = ranges(), tmp_path / "page.html"
    for reserve, said in ((shapes[:2].to_crs(4326), "it is of lines, and polygons are wanted; geopandas.GeoSeries"), (shapes[:1], "it is of points, and"),
                          (RESERVE.exterior, "it is of lines, and polygons are wanted; geopandas.GeoSeries"), (RESERVE.centroid, "it is of points"),
                          (geopandas.GeoSeries([None, Polygon()], crs=32633), "there is no shape in it$"), (Polygon(), "there is no shape in it$")):
        for call in (share_inside, lambda own, over: plot_ranges(own, over=over), lambda own, reserve: write_page(own, page, reserve=reserve)):
            with pytest.raises(FrameError, match=f"^the reserve has no area: {said}"):
                call(own, reserve)


def test_lines_are_made_polygons_as_it_is_said():
    for reserve in (geopandas.GeoSeries([RESERVE.exterior], crs=32633), RESERVE.exterior):
        with pytest.raises(FrameError, match="^the reserve has no area: it is of lines") as fault:
            share_inside(ranges(), reserve)
        call = str(fault.value).split("; ")[1].removesuffix(" makes them of closed lines")
        made = eval(call, {"geopandas": geopandas, "shapely": shapely, "reserve": reserve})
        assert share_inside(ranges(), made if made.crs else made[0])["share"][2] == 0.5


def test_shapes_that_are_missing_and_a_reserve_that_is_far_are_said():
    table = geopandas.GeoDataFrame({"name": [*"abcdefgh"]}, geometry=[None, Polygon(), RESERVE, None, None, None, None, None], crs=32633)
    with pytest.warns(HomeRangeNote, match="^left out of the reserve, without a shape: row 0, row 1, row 3, row 4, row 5 and 2 more$"):
        assert share_inside(ranges(), table)["share"][0] == 1
    # The ranges lie in a box of 18.2 by 0.2 km, and the reserve is one of 2 by 2 km: 20.2 km apart they are far.
    for gap, said in ((20_000, []), (20_400, ["the reserve lies at least 20.4 km away from all ranges: is it the right one, and its CRS?"])):
        with warnings.catch_warnings(record=True) as heard:
            warnings.simplefilter("always")
            found = share_inside(ranges(), box(580_200 + gap, 5_133_000, 582_200 + gap, 5_135_000))
        assert [str(own.message) for own in heard if own.category is HomeRangeNote] == said
        assert found["share"].tolist()[:4] == [0] * 4


def test_a_reserve_in_metres_whose_system_is_of_degrees_is_refused(tmp_path):
    named = geopandas.GeoSeries([box(561_000, 5_133_000, 563_000, 5_135_000)], crs=4326)
    said = ("^row 0: the boundary of the reserve goes to 563000, 5135000, which is no longitude and latitude, though its CRS is of these: if it "
            "is in metres, name their CRS, as by ")
    for call in (share_inside, lambda own, over: plot_ranges(own, over=over), lambda own, reserve: write_page(own, tmp_path / "a.html", reserve=reserve)):
        with pytest.raises(FrameError, match=said) as fault:
            call(ranges(), named)
    mended = eval(re.sub(said, "", str(fault.value)), {"reserve": named})
    assert share_inside(ranges(), mended)["share"].tolist()[:4] == [1, 0, 0.5, 0]
    around = geopandas.GeoSeries([box(-344.3, 46.3, -344, 46.4)], crs=4326)  # a turn farther
    assert share_inside(ranges(), around)["share"][0] == share_inside(ranges(), around.translate(360))["share"][0]


def test_ranges_of_a_report_without_a_system_are_told_how_to_get_one(tmp_path):
    report = tmp_path / "report.txt"
    quietly(ranges().evidence, tmp_path / "e")
    report.write_bytes((tmp_path / "e" / "report.txt").read_bytes())
    reserve = geopandas.GeoSeries([RESERVE], crs=32633)
    with pytest.raises(FrameError, match=r"^the ranges have no CRS, and the other has: name it, as by home_range\(.., crs=..\), or by read_report\(.., crs=..\)$"):
        share_inside(read_report(report), reserve)
    assert share_inside(read_report(report, crs=32633), reserve).set_index("animal")["share"]["half"] == 0.5


def test_a_boundary_of_which_a_map_has_no_edge_is_said():
    own = home_range(frame_of(a=square(562_000, 5_134_000)), crs="EPSG:32633")
    for over, said in ((box(500_000, 5_000_000, 600_000, 5_200_000), "which lies within it"),
                       (box(561_000, 5_130_000, 563_000, 5_133_800), "which lies outside of it"),
                       (Point(562_100, 5_134_100).buffer(9000).difference(Point(562_100, 5_134_100).buffer(4000)), "which lies outside of it")):
        with pytest.warns(HomeRangeNote, match=f"^no edge of the boundary is on this map, {said}$"):
            plot_ranges(own, over=over)
    plot_ranges(own, over=box(561_500, 5_134_100, 562_100, 5_134_500))
    plot_ranges(own, over=box(561_000, 5_000_000, 562_100, 5_134_100))


def ranges_about_180():
    """A box of 0.2 degrees about the date line, the middle fifth of which lies within 0.02 degrees of it."""
    times = pandas.date_range("2024-05-01", periods=4, freq="h", tz="UTC")
    with warnings.catch_warnings():
        warnings.simplefilter("ignore")  # of rounding
        return home_range(pandas.DataFrame({
            "animal": "a", "time": times, "lon": [179.9, -179.9, -179.9, 179.9], "lat": [60, 60, 60.05, 60.05]}))


def beyond_180(reserve):
    beyond = [shapely.ops.transform(lambda x, y: (x % 360, y), shape) for shape in reserve.geometry]  # as is said
    return geopandas.GeoSeries(beyond, crs=reserve.crs)


@pytest.mark.parametrize("east", [179.98, 165, 100])
def test_a_boundary_across_the_date_line_is_not_taken_as_what_lies_around_it(east):
    own = ranges_about_180()
    across = geopandas.GeoSeries([box(-east, 59.9, east, 60.1)], crs=4326)
    with pytest.raises(FrameError) as fault:
        share_inside(own, geopandas.GeoDataFrame(geometry=across))
    said = f"row 0: the boundary of the reserve has an edge of {2 * east:g} degrees of longitude: if it crosses the date line, "
    assert str(fault.value).startswith(f"{said}count its longitudes on beyond 180")
    assert share_inside(own, beyond_180(across))["share"][0] == pytest.approx(min((180 - east) / 0.1, 1), abs=1e-4)


def test_a_circle_across_the_date_line_is_that_of_its_own_system():
    own = ranges_about_180()
    middle = geopandas.GeoSeries([Point(180, 60.025)], crs=4326).to_crs(own.crs)
    circle = middle.buffer(5000)
    with pytest.raises(FrameError, match="has an edge of 359[.][0-9]+ degrees of longitude"):
        share_inside(own, circle.to_crs(4326))
    found = [share_inside(own, reserve)["share"][0] for reserve in (circle, beyond_180(circle.to_crs(4326)))]
    assert found[0] == pytest.approx(found[1], rel=1e-3)


def test_an_edge_of_a_hole_or_of_one_of_several_shapes_is_looked_at():
    hole = Polygon(box(-180, 50, 180, 70).exterior, [box(-179.98, 59.9, 179.98, 60.1).exterior])
    reserve = geopandas.GeoSeries([MultiPolygon([hole]), GeometryCollection([Point(0, 0), hole])], crs=4326)
    for at in (0, 1):
        with pytest.raises(FrameError, match=f"^row {at}[ :].* has an edge of 359.96 degrees of longitude"):
            share_inside(ranges_about_180(), reserve[[at]])


@pytest.mark.parametrize("side", [0.02, 0.06, 0.098, 0.3])
def test_edges_of_a_reserve_are_straight_in_its_own_system(side):
    geopandas = pytest.importorskip("geopandas")
    from pyproj import Transformer
    from shapely.geometry import Polygon

    middle = Transformer.from_crs(4326, 32633, always_xy=True).transform(15.78, 46.36)
    ranges = home_range(frame_of(vole=[(round(middle[0]) - 20 + 7 * n % 40, round(middle[1]) - 20 + 11 * n % 40) for n in range(40)]), zone="33N")
    west, east, south, north = 15.78 - side / 2, 15.78 + side / 2, 46.36, 46.36 + side
    corners = [(west, south), (east, south), (east, north), (west, north)]
    shares = []
    for number in (1, 1000):  # of parts of each edge
        ring = [(a[0] + (b[0] - a[0]) * at / number, a[1] + (b[1] - a[1]) * at / number)
                for a, b in zip(corners, corners[1:] + corners[:1]) for at in range(number)]
        shares.append(share_inside(ranges, geopandas.GeoSeries([Polygon(ring)], crs=4326))["share"][0])
    assert 0 < shares[1] < 1 and shares[0] == pytest.approx(shares[1], abs=0.0005)
