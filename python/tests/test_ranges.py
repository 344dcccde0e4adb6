"""The numbers of home_range, compared with hulls, percent rules and overlaps that are computed here or by shapely."""
import sys
from datetime import timedelta, timezone

import numpy
import pandas
import pytest
from exact import area2, cloud, covers, hull, nearest
from frames import frame_of

from homerange import FrameError, HomeRangeNote, home_range, read_fixes
from homerange.ranges import runs

HERD = {
    "vixen": cloud(1, 120), "old boar": cloud(2, 75, 300, 562500), "Jäger": cloud(3, 9, 5), "NA": cloud(4, 41, 2000)}
LEVELS = [1, 50, 95, 99, 100]
SQUARE = [(0, 0), (200, 0), (200, 200), (0, 200)]
MIDDLE = [(500_000 + east, 5_000_000 + north) for east, north in SQUARE]  # of a zone


@pytest.fixture(scope="module")
def herd():
    return home_range(frame_of(**HERD), LEVELS)


def whole(polygon):
    """The corners of a polygon of shapely as whole numbers, not those on an edge."""
    return hull([(int(east), int(north)) for east, north in polygon.exterior.coords])


def test_areas_and_corners_are_those_of_a_monotone_chain(herd):
    found = herd.summary()
    assert found["animal"].unique().tolist() == [*HERD]
    for name, points in HERD.items():
        for level in LEVELS:
            kept = nearest(points, level)
            row = found[(found["animal"] == name) & (found["level"] == level)].iloc[0]
            assert (row["kept"], row["corners"]) == (len(kept), len(hull(kept)))
            assert row["hectares"] == area2(hull(kept)) / 20000
            assert herd.corners(level)[name] == hull(kept)


def test_curve_is_that_of_a_monotone_chain(herd):
    curve = herd.curve()
    for name, points in HERD.items():
        own = curve[curve["animal"] == name]
        assert own["n"].tolist() == [*range(1, len(points) + 1)]
        assert own["corners"].tolist() == [len(hull(points[:n])) for n in range(1, len(points) + 1)]
        assert own["hectares"].tolist() == [area2(hull(points[:n])) / 20000 for n in range(1, len(points) + 1)]
        assert own["time"].tolist() == frame_of(a=points)["timestamp"].tolist()


@pytest.mark.parametrize("level", LEVELS)
def test_polygons_are_the_convex_hulls_of_shapely(herd, level):
    pytest.importorskip("geopandas")
    from shapely.geometry import MultiPoint

    for row in herd.polygons(level).itertuples():
        wanted = MultiPoint(nearest(HERD[row.animal], level)).convex_hull
        assert row.geometry.equals(wanted)
        if wanted.geom_type == "Polygon":
            assert whole(row.geometry) == whole(wanted)
            assert round(2 * wanted.area) == area2(whole(wanted)) == round(row.hectares * 20000)
            assert len(row.geometry.exterior.coords) == row.corners + 1


def test_polygons_are_the_convex_hulls_of_geopandas(herd):
    geopandas, ops = pytest.importorskip("geopandas"), pytest.importorskip("shapely.ops")
    frame = frame_of(**HERD)
    points = geopandas.GeoSeries(geopandas.points_from_xy(frame["easting"], frame["northing"]))
    found = herd.polygons(100).set_index("animal")["geometry"]
    for name, own in points.groupby(frame["animal"]):
        assert area2(whole(found[name])) == area2(whole(ops.unary_union([*own]).convex_hull))


def test_overlaps_are_those_of_shapely(herd):
    pytest.importorskip("shapely")
    from shapely.geometry import MultiPoint, Point

    counts, shares = herd.overlap(), herd.overlap(share=True)
    assert counts.index.tolist() == counts.columns.tolist() == [*HERD]
    for name, points in HERD.items():
        for other, others in HERD.items():
            polygon = MultiPoint(others).convex_hull
            inside = sum(polygon.covers(Point(point)) for point in points)
            assert counts.loc[name, other] == inside
            assert shares.loc[name, other] == inside / len(points)


def test_overlaps_of_a_level_are_those_of_the_fixes_that_it_keeps(herd):
    for level in (50, 95):
        counts, shares = herd.overlap(level=level), herd.overlap(share=True, level=level)
        for other, others in HERD.items():
            polygon = hull(nearest(others, level))
            for name, points in HERD.items():
                inside = sum(covers(polygon, point) if len(polygon) > 2 else point in polygon for point in points)
                assert counts.loc[name, other] == inside
                assert shares.loc[name, other] == inside / len(points)
            assert counts.columns.name == shares.columns.name == f"in_range_of_{level}" and counts.index.name == "fixes_of"
    with pytest.raises(FrameError, match="level 60 is none"):
        herd.overlap(level=60)


def test_overlaps_say_that_they_are_of_all_fixes_if_no_level_is_named():
    found = home_range(frame_of(a=SQUARE, b=SQUARE), 50)
    assert found.overlap().columns.name == "in_range_of_100" and "in_range_of_100" in str(found.overlap())
    assert found.overlap(level=50.0).columns.name == "in_range_of_50"


def test_a_line_covers_what_lies_on_it():
    line = [(0, 0), (100, 50), (40, 20)]
    # 67 per cent of three fixes are 2.01, so all three are kept; they lie in one line.
    found = home_range(frame_of(a=line, b=[(20, 10), (20, 11), (0, 0), (60, 30)]), levels=67).overlap(level=67)
    assert found.loc["b", "a"] == 3


def test_edges_belong_to_a_polygon():
    found = home_range(frame_of(a=SQUARE, b=[(100, 0), (200, 200), (100, 100), (201, 100)])).overlap()
    assert found.loc["b", "a"] == 3
    assert found.loc["a", "b"] == 1


def test_decimetres_are_read_rounded_and_answered_in_metres():
    pytest.importorskip("geopandas")
    square = [(10.04, 20.0), (30.0, 20.0), (30.0, 40.05), (10.0, 40.0)]
    with pytest.warns(HomeRangeNote, match="rounded to whole decimetres, which moves a fix by at most 0.05 m"):
        found = home_range(frame_of(urchin=square), 100, unit="dm")
    assert found.corners() == {"urchin": [(10.0, 20.0), (30.0, 20.0), (30.0, 40.1), (10.0, 40.0)]}
    # Doubled, in square decimetres: 200 x 200 twice, and the triangle 200 x 1 above it.
    assert found.summary()["hectares"].tolist() == [80200 / 2_000_000]
    assert found.polygons().geometry.area.tolist() == [pytest.approx(401.0)]
    assert found.curve()["hectares"].iloc[-1] == 80200 / 2_000_000


def test_half_a_metre_is_rounded_up():
    with pytest.warns(HomeRangeNote, match="moves a fix by at most 0.71 m"):
        found = home_range(frame_of(a=[(0.5, 1.5), (2.49, 3.0)]))
    assert found.corners() == {"a": [(1, 2), (2, 3)]}


def test_one_fix_two_equal_fixes_and_a_line_have_no_area():
    geopandas = pytest.importorskip("geopandas")
    found = home_range(frame_of(one=[(5, 6)], same=[(7, 7), (7, 7)], line=[(0, 0), (4, 4), (2, 2)]))
    polygons = found.polygons().set_index("animal")
    assert isinstance(found.polygons(50), geopandas.GeoDataFrame)
    assert polygons["geometry"].map(lambda shape: shape.wkt).to_dict() == {
        "one": "POINT (5 6)", "same": "POINT (7 7)", "line": "LINESTRING (0 0, 4 4)"}
    assert polygons["corners"].to_dict() == {"one": 1, "same": 1, "line": 2}
    assert (found.summary()["hectares"] == 0).all()
    assert found.growth().loc[:, "within_95_fix":"last_quarter"].isna().all(axis=None)


def test_summary_has_times_and_counts():
    fixes = read_fixes(frame_of(a=SQUARE), tz="Europe/Ljubljana")
    found = home_range(fixes.iloc[:3], 100).summary()
    assert [str(time) for time in (found["first"][0], found["last"][0])] == [
        "2024-03-01 01:00:00+01:00", "2024-03-01 02:00:00+01:00"]
    assert found[["fixes", "left_out", "kept", "corners"]].values.tolist() == [[3, 1, 3, 3]]


@pytest.mark.parametrize("count, runs", [(64, 1), (65, 6)])
def test_a_herd_is_made_of_groups(count, runs):
    tracks = {f"deer {number}": cloud(number, 7, 400, 562000 + 100 * (number % 9)) for number in range(count)}
    done = []
    found = home_range(frame_of(**tracks), [95, 100], progress=lambda *numbers: done.append(numbers))
    assert done == [(step, runs) for step in range(1, runs + 1)]
    assert found.animals == [*tracks]
    assert found.corners(95) == {name: hull(nearest(points, 95)) for name, points in tracks.items()}
    polygons = {name: hull(points) for name, points in tracks.items()}
    assert found.corners(100) == polygons
    overlap = found.overlap()
    for name, points in tracks.items():
        for other in tracks:
            assert overlap.loc[name, other] == sum(covers(polygons[other], point) for point in points)


@pytest.mark.parametrize("apart, count, touched", [(101, 3, 0), (100, 5, 2), (99, 5, 2)])
def test_groups_whose_boxes_do_not_meet_have_no_run(apart, count, touched, monkeypatch):
    squares = {f"deer {number}": [(east, 0), (east + 100, 0), (east + 100, 100), (east, 100)]
               for number, east in ((number, apart * number) for number in range(70))}
    calls, call = [], runs._call
    monkeypatch.setattr(runs, "_call", lambda *words: calls.append(words) or call(*words))
    overlap = home_range(frame_of(**squares), 100).overlap()
    assert len(calls) == count
    for one, name in enumerate(squares):
        row = [4 if one == other else touched * (abs(one - other) == 1) for other in range(70)]
        assert overlap.loc[name].tolist() == row


def test_polygons_of_several_levels_stand_in_one_frame(herd):
    found = herd.polygons([95, 50])
    assert found["level"].tolist() == [95] * len(HERD) + [50] * len(HERD)
    assert found["animal"].tolist() == [*HERD] * 2
    for row in found.itertuples():
        assert (row.fixes, row.kept) == (len(HERD[row.animal]), (row.level * len(HERD[row.animal]) + 99) // 100)
    for level in (50, 95):
        own = found[found["level"] == level].geometry
        assert all(one.equals(other) for one, other in zip(own, herd.polygons(level).geometry))


def test_polygons_want_geopandas(herd, monkeypatch):
    monkeypatch.setitem(sys.modules, "geopandas", None)
    with pytest.raises(FrameError, match="polygons want geopandas, which is not installed .python3-geopandas.: corners"):
        herd.polygons()


def test_a_level_that_is_not_there_is_refused(herd):
    with pytest.raises(FrameError, match=r"level 80 is none of these ranges \(1, 50, 95, 99, 100\)"):
        herd.polygons(80)


def test_one_level_may_be_given_alone():
    found = home_range(frame_of(a=SQUARE), 50)
    assert found.levels == [50]
    assert found.corners(100) == {"a": SQUARE}


def repeated(fixes):
    """The fixes once more, each beside itself."""
    return fixes.merge(pandas.DataFrame({"animal": ["a", "a", "b"], "collar": [1, 2, 3]}), on="animal")


def test_fixes_that_became_more_are_said():
    fixes = read_fixes(frame_of(a=SQUARE, b=SQUARE))
    with pytest.warns(HomeRangeNote, match="^4 records of a have the second of the one before, and 4 its place: kept$") as said:
        home_range(repeated(fixes))
    assert [str(own.message) for own in said][1:] == ["not read: collar"]
    with pytest.warns(HomeRangeNote) as said:
        home_range(pandas.concat([fixes, fixes]))
    assert [str(one.message) for one in said] == [line for name in "ab" for line in (
        f"1 records of {name} come before an earlier one: sorted by time",
        f"4 records of {name} have the second of the one before, and 4 its place: kept")]


@pytest.mark.parametrize("title, marks", [("use", [1, 1, 0, 1]), ("Visible", [True, True, True, False]), ("manually.marked_outlier", ["", "", "true", ""])])
def test_marks_that_were_set_on_fixes_are_read(title, marks):
    fixes = read_fixes(frame_of(a=SQUARE))
    fixes[title] = marks
    with pytest.warns(HomeRangeNote, match="^1 outliers: left out$"):
        found = home_range(fixes)
    assert found.left_out().values.tolist() == [["a", "outlier", 1]] and found.hectares("a") == 2
    if title != "use":  # beside which no other mark is read
        with pytest.raises(FrameError, match=f"^'{title}' was added to the fixes, and is not read, since 'use' goes before it"):
            home_range(fixes.assign(use=1))
    with pytest.raises(FrameError, match=f"^row 2: {title} is 'perhaps' and"):
        home_range(fixes.assign(**{title: [1, 1, "perhaps", 1]}))


def test_animals_that_were_named_otherwise_are_not_left_out():
    fixes = read_fixes(frame_of(a=SQUARE, b=SQUARE))
    named = home_range(fixes.assign(animal=fixes["animal"].replace("b", "c")))
    assert named.animals == ["a", "c"] and named.left_out().empty
    with pytest.warns(HomeRangeNote):  # that they are sorted
        assert home_range(fixes.assign(animal="a")).left_out().empty
    fewer = home_range(fixes.iloc[1:].assign(animal=fixes["animal"].iloc[1:].replace("b", "c")))
    assert fewer.left_out().values.tolist() == [["", "chosen", 1]]


@pytest.mark.parametrize("title, cells", [("outlier", [True, False] * 2), ("Is.Outlier", [True, False] * 2), ("lc", [3, "B"] * 2), ("event_visible", [True, False] * 2)])
def test_columns_that_were_added_are_refused_as_in_any_table(title, cells):
    fixes = read_fixes(frame_of(a=SQUARE))
    with pytest.raises(FrameError, match=f"^column [0-9] '{title}' may have"):
        home_range(fixes.assign(**{title: cells}))


def test_columns_that_were_there_are_not_judged_again():
    fixes = read_fixes(frame_of(a=MIDDLE).assign(**{"argos-lc": [*"3213"], "zone": "33N"}), argos_class="3,2,1", zone="33N")
    assert len(home_range(fixes.iloc[1:]).fixes("a")) == 3
    with pytest.raises(FrameError, match="^column [0-9] 'epsg' has several values"):
        home_range(fixes.assign(epsg=[32633, 32634] * 2))


def test_fixes_that_are_read_again_by_another_clock_or_system():
    frame = frame_of(a=MIDDLE).assign(timestamp=pandas.date_range("2024-05-31", periods=4, freq="8h", tz="UTC"))
    fixes = read_fixes(frame, zone="33N")
    assert home_range(read_fixes(fixes, tz="Asia/Tokyo"), by="month").animals == ["a 2024-05", "a 2024-06"]
    for odd in ({"zone": "34N"}, {"crs": "EPSG:3035"}):
        with pytest.raises(FrameError, match="^the coordinates of these fixes are of 33N, which another (zone|crs) does not change: read"):
            read_fixes(fixes, **odd)


def test_points_of_fixes_are_their_own():
    pytest.importorskip("geopandas")
    fixes = read_fixes(frame_of(a=MIDDLE), zone="33N")
    points = fixes.points()
    points["easting"] = 0.0
    assert "geometry" not in fixes and fixes["easting"].max() == 500_200


def test_months_of_chosen_fixes_are_those_of_their_own_clock():
    fixes = read_fixes(frame_of(a=SQUARE).assign(timestamp=pandas.date_range("2024-05-31 04:00", periods=4, freq="4h", tz="UTC")))
    for zone in (timezone(timedelta(hours=10)), timezone(timedelta(hours=10), "EST"), "Australia/Brisbane"):
        own = fixes.assign(time=fixes["time"].dt.tz_convert(zone))
        found = home_range(own.iloc[1:], by="month")
        assert {name: len(found.fixes(name)) for name in found.animals} == {"a 2024-05": 2, "a 2024-06": 1}


def test_classes_of_fixes_may_change():
    fixes = read_fixes(frame_of(a=SQUARE))
    for other in (fixes.convert_dtypes(), fixes.astype({"easting": object}), fixes.astype({"northing": "Int64"})):
        assert home_range(other, 100).hectares("a") == 4


def test_a_level_of_numpy_is_a_number():
    assert home_range(frame_of(a=SQUARE), numpy.array(50)).levels == [50]
