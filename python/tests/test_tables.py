"""What data frames have and texts do not: indexes, types, reference systems, local grids; and all tables of the suite."""
import re
import subprocess
import sys
from datetime import time, timedelta, timezone
from pathlib import Path

import numpy
import pandas
import pytest
from exact import cloud
from frames import START, frame_of, noted, told

from homerange import FrameError, HomeRangeInfo, HomeRangeNote, home_range, read_fixes

SUITE = Path(__file__).parents[2] / "tools" / "tests" / "tables"
SQUARE = [(562_000, 5_134_000), (562_200, 5_134_000), (562_200, 5_134_200), (562_000, 5_134_200)]


def test_all_tables_of_the_suite(tmp_path):
    if not SUITE.is_dir():
        pytest.skip("no suite of tables")
    pytest.importorskip("pyproj")
    run = [sys.executable, "-B", SUITE / "unpack.py", tmp_path / "cases"]
    subprocess.run(run, check=True, capture_output=True)
    run = [sys.executable, "-B", SUITE / "run_python.py", tmp_path / "cases"]
    found = subprocess.run(run, capture_output=True, text=True)
    assert found.returncode == 0, found.stdout + found.stderr
    assert int(found.stdout.split()[-2]) > 1000


def test_time_in_the_index():
    frame = frame_of(a=SQUARE).set_index("timestamp")
    for name in ("timestamp", "t", None):
        found = home_range(frame.rename_axis(name))
        assert found.curve()["time"].tolist() == frame.index.tolist()


def test_animals_in_an_index_without_a_name_are_refused():
    parts = {name: frame_of(a=SQUARE).drop(columns="animal") for name in ("fox", "hare")}
    with pytest.raises(FrameError, match="^no column has a usual title for the animal, and level 0 of the index has texts that repeat"):
        home_range(pandas.concat(parts))
    assert home_range(pandas.concat(parts, names=["animal", None])).animals == ["fox", "hare"]
    frame = frame_of(a=SQUARE, b=SQUARE).set_index("animal").rename_axis(None)
    with pytest.raises(FrameError, match="^no column has a usual title for the animal, and the index has texts that repeat"):
        home_range(frame)
    with pytest.warns(HomeRangeNote):
        assert home_range(frame, name="fox").animals == ["fox"]


def test_a_time_that_nobody_named_wants_a_column_of_the_animal():
    frame = frame_of(a=SQUARE, b=SQUARE).rename(columns={"timestamp": "zeit"})
    assert home_range(frame).animals == ["a", "b"]
    with pytest.raises(FrameError, match="neither for the animal nor for the time: name them, as by animal=.. and time='zeit'$"):
        home_range(frame.rename(columns={"animal": "vogel"}))


def test_what_no_option_can_name_says_what_helps():
    frame = frame_of(a=SQUARE)
    with pytest.raises(FrameError, match="there is no column 'a'; .*: rename columns whose titles have a comma or |$"):
        home_range(frame.rename(columns={"animal": "a,1"}), animal="a,1")


@pytest.mark.parametrize("lengths", [
    pandas.to_timedelta([0, 30, 60, 90], unit="s"), pandas.to_timedelta([2, 3, 4, 5], unit="D"),
    pandas.Series([timedelta(days=day) for day in range(4)], dtype=object)])
def test_lengths_of_time_become_seconds(lengths):
    frame = frame_of(a=SQUARE).drop(columns="timestamp")
    said = (r"^row 0: time .*: make seconds of its lengths of time, as by pandas.to_timedelta\(frame.pop\('time'\)\).dt.total_seconds\(\), in a "
            "column 'second' in its place")
    own = frame.assign(time=lengths)
    for words, end in (({}, "$"), ({"time": "time"}, ", which time names$")):
        with pytest.raises(FrameError, match=said + end):
            home_range(own, **words)
    with pytest.raises(FrameError, match=r"make a column of this level of the index first, as by frame.reset_index\(\)$"):
        home_range(own.set_index("time"))
    own["second"] = pandas.to_timedelta(own.pop("time")).dt.total_seconds()
    assert home_range(own, 100).hectares("a") == home_range(own, 100, time="second").hectares("a") == 4


def test_lengths_of_time_beside_days_become_moments(splitter):
    frame = frame_of(a=SQUARE).drop(columns="timestamp").assign(date=pandas.Timestamp("2024-05-01").date(), clock=pandas.to_timedelta([0, 1, 30, 31], unit="h"))
    said = (r"^row 2: clock is of the class .*: make moments of both, as by pandas.to_datetime\(frame\['date'\]\) \+ "
            r"pandas.to_timedelta\(frame\['clock'\]\), in a column that time names alone$")
    with pytest.raises(FrameError, match=said):
        read_fixes(frame, time=["date", "clock"])
    frame["moment"] = pandas.to_datetime(frame["date"]) + pandas.to_timedelta(frame["clock"])
    assert read_fixes(frame, time="moment")["time"].tolist()[2] == pandas.Timestamp("2024-05-02 06:00", tz="UTC")


@pytest.mark.parametrize("title, words", [
    ("timestamp", {}), ("timestamp", {"time": "timestamp"}), ("when", {"time": "when"}), ("local_time", {"time": ["local_time"]}), ("when", {})])
def test_a_form_of_times_is_for_texts(splitter, title, words):
    frame = frame_of(a=SQUARE).rename(columns={"timestamp": title})
    utc, text = frame[title], frame[title].dt.strftime("%d.%m.%Y %H:%M")
    for moments in (utc, utc.dt.tz_convert("Asia/Tokyo"), utc.dt.tz_localize(None), utc.astype(object), utc.dt.tz_localize(None).dt.to_period("min")):
        for form in ("%d.%m.%Y", "%Y-%m-%d %H:%M:%S"):
            if title in ("timestamp", *words.values()) or getattr(moments.dtype, "tz", None) is not None:
                with pytest.raises(FrameError, match=f"^time_format is for texts, and '{title}' has moments: leave it out$") as fault:
                    read_fixes(frame.assign(**{title: moments}), time_format=form, **words)
                assert fault.value.kind == "option"
    if title == "timestamp":
        assert len(read_fixes(frame.assign(timestamp=text, deployed=utc), time_format="%d.%m.%Y %H:%M", **words)) == 4
        both = frame.assign(day=utc.dt.normalize(), clock=utc.dt.time)
        with pytest.raises(FrameError, match="^row 0: day clock is .*: day has moments: make days of it, as by .dt.date$"):
            read_fixes(both, time="day,clock", time_format="%Y-%m-%d %H:%M:%S")
        both["day"] = both["day"].dt.date
        assert read_fixes(both, time="day,clock", time_format="%Y-%m-%d %H:%M:%S")["time"].tolist() == utc.tolist()


def test_days_and_times_that_are_joined():
    frame = frame_of(a=SQUARE)
    moment, rest = frame["timestamp"], frame.drop(columns="timestamp")
    parts = {"day": moment.dt.date, "midnight": moment.dt.normalize(), "naive": moment.dt.normalize().dt.tz_localize(None), "clock": moment.dt.time}
    both = "both fit the time: name one, as by time='date', or both, as by time='date,time'$"
    for date, hour, said, words in (
            ("day", "clock", both, {"time": "date,time"}), ("naive", "clock", both, {"time": "date,time"}),
            ("midnight", "clock", "both fit the time: date has moments: make days of it, as by .dt.date$", None),
            ("day", "moment", "both fit the time: time has moments: name it alone, as by time='time'$", {"time": "time"}),
            ("day", "day", "both fit the time: name one, as by time='date'$", None)):
        table = rest.assign(date=parts[date], time=parts.get(hour, moment))
        with pytest.raises(FrameError, match=said):
            home_range(table)
        if words is not None:
            assert home_range(table, **words).curve()["time"].tolist() == moment.tolist()
    with pytest.raises(FrameError, match="both fit the time: datetime has moments: name it alone, as by time='datetime'$"):
        home_range(rest.assign(date=parts["day"], datetime=moment))
    for date, hour, said in (("midnight", "clock", "date has moments: make days of it, as by .dt.date$"),
                             ("day", "moment", "time has moments: name it alone, as by time='time'$")):
        with pytest.raises(FrameError, match=f"and not a time such as 2024-05-01 00:30:04: {said}"):
            home_range(rest.assign(date=parts[date], time=parts.get(hour, moment)), time="date,time")


def test_titles_of_several_levels_are_made_one():
    frame = frame_of(a=SQUARE)
    frame.columns = pandas.MultiIndex.from_tuples([(title, "") for title in frame.columns])
    with pytest.raises(FrameError, match=r"^the titles of columns have 2 levels: make one of them, as by frame.columns = \[' '.join\(map\(str, title"):
        home_range(frame)
    frame.columns = [" ".join(map(str, title)) for title in frame.columns]
    assert home_range(frame, 100).hectares("a") == 4


def test_shapes_of_a_plain_frame_are_no_points_yet():
    geopandas = pytest.importorskip("geopandas")
    frame = frame_of(a=SQUARE)
    places = geopandas.points_from_xy(frame["easting"], frame["northing"])
    for column in (pandas.Series([*places], dtype=object), places):
        shapes = pandas.DataFrame(frame[["animal", "timestamp"]].assign(place=column))
        with pytest.raises(FrameError, match=r"^there are no columns of usual titles for coordinates, and place has shapes: make points of a "
                                             r"GeoDataFrame of them, as by geopandas.GeoDataFrame\(frame, geometry='place', crs=..\)$"):
            home_range(shapes)
        assert home_range(geopandas.GeoDataFrame(shapes, geometry="place"), 100).hectares("a") == 4


def test_planes_in_feet_say_what_helps():
    pytest.importorskip("pyproj")
    axes = 'CS[Cartesian,2],AXIS["easting",east],AXIS["northing",north],LENGTHUNIT["foot",0.3048]'
    with pytest.raises(FrameError, match="^crs: the CRS local is in foot and not in metres: make metres of its coordinates, which need no CRS$"):
        home_range(frame_of(a=SQUARE), crs=f'ENGCRS["local",EDATUM["x"],{axes}]')
    with pytest.raises(FrameError, match="and not in metres: make points of its columns and project these first, as by geopandas.points_"):
        home_range(frame_of(a=SQUARE), crs="EPSG:2263")


def test_times_and_truths_are_no_names():
    frame = frame_of(a=SQUARE, b=SQUARE)
    with pytest.raises(FrameError, match="^row 0: animal is true, a truth: make it text$"):
        home_range(frame.assign(animal=frame["animal"] == "a"))
    days = frame["animal"].map({"a": pandas.Timestamp("2024-05-01"), "b": pandas.Timestamp("2024-05-02")})
    for column in (days, days.dt.date):
        with pytest.raises(FrameError, match="^row 0: animal is 2024-05-01.*, a time: make it text$"):
            home_range(frame.assign(animal=column))


def test_numbers_of_32_bits_say_how_far_they_are_apart():
    frame = frame_of(a=SQUARE)
    narrow = frame.assign(northing=frame["northing"].astype("float32"))
    with pytest.warns(HomeRangeNote) as warned:
        home_range(narrow, unit="dm")
    assert noted(warned) == ["numbers of northing have 32 bits, and may be 0.5 m from the places that were measured"]
    assert home_range(narrow).animals == home_range(frame, unit="dm").animals == ["a"]  # which says nothing
    sparse = pandas.arrays.SparseArray(narrow["northing"])
    scalars = pandas.Series([numpy.float32(north) for north in frame["northing"]], dtype=object)
    for column in (sparse, scalars, narrow["northing"].astype("Float32"), narrow["northing"].where(frame.index > 0)):
        with told("^numbers of northing have 32 bits, and may be 0.5 m from the places"):
            home_range(frame.assign(northing=column), unit="dm")


def test_animal_and_time_in_the_index():
    frame = frame_of(a=SQUARE, b=SQUARE)
    found = home_range(frame.set_index(["animal", "timestamp"]))
    assert found.corners() == {"a": SQUARE, "b": SQUARE}
    assert found.curve()["time"].tolist() == frame["timestamp"].tolist()
    named = frame.rename(columns={"animal": "Tier", "timestamp": "Zeit"}).set_index(["Tier", "Zeit"])
    assert home_range(named, animal="Tier", time="Zeit").corners() == found.corners()


def test_an_index_beside_columns_is_one_column_more():
    frame = frame_of(a=SQUARE, b=SQUARE)
    assert home_range(frame.set_index(["animal", "timestamp"], drop=False)).animals == ["a", "b"]
    other = frame.set_axis(pandas.date_range("2024-05-01", periods=8, freq="h"))
    with pytest.raises(FrameError, match="'timestamp' and .* 'datetime' both fit") as fault:
        home_range(other)
    assert fault.value.kind == "ambiguous"
    # A day alone in a column beside the times of the index: all fixes of a day would be of its midnight.
    moving = frame.drop(columns="timestamp").assign(date=START.date()).set_axis(frame["timestamp"].rename("t"))
    with pytest.raises(FrameError, match="'date' and .* 't' both fit the time: t has moments: name it alone, as by time='t'$"):
        home_range(moving)
    assert home_range(moving, time="t").curve()["time"].tolist() == frame["timestamp"].tolist()


def test_frames_of_other_packages():
    frame = frame_of(a=SQUARE, b=SQUARE)
    moving = frame.rename(columns={"animal": "traj_id"}).set_index("timestamp").rename_axis("t")
    long = moving.rename(columns={"traj_id": "trajectory_id"})
    track = frame.rename(columns={"animal": "user_id", "timestamp": "tracked_at"}).rename_axis("id")
    periods = frame.set_index(pandas.PeriodIndex(frame["timestamp"].dt.tz_localize(None), freq="min")).drop(columns="timestamp")
    for other in (moving, long, track, periods, moving.rename_axis(None), moving.assign(t=1), Collection(moving)):
        found = home_range(other)
        assert found.corners() == {"a": SQUARE, "b": SQUARE}
        assert found.curve()["time"].tolist() == frame["timestamp"].tolist()


class Collection:
    """As movingpandas has trajectories: the points of all of them are a frame with times in its index."""

    def __init__(self, frame):
        self.frame = frame

    def to_point_gdf(self):
        return self.frame


def test_points_of_movingpandas():
    geopandas = pytest.importorskip("geopandas")
    frame = frame_of(a=SQUARE, b=SQUARE)
    points = geopandas.points_from_xy(frame["easting"], frame["northing"])
    moving = geopandas.GeoDataFrame({"traj_id": frame["animal"].to_numpy()}, geometry=points, crs=32633,
                                    index=pandas.DatetimeIndex(frame["timestamp"].dt.tz_localize(None), name="t"))
    found = home_range(Collection(moving))
    assert found.corners() == {"a": SQUARE, "b": SQUARE} and found.crs.to_epsg() == 32633
    assert found.curve()["time"].tolist() == frame["timestamp"].tolist()
    assert home_range(moving.to_crs(4326)).corners() == found.corners()


def test_neither_animal_nor_time():
    frame = frame_of(a=SQUARE)[["easting", "northing"]]
    with pytest.warns(HomeRangeNote) as notes:
        found = home_range(frame, name="fox")
    assert noted(notes) == [
        "no column has a usual title for the animal: all fixes are of one, named fox",
        "no column has a usual title for the time: fixes are in the order of rows, as seconds 0, 1, 2, .."]
    assert found.corners() == {"fox": SQUARE}
    with pytest.raises(FrameError, match="every: no column has a usual title for the time: name it, as by time='COLUMN'"):
        home_range(frame, every="2h")


def test_local_grids_come_back_where_they_were():
    points = [(-2535.0, -202.5), (1005.0, -202.5), (1005.0, 3000.0)]
    with pytest.warns(HomeRangeNote, match="coordinates are shifted by 1000000 m east and 1000000 m north"):
        found = home_range(frame_of(a=points), 100, unit="dm")
    assert found.corners() == {"a": points}
    assert found.fixes("a").tolist() == [[*point] for point in points]
    assert found.hectares("a") == 3540 * 3202.5 / 2 / 10_000


def test_failed_fixes_are_left_out_and_counted():
    frame = frame_of(a=SQUARE)
    frame.loc[1, ["timestamp", "easting"]] = None
    with pytest.warns(HomeRangeNote, match="^1 records have no coordinates: left out"):
        assert home_range(frame, 100).summary()[["fixes", "left_out"]].values.tolist() == [[3, 1]]


def test_times_without_a_zone_are_of_the_one_that_is_named():
    times = pandas.date_range("2024-05-01", periods=4, freq="h")
    frame = frame_of(a=SQUARE).assign(timestamp=times)
    assert home_range(frame).summary()["first"][0] == times[0].tz_localize("UTC")
    assert home_range(frame, tz="Europe/Berlin").summary()["first"][0] == times[0].tz_localize("Europe/Berlin")
    aware = frame.assign(timestamp=times.tz_localize("UTC"))
    assert home_range(aware, tz="Europe/Berlin").summary()["first"][0] == times[0].tz_localize("UTC")


def test_a_zone_without_a_name_is_said():
    times = pandas.date_range("2024-05-01", periods=4, freq="h", tz=timezone(timedelta(hours=5, minutes=30)))
    with pytest.warns(UserWarning, match="^days and hours are those of UTC, since the zone UTC[+]05:30 of timestamp has no name"):
        found = home_range(frame_of(a=SQUARE).assign(timestamp=times))
    assert found.summary()["first"][0] == times[0] and found.tz == "UTC"


def test_a_category_of_times_has_its_zone():
    times = pandas.Series(pandas.date_range("2024-05-01", periods=4, freq="h", tz="Europe/Berlin")).astype("category")
    assert home_range(frame_of(a=SQUARE).assign(timestamp=times)).tz == "Europe/Berlin"


def test_levels_may_be_numbers_of_numpy():
    frame = frame_of(a=SQUARE * 12)
    assert home_range(frame, numpy.int64(95)).levels == [95]
    assert home_range(frame, [50.0, numpy.float64(95)]).levels == [50, 95]


@pytest.mark.parametrize("words, kept", [
    ({"since": "2018-11-04", "tz": "America/Sao_Paulo"}, 21), ({"until": "2018-11-03", "tz": "America/Sao_Paulo"}, 3),
    ({"since": numpy.datetime64("2018-11-04T12:00")}, 12), ({"since": pandas.Timestamp("2018-11-04 12:00")}, 12),
    ({"every": "12h"}, 2), ({"every": 0.5}, 24), ({"every": "90min"}, 16),
])
def test_bounds(words, kept):
    times = pandas.date_range("2018-11-04", periods=24, freq="h", tz="UTC")  # midnight is 03:00 UTC, and is passed over
    frame = pandas.DataFrame({"animal": "a", "timestamp": times, "easting": range(1000, 1024), "northing": 1000})
    if kept == 24:
        assert len(home_range(frame, **words).curve()) == 24
    else:
        with pytest.warns(HomeRangeNote):
            assert len(home_range(frame, **words).curve()) == kept


def test_two_columns_of_the_time():
    frame = frame_of(a=SQUARE).assign(day="2024-05-01", clock=["01:00", "02:00", "03:00", "04:00"])
    found = home_range(frame, time=["day", "clock"])
    assert found.curve()["time"].tolist() == [pandas.Timestamp(f"2024-05-01 0{hour}:00", tz="UTC") for hour in (1, 2, 3, 4)]
    # Typed days and times of the day are joined too.
    typed = frame.assign(day=START.date(), clock=[time(hour) for hour in (1, 2, 3, 4)])
    assert home_range(typed, time=["day", "clock"]).curve()["time"].dt.hour.tolist() == [1, 2, 3, 4]
    with pytest.raises(FrameError, match="row 0: timestamp clock is '2024-03-01T00:00:00Z 01:00' and not a time") as fault:
        home_range(frame, time=["timestamp", "clock"])
    assert fault.value.kind == "time"


def test_a_name_that_cannot_be_right():
    frame = frame_of(a=SQUARE).drop(columns="animal")
    with pytest.raises(FrameError, match="name: a name without control characters is wanted") as fault:
        home_range(frame, name="")
    assert fault.value.kind == "option"


def test_filters_are_arguments():
    frame = frame_of(a=SQUARE).assign(hdop=[1, 2, 3, None], fixtype=["3D", "2D", "3D", "3D"])
    with pytest.warns(HomeRangeNote) as notes:
        found = home_range(frame, 100, max_dop=2)
    assert noted(notes) == ["1 fixes have no DOP: left out", "1 fixes have a DOP above 2: left out"]
    assert found.summary()["left_out"].tolist() == [2]
    assert found.left_out().values.tolist() == [["a", "dop", 1], ["a", "no dop", 1]]
    with pytest.warns(HomeRangeNote, match="1 fixes are of other fix types than 3D: left out"):
        assert home_range(frame, 100, fix_type="3D").left_out().values.tolist() == [["a", "type", 1]]
    with pytest.raises(FrameError, match="max_dop leaves out 3 of 4 fixes of a, more than half"):
        home_range(frame, max_dop=1)
    with pytest.warns(HomeRangeNote, match="1 fixes are faster than 0.12 m/s"):
        home_range(frame.assign(easting=[562_000, 562_200, 562_400, 563_000], northing=0), 100, max_speed=0.12)
    with pytest.raises(FrameError, match="argos_class='3,2,1'"):
        home_range(frame.assign(argos_lc=["3", "2", "B", "Z"]))
    with pytest.warns(HomeRangeNote, match="2 fixes are of other Argos classes than 3,2"):
        home_range(frame.assign(argos_lc=["3", "2", "B", "Z"]), argos_class=(3, 2))


@pytest.mark.parametrize("words", [
    {"use": True}, {"animal": pandas.Series(["a"])}, {"tz": 5}, {"levels": numpy.nan}, {"every": "often"}, {"every": float("inf")},
    {"hours": 18}, {"months": "May"}, {"max_speed": -1}, {"unit": 5}, {"zone": 33}, {"since": 5}, {"until": "2024-02-30"}, {"max_dop": "1_0"},
    {"argos_class": 3.5}, {"crs": 5},
])
def test_arguments_are_refused_as_one_error(words):
    with pytest.raises(FrameError):
        home_range(frame_of(a=SQUARE), **words)


@pytest.mark.parametrize("code, scale", [
    (3395, "109.[0-9]* % too great"), (4087, "44.[0-9]* % too great"), (32630, "5.[0-9]* % too great"),
    (3034, "[0-9.]* % too small"),
])
def test_a_reference_system_of_wrong_areas_is_refused(code, scale):
    geopandas = pytest.importorskip("geopandas")
    frame = frame_of(a=cloud(3, 20))
    points = geopandas.GeoDataFrame(frame[["animal", "timestamp"]], crs=32633, geometry=geopandas.points_from_xy(
        frame["easting"], frame["northing"])).to_crs(code)
    with pytest.raises(FrameError, match=f"areas of a are {scale} on this grid") as fault:
        home_range(points)
    assert fault.value.kind == "scale"
    columns = frame.assign(easting=points.geometry.x, northing=points.geometry.y)
    with pytest.raises(FrameError, match=f"areas of a are {scale} on this grid"):
        home_range(columns, crs=code)


@pytest.mark.parametrize("code, area", [(3832, "98.7 E to 68.0 W, 60.0 S to 66.7 N"), (32661, "180.0 W to 180.0 E, 60.0 N to 90.0 N")])
def test_points_that_lie_off_the_area_of_their_system_are_refused(code, area):
    geopandas = pytest.importorskip("geopandas")
    frame = frame_of(a=cloud(3, 20))
    points = geopandas.GeoDataFrame(frame[["animal", "timestamp"]], crs=32633, geometry=geopandas.points_from_xy(
        frame["easting"], frame["northing"])).to_crs(code)
    with pytest.raises(FrameError, match=f"^crs: the fixes lie near 15.8 E 46.4 N, and .* is of {area}: ") as fault:
        home_range(points)
    assert fault.value.kind == "crs"


def test_places_off_a_reference_system_are_refused():
    pytest.importorskip("pyproj")
    with pytest.raises(FrameError, match="^crs: the fixes lie where that has no place, and ETRS89-extended / LAEA Europe is of ") as fault:
        home_range(frame_of(a=[(46_000_000, 26_000_000), (46_000_100, 26_000_000)]), crs=3035)
    assert fault.value.kind == "crs"


def test_equal_areas_are_taken():
    geopandas = pytest.importorskip("geopandas")
    points = geopandas.GeoDataFrame(frame_of(a=SQUARE)[["animal", "timestamp"]], crs=32633, geometry=geopandas.points_from_xy(
        *zip(*SQUARE))).to_crs(3035)
    with pytest.warns(HomeRangeNote) as notes:
        found = home_range(points)
    assert all("rounded" in note for note in noted(notes))
    assert found.hectares("a") == pytest.approx(4, rel=0.02)
    assert found.crs.to_epsg() == 3035


def test_a_crs_of_columns_is_that_of_the_answers():
    pytest.importorskip("geopandas")
    assert home_range(frame_of(a=SQUARE), crs=32633).polygons().crs.to_epsg() == 32633
    with pytest.warns(HomeRangeInfo, match="coordinates are those of the table; zone: 33N"):
        assert home_range(frame_of(a=SQUARE), zone="33 n").crs == "EPSG:32633"


def test_a_crs_is_named_as_a_whole():
    frame = frame_of(a=SQUARE)
    assert home_range(frame, crs="WGS 84 / UTM zone 33N").crs.to_epsg() == 32633
    for name in ("foo", "wgs", "UTM zone 33N"):  # of "foo" pyproj makes Amersfoort
        with pytest.raises(FrameError, match=f"crs='{name}' names no reference system"):
            home_range(frame, crs=name)


def test_a_zone_and_a_crs_have_to_be_of_one_place():
    pytest.importorskip("pyproj")
    frame = frame_of(a=SQUARE)
    assert home_range(frame, zone="33N", crs="EPSG:25833").crs.to_epsg() == 25833
    for words in ({"zone": "33N", "crs": 32632}, {"zone": "33N", "crs": 3035}):
        with pytest.raises(FrameError, match="the coordinates are of the zone 33N, and the CRS") as fault:
            home_range(frame, **words)
        assert fault.value.kind == "zone"
    utm = frame.rename(columns={"easting": "utm_easting", "northing": "utm_northing"}).assign(utm_zone="33N")
    for crs, said in ((32634, "row 0: there is no longitude and latitude to project"), (3035, "the coordinates are of the zone 33N")):
        with pytest.raises(FrameError, match=said) as fault:
            home_range(utm, crs=crs)
        assert fault.value.kind == "zone"


def test_longitude_and_latitude_are_projected_into_a_zone_that_is_named():
    pytest.importorskip("pyproj")
    frame = pandas.DataFrame({"id": "a", "date": START, "lon": [15.805899, 15.807277], "lat": [46.356742, 46.358710]})
    with pytest.warns(HomeRangeNote):
        found = home_range(frame, zone="33N")
    assert found.fixes("a").tolist() == [[562000, 5134001], [562104, 5134221]]
    assert found.crs == "EPSG:32633"


@pytest.mark.parametrize("zone, helps", [
    ("Asia/Tokyo", "make days of it, as by .dt.date, and name its zone, as by tz='Asia/Tokyo'$"), ("UTC", "make days of it, as by .dt.date$"),
    (timezone(timedelta(hours=9)), "make days of it, as by .dt.date, and name the zone of its clock by tz$")])
def test_days_of_moments_keep_their_zone(zone, helps):
    frame = frame_of(a=SQUARE)
    local = frame.pop("timestamp").dt.tz_convert(zone)
    table = frame.assign(date=local.dt.normalize(), time=local.dt.time)
    for words in ({}, {"time": "date,time"}):
        with pytest.raises(FrameError, match=f": date has moments: {helps}"):
            home_range(table, **words)
    with pytest.raises(FrameError, match=": date has moments: make days of it, as by .dt.date$"):
        home_range(table, time="date,time", tz="Asia/Tokyo")
    own = table.assign(date=table["date"].dt.date)
    assert home_range(own, time="date,time", tz="UTC" if zone == "UTC" else "Asia/Tokyo").curve()["time"].tolist() == local.tolist()


@pytest.mark.parametrize("title, word", [("local_time", "local"), ("time_cet", "cet"), ("Ortszeit", "Ortszeit"), ("Zeit (MEZ)", "MEZ")])
def test_moments_labelled_utc_whose_title_says_another_clock_are_refused(splitter, title, word):
    clock = pandas.DatetimeIndex(pandas.date_range("2024-05-01 08:00", periods=4, freq="h"))
    frame = frame_of(a=SQUARE).drop(columns="timestamp").assign(**{title: clock.tz_localize("UTC")})
    in_index = frame.drop(columns=title).set_index(clock.tz_localize("UTC").rename(title))
    said = f"'{title}' says {word}, and its moments are labelled UTC: if they are, name tz='UTC', and else give them the zone of their clock, as by "
    for words in ({}, {"tz": "Europe/Vienna"}, {"time": title}, {"time": title, "tz": "Europe/Vienna"}):
        with pytest.raises(FrameError) as fault:
            read_fixes(frame, **words)
        assert fault.value.kind == "columns" and str(fault.value) == f"{said}frame['{title}'].dt.tz_localize(None).dt.tz_localize('Europe/Ljubljana')"
        if "time" not in words:
            with pytest.raises(FrameError, match=re.escape(f"{said}frame.index.tz_localize(None).tz_localize('Europe/Ljubljana')")):
                read_fixes(in_index, **words)
    assert read_fixes(frame, tz="UTC")["time"].tolist() == read_fixes(in_index, tz="UTC")["time"].tolist() == clock.tz_localize("UTC").tolist()
    helped = frame.assign(**{title: frame[title].dt.tz_localize(None).dt.tz_localize("Europe/Ljubljana")})
    assert read_fixes(helped)["time"].tolist() == clock.tz_localize("Europe/Ljubljana").tolist()
    naive = in_index.tz_localize(None)
    with pytest.raises(FrameError, match=re.escape(f"'{title}' says {word}, and without tz times are those of UTC: name their zone, as by tz=")):
        read_fixes(naive)
    assert read_fixes(naive, tz="Europe/Vienna")["time"].tolist() == clock.tz_localize("Europe/Vienna").tolist()
    utc = frame.rename(columns={title: "time_utc"})
    assert read_fixes(utc, tz="Europe/Vienna")["time"].tolist() == read_fixes(utc)["time"].tolist() == clock.tz_localize("UTC").tolist()


LABELLED = ", and the moments of time are labelled UTC: if they are, remove it, and else give them the zone of their clock, as by "


@pytest.mark.parametrize("title, values, said", [
    ("utc_offset", 2, "says of which zone times are, and is not read"), ("timezone", "Europe/Ljubljana", "says of which zone times are, and is not read"),
    ("tz", "CEST", "says of which zone times are, and is not read"), ("isdst", 1, "says that times are by the clock of a summer (row 0)"),
    ("isdst", [0, 0, None, 1], "says that times are by the clock of a summer (row 3)"),
    ("DST", [False, True, True, True], "says that times are by the clock of a summer (row 1)"),
    ("summer_time", ["no", "yes", "yes", "no"], "says that times are by the clock of a summer (row 1)")])
def test_moments_labelled_utc_beside_a_column_that_says_another_clock_are_refused(splitter, title, values, said):
    clock = pandas.DatetimeIndex(pandas.date_range("2024-05-01 08:00", periods=4, freq="h"))
    frame = frame_of(a=SQUARE).drop(columns="timestamp").assign(time=clock.tz_localize("UTC"), **{title: values})
    other = frame.assign(time=frame["time"].astype(object))
    for table, own in ((frame, "frame['time']"), (other, "pandas.to_datetime(frame['time'])")):
        with pytest.raises(FrameError) as fault:
            read_fixes(table)
        assert re.sub("^column [0-9]+ ", "", str(fault.value)) == (
            f"'{title}' {said}{LABELLED}{own}.dt.tz_localize(None).dt.tz_localize('Europe/Ljubljana')")
        assert fault.value.kind == "columns"
    with pytest.raises(FrameError, match=re.escape(f"{LABELLED}frame.index.tz_localize(None).tz_localize('Europe/Ljubljana')")):
        read_fixes(frame.set_index("time"))
    levels = frame.set_index([pandas.Index(["x"] * 4), "time"]).rename_axis([None, None])
    with pytest.raises(FrameError, match=re.escape("get_level_values(1).tz_localize(None)")):
        read_fixes(levels)
    helped = frame.assign(time=frame["time"].dt.tz_localize(None).dt.tz_localize("Europe/Ljubljana"))
    assert read_fixes(helped)["time"].tolist() == clock.tz_localize("Europe/Ljubljana").tolist()
    assert read_fixes(frame.drop(columns=title))["time"].tolist() == clock.tz_localize("UTC").tolist()
    none = {"utc_offset": 0, "timezone": "UTC", "tz": "UTC"}.get(title, 0)
    assert read_fixes(frame.assign(**{title: none}))["time"].tolist() == clock.tz_localize("UTC").tolist()


def test_texts_beside_a_column_of_offsets_are_still_told_to_name_their_zone(splitter):
    clock = pandas.Series(pandas.date_range("2024-05-01 08:00", periods=4, freq="h"))
    texts = frame_of(a=SQUARE).drop(columns="timestamp").assign(time=clock.astype(str), capture=clock.dt.tz_localize("UTC"), utc_offset=2)
    for frame in (texts, texts.assign(time=clock)):
        with pytest.raises(FrameError, match="name the zone, as by tz='Europe/Ljubljana', or write"):
            read_fixes(frame)


@pytest.mark.parametrize("unit, of_numbers, name, parts", [("s", "ms", "milliseconds", 10 ** 3), ("ms", "us", "microseconds", 10 ** 6)])
def test_moments_of_another_part_of_a_second_are_refused_with_it(splitter, unit, of_numbers, name, parts):
    clock = 1714550400 + 3600 * numpy.arange(4)
    try:
        times = pandas.Series((clock * parts).astype(f"datetime64[{unit}]"))
    except pandas.errors.OutOfBoundsDatetime:  # before pandas 2, which makes no such column itself
        times = pandas.Series(pandas.arrays.DatetimeArray._simple_new((clock * parts).astype(f"datetime64[{unit}]"), dtype=numpy.dtype(f"datetime64[{unit}]")))
    frame = frame_of(a=SQUARE).drop(columns="timestamp").assign(time=times)
    with pytest.raises(FrameError) as fault:
        read_fixes(frame)
    assert str(fault.value) == (
        f"row 0: time is far behind the year 9999 and not a time such as 2024-05-01 00:30:04: if its numbers are {name} since 1970, make "
        f"moments of them, as by frame['time'] = pandas.to_datetime(frame['time'].astype('int64'), unit='{of_numbers}', utc=True)")
    helped = frame.assign(time=pandas.to_datetime(frame["time"].astype("int64"), unit=of_numbers, utc=True))
    assert [time.timestamp() for time in read_fixes(helped)["time"]] == clock.tolist()
