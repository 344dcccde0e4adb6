"""Fixes that were read: which rows of a frame they are, what they say, and that they can be chosen, sorted and bound."""
import datetime
import pickle
import re
import warnings
from decimal import Decimal
from pathlib import Path

import numpy
import pandas
import pytest
from frames import START, frame_of, noted, quietly, told

from homerange import FrameError, HomeRangeInfo, HomeRangeNote, home_range
from homerange.read.fixes import Fixes
from homerange.read.reading import read_fixes

TOP = Path(__file__).parents[2]
EXPORT = TOP / "examples" / "export.csv"
HEAD = "individual-local-identifier,timestamp,utm-easting,utm-northing,utm-zone,visible,sensor-type\n"
SQUARE = [(0, 0), (200, 0), (200, 200), (0, 200)]


@pytest.fixture
def herd():
    """A thousand fixes of five animals in no order, some without coordinates, some of one moment."""
    random = numpy.random.default_rng(5)
    minutes = random.integers(0, 400, 1000)
    frame = pandas.DataFrame({
        "note": [f"row {at}" for at in range(1000)], "animal": random.choice(["a/1", "b", "c", "ä", "NA"], 1000),
        "when": START + pandas.to_timedelta(minutes, unit="min") + pandas.to_timedelta(random.integers(0, 4, 1000) * 250, unit="ms"),
        "easting": random.integers(0, 90_000, 1000) / 8, "northing": random.integers(0, 90_000, 1000) / 8})
    frame.loc[random.choice(1000, 50, replace=False), "northing"] = None
    return frame


def test_fixes_are_the_rows_of_the_frame_by_animal_and_time(splitter, herd):
    fixes = quietly(read_fixes, herd, time="when")
    good = herd[herd["northing"].notna()]
    parts = [good[good["animal"] == name].sort_values("when", kind="stable") for name in dict.fromkeys(good["animal"])]
    wanted = pandas.concat(parts)
    assert fixes["note"].tolist() == wanted["note"].tolist() and fixes.index.equals(wanted.index)
    assert fixes["animal"].tolist() == wanted["animal"].tolist() and fixes["when"].tolist() == wanted["when"].tolist()
    assert fixes["time"].tolist() == wanted["when"].dt.floor("s").tolist()
    assert fixes["easting"].tolist() == numpy.floor(wanted["easting"] + 0.5).tolist()
    assert fixes["northing"].tolist() == numpy.floor(wanted["northing"] + 0.5).tolist()
    assert [*fixes.columns] == ["animal", "time", "easting", "northing", "note", "when"]
    assert fixes.left_out()["fixes"].sum() == 50 and {*fixes.left_out()["reason"]} == {"coordinates"}
    assert sum(fixes.reading.counts.values()) == 950 and fixes.reading.names == {"a/1": "a_1"}


def test_unit_zone_and_shift(splitter):
    frame = frame_of(a=[(-250.54, 10), (-300, 20.26), (-280, 400)])
    for unit, east in (("m", [-251, -300, -280]), ("dm", [-250.5, -300, -280])):
        fixes = quietly(read_fixes, frame, unit=unit)
        assert fixes["easting"].tolist() == east and fixes.reading.unit == unit and fixes.reading.shift == (1_000_000, 0)
    assert fixes["northing"].tolist() == [10, 20.3, 400]
    assert fixes.reading.zone is None and fixes.reading.system is None
    fixes = read_fixes(frame_of(a=[(500_000, 5_000_000), (500_100, 5_000_100)]), zone="33N")
    assert fixes.reading.system == "EPSG:32633" and fixes.reading.system_text == "EPSG:32633 (WGS 84 / UTM zone 33N)"


def test_times_are_of_the_zone_of_their_column(splitter):
    frame = frame_of(a=SQUARE)
    assert str(read_fixes(frame)["time"].dtype) == "datetime64[ns, UTC]"
    local = read_fixes(frame.assign(timestamp=frame["timestamp"].dt.tz_convert("Europe/Ljubljana")))
    assert str(local["time"].dtype) == "datetime64[ns, Europe/Ljubljana]" and local["time"].tolist() == frame["timestamp"].tolist()
    assert str(read_fixes(frame, tz="Asia/Tokyo")["time"].dtype) == "datetime64[ns, Asia/Tokyo]"
    # A column that is not read has no say.
    seconds = frame.assign(time=range(10 ** 9, 10 ** 9 + 4), released=local["time"]).drop(columns="timestamp")
    assert str(read_fixes(seconds)["time"].dtype) == "datetime64[ns, UTC]"
    # A text without a zone is of the one that is named: in March it is an hour before UTC.
    text = frame.assign(timestamp=frame["timestamp"].dt.strftime("%Y-%m-%d %H:%M:%S"))
    assert read_fixes(text, tz="Europe/Ljubljana")["time"].tolist() == (frame["timestamp"] - pandas.Timedelta("1h")).tolist()


@pytest.mark.parametrize("seconds", [[0, 60], [10 ** 8 - 1, 10 ** 8], [1714523404, 9_300_000_000], [1714523404, 18_842_000_000]])
def test_seconds_without_a_calendar_are_numbers(splitter, seconds):
    frame = pandas.DataFrame({"animal": "a", "second": seconds, "x": [1, 300], "y": [3, 400]})
    assert quietly(read_fixes, frame)["second"].tolist() == seconds


def test_times_past_those_of_nanoseconds_are_seconds(splitter):
    # From 1970 to 2567 there are 597 years, of which 145 are leap years: 149 that 4 divides, without 2100, 2200, 2300 and 2500.
    frame = pandas.DataFrame({"animal": "a", "timestamp": numpy.array(["2567-01-01", "2567-01-02"], "datetime64[s]").astype(object),
                              "x": [1, 300], "y": [3, 400]})
    found = quietly(read_fixes, frame)["second"].tolist()
    assert found == [86400 * (597 * 365 + 145 + day) for day in (0, 1)]


def test_files_are_read_like_frames(splitter, tmp_path):
    with told("^1 records have no coordinates: left out"):
        fixes = read_fixes(EXPORT)
    assert [*fixes.columns] == ["animal", "time", "easting", "northing"] and fixes.reading.zone == "33N"
    frame = quietly(read_fixes, pandas.read_csv(EXPORT))
    assert fixes.equals(frame[[*fixes.columns]].reset_index(drop=True))
    path = tmp_path / "export.csv"
    path.write_text(HEAD + "a,2024-05-01 00:10:00.5,3,4,33N,,gps\na,2024-05-01 00:10:00.2,1,2,33N,,gps\n"
                    "a,2024-05-01 00:05:00,9,9,33N,false,gps\n")
    fixes = quietly(read_fixes, path)
    assert fixes["easting"].tolist() == [1, 3] and fixes.left_out().values.tolist() == [["a", "outlier", 1]]
    assert fixes["time"].tolist() == [pandas.Timestamp("2024-05-01 00:10:00", tz="UTC")] * 2


@pytest.mark.parametrize("rows, options, kind, said", [
    ("a,2024-05-01,1,2,33N,,gps\na,2024-05-01,1,2,33N,,argos\n", {}, "sensor", "several sensors .argos 1, gps 1.* such as sensor='argos'"),
    ("a,2024-05-01,1,2,33N,,\n,2024-05-01,1,2,33N,,\n", {}, "animal", "record 2: there is no individual-local-identifier, and skip_unnamed=True"),
    ("a,2024-05-01,x,2,33N,,\n", {}, "number", "record 1: utm-easting is 'x' and not a number"),
    ("a,2024-05-01,1,2,33N,,gps\n", {"sensor": "argos"}, "sensor", "no fix is of argos"),
    ("a,2024-05-01,1,2,33N,,gps\n", {"tz": "Middle-earth"}, "option", "is no time zone"),
    ("a,2024-05-01,1,2,33N,,gps\n", {"from_": "acme"}, "option", "acme is none of vectronic, lotek"),
])
def test_what_the_program_refuses_is_refused(tmp_path, splitter, rows, options, kind, said):
    path = tmp_path / "export.csv"
    path.write_text(HEAD + rows)
    with pytest.raises(FrameError, match=f"^{path}: .*{said}") as fault:
        read_fixes(path, **options)
    assert fault.value.kind == kind
    frame = pandas.read_csv(path, dtype=str)
    with pytest.raises(FrameError, match=said.replace("record 1", "row 0").replace("record 2", "row 1")) as again:
        read_fixes(frame, **options)
    assert (again.value.kind, again.value.record) == (kind, fault.value.record) and "fixes.csv" not in str(again.value)


def test_a_collar_is_read_by_its_preset(tmp_path, splitter):
    path = tmp_path / "collar.csv"
    path.write_text("CollarID,UTC_Date,UTC_Time,Latitude [deg],Longitude [deg],DOP,FixType,AnimalID\n"
                    "7,20.09.2024,00:00:20,46.356742,15.805899,1.8,GPS-3D,Vesna\n"
                    "7,20.09.2024,03:00:20,N/A,N/A,N/A,No Fix,Vesna\n"
                    "7,20.09.2024,04:00:20,46.356742,15.805899,2.8,GPS-3D,Vesna\n"
                    "7,20.09.2024,06:00:20,46.358710,15.807277,7.8,GPS-2D,Vesna\n")
    with pytest.warns(UserWarning) as notes:
        fixes = read_fixes(path, from_="vectronic", max_dop=5)
    assert noted(notes) == ["1 records have no coordinates: left out", "1 fixes have a DOP above 5: left out",
                            "coordinates are rounded to whole metres, which moves a fix by at most 0.36 m"]
    assert "times are read as %d.%m.%Y %H:%M:%S, in UTC" in [str(note.message) for note in notes if note.category is HomeRangeInfo]
    assert fixes["animal"].tolist() == ["Vesna"] * 2 and fixes["easting"].tolist() == [562000] * 2
    assert quietly(read_fixes, pandas.read_csv(path), from_="vectronic", max_dop=5)["easting"].tolist() == [562000] * 2


@pytest.mark.parametrize("table, said, kind", [
    (5, "a int is neither a path nor a data frame with a row for each fix: make it one, as by pandas.DataFrame", "option"),
    ([1], "a list is neither", "option"), (pandas.DataFrame(), "the data frame has no row of a fix", "empty"),
    (frame_of(), "the data frame has no row", "empty"), (frame_of(a=SQUARE)["easting"], "a Series is neither", "option"),
    (type("Other", (), {"to_pandas": None})(), "a Other is neither .*: make it one, as by x.to_pandas", "option"),
])
def test_what_is_no_table_is_refused(table, said, kind):
    for call in (read_fixes, home_range):
        with pytest.raises(FrameError, match=said) as fault:
            call(table)
        assert fault.value.kind == kind


@pytest.mark.parametrize("title, options, kind", [
    ("animal", {}, "unread"), ("sensor-type", {}, "sensor"), ("sensor-type", {"sensor": "b"}, "unread"),
    ("kind", {"fix": "kind", "fix_type": ["<list>", "b"]}, "unread"), ("visible", {}, "mark"), ("dop", {"max_dop": 5}, "number"),
    ("timestamp", {}, "time"), ("northing", {}, "number")])
def test_what_has_no_text_is_refused_where_it_is_read(splitter, title, options, kind):
    frame = frame_of(a=SQUARE * 2)
    cells = frame[title].tolist() if title in frame else [1 if title in ("visible", "dop") else "b"] * 8
    frame[title] = [cells[0], ["a"], *cells[2:]]
    said = f"^row 1: {title} is of the class list, of which no cell is known: make text, numbers or times of it$"
    with pytest.raises(FrameError, match=said) as fault:
        quietly(read_fixes, frame, **options)
    assert (fault.value.kind, fault.value.record) == (kind, 2)


@pytest.mark.parametrize("names", [pandas.Series([1, 1.5, 2, 2]), pandas.Series([1, 1.5, 1, None], dtype="Float64"), pandas.Series([1, 1.5, "b", "b"])])
def test_numbers_that_are_not_whole_are_no_names(splitter, names):
    with pytest.raises(FrameError, match="^row 1: animal is 1.5, a number that is not whole: make it text$") as fault:
        quietly(read_fixes, frame_of(a=SQUARE).assign(animal=names), skip_unnamed=True)
    assert (fault.value.kind, fault.value.record) == ("name", 2)
    assert quietly(read_fixes, frame_of(a=SQUARE).assign(animal=[*"aabb"], note=names))["animal"].nunique() == 2


@pytest.mark.parametrize("value, said", [
    (numpy.inf, "inf, a number that is not whole"), (-numpy.inf, "-inf, a number that is not whole"), (numpy.float32("inf"), "inf, a number"),
    (Decimal("Infinity"), "inf, a number that is not whole"), (numpy.timedelta64(3600, "s"), "01:00:00, a time"), (datetime.time(10), "10:00:00, a time"),
    (numpy.datetime64("20000-01-01"), "20000-01-01, a time"), (datetime.timedelta(hours=1), "01:00:00, a time")])
def test_what_is_no_name(splitter, value, said):
    for names in (pandas.Series(["b", value, "b", "b"], dtype=object), pandas.Series([None, value, value, value])):
        with pytest.raises(FrameError, match=f"^row 1: animal is {said}") as fault:
            quietly(read_fixes, frame_of(a=SQUARE).assign(animal=names), skip_unnamed=True)
        assert (fault.value.kind, fault.value.record) == ("name", 2)


@pytest.mark.parametrize("title", ["timestamp_utc", "time_local", "UTC_datetime", "local time"])
@pytest.mark.parametrize("tz", [None, "Asia/Tokyo"])
def test_moments_are_the_time_whatever_their_title_says(splitter, title, tz):
    zone = "Africa/Nairobi" if "local" in title else "UTC"
    frame = frame_of(a=SQUARE).rename(columns={"timestamp": title}).assign(note="x")
    frame[title] = frame[title].dt.tz_convert(zone)
    for options in ({}, {"time": title}):
        with told(f"^columns: animal, {title}, easting, northing; 1 animals"):
            fixes = read_fixes(frame, tz=tz, **options)
        assert fixes["time"].tolist() == frame[title].tolist() and str(fixes["time"].dt.tz) == (tz or zone)
        assert fixes[title].tolist() == frame[title].tolist() and "datetime" not in fixes
    with pytest.raises(FrameError, match=rf"^row 3: there is no {title}: leave rows without one out, as by frame\[frame\['{title}'\][.]notna\(\)\]$"):
        read_fixes(frame.assign(**{title: frame[title].where(frame.index < 3)}), tz=tz, time=title)
    assert quietly(read_fixes, frame.rename(columns={title: "second"}), tz=tz)["time"].tolist() == frame[title].tolist()
    naive = frame.assign(**{title: frame[title].dt.tz_localize(None)})
    with pytest.raises(FrameError, match="no column has a usual title for the time"):
        read_fixes(naive, tz=tz)
    with pytest.raises(FrameError, match="no column has a usual title for the time, and"):
        read_fixes(frame.assign(released=frame[title]), tz=tz)


def test_what_has_no_text_is_no_word_where_it_is_not_read(splitter):
    frame = frame_of(a=SQUARE)
    fixes = read_fixes(frame.assign(animal="<list>", note=[[1], [2], [3], [4]]))
    assert fixes["animal"].tolist() == ["<list>"] * 4 and fixes["note"].tolist() == [[1], [2], [3], [4]]


def test_names_that_look_the_same_where_they_are_said_are_two(splitter):
    frame = frame_of(**{"a\tb": SQUARE, "a\\x09b": SQUARE[:3]})
    fixes = read_fixes(frame)
    assert fixes["animal"].nunique() == 2 and sorted(fixes.groupby("animal").size()) == [3, 4]


@pytest.fixture
def fixes(splitter):
    return read_fixes(frame_of(a=SQUARE, b=SQUARE).assign(sex=list("ffffmmmm"), hectares=1.5))


def test_fixes_are_chosen_and_sorted_as_in_any_frame(fixes):
    for chosen in (fixes[fixes["sex"] == "m"], fixes.query("sex == 'm'"), fixes.iloc[4:], fixes.loc[fixes["animal"] == "b"],
                   fixes.drop(columns=["sex"]), fixes.sort_values("easting"), fixes.head(3), fixes.assign(k=1), fixes.copy(),
                   fixes.reset_index(drop=True), fixes.drop_duplicates(), fixes[["animal", "time", "easting", "northing"]],
                   fixes.sample(3, random_state=1), fixes.groupby("animal").head(1), fixes.merge(pandas.DataFrame({"sex": ["f"], "k": 1})),
                   pickle.loads(pickle.dumps(fixes))):
        assert type(chosen) is Fixes and chosen.reading == fixes.reading
    for part in (fixes[["animal", "easting"]], fixes.drop(columns="time"), fixes.set_index("animal").head(2),
                 fixes.set_index("time").between_time("00:00", "12:00")):
        assert repr(part) == repr(pandas.DataFrame(part))
        with pytest.raises(FrameError, match="^these fixes have no column '[a-z]+' any more: give it back, as by reset_index"):
            home_range(part)
    for title in ("animal", "time", "easting"):
        twice = pandas.concat([fixes, fixes[[title]]], axis="columns")
        for frame in (twice, twice.iloc[::-1], pandas.DataFrame(twice)):
            with pytest.raises(FrameError, match=f"^column [0-9] '{title}' and column [0-9]+ '{title}' both fit [a-z ]+: rename one$") as fault:
                home_range(frame)
            assert fault.value.kind == "ambiguous"
    noted = pandas.concat([fixes, fixes[["sex"]]], axis="columns")
    with pytest.raises(FrameError, match="^by: there are two columns 'sex': rename one$"):
        home_range(noted, by="sex")
    with told("^not in the fixes, since their titles are there twice: sex$"):
        assert "sex" not in read_fixes(noted.iloc[::-1])
    renamed = fixes.rename(columns={"easting": "x"})
    assert repr(renamed) == repr(pandas.DataFrame(renamed))
    assert type(fixes["easting"]) is pandas.Series


def test_fixes_are_read_again_with_what_they_have(splitter):
    frame = frame_of(a=[(500_000.3 + east, 5_000_000 + north) for east, north in SQUARE]).assign(note=[*"wxyz"])
    fixes = quietly(read_fixes, frame, unit="dm", zone="33N", tz="Asia/Tokyo")
    again = read_fixes(fixes.iloc[1:])
    assert again.equals(fixes.iloc[1:]) and again["note"].tolist() == [*"xyz"]
    assert (again.reading.unit, again.reading.zone, again.reading.tz) == ("dm", "33N", "Asia/Tokyo")
    assert again.left_out().values.tolist() == [["a", "chosen", 1]]
    with pytest.raises(FrameError, match="^these fixes are in whole decimetres, which another unit does not change: read the table anew"):
        read_fixes(fixes, unit="m")
    with pytest.raises(FrameError, match="^unit: km is neither m nor dm$"):
        read_fixes(fixes, unit="km")
    whole = quietly(read_fixes, fixes, unit="dm", every="1h")
    assert whole["easting"].tolist() == [500_000.3, 500_200.3] and whole.reading.zone == "33N" and len(whole) == 2
    assert read_fixes(again).equals(again)


def test_fixes_are_bound_if_they_are_alike(fixes, splitter):
    parts = pandas.concat([fixes[fixes["animal"] == "b"], fixes[fixes["animal"] == "a"]])
    assert type(parts) is Fixes and parts.reading == fixes.reading
    other = read_fixes(frame_of(c=SQUARE))
    both = pandas.concat([fixes, other], ignore_index=True)
    assert both.reading.counts == {"a": 4, "b": 4, "c": 4} and both.reading.record is None
    again = pandas.concat([both, other.iloc[:2]])
    assert again.reading == both.reading
    for words, what in (({"unit": "dm"}, "unit m and of dm"), ({"zone": "33N"}, "reference system not known and of EPSG:32633"),
                        ({"tz": "Asia/Tokyo"}, "time zone UTC and of Asia/Tokyo")):
        with pytest.raises(FrameError, match=f"fixes of the {what}.* are not bound"):
            pandas.concat([fixes, read_fixes(frame_of(c=[(500_000, 5_000_000), (500_100, 5_000_100)]), **words)])
    mixed = pandas.concat([fixes, frame_of(d=SQUARE)])
    assert mixed.reading is None
    with pytest.raises(FrameError, match="it is not known how these fixes were read"):
        mixed.left_out()
    beside = pandas.concat([fixes, pandas.DataFrame({"k": range(8)})], axis="columns")
    assert beside.reading == fixes.reading


def test_animals_that_no_column_names_are_not_made_one(splitter):
    halves = [frame_of(a=[(east + away, north) for east, north in SQUARE]).drop(columns="animal") for away in (0, 1000)]
    both = [quietly(read_fixes, half) for half in halves]
    words = "^animal animal is in two of them, .*: name each, as by name='Fox' of read_fixes, or keep the column of the animal$"
    known = pandas.concat([both[0], both[1].assign(animal="elk")])
    other = quietly(read_fixes, halves[0].assign(northing=halves[0]["northing"] + 1))
    for parts in (both, [both[0].iloc[:2], quietly(read_fixes, halves[1].assign(animal="animal"))], [known, other]):
        with pytest.raises(FrameError, match=words):
            pandas.concat(parts)
    assert len(pandas.concat([both[0].iloc[:2], both[0].iloc[2:]]).reading.counts) == 1
    assert pandas.concat([known, known.iloc[:1]]).reading.counts == {"animal": 8}
    named = [quietly(read_fixes, half, name=name) for half, name in zip(halves, ("fox", "elk"))]
    assert pandas.concat(named).reading.counts == {"fox": 4, "elk": 4}


def test_printing_says_what_was_taken(splitter):
    frame = frame_of(Fox=[(0, 0), (1234, 567)], fox=[(10, 10), (20, 20)]).assign(note="x")
    frame.loc[4] = ["fox", START, None, 1, "y"]
    fixes = quietly(read_fixes, frame, zone="33N")
    text = repr(fixes)
    assert text.split("\n")[:5] == [
        "4 fixes of 2 animals, from 2024-03-01 to 2024-03-01 in UTC, box 1.234 by 0.567 km; EPSG:32633 (WGS 84 / UTM zone 33N)",
        next(note for note in fixes.reading.notes if note.startswith("columns: animal, timestamp, easting, northing; 2 animals")),
        "not read: note", "left out: 1 coordinates", "animals 'Fox' and 'fox' differ in blanks or capitals alone: are they one?"]
    assert "animal                      time" in text.replace("   ", "   ")
    part = repr(fixes[fixes["animal"] == "Fox"])
    assert part.startswith("2 fixes of 1 animals") and "\nnot chosen: 2 of 4 fixes that were read\n" in part
    assert repr(fixes.iloc[:0]).startswith("0 fixes of 0 animals; EPSG:32633")
    assert fixes._repr_html_().startswith("<pre>4 fixes of 2 animals") and "<table" in fixes._repr_html_()
    seconds = read_fixes(pandas.DataFrame({"animal": "a", "second": [0, 60], "x": [0, 500], "y": [0, 500]}))
    assert repr(seconds).startswith("2 fixes of 1 animals, from second 0 to second 60, box 0.500 by 0.500 km; reference system not known\n")


def test_printing_fixes_without_an_end(splitter):
    fixes = quietly(read_fixes, frame_of(fox=SQUARE), zone="33N")
    with warnings.catch_warnings():
        warnings.simplefilter("error")
        for value in (float("inf"), float("-inf")):
            fixes.loc[2, "easting"] = value
            assert ", box inf by 0.200 km; " in repr(fixes).split("\n")[0]
            assert ", box inf by 0.200 km; " in repr(fixes.assign(easting=value)).split("\n")[0]


def test_fixes_that_read_fixes_did_not_make_are_refused():
    with pytest.raises(FrameError, match="^it is not known how these fixes were read, since read_fixes did not make them, or they were joined"):
        home_range(Fixes(frame_of(fox=SQUARE).rename(columns={"timestamp": "time"})))


def test_rows_are_named_by_their_places_where_labels_repeat(splitter):
    far = frame_of(fox=[*SQUARE, (90_000, 0), *SQUARE])
    with told(r"rows? 4 \(frame.iloc\[8\]\)|4 \(frame.iloc\[13\]\)"):
        read_fixes(pandas.concat([frame_of(elk=SQUARE), far]))


def test_fixes_are_points(splitter):
    geopandas = pytest.importorskip("geopandas")
    place = [(500_000 + east, 5_000_000 + north) for east, north in SQUARE]
    points = geopandas.GeoDataFrame({"animal": "a", "t": pandas.date_range("2024-05-01", periods=4, freq="h", tz="UTC")},
                                    geometry=geopandas.points_from_xy(*zip(*place)), crs="EPSG:32633").set_index("t")
    fixes = read_fixes(points)
    assert [*fixes.columns] == ["animal", "time", "easting", "northing", "t"]
    again = fixes.points()
    assert again.crs == points.crs and again.geometry.tolist() == points.geometry.tolist()
    degrees = quietly(read_fixes, points.to_crs(4326))
    assert degrees.reading.zone == "33N" and degrees[["easting", "northing"]].values.tolist() == [[*map(float, at)] for at in place]
    # ETRS89 and WGS 84 are alike here, but for the name.
    laea = quietly(read_fixes, points.to_crs(3035), unit="dm")
    assert laea.reading.system_text == "EPSG:3035 (ETRS89-extended / LAEA Europe)"
    assert laea.points().to_crs(32633).distance(points.reset_index(drop=True).geometry).max() < 0.1


def test_wrong_systems_are_refused_or_said(splitter):
    pytest.importorskip("pyproj")
    place = [(500_000 + east, 5_000_000 + north) for east, north in SQUARE]
    frame = frame_of(a=place)
    # Transverse Mercator whose scale in the middle is 2: areas are four times as great.
    with pytest.raises(FrameError, match="areas of a are 300.00 % too great on this grid") as fault:
        read_fixes(frame, crs="+proj=tmerc +lon_0=15 +k=2 +x_0=500000 +datum=WGS84")
    assert fault.value.kind == "scale"
    with pytest.warns(HomeRangeNote, match="^areas of a are 0.20 % too great on this grid"):
        read_fixes(frame, crs="+proj=tmerc +lon_0=15 +k=1.001 +x_0=500000 +datum=WGS84")
    utm = frame.rename(columns={"easting": "utm-easting", "northing": "utm-northing"}).assign(**{"utm-zone": "33N"})
    assert read_fixes(utm, crs="EPSG:32633").reading.zone == "33N"
    with pytest.raises(FrameError, match="the coordinates are of the zone 33N, and the CRS .* none of UTM: give one of the two"):
        read_fixes(utm, crs="EPSG:3035")
    degrees = frame.assign(easting=15.8, northing=46.3).rename(columns={"easting": "lon", "northing": "lat"})
    with pytest.raises(FrameError, match="^crs: longitude and latitude are read, which are projected into the zone 33N, .*: leave crs out") as fault:
        read_fixes(degrees, crs="EPSG:3035")
    assert fault.value.kind == "zone"


def test_points_are_refused_as_ranges_are(splitter):
    geopandas = pytest.importorskip("geopandas")
    fixes = read_fixes(frame_of(a=[(500_000 + east, 5_000_000 + north) for east, north in SQUARE]), zone="33N")
    for odd in (fixes.drop(columns="easting"), fixes.assign(northing="x"), fixes[[*fixes.columns, "northing"]], fixes.assign(easting=numpy.inf),
                fixes.assign(time=fixes["time"].dt.date), fixes.assign(easting=[[1]] * 4)):
        with pytest.raises(FrameError) as wanted:
            home_range(odd)
        with pytest.raises(FrameError) as found:
            odd.points()
        assert (str(found.value), found.value.kind) == (str(wanted.value), wanted.value.kind)
    for same in (fixes.astype({"easting": str}), fixes.convert_dtypes(), fixes.astype({"northing": object})):
        assert geopandas.GeoSeries(same.points().geometry).geom_equals(fixes.points().geometry).all()
    assert fixes.iloc[:0].points().empty


@pytest.mark.parametrize("name, value", [("every", "2h"), ("max_speed", 400), ("since", "1970-01-01"), ("until", "2024-01-01")])
def test_options_of_times_of_fixes_that_have_none(splitter, name, value):
    with warnings.catch_warnings():
        warnings.simplefilter("ignore")
        fixes = read_fixes(pandas.DataFrame({"animal": "a", "easting": [500000, 500010, 500020], "northing": [5000000, 5000030, 5000010]}))
        with pytest.raises(FrameError) as caught:
            read_fixes(fixes, **{name: value})
    assert str(caught.value) == f"{name}: these fixes have no time, but the order of rows: name its column, by time, where the table is read"


def test_a_level_of_the_index_has_its_own_name_in_what_is_said():
    times = pandas.DatetimeIndex([pandas.NaT, *pandas.date_range("2024-01-01", periods=3, freq="6h")], name="when")
    frame = pandas.DataFrame({"animal": "fox", "easting": [0, 900, 0, 9], "northing": [0, 0, 900, 9]}, index=times)
    with pytest.raises(FrameError, match=r"^row NaT \(frame.iloc\[0\]\): there is no when: leave rows without one out, as by frame\[frame.index.notna\(\)\]$"):
        read_fixes(frame)
    with pytest.warns(HomeRangeInfo, match="^columns: animal, when, easting, northing; "):
        assert len(read_fixes(frame[frame.index.notna()])) == 3
    both = frame.set_index("animal", append=True).swaplevel()
    with pytest.raises(FrameError, match=r"there is no when: .* as by frame\[frame.index.get_level_values\('when'\).notna\(\)\]$"):
        read_fixes(both)
    assert len(read_fixes(both[both.index.get_level_values("when").notna()])) == 3
    old = frame.set_axis(pandas.DatetimeIndex(["1960-01-01"] * 4, name="when"))
    with pytest.raises(FrameError, match=r"when is '1960-01-01', which is no time since 1970"):
        read_fixes(old)


@pytest.mark.parametrize("more, names", [([], "['animal']"), (["z"], "['animal', 'z']")])
def test_an_index_of_animals_without_a_name_gets_one(more, names):
    index = [[*"abab"], *([*range(4)] for _ in more)]
    frame = pandas.DataFrame({"time": pandas.date_range("2024-01-01", periods=4, freq="6h", tz="UTC"), "easting": [0, 900, 0, 9], "northing": [0, 0, 900, 9]})
    frame.index = pandas.MultiIndex.from_arrays(index, names=[None, *more]) if more else pandas.Index(index[0])
    with pytest.raises(FrameError, match=re.escape(f"if they are the animals, name it, as by frame.index.names = {names}") + "$"):
        read_fixes(frame)
    frame.index.names = ["animal", *more]
    assert {*read_fixes(frame)["animal"]} == {"a", "b"}


def test_a_record_in_brackets_is_a_row_by_its_label():
    frame = pandas.DataFrame({"animal": "fox", "time": [f"2024-07-01 0{hour}:00:00" for hour in range(4)], "dst": [1, 1, 0, 1],
                              "easting": [0, 900, 0, 9], "northing": [0, 0, 900, 9]})
    with pytest.raises(FrameError, match=r"^column 3 'dst' says otherwise than the clock of Europe/Ljubljana .* \(row 2\): "):
        read_fixes(frame, tz="Europe/Ljubljana")
    with pytest.raises(FrameError, match=r"^column 3 'dst' says otherwise than the clock of Europe/Ljubljana .* \(row r2, frame.iloc\[2\]\): "):
        read_fixes(frame.set_axis([f"r{at}" for at in range(4)]), tz="Europe/Ljubljana")


def test_names_with_control_characters_are_asked_about(tmp_path):
    text = "animal,time,easting,northing\n" + "".join(f"\u0160a\u0161a,2024-01-0{day},{9 * day},0\n" for day in (1, 2))
    (tmp_path / "own.csv").write_bytes(text.encode("cp1250"))
    said = r"^the name '\\x8aa\\x9aa' has control characters: is the encoding of its table another, such as windows-1250\?$"
    for read in (lambda: read_fixes(tmp_path / "own.csv", encoding="latin-1"), lambda: read_fixes(pandas.read_csv(tmp_path / "own.csv", encoding="latin-1"))):
        with pytest.warns(HomeRangeNote, match=said):
            read()
    assert {*read_fixes(tmp_path / "own.csv", encoding="windows-1250")["animal"]} == {"\u0160a\u0161a"}  # a note would be a fault
