"""How home_range reads data frames: columns, forms of times and marks, subsets, and what it refuses."""
import warnings
from datetime import date, datetime, timedelta, timezone

import pandas
import pytest
from frames import START, frame_of, noted, told

from homerange import FrameError, HomeRangeInfo, HomeRangeNote, home_range, read_fixes

SQUARE = [(0, 0), (200, 0), (200, 200), (0, 200)]
PLACE = [(500_000 + east, 5_000_000 + north) for east, north in SQUARE]  # near the middle of a UTM zone


def row_count(frame, **words):
    return int(home_range(frame, 100, **words).summary()["fixes"].sum())


def times_of(*times):
    return pandas.DataFrame({"animal": "a", "timestamp": list(times), "x": 0, "y": 0})


@pytest.mark.parametrize("titles", [
    ("individual-local-identifier", "timestamp", "utm-easting", "utm-northing"),
    ("individual.local.identifier", "timestamp", "utm.easting", "utm.northing"),
    ("individual_local_identifier", "timestamp", "utm_easting", "utm_northing"),
    ("id", "t_", "x_", "y_"),
    ("id", "date", "x", "y"),
    ("animal", "second", "easting", "northing"),
    ("Animal", " second", "Easting", "Northing"),
])
def test_usual_titles_are_found(titles):
    frame = frame_of(vixen=PLACE).set_axis(titles, axis="columns")
    assert home_range(frame, zone="33N").corners() == {"vixen": PLACE}


def test_two_columns_with_one_title_are_refused():
    frame = frame_of(vixen=SQUARE)
    frame = pandas.concat([frame, frame[["easting", "animal"]].assign(easting=7)], axis="columns")
    with pytest.raises(FrameError, match="column 3 'easting' and column 5 'easting' both fit easting: rename one") as fault:
        home_range(frame)
    assert fault.value.kind == "ambiguous"


def test_columns_are_said():
    with pytest.warns(HomeRangeInfo, match="^columns: animal, timestamp, easting, northing; 1 animals, box 0.200 by 0.200 km"):
        home_range(frame_of(vixen=SQUARE))


def test_columns_may_be_named():
    frame = frame_of(vixen=SQUARE).set_axis(["who", "when", "X", "Y"], axis="columns")
    found = home_range(frame.assign(x=1, y=1), animal="who", time="when", easting="X", northing="Y")
    assert found.corners() == {"vixen": SQUARE}


@pytest.mark.parametrize("given, name", [
    ("NA", "NA"), (17, "17"), (17.0, "17"), ("  a b ", "  a b "), ("ä" * 16, "ä" * 16), ("100%d", "100%d"),
    ("2.csv", "2.csv"),
    (".*(a|b)[c]", ".*(a|b)[c]"), ("#\\1", "#\\1"), ("row", "row"), ("a,b", "a,b"), ('a"b', 'a"b'), (".a", ".a"),
    ("Golden Eagle (Aquila chrysaetos) 2010", "Golden Eagle (Aquila chrysaetos) 2010"), ("ä" * 17, "ä" * 17), ("0", "0"),
    (2 ** 53, "9007199254740992"),
])
def test_names_are_kept(given, name):
    frame = frame_of(a=SQUARE, b=SQUARE)
    frame["animal"] = frame["animal"].map({"a": given, "b": "b"})
    found = home_range(frame)
    assert found.animals == [name, "b"]
    assert found.overlap().loc[name, "b"] == 4


def test_categories_are_names():
    frame = frame_of(a=SQUARE, b=SQUARE)
    frame["animal"] = pandas.Categorical(frame["animal"], ["c", "b", "a"])
    assert home_range(frame).animals == ["a", "b"]


@pytest.mark.parametrize("time", [
    "2024-05-01 00:30:04", "2024-05-01T00:30:04Z", "2024-05-01 00:30:04.900", "2024-05-01T02:30:04.123456+02:00",
    datetime(2024, 5, 1, 0, 30, 4, 999), datetime(2024, 5, 1, 0, 30, 4, tzinfo=timezone.utc), 1714523404, 1714523404.7,
    "1714523404", pandas.Timestamp("2024-05-01 02:30:04", tz="Europe/Ljubljana"),
])
def test_times_are_whole_seconds_of_utc(time):
    wanted = pandas.Timestamp("2024-05-01 00:30:04", tz="UTC")
    frame = times_of(time)
    cut = ["1 times have parts of a second: taken by whole seconds, also by filters"] if "." in str(time) else []
    for column in (frame["timestamp"], frame["timestamp"].astype(object)):
        with warnings.catch_warnings(record=True) as notes:
            warnings.simplefilter("always", HomeRangeNote)
            assert home_range(frame.assign(timestamp=column)).curve()["time"].tolist() == [wanted]
        assert [str(note.message) for note in notes if note.category is HomeRangeNote] == cut


def test_a_day_is_its_midnight():
    for time in ("2024-05-01", date(2024, 5, 1)):
        assert home_range(times_of(time)).curve()["time"].tolist() == [pandas.Timestamp("2024-05-01", tz="UTC")]


@pytest.mark.parametrize("start", [0, 1_099_511_000_000])  # of a start of its own, and after the year 2262
def test_seconds_without_a_date_are_answered_as_they_are(start):
    found = home_range(pandas.DataFrame({**PART, "second": [start + second for second in PART["second"]]}), 100)
    assert found.summary()[["first", "last"]].values.tolist() == [[start, start + 180]]
    assert found.overview()[["first", "last", "within_95_time"]].values.tolist() == [[start, start + 180, start + 180]]
    assert found.curve()["second"].tolist() == [start, start + 60, start + 120, start + 180]
    assert found.growth()["within_95_time"].tolist() == [start + 180]
    assert home_range(pandas.DataFrame({**PART, "easting": 0}), 100).growth()["within_95_time"].isna().tolist() == [True]


def test_fixes_are_sorted_by_time_and_equal_times_keep_their_order():
    frame = frame_of(a=[(0, 0), (9, 0), (9, 9)], b=SQUARE).iloc[[1, 0, 3, 2, 4, 6, 5]]
    frame.loc[6, "timestamp"] = frame.loc[5, "timestamp"]
    with pytest.warns(HomeRangeNote) as notes:
        found = home_range(frame)
    assert noted(notes) == found.notes[1:3] == [
        "1 records of a come before an earlier one: sorted by time",
        "1 records of b have the second of the one before: kept"]
    assert found.fixes("a").tolist() == [[0, 0], [9, 0], [9, 9]]
    assert found.fixes("b").tolist() == [[0, 0], [200, 0], [0, 200], [200, 200]]


@pytest.mark.parametrize("marks", [
    [True, True, False, True], [1, 1, 0, 1], ["true", "TRUE", "False", "1"], [1.0, 1.0, 0.0, 1.0]])
def test_rows_may_be_left_out(marks):
    frame = frame_of(a=SQUARE).assign(use=marks)
    with pytest.warns(HomeRangeNote, match="^1 outliers: left out"):
        found = home_range(frame)
    assert found.corners() == {"a": [(0, 0), (200, 0), (0, 200)]}
    assert found.summary()["left_out"].tolist() == [1, 1, 1]
    fixes = read_fixes(frame.drop(columns="use"))
    chosen = home_range(fixes[[True, True, False, True]])
    assert chosen.corners() == found.corners() and chosen.summary()["left_out"].tolist() == [1, 1, 1]
    assert chosen.left_out().values.tolist() == [["a", "chosen", 1]]


def test_movebanks_outliers_are_left_out():
    marks = {"visible": True, "manually_marked_outlier": None, "import-marked-outlier": None}
    frame = frame_of(a=SQUARE, b=SQUARE).assign(**marks)
    frame.loc[[1, 2], "visible"] = False
    frame.loc[2, "manually_marked_outlier"] = "true"
    frame.loc[4, "import-marked-outlier"] = True
    frame.loc[5, "manually_marked_outlier"] = False
    with pytest.warns(HomeRangeNote, match="^3 outliers: left out"):
        found = home_range(frame, 100)
    assert found.summary()[["fixes", "left_out"]].values.tolist() == [[2, 2], [3, 1]]


def test_several_sensors_are_refused():
    frame = frame_of(a=SQUARE).assign(sensor_type=["gps", "gps", "argos-doppler-shift", "gps"])
    with pytest.raises(FrameError, match=r"several sensors \(gps 3, argos-doppler-shift 1\): .* sensor='gps'"):
        home_range(frame)
    assert row_count(frame[frame["sensor_type"] == "gps"]) == 3
    with pytest.warns(HomeRangeNote, match="1 records of other sensors: left out"):
        assert row_count(frame, sensor="gps") == 3


def test_an_animal_without_a_fix_is_said():
    frame = frame_of(a=SQUARE, b=SQUARE).assign(visible=[True] * 4 + [False] * 4)
    with told("^no fix of 'b' is left: no file"):
        assert home_range(frame).animals == ["a"]
    fixes = read_fixes(frame_of(a=SQUARE, b=SQUARE))
    only = home_range(fixes[fixes["animal"] == "a"])
    assert only.animals == ["a"] and only.left_out().values.tolist() == [["b", "chosen", 4]]


@pytest.fixture
def year():
    """A fix every six hours of the year 2024, which is 1464."""
    times = pandas.date_range("2024-01-01", "2024-12-31 18:00", freq="6h", tz="UTC")
    return pandas.DataFrame({"id": "a", "date": times, "x": 1, "y": range(len(times))})


@pytest.mark.parametrize("words, kept, said", [
    ({"since": "2024-12-31"}, 4, "1460 fixes are before 2024-12-31: left out"),
    ({"since": "2024-12-31 06:00"}, 3, "before 2024-12-31 06:00"),
    ({"since": datetime(2024, 12, 31, 6, 0, 1)}, 2, "before 2024-12-31T06:00:01"),
    ({"until": "2024-01-01"}, 4, "1460 fixes are after 2024-01-01: left out"),
    ({"until": date(2024, 1, 1)}, 4, "after 2024-01-01"),
    ({"until": "2024-01-01T12:00Z"}, 3, "after 2024-01-01T12:00Z"),
    ({"until": datetime(2024, 1, 1, 14, tzinfo=timezone(timedelta(hours=2)))}, 3, "after 2024-01-01T12:00:00Z"),
    ({"until": "2024-01-01", "tz": "Asia/Tokyo"}, 3, "1461 fixes"),  # that day ends at 15:00 UTC
    ({"every": 24}, 366, "1098 fixes are not the first in 24 hours: left out"),
    ({"every": "12h"}, 732, "732 fixes are not the first in 12 hours"),
])
def test_subsets_are_counted(year, words, kept, said):
    with pytest.warns(HomeRangeNote, match=said) as notes:
        assert row_count(year, **words) == kept
    assert len(noted(notes)) == 1


def test_months_and_hours_are_chosen_of_fixes(year):
    times = pandas.date_range("2024-01-01", "2024-12-31 18:00", freq="6h", tz="UTC").tz_convert("Europe/Ljubljana")
    fixes = read_fixes(year.assign(date=times))
    own = fixes["time"].dt
    for chosen, count in ((own.month == 2, 29 * 4), (own.month.isin([5, 6]), 61 * 4), (own.hour == 1, 91 + 65)):  # winter time alone
        found = home_range(fixes[chosen], 100)
        assert found.summary()["fixes"].sum() == count and found.left_out().values.tolist() == [["a", "chosen", 1464 - count]]


def test_half_an_hour_is_a_piece():
    frame = frame_of(a=SQUARE)
    assert row_count(frame, every=0.5) == 4
    with pytest.warns(HomeRangeNote, match="2 fixes are not the first in 1 hours"):
        assert home_range(frame, every=1).corners() == {"a": [(0, 0), (200, 200)]}


def test_pieces_are_each_animals_own():
    with pytest.warns(HomeRangeNote, match="6 fixes are not the first"):
        found = home_range(frame_of(a=SQUARE, b=SQUARE), 100, every=24)
    assert found.summary()["left_out"].tolist() == [3, 3]


@pytest.mark.parametrize("change, said", [
    ({"northing": float("inf")}, "^row 2: northing is 'inf' and not a number"),
    ({"easting": "5,1"}, "^row 2: easting is '5,1' and not a number"),
    ({"easting": True}, "^row 2: easting is 'true' and not a number"),
    ({"easting": 5 + 0j}, "^row 2: easting is of the class complex, of which no cell is known: make text, numbers or times of it$"),
    ({"easting": START}, "^row 2: easting is .* and not a number"),
    ({"timestamp": None}, "^row 2: there is no time"),
    ({"timestamp": "01.05.2024 00:30"}, "^row 2: timestamp is '01.05.2024 00:30' and not a time such as 2024-05-01 00:30:04"),
    ({"timestamp": "2024-02-30 00:30:00"}, "^row 2: timestamp is '2024-02-30 00:30:00', which is no time"),
    ({"timestamp": True}, "^row 2: timestamp is 'true' and not a time"),
    ({"timestamp": -1}, "^row 2: timestamp is '-1', which is less than 0"),
    ({"timestamp": 45413.5}, "^row 2: timestamp is '45413.5', which looks like days of Excel"),
    ({"timestamp": 2460431.5}, "^row 2: timestamp is '2460431.5', which looks like Julian days"),
    ({"timestamp": 1714523404000}, "^row 2: timestamp is '1714523404000', which looks like milliseconds"),
    ({"timestamp": "9" * 5000}, "^row 2: timestamp is '9+"),
    ({"animal": None}, "^row 2: there is no animal"),
    ({"animal": ""}, "^row 2: there is no animal"),
    ({"animal": "a\nb"}, "^row 2: "), ({"animal": 1e22}, "^row 2: "), ({"animal": "a\ud800"}, "^row 2: animal is .* is no text in UTF-8"),
    ({"use": "perhaps"}, "^row 2: use is 'perhaps' and"),
    ({"use": None}, "^row 2: use is "),
    ({"visible": "no"}, "^row 2: visible is 'no' and not true or false"),
])
def test_a_row_that_cannot_be_right_is_refused(change, said):
    frame = frame_of(a=SQUARE).astype(object)
    if not {"use", "visible"} & {*change}:
        frame["use"] = True
    else:
        frame[[*change][0]] = True
        frame = frame.astype(object)
    for column, value in change.items():
        frame.at[2, column] = value
    with pytest.raises(FrameError, match=said):
        home_range(frame)
    moved = frame.set_axis(["p", "q", "r", "s"])
    with pytest.raises(FrameError, match=said.replace("row 2", r"row r \(frame.iloc\[2\]\)")):
        home_range(moved)


@pytest.mark.parametrize("words, said", [
    ({"unit": "km"}, "unit: km is neither m nor dm"),
    ({"levels": [50, 50]}, r"levels=\[50, 50\] has a level twice"),
    ({"animal": "who"}, "there is no column 'who'; the table has 'animal', 'timestamp', 'easting', 'northing'"),
    ({"levels": "95"}, "levels='95' are not levels from 1 to 100: '95' is a text, so write 95 without quotes"),
    ({"levels": [95.5]}, r"levels=\[95.5\] are not levels"), ({"levels": 94.99999999}, "levels=94.99999999 are not levels"),
    ({"levels": 0.95}, "levels=0.95 are not levels from 1 to 100: 0.95: levels are per cent, 95$"),
    ({"levels": []}, r"levels=\[\] are not levels"),
    ({"levels": True}, "are not levels"),
    ({"levels": 0}, "levels=0 are not levels"),
    ({"max_dop": "good"}, "max_dop is 'good' and not a number"),
    ({"zone": "33U"}, "33U is no zone as 33N: U is a band, and the zone is 33N"),
    ({"crs": "EPSG:4326"}, "the CRS WGS 84 has longitude and latitude, .*: name their columns by lon and lat, without crs"),
    ({"crs": "+proj=tmerc +R=1737400 +units=m"}, "the CRS unknown is of another body than the Earth"),
    ({"crs": "nowhere"}, "crs='nowhere' names no reference system"),
    ({"since": "May"}, "'May' is no time in UTC, such as '2024-05-01'"),
    ({"until": "2024-02-30"}, "'2024-02-30' is no time in UTC"),
    ({"since": "2024-03-31 02:30", "tz": "Europe/Ljubljana"}, "is no time in Europe/Ljubljana"),
    ({"every": 0}, "every=0 is not a second or more"),
    ({"tz": "Middle-earth"}, "tz='Middle-earth' is no time zone"),
])
def test_arguments_are_refused(words, said):
    with pytest.raises(FrameError, match=said):
        home_range(frame_of(a=SQUARE), **words)


def test_what_is_no_frame_of_fixes_is_refused():
    for frame in (None, [], pandas.DataFrame(), frame_of(a=SQUARE).head(0)):
        with pytest.raises(FrameError, match="is neither a path nor a data frame|the data frame has no row of a fix"):
            home_range(frame)
    with pytest.raises(FrameError, match="no fix is left"):
        home_range(read_fixes(frame_of(a=SQUARE)).head(0))


PART = dict(animal="a", second=[0, 60, 120, 180], easting=[0, 200, 200, 0], northing=[0, 0, 200, 200])


@pytest.mark.parametrize("change, said", [
    ({"easting": [0.25, 200.25, 200.25, 0.25]}, "^coordinates are rounded to whole metres, which moves a fix by at most 0.25 m$"),
    ({"easting": [-3_000_000, 0, 0, 0]}, "^coordinates are shifted by 3000000 m east and 0 m north$"),
    ({"second": [0, 120, 60, 180]}, "^1 records of a come before an earlier one: sorted by time$"),
    ({"northing": [None, 0, 200, 200]}, "^1 records have no coordinates: left out$"),
    ({"easting": [15.5, 15.6, 15.7, 15.8], "northing": [45.5, 45.6, 45.7, 45.8]}, "are they longitude and latitude[?]$")])
def test_fixes_that_were_changed_are_read_again_as_a_frame(change, said):
    fixes = read_fixes(pandas.DataFrame(PART))
    with told(said):
        found = home_range(fixes.assign(**change))
    with told(said):
        frame = home_range(pandas.DataFrame({**PART, **change}))
    assert found.summary().equals(frame.summary()) and found.corners() == frame.corners()
    with warnings.catch_warnings():
        warnings.simplefilter("error")
        assert home_range(fixes.reset_index(drop=True)).hectares("a") == 4  # as they were read: nothing is said


def heard(call, *words, **options):
    """What a call answers, and what it says."""
    with warnings.catch_warnings(record=True) as said:
        warnings.simplefilter("always")
        return call(*words, **options), [(own.category, str(own.message)) for own in said]


def test_columns_that_were_added_to_fixes_are_said_as_not_read():
    fixes, line = read_fixes(pandas.DataFrame({**PART, "sex": "f"})), "not read: exclude, keep"
    added = fixes.assign(exclude=[0, 1, 0, 0], keep=True)
    for own in (added, added.iloc[1:], added.set_index("keep")):
        found, said = heard(home_range, own)
        assert said == [(HomeRangeInfo, line)] and found.summary()["fixes"][0] == len(own) and line in found.notes
    assert heard(home_range, added, by="exclude")[1] == [(HomeRangeInfo, "not read: keep"), (HomeRangeInfo, "ranges are by group: 2 of 1 animals")]
    read, said = heard(read_fixes, added)
    assert said == [(HomeRangeInfo, line)] and line in str(read) and heard(home_range, read)[1] == [] and read["keep"].all()
    assert heard(home_range, fixes)[1] == [] and line not in str(added)


@pytest.mark.parametrize("change, said", [
    ({"animal": [None, *"bbb"]}, "^row 0: there is no animal"), ({"second": [0, 60, -1, 180]}, "^row 2: second is '-1'"),
    ({"easting": ["0", "x", "0", "0"]}, "^row 1: easting is 'x' and not a number"), ({"northing": None}, "no fix is left"),
    ({"easting": [0, 0, 0, 1e8]}, "wider than")])
def test_changed_fixes_that_cannot_be_right_are_refused(change, said):
    with pytest.raises(FrameError, match=said):
        home_range(read_fixes(pandas.DataFrame(PART)).assign(**change))


def test_fixes_keep_their_unit_zone_and_clock_when_they_are_read_again():
    frame = frame_of(a=SQUARE, b=[(5, 5), (90, 7), (30, 80)])
    fixes = read_fixes(frame.assign(easting=frame["easting"] + 500_000.3, northing=frame["northing"] + 5_000_000), unit="dm", zone="33N",
                       tz="Asia/Tokyo")
    found, again = home_range(fixes), home_range(fixes.sort_values("time"))
    assert found.summary().equals(again.summary()) and found.curve().equals(again.curve())
    assert (again.unit, again.crs, again.tz) == ("dm", "EPSG:32633", "Asia/Tokyo") and again.corners()["a"][0] == (500_000.3, 5_000_000)
    other = home_range(fixes.iloc[1:].assign(time=fixes["time"].iloc[1:].dt.tz_convert("Europe/Ljubljana"), group=list("bbcdde")), by="group")
    assert other.tz == "Europe/Ljubljana" and other.animals == ["a b", "a c", "b d", "b e"]
    for naive in (fixes["time"].dt.tz_localize(None), fixes["time"].dt.tz_convert(None)):  # by the clock of Tokyo, and of UTC
        with pytest.raises(FrameError, match="have no zone any more: keep those that read_fixes gave"):
            home_range(fixes.assign(time=naive))


def test_longitude_and_latitude_are_projected_or_refused_with_what_helps():
    frame = frame_of(a=[(15.8, 46.3), (15.9, 46.4)]).rename(columns={"easting": "location-long", "northing": "location-lat"})
    with told("^longitude and latitude are projected into zone 33N; fixes by zone: 33N 2"):
        assert home_range(frame).crs == "EPSG:32633"
    degrees = frame_of(a=[(15.8, 46.3), (15.9, 46.4)])
    with pytest.warns(HomeRangeNote) as notes:
        home_range(degrees)
    assert any(str(note.message).endswith("of the grid's corner: are they longitude and latitude?") for note in notes)
    with pytest.raises(FrameError, match="lon='x', lat='y', zone='33N'"):
        home_range(degrees.rename(columns={"easting": "x", "northing": "y"}))


def test_the_zone_of_movebank_is_the_crs():
    frame = frame_of(a=PLACE).rename(columns={"easting": "utm-easting", "northing": "utm-northing"})
    assert home_range(frame.assign(**{"utm-zone": "33N"})).crs == "EPSG:32633"
    assert home_range(frame.assign(**{"utm.zone": "7S"})).crs == "EPSG:32707"
    assert home_range(frame, zone="33N").crs == "EPSG:32633"
    with pytest.raises(FrameError, match="row 0: there is no utm-zone: name that of its coordinates, such as zone='33N'"):
        home_range(frame)
    with pytest.raises(FrameError, match=r"fixes lie in several zones \(33N 2, 34N 2\)"):
        home_range(frame.assign(**{"utm-zone": ["33N", "33N", "34N", "34N"]}))


def test_times_start_where_they_are_said_to():
    assert home_range(frame_of(a=SQUARE)).summary()["first"].tolist() == [START] * 3
