"""What is refused of times in several columns, of numbers, years and sensors, with what helps: what it says is done, and then the frame
is read as it was meant."""
import datetime
import re

import pandas
import pytest
from frames import quietly

from homerange import FrameError, home_range, read_fixes

PLACES = pandas.DataFrame({"animal": "a", "easting": [500010, 500090, 500040], "northing": [5000020, 5000010, 5000080]})
DAY = pandas.to_datetime(["2024-03-01"] * 3, utc=True)
ATS = PLACES.assign(Year=2024, Julday=[60, 61, 62], Hour=[1, 0, 23], Minute=[5, 30, 0])
ATS_TIMES = pandas.to_datetime(["2024-02-29 01:05", "2024-03-01 00:30", "2024-03-02 23:00"], utc=True).tolist()
HOURS = PLACES.assign(date="2024-03-01", hour=[1, 9, 23])
HOUR_TIMES = (DAY + pandas.to_timedelta([1, 9, 23], unit="h")).tolist()


def refusal(frame, **words):
    with pytest.raises(FrameError) as caught:
        read_fixes(frame, **words)
    return str(caught.value), caught.value.kind


@pytest.mark.parametrize("frame, words, said, kind, done, times", [
    (ATS, {"time": "Year,Julday,Hour,Minute"}, "row 0: Year Julday Hour Minute is '2024 60 1 5' and not a time such as 2024-05-01 00:30:04: name its "
     "form, as by time_format='%Y %j %H %M'", "time", {"time": "Year,Julday,Hour,Minute", "time_format": "%Y %j %H %M"}, ATS_TIMES),
    (ATS, {"time": ["Year", "Julday"], "time_format": "%Y %j"}, "column 6 'Hour' has hours, which the days of the time have not: join them, as by "
     "time='Year,Julday,Hour,Minute', time_format='%Y %j %H %M', or remove it", "columns",
     {"time": "Year,Julday,Hour,Minute", "time_format": "%Y %j %H %M"}, ATS_TIMES),
    (HOURS, {}, "column 5 'hour' has hours, which the days of the time have not: join them, as by time='date,hour', time_format='%Y-%m-%d %H', or "
     "remove it", "columns", {"time": "date,hour", "time_format": "%Y-%m-%d %H"}, HOUR_TIMES),
    (HOURS, {"time": ["date", "hour"]}, "row 0: date hour is '2024-03-01 1' and not a time such as 2024-05-01 00:30:04: name its form, as by "
     "time_format='%Y-%m-%d %H'", "time", {"time": "date,hour", "time_format": "%Y-%m-%d %H"}, HOUR_TIMES),
    (HOURS.assign(minute=0), {}, "column 5 'hour' has hours, which the days of the time have not: join them, as by time='date,hour,minute', "
     "time_format='%Y-%m-%d %H %M', or remove it", "columns", {"time": "date,hour,minute", "time_format": "%Y-%m-%d %H %M"}, HOUR_TIMES),
    (HOURS.rename(columns={"hour": "time"}).assign(time=["0100", "0900", "2300"]), {"time": "date,time"}, "row 0: date time is '2024-03-01 0100' and not "
     "a time such as 2024-05-01 00:30:04: name its form, as by time_format='%Y-%m-%d %H%M'", "time",
     {"time": "date,time", "time_format": "%Y-%m-%d %H%M"}, HOUR_TIMES),
    (PLACES.assign(y=24, m=3, d=1, h=[1, 9, 23]), {"time": "y,m,d,h"}, "row 0: y m d h is '24 3 1 1' and not a time such as 2024-05-01 00:30:04: if it "
     "is one, name its form, by time_format", "time", {"time": "y,m,d,h", "time_format": "%y %m %d %H"}, HOUR_TIMES)])
def test_times_in_several_columns(splitter, frame, words, said, kind, done, times):
    assert refusal(frame, **words) == (said, kind)
    assert read_fixes(frame, **done)["time"].tolist() == times


def test_times_in_several_columns_of_a_file(splitter, tmp_path):
    path = tmp_path / "ats.csv"
    ATS.to_csv(path, index=False)
    said, _ = refusal(path, time="Year,Julday,Hour,Minute")
    assert said == (f"{path}: record 1: Year Julday Hour Minute is '2024 60 1 5' and not a time such as 2024-05-01 00:30:04: name its form, as by "
                    "time_format='%Y %j %H %M'")
    assert read_fixes(path, time="Year,Julday,Hour,Minute", time_format="%Y %j %H %M")["time"].tolist() == ATS_TIMES


@pytest.mark.parametrize("clocks", [[30, 130, 1330], ["30", "130", "1330"]])
def test_clocks_that_have_lost_zeros(splitter, clocks):
    frame, times = PLACES.assign(date="2024-03-01", time=clocks), (DAY + pandas.to_timedelta([30, 90, 810], unit="min")).tolist()
    is_number = ".astype('Int64')" if clocks[0] == 30 else ""
    helps = f"write clocks of four digits, as by frame['time'] = frame['time']{is_number}.astype('string').str.zfill(4)"
    assert refusal(frame, time="date,time") == ("row 0: date time is '2024-03-01 30' and not a time such as 2024-05-01 00:30:04: "
                                                f"{helps}", "time")
    form = {"time": "date,time", "time_format": "%Y-%m-%d %H%M"}
    assert refusal(frame, **form)[0] == f"row 0: date time is '2024-03-01 30' and not a time of the form %Y-%m-%d %H%M: {helps}"
    exec(helps.split("as by ")[1], {"frame": frame})
    assert refusal(frame, time="date,time")[0].endswith("'2024-03-01 0030' and not a time such as 2024-05-01 00:30:04: name its form, as by "
                                                        "time_format='%Y-%m-%d %H%M'")
    assert read_fixes(frame, **form)["time"].tolist() == times


def test_hours_with_decimals(splitter):
    frame = PLACES.assign(date="2024-03-01", hour=[0.5, 1.25, 23.75])
    helps = ("make moments of both, as by pandas.to_datetime(frame['date']) + pandas.to_timedelta(frame['hour'], unit='h'), in a column that time "
             "names alone")
    said = "column 5 'hour' has hours, which the days of the time have not"
    assert refusal(frame) == (f"{said}: {helps}, or remove it", "columns")
    odd = "row 0: date hour is '2024-03-01 0.5' and not a time"
    assert refusal(frame, time="date,hour") == (f"{odd} such as 2024-05-01 00:30:04: {helps}", "time")
    assert refusal(frame, time="date,hour", time_format="%Y-%m-%d %H") == (f"{odd} of the form %Y-%m-%d %H: {helps}", "time")
    frame["moment"] = eval(helps.removeprefix("make moments of both, as by ").split(", in a column")[0], {"pandas": pandas, "frame": frame})
    assert read_fixes(frame, time="moment")["time"].tolist() == (DAY + pandas.to_timedelta([30, 75, 1425], unit="min")).tolist()


@pytest.mark.parametrize("hours, minutes, makes, words", [
    ([30, 100, 1330], [30, 60, 810], "frame['hour'] = frame['hour'].astype('Int64').astype('string').str.zfill(4)", "four"),
    (["0030", "0100", "1330"], [30, 60, 810], "frame['hour'] = frame['hour'].astype('string').str.zfill(4)", "four"),
    ([3000, 10000, 133000], [30, 60, 810], "frame['hour'] = frame['hour'].astype('Int64').astype('string').str.zfill(6)", "six")])
def test_clocks_under_a_title_of_hours(splitter, hours, minutes, makes, words):
    frame = PLACES.assign(date="2024-03-01", hour=hours)
    form = "%Y-%m-%d %H%M" if words == "four" else "%Y-%m-%d %H%M%S"
    said = (f"column 5 'hour' has hours, which the days of the time have not: write clocks of {words} digits, as by {makes}, and join them, as by "
            f"time='date,hour', time_format='{form}', or remove it")
    assert refusal(frame) == (said, "columns")
    exec(makes, {"frame": frame})
    assert read_fixes(frame, time="date,hour", time_format=form)["time"].tolist() == (DAY + pandas.to_timedelta(minutes, unit="min")).tolist()


@pytest.mark.parametrize("makes", [lambda part: part, str])
def test_parts_of_a_day_that_are_joined_to_a_day(splitter, makes):
    frame = PLACES.assign(date="2024-03-01", clock=[makes(part) for part in (0.0625, 0.25, 0.5625)])
    numbers = "frame['clock']" if makes is not str else "frame['clock'].astype(float)"
    helps = f"pandas.to_datetime(frame['date']) + pandas.to_timedelta({numbers}, unit='D').dt.round('s')"
    assert refusal(frame, time="date,clock")[0].endswith(f": make moments of both, as by {helps}, in a column that time names alone")
    frame["moment"] = eval(helps, {"pandas": pandas, "frame": frame})
    moments = read_fixes(frame.drop(columns=["date", "clock"]), time="moment")["time"]
    assert moments.tolist() == (DAY + pandas.to_timedelta([90, 360, 810], unit="min")).tolist()


def test_parts_of_a_day_under_a_title_of_hours(splitter):
    frame = PLACES.assign(date="2024-03-01", hour=[0.020833333, 0.25, 0.5625])
    moment = "pandas.to_datetime(frame['date']) + pandas.to_timedelta(frame['hour'], unit='D').dt.round('s')"
    assert refusal(frame)[0] == ("column 5 'hour' has hours, which the days of the time have not: make moments of both, as by "
                                 f"{moment}, in a column that time names alone, or remove it")
    frame["moment"] = eval(moment, {"pandas": pandas, "frame": frame})
    assert read_fixes(frame, time="moment")["time"].tolist() == (DAY + pandas.to_timedelta([30, 360, 810], unit="min")).tolist()
    said = "column 5 'hour' has hours, which the days of the time have not: write them as clocks, such as 00:30, and join them, as by time='date,hour', or remove it"
    assert refusal(frame.assign(hour=["1h30", "2h30", "3h30"]))[0] == said


def test_clocks_to_which_one_day_was_given(splitter):
    frame = PLACES.assign(date=["2024-03-01", "2024-03-02", "2024-03-03"], clock=pandas.to_datetime(["2026-11-30 00:30", "2026-11-30 09:00", "2026-11-30 13:30"]))
    makes = "frame['clock'] = frame['clock'].dt.time"
    assert refusal(frame)[0] == (f"column 5 'clock' has days with clocks, and all of one day: if they are clocks, make times of the day of them, as by {makes}, "
                                 "and name both, as by time='DAY,clock'; or remove it")
    assert refusal(frame, time="date,clock")[0].endswith(": clock has clocks on one day: make times of the day of it, as by .dt.time")
    exec(makes, {"frame": frame})
    assert read_fixes(frame, time="date,clock")["time"].tolist() == (DAY + pandas.to_timedelta([30, 1980, 3690], unit="min")).tolist()


@pytest.mark.parametrize("cells, cell, what", [
    (["500010,5", "500090,25", None], "500010,5", "if its comma stands before decimals, make"),
    (["+500010.5", "500090.25", None], "+500010.5", "make"), ([" 500010.5", "500090.25", None], " 500010.5", "make"),
    (["5.000105e5", "500090.25", None], "5.000105e5", "make")])
def test_numbers_that_are_text(splitter, cells, cell, what):
    for kind in (object, "category"):
        frame = PLACES.assign(easting=pandas.Series(cells, dtype=kind), time=[datetime.date(2024, 3, day) for day in (1, 2, 3)])
        said, fault = refusal(frame, unit="dm")
        start = f"row 0: easting is '{cell}' and not a number of up to 12 digits: {what} numbers of its column, as by "
        assert said.startswith(start) and fault == "number"
        exec(said.removeprefix(start), {"frame": frame, "pandas": pandas})
        with pytest.warns(UserWarning) as heard:
            assert read_fixes(frame, unit="dm")["easting"].tolist() == [500010.5, 500090.3]
        assert "1 records have no coordinates: left out" in [str(own.message) for own in heard]


@pytest.mark.parametrize("value", [datetime.date(24, 3, 1), datetime.datetime(24, 3, 1, 12, tzinfo=datetime.timezone.utc), "0024-03-01"])
def test_years_of_two_digits(splitter, value):
    said, kind = refusal(PLACES.assign(time=value))
    assert said.startswith("row 0: time is '0024-03-01") and kind == "time"
    assert said.endswith("seconds: if its year was written with two digits, read it so, as by pandas.to_datetime(.., format='%d.%m.%y')")
    when = pandas.to_datetime(pandas.Series(["01.03.24", "02.03.24", "03.03.24"]), format="%d.%m.%y")
    assert read_fixes(PLACES.assign(time=when))["time"].tolist() == (DAY + pandas.to_timedelta([0, 1, 2], unit="D")).tolist()


def test_sensors_without_a_column(splitter, tmp_path):
    frame = PLACES.assign(time="2024-03-01", kind=["gps", "gps", "other"])
    assert refusal(frame, sensor="gps") == (
        "sensor: no fix is of gps: no column has a usual title for the sensor: name it sensor-type, or leave sensor out", "sensor")
    named = frame.rename(columns={"kind": "sensor-type"})
    with pytest.warns(UserWarning) as heard:
        assert len(read_fixes(named, sensor="gps")) == 2
    assert "1 records of other sensors: left out" in [str(own.message) for own in heard]
    assert refusal(named, sensor="radio") == ("sensor: no fix is of radio: they are of gps 2, other 1", "sensor")
    path = tmp_path / "fixes.csv"
    frame.to_csv(path, index=False)
    assert refusal(path, sensor="gps")[0] == (f"{path}: sensor: no fix is of gps: no column has a usual title for the sensor: name it sensor-type, or "
                                              "leave sensor out")


MOMENTS = pandas.to_datetime(["2024-03-01 12:00:00", "2024-03-01 13:20:05", "2024-03-02 00:00:01"], utc=True)
SECONDS = MOMENTS.astype("int64") // 10 ** 9


@pytest.mark.parametrize("counts, what", [
    ([45352.5, 45352.5 + 4805 / 86400, 45353 + 1 / 86400], "which looks like days of Excel: make moments of it"),
    ([19783.5, 19783.5 + 4805 / 86400, 19784 + 1 / 86400], "which looks like days since 1970: make moments of it"),
    ([60370.5, 60370.5 + 4805 / 86400, 60371 + 1 / 86400], "which looks like modified Julian days: make moments of it"),
    ([2460371.0, 2460371 + 4805 / 86400, 2460371.5 + 1 / 86400], "which looks like Julian days: make moments of it"),
    ([second * 10 ** 3 for second in SECONDS], "which looks like milliseconds, or a date without signs between: if it is milliseconds since 1970, make moments of it"),
    ([second * 10 ** 6 for second in SECONDS], "which is no second since 1970 (1990 to 2286): if it is microseconds since 1970, make moments of it"),
    ([second * 10 ** 9 for second in SECONDS], "which is no second since 1970 (1990 to 2286): if it is nanoseconds since 1970, make moments of it")])
def test_times_that_are_counted_otherwise(splitter, counts, what):
    for kind in (None, str):
        frame = PLACES.assign(time=pandas.Series(counts, dtype=kind))
        said, fault = refusal(frame)
        begin = f"row 0: time is '{str(counts[0]).removesuffix('.0') if kind is None else counts[0]}', {what}, as by "
        assert said.startswith(begin) and fault == "time"
        exec(said.removeprefix(begin), {"frame": frame, "pandas": pandas})
        assert read_fixes(frame)["time"].tolist() == MOMENTS.tolist()


def test_days_since_1970(splitter, tmp_path):
    for days, said in (([19783, 19784, 19785], "which looks like days since 1970: make moments of it"),
                       ([12478, 12479, 12480], "which is no second since 1970 (1990 to 2286): if it is days since 1970, make moments of it")):
        frame = PLACES.assign(time=days)
        begin = f"row 0: time is '{days[0]}', {said}, as by "
        text = refusal(frame)[0]
        assert text.startswith(begin)
        exec(text.removeprefix(begin), {"frame": frame, "pandas": pandas})
        assert read_fixes(frame)["time"].tolist() == [pandas.Timestamp(day * 86400, unit="s", tz="UTC") for day in days]
    path = tmp_path / "days.csv"
    PLACES.assign(time=[19783, 19784, 19785]).to_csv(path, index=False)
    assert refusal(path)[0].startswith(f"{path}: record 1: time is '19783', which looks like days since 1970: write a time such as")


def test_titles_with_a_comma_are_to_be_renamed(splitter):
    clocks = PLACES.assign(date="2024-03-01", **{"clock, local": ["01:05", "02:00", "03:00"]})
    moments = PLACES.assign(**{"date, time": MOMENTS})
    before = "; rename '{}' before, since a comma or | stands between titles"
    assert refusal(clocks)[0].endswith(before.format("clock, local"))
    assert read_fixes(moments)["time"].tolist() == MOMENTS.tolist()
    unnamed = moments.rename(columns={"animal": "beast"})
    assert refusal(unnamed)[0].endswith(f"as by animal=.. and time='date, time'{before.format('date, time')}")
    assert len(read_fixes(unnamed.rename(columns={"date, time": "when"}), animal="beast", time="when")) == 3
    assert refusal(moments, time="date, time")[0].endswith(": rename columns whose titles have a comma or |")


def test_moments_under_the_titles_of_a_maker(splitter):
    places = pandas.DataFrame({"Device ID": 7, "Latitude": [45.0, 45.1, 45.2], "Longitude": [14.0, 14.1, 14.2]})
    lotek = places.assign(**{"Date & Time [GMT]": MOMENTS})
    said = "from_='lotek' has a form for texts, and 'Date & Time [GMT]' has moments: leave from_ out, and name columns, as by animal=.., time="
    assert refusal(lotek, from_="lotek") == (f"{said}'Date & Time [GMT]'", "option")
    assert quietly(read_fixes, lotek, animal="Device ID", time="Date & Time [GMT]")["time"].tolist() == MOMENTS.tolist()
    vectronic = places.rename(columns={"Device ID": "CollarID"}).assign(AnimalID="", UTC_Date=MOMENTS.normalize(), UTC_Time=[time.time() for time in MOMENTS])
    assert refusal(vectronic, from_="vectronic")[0].endswith(": UTC_Date has moments: make days of it, as by .dt.date")
    days = vectronic.assign(UTC_Date=vectronic["UTC_Date"].dt.date)
    assert quietly(read_fixes, days, from_="vectronic")["time"].tolist() == MOMENTS.tolist()


@pytest.mark.parametrize("title, zone", [("time (Europe/Vienna)", "Europe/Vienna"), ("time (UTC+2)", "Etc/GMT-2"), ("local time", "Europe/Ljubljana")])
def test_moments_labelled_utc_get_the_zone_of_their_title(splitter, title, zone):
    frame = PLACES.assign(**{title: MOMENTS})
    call = refusal(frame)[0].split("as by ")[1]
    own = eval(call, {"frame": frame})
    assert str(own.dt.tz) == zone and own.dt.tz_localize(None).tolist() == MOMENTS.tz_localize(None).tolist()


def test_dates_without_signs(splitter):
    days = PLACES.assign(time=[20240301, 20240302, 20240303])
    assert refusal(days)[0].endswith("which looks like a date without hyphens: name its form, as by time_format='%Y%m%d'")
    assert read_fixes(days, time_format="%Y%m%d")["time"].tolist() == (DAY + pandas.to_timedelta([0, 1, 2], unit="D")).tolist()
    clocks = PLACES.assign(time=[20240301120000, 20240301132005, 20240302000001])
    assert refusal(clocks)[0].endswith(": name its form, as by time_format='%Y%m%d%H%M%S'")
    assert read_fixes(clocks, time_format="%Y%m%d%H%M%S")["time"].tolist() == MOMENTS.tolist()


def test_rows_without_a_time(splitter):
    frame = PLACES.assign(time=[None, *MOMENTS[1:]])
    assert refusal(frame)[0] == "row 0: there is no time: leave rows without one out, as by frame[frame['time'].notna()]"
    assert read_fixes(frame[frame["time"].notna()])["time"].tolist() == MOMENTS[1:].tolist()
    assert refusal(PLACES.assign(time=["", "2024-03-01", "2024-03-02"]))[0] == "row 0: there is no time"


@pytest.mark.parametrize("words, said", [
    ({"time_format": "%d.%m.%Y %H:%M:%S.%f"}, ": %S has the decimals of seconds: leave .%f out"), ({"time_format": "%d.%m.%Y %T"}, ": %H:%M:%S stands for %T"),
    ({"time_format": "%F"}, ": %Y-%m-%d stands for %F"), ({"tz": "UTC+2"}, ": the offset +2 is that of 'Etc/GMT-2'"),
    ({"tz": "-05:00"}, ": the offset -5 is that of 'Etc/GMT+5'"), ({"tz": "UTC+0"}, ": the offset +0 is that of 'UTC'"),
    ({"tz": "UTC+5:30"}, "tz='UTC+5:30' is no time zone such as 'Europe/Ljubljana'"), ({"zone": "EPSG:32633"}, ": a reference system is named by crs"),
    ({"crs": "33N"}, "crs='33N' names no reference system: a zone is named by zone='33N'"), ({"from_": "Vectronics"}, "from_: Vectronics is none of vectronic, "),
    ({"max_speed": "5km/h"}, "max_speed is '5km/h' and not a number of metres a second from 0"), ({"max_dop": "<5"}, "max_dop is '<5' and not a number from 0"),
    ({"fix_type": "3-D"}, "no fix is left; left out by reason: type 3: column 'fix-type' has 3D, 2D"),
    ({"fix_type": "3-D", "fix": "other"}, "no fix is left; left out by reason: type 3: column 'other' has good")])
def test_options_that_are_written_otherwise(splitter, words, said):
    frame = PLACES.assign(time="2024-03-01", other="good", **{"fix-type": ["3D", "2D", "3D"]})
    assert said in refusal(frame, **words)[0]


@pytest.mark.parametrize("tz, zone", [("+2", "Etc/GMT-2"), ("-5", "Etc/GMT+5")])
def test_zones_of_offsets_have_these(splitter, tz, zone):
    frame = PLACES.assign(time=["2024-03-01 12:00", "2024-03-01 13:00", "2024-03-01 14:00"])
    first = read_fixes(frame, tz=zone)["time"].iloc[0]
    assert first == pandas.Timestamp("2024-03-01 12:00", tz="UTC") - pandas.Timedelta(hours=int(tz))


def test_paths_and_columns_that_are_several(splitter):
    assert refusal(["a.csv", "b.csv"])[0].endswith("for each fix: read each path, as by pandas.concat(map(pandas.read_csv, x))")
    frame = PLACES.assign(time=["2024-03-01", "2024-03-02", "2024-03-03"], sex="f", site=["x", "y", "x"])
    fixes = read_fixes(frame)
    for table in (frame, fixes):
        with pytest.raises(FrameError) as caught:
            home_range(table, by=["sex", "site"])
        begin = "by names 2 columns: join them, as by "
        assert str(caught.value).startswith(begin)
    by = eval(str(caught.value).removeprefix(begin), {"fixes": fixes})
    assert home_range(fixes, by=by).animals == ["a f x", "a f y"]


@pytest.mark.parametrize("several, said, wanted", [
    ({"a": 1, "b": 2}, ["bind those that are in it, as by pandas.concat(x.values(), ignore_index=True)", "pandas.concat(x, names=['animal'])"], ["a", "b"]),
    ([1, 2], ["bind those that are in it, as by pandas.concat(x, ignore_index=True)"], ["animal"])])
def test_tables_that_are_in_a_list_or_a_dict(several, said, wanted):
    frames = [pandas.DataFrame({"time": pandas.date_range("2024-05-01", periods=3, tz="UTC"), "easting": [at, 9, 5], "northing": [0, 0, 9]}) for at in (0, 1)]
    x = dict(zip(several, frames)) if isinstance(several, dict) else frames
    with pytest.raises(FrameError, match=f"^a {type(x).__name__} is neither a path nor a data frame with a row for each fix: ") as fault:
        home_range(x)
    assert all(text in str(fault.value) for text in said)
    call = re.findall(r"pandas.concat\(.*?\)+(?=$|,)", str(fault.value))[-1]
    assert quietly(read_fixes, eval(call, {"pandas": pandas, "x": x}))["animal"].unique().tolist() == wanted
    first = eval(re.findall(r"pandas.concat\(.*?True\)", str(fault.value))[0], {"pandas": pandas, "x": x})
    assert len(quietly(read_fixes, first)) == 6


def test_paths_in_a_list_or_a_dict_and_groups(tmp_path):
    path = tmp_path / "a.csv"
    path.write_text("animal,second,easting,northing\na,0,1,2\n", "utf-8")
    for x in ([path], {"a": str(path)}):
        with pytest.raises(FrameError, match="read each path, as by pandas.concat") as fault:
            read_fixes(x)
        call = str(fault.value).split("as by ")[1]
        assert len(read_fixes(eval(call, {"pandas": pandas, "x": x}))) == 1
    with pytest.raises(FrameError, match="take the frame that was grouped, x.obj"):
        read_fixes(pandas.read_csv(path).groupby("animal"))


def test_levels_by_a_text_of_per_cent():
    frame = pandas.DataFrame({"animal": "a", "second": [0, 1, 2], "easting": [0, 9, 0], "northing": [0, 0, 9]})
    for levels, text, said in (("95%", "95%", "95"), (["50", "95 %"], "50", "50"), ("50%, 95%", "50%, 95%", "[50, 95]"), (" 95 % ", " 95 % ", "95")):
        with pytest.raises(FrameError, match=f"are not levels from 1 to 100: '{text}' is a text, so write {re.escape(said)} without quotes$"):
            home_range(frame, levels)
        assert home_range(frame, eval(said)).levels


def test_groups_in_a_list():
    frame = pandas.DataFrame({"animal": "a", "second": [0, 1, 2], "easting": [0, 9, 0], "northing": [0, 0, 9], "sex": "f"})
    for by, said in ((["sex"], "by is a list of 1 text: write by='sex'"), ([frame["sex"]], "by is a list of 1 column, and one is wanted: take it, as by by[0]"),
                     ([frame["sex"], frame["sex"]], "by is a list of 2 columns, and one is wanted: join them, as by by[0].astype(str) + ' ' + by[1].astype(str)")):
        with pytest.raises(FrameError, match=f"^{re.escape(said)}$"):
            home_range(frame, by=by)


@pytest.mark.parametrize("name, reader", [
    ("a.geojson", "geopandas.read_file"), ("a.JSON", "geopandas.read_file"), ("a.shp", "geopandas.read_file"), ("a.parquet", "pandas.read_parquet"),
    ("a.feather", "pandas.read_feather"), ("a.pkl", "pandas.read_pickle")])
def test_files_of_other_forms_are_refused_with_what_reads_them(tmp_path, name, reader):
    (tmp_path / name).write_text('{"type": "FeatureCollection", "features": []}')
    with pytest.raises(FrameError) as fault:
        read_fixes(tmp_path / name)
    assert str(fault.value) == f"{tmp_path / name} is no text with a line of titles: read what it has, as by read_fixes({reader}(..))"
    assert fault.value.kind == "text"


def test_values_in_place_of_a_title_and_several_moments_in_place_of_one():
    frame = pandas.DataFrame({"animal": "a", "time": pandas.date_range("2024-05-01", periods=3, tz="UTC"), "easting": [1, 2, 3], "northing": [1, 5, 3]})
    for own in (frame["time"], frame["time"].to_numpy(), frame.index, pandas.Timestamp("2024-05-01")):
        with pytest.raises(FrameError, match="^time has values, and the title of their column is wanted, in quotes, as by time='COLUMN'$"):
            read_fixes(frame, time=own)
    with pytest.raises(FrameError, match="^since has 3 values, and one moment is wanted, such as '2024-05-01'$"):
        read_fixes(frame, since=frame["time"])
    with pytest.raises(FrameError, match="^until is missing, and a moment is wanted: leave until out where none is meant$"):
        read_fixes(frame, until=pandas.NaT)


@pytest.mark.parametrize("cell, helps", [
    ("\u22121.8", "the minus is another sign (U+2212): write -"), (" ", "blanks are no missing cell: empty the cell"),
    ("   ", "blanks are no missing cell: empty the cell"),
    ("15.805.895", "dots stand between thousands, or a spreadsheet took the decimal sign: mend the column"),
    ("NaT", "if it stands for what is missing, name it, by na='NaT'")])
def test_cells_that_are_no_numbers(cell, helps, tmp_path):
    said = f"easting is '{cell}' and not a number of up to 12 digits: {helps}"
    frame = PLACES.assign(easting=["500010", cell, "500040"])
    assert refusal(frame) == (f"row 1: {said}", "number")
    frame.to_csv(tmp_path / "t.csv", index=False)
    assert refusal(tmp_path / "t.csv") == (f"{tmp_path / 't.csv'}: record 2: {said}", "number")


@pytest.mark.parametrize("word", ["NaT", "nan"])
def test_words_for_a_time_that_is_missing(word):
    said = f"row 1: time is '{word}' and not a time such as 2024-05-01 00:30:04: if it stands for what is missing, name it, by na='{word}'"
    assert refusal(PLACES.assign(time=["2024-05-01 10:00", word, "2024-05-01 12:00"])) == (said, "time")
