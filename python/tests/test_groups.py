"""Ranges by groups of fixes, against hulls of the fixes that pandas puts into these groups; how many processors are taken, and
what is shown of long work."""
import io
import os
import re
import warnings

import numpy
import pandas
import pytest
from exact import area2, cloud, hull
from frames import frame_of, with_splitter

from homerange import FrameError, HomeRangeInfo, HomeRangeNote, bar, home_range, plot_curve, read_fixes, share_inside, write_page


@pytest.fixture
def frame():
    """Two animals with a fix every 20 days from December 2022 on, whose rows take turns."""
    rows = []
    for name, seed in (("fox", 1), ("otter", 2)):
        times = pandas.date_range("2022-12-20", periods=40, freq="20D", tz="UTC")
        rows += [(name, when, *point) for when, point in zip(times, cloud(seed, 40))]
    found = pandas.DataFrame(rows, columns=["animal", "timestamp", "easting", "northing"])
    return found.sort_values("timestamp", kind="stable")


def season(when):
    if when.month in (12, 1, 2):
        first = when.year - (when.month < 12)
        return f"{first}-{first + 1} Dec-Feb"
    return f"{when.year} {('Mar-May', 'Jun-Aug', 'Sep-Nov')[when.month // 3 - 1]}"


def hectares_of(frame, labels):
    """The area of each group, in the order of animals and of times."""
    rows = frame.assign(group=labels).sort_values(["animal", "timestamp"])
    found = {}
    for row in rows.itertuples():
        found.setdefault((row.animal, row.group), []).append((row.easting, row.northing))
    return {key: area2(hull(points)) / 20000 for key, points in found.items()}


def areas(ranges):
    table = ranges.summary()
    return {(row.animal, row.group): row.hectares for row in table[table["level"] == 100].itertuples()}


@pytest.mark.parametrize("by, label", [
    ("season", season), ("year", lambda when: f"{when.year}"), ("month", lambda when: f"{when:%Y-%m}")])
def test_ranges_by_the_calendar(frame, by, label):
    first_rows = frame.drop_duplicates("animal")["animal"].tolist()
    wanted = hectares_of(frame, frame["timestamp"].map(label))
    with pytest.warns(HomeRangeInfo, match=f"ranges are by group: {len(wanted)} of 2 animals"):
        found = areas(home_range(frame, 100, by=by))
    assert found == wanted
    assert [key for key in found] == [key for name in first_rows for key in wanted if key[0] == name]


def test_a_winter_has_the_december_of_the_year_before(frame):
    ranges = home_range(frame[frame["animal"] == "fox"], 100, by="season")
    assert ranges.animals[0] == "fox 2022-2023 Dec-Feb"
    assert ranges.groups["fox 2022-2023 Dec-Feb"] == ("fox", "2022-2023 Dec-Feb")
    assert "fox 2023 Mar-May" in ranges.animals


def test_periods_go_by_the_clock_of_tz():
    """Half past eleven in the evening of UTC on the last of May is June in Slovenia."""
    frame = frame_of(a=cloud(1, 2))
    frame["timestamp"] = pandas.to_datetime(["2024-05-31 12:00", "2024-05-31 23:30"]).tz_localize("UTC")
    assert home_range(frame, 100, by="month").summary()["group"].tolist() == ["2024-05"]
    local = home_range(read_fixes(frame, tz="Europe/Ljubljana"), 100, by="month")
    assert local.summary()["group"].tolist() == ["2024-05", "2024-06"]


@pytest.mark.parametrize("one, other, said", [
    ("M", "M ", "groups 'M' and 'M ' differ in blanks or capitals alone: are they one?"),
    ("M", "m", "groups 'M' and 'm' differ in blanks or capitals alone: are they one?"),
    ("007", "7", "groups '007' and '7' differ in zeros alone: are they one?"),
    ("V\u00b2", "V2", "groups 'V\u00b2' and 'V2' differ in the form of letters alone: are they one?"),
    ("M", "-", "group '-' has 40 fixes: are they of no group?"), ("M", " ", "group ' ' has 40 fixes: are they of no group?"),
    ("a/b", "a:b", "groups are not compared: groups 'a/b' and 'a:b' would both be named a_b"), ("M", "F", None)])
def test_groups_that_may_be_one_or_none_are_asked(frame, one, other, said):
    groups = pandas.Series([one, one, other, other] * 20, index=frame.index)
    with warnings.catch_warnings(record=True) as heard:
        warnings.simplefilter("always")
        found = areas(home_range(frame, 100, by=groups))
    assert found == hectares_of(frame, groups)
    assert [str(own.message) for own in heard if "group" in str(own.message)] == [*([said] if said else []), "ranges are by group: 4 of 2 animals"]


def test_ranges_by_a_series_which_goes_by_its_index(frame):
    sex = pandas.Series(range(80), index=range(80)).mod(3).map({0: "a", 1: "b", 2: "c"})
    found = areas(home_range(frame, 100, by=sex))
    assert found == hectares_of(frame, sex.reindex(frame.index))
    assert found == areas(home_range(frame, 100, by=sex.reindex(frame.index)))


def test_groups_are_of_the_fixes_that_filters_leave(frame):
    marked = frame.assign(visible=[at % 5 != 0 for at in range(80)])
    sex = pandas.Series(["a", "b"] * 40, index=frame.index)
    with pytest.warns(HomeRangeNote, match="16 outliers: left out"):
        fixes = read_fixes(marked.assign(sex=sex))
    found = areas(home_range(fixes[fixes["time"].dt.month.isin((3, 4, 5, 6))], 100, by="sex"))
    rest = frame[marked["visible"] & frame["timestamp"].dt.month.isin((3, 4, 5, 6))]
    assert found == hectares_of(rest, sex[rest.index])


def test_numbers_are_groups_by_their_digits(frame):
    found = home_range(frame, 100, by=frame["timestamp"].dt.year).summary()
    assert {*found["group"]} == {"2022", "2023", "2024", "2025"}


def test_all_ways_to_say_groups(frame):
    sex = pandas.Series(["a", "b"] * 40, index=frame.index)
    marked = frame.assign(sex=sex, visible=[at % 5 != 0 for at in range(80)], easting=frame["easting"].astype(float))
    with pytest.warns(HomeRangeNote, match="16 outliers: left out"):
        fixes = read_fixes(marked)
    wanted = hectares_of(frame[marked["visible"]], sex[marked["visible"]])
    for by in (sex, sex.tolist(), sex.to_numpy(), "sex", lambda own: own["sex"], sex.astype("category")):
        with pytest.warns(HomeRangeNote, match="16 outliers: left out"):
            assert areas(home_range(marked, 100, by=by)) == wanted
    for by in ("sex", fixes["sex"], fixes["sex"].tolist(), lambda own: own["sex"].to_numpy(), sex):
        assert areas(home_range(fixes, 100, by=by)) == wanted
    half = home_range(fixes, 100, by=lambda own: own["time"].dt.month > 6).summary()
    assert {*half["group"]} == {"true", "false"}


def test_rows_without_a_group(frame):
    sex = pandas.Series("a", index=frame.index)
    sex.iloc[4] = None
    with pytest.raises(FrameError, match=r"row [0-9]+.*: by has no group; leave fixes without a group out before"):
        home_range(frame, by=sex)
    fixes = read_fixes(frame.assign(sex=sex))
    assert home_range(fixes[fixes["sex"].notna()], 100, by="sex").summary()["fixes"].sum() == 79


@pytest.mark.parametrize("by, said", [
    ("week", "by: there is no column 'week', and it is none of 'year', 'month', 'season'"), (5, "by=5 is none of 'year', 'month', 'season'"),
    ({"a": 1}, "by=.* is none of"), (["a"] * 79, "by is 79 values for 80 rows"), (lambda fixes: 5, "by is 5 for 80 rows"),
    (pandas.Series(["a"] * 79), "by is a Series with another index than the frame"),
    (pandas.Series([1.5] * 80), "row .*: by has a group that is '1.5', a number that is not whole"),
    (lambda fixes: fixes[["animal", "time"]], r"by is a table, and a value for each row is wanted: take one column, or join several, as by"),
    (numpy.zeros((80, 2)), "by is a table, and a value for each row is wanted"),
    (["a\tb"] * 80, "row .*: by has a group that is 'a.*b', with a control character"),
    (["\ud800"] * 80, "row .*: by has a group that is .*, which is no text in UTF-8: mend it"),
    ([2.0 ** 60, 2.0 ** 60 + 4096] * 40, "row .*: by has a group that is '1.15.*e[+]18', a number that has lost digits: read its column as text"),
    (["3E+14", "a"] * 40, "by: group '3E[+]14' is a number that has lost digits: read its column as text")])
def test_what_is_refused(frame, by, said):
    with pytest.raises(FrameError, match=said):
        home_range(frame, by=by)


def test_moments_are_named_by_their_own_clock_and_days_without_it():
    times = pandas.date_range("2024-04-29 21:00", periods=12, freq="5h", tz="Europe/Vienna")
    fixes = read_fixes(pandas.DataFrame({"animal": "a", "time": times, "easting": range(12), "northing": [n * n for n in range(12)]}))
    days = home_range(fixes, by=fixes["time"].dt.normalize()).animals
    assert days == [f"a {day}" for day in ("2024-04-29", "2024-04-30", "2024-05-01", "2024-05-02")]
    halves = home_range(fixes, by=fixes["time"].dt.tz_convert("UTC").dt.floor("12h").dt.tz_convert("Europe/Vienna")).animals
    assert halves[:2] == ["a 2024-04-29T14:00:00+02:00", "a 2024-04-30T02:00:00+02:00"]


def test_periods_want_a_calendar(frame):
    seconds = frame_of(a=cloud(1, 3)).drop(columns="timestamp")
    for table in (seconds, seconds.assign(second=[1, 2, 3])):
        with pytest.raises(FrameError, match="by='year': seconds have no calendar"):
            home_range(table, by="year")
    far = frame_of(a=cloud(1, 3)).drop(columns="timestamp").assign(time=["2300-01-01", "2300-05-01", "2301-01-01"])
    for table in (far, far.assign(time=["1971-01-01", "1972-01-01", "1972-01-02"])):
        with pytest.raises(FrameError, match="seconds have no calendar, since none is of the years 1973 to 2262: read a table with date-times of "
                           "these, or name groups by a column of text$"):
            home_range(table, by="year")
    early = frame_of(a=cloud(1, 3)).drop(columns="timestamp").assign(time=pandas.to_datetime(["2024-05-01", "1970-01-01", "2024-05-02"]))
    with pytest.raises(FrameError, match="by='month': row .* is not of the years 1973 to 2262, so that the seconds of no row have"):
        home_range(early, by="month")
    with pytest.raises(FrameError, match="by='year' is a period of the calendar, and a column too: by=fixes\\['year'\\] takes"):
        home_range(frame.assign(year=1), by="year")


def test_two_groups_of_one_name_are_refused():
    frame = frame_of(**{"a": cloud(1, 3), "a 1": cloud(2, 3)})
    with pytest.raises(FrameError, match="both have a range named 'a 1 2': rename one"):
        home_range(frame, by=pandas.Series(["1 2"] * 3 + ["2"] * 3))


def test_tables_have_animal_and_group(frame):
    ranges = home_range(frame, (50, 100), by="year", zone="33N")
    boundary = pytest.importorskip("shapely.geometry").box(*ranges.polygons().total_bounds)
    for table in (ranges.summary(), ranges.overview(), ranges.growth(), ranges.curve(), ranges.polygons([50, 100]),
                  share_inside(ranges, boundary)):
        assert [*table.columns[:2]] == ["animal", "group"]
        assert {*table["animal"]} == {"fox", "otter"} and {*table["group"]} >= {"2023", "2024"}
    assert ranges.overview()["records"].isna().all() and ranges.summary()["left_out"].isna().all()
    assert ranges.hectares("fox 2023") == areas(ranges)["fox", "2023"]
    assert share_inside(ranges, boundary)["share"].dropna().tolist() == [pytest.approx(1)] * (ranges.curve(
        ).groupby(["animal", "group"])["hectares"].last() > 0).sum()


def test_curves_of_groups_are_told_apart(frame):
    pytest.importorskip("matplotlib").use("Agg")
    ranges = home_range(frame, 100, by="year")
    lines = plot_curve(ranges).get_lines()
    assert [line.get_label() for line in lines] == ranges.animals
    assert [line.get_ydata()[-1] for line in lines] == [ranges.hectares(name) for name in ranges.animals]


def test_evidence_and_pages_are_of_whole_ranges(frame, tmp_path):
    ranges = home_range(frame, by="year")
    with pytest.raises(FrameError, match="evidence is of whole ranges, and these are by groups"):
        ranges.evidence(tmp_path / "hand-in")
    with pytest.raises(FrameError, match="a page is of whole ranges"):
        write_page(ranges, tmp_path / "page.html")
    assert [*tmp_path.iterdir()] == []


def program_that_logs(tmp_path):
    from homerange.program import find_program

    path = tmp_path / "program"
    log = f'[ "$1" = --version ] || nproc >>"{tmp_path}/processors"'
    path.write_text(f'#!/bin/sh\n{log}\nexec "{find_program()}" "$@"\n')
    path.chmod(0o755)
    return with_splitter(path)


@pytest.mark.parametrize("jobs", [1, 2])
def test_so_many_processors_are_taken(tmp_path, jobs):
    if len(os.sched_getaffinity(0)) < 2:
        pytest.skip("this machine has one processor")
    home_range(frame_of(a=cloud(1, 20)), jobs=jobs, program=program_that_logs(tmp_path))
    assert (tmp_path / "processors").read_text() == f"{jobs}\n"
    assert len(os.sched_getaffinity(0)) >= 2


@pytest.mark.parametrize("jobs", [0, -1, 1.5, "2", True])
def test_jobs_are_a_whole_number(jobs):
    with pytest.raises(FrameError, match="jobs=.* is no whole number from 1 to 1024"):
        home_range(frame_of(a=cloud(1, 20)), jobs=jobs)


class Terminal(io.StringIO):
    def isatty(self):
        return True


def test_long_work_has_a_bar_on_a_terminal(monkeypatch):
    herd = frame_of(**{f"a{number}": cloud(number, 3) for number in range(70)})
    monkeypatch.setattr(bar, "QUIET", 0)
    for stream, progress, is_shown in ((Terminal(), None, True), (io.StringIO(), None, False), (io.StringIO(), True, True),
                                       (Terminal(), False, False)):
        monkeypatch.setattr("sys.stderr", stream)
        home_range(herd, 100, progress=progress)
        assert ("\rhomerange: 5 of 6 runs" in stream.getvalue()) == is_shown
        assert not is_shown or stream.getvalue().endswith("\r" + " " * 22 + "\r")
    with pytest.raises(FrameError, match="progress=3 is neither True nor False, nor a function"):
        home_range(herd, progress=3)


def test_short_work_has_none(monkeypatch):
    monkeypatch.setattr("sys.stderr", stream := Terminal())
    home_range(frame_of(a=cloud(1, 20)))
    assert stream.getvalue() == ""
    with pytest.warns(HomeRangeNote):
        home_range(frame_of(a=cloud(1, 20)).iloc[::-1])


@pytest.mark.parametrize("values, kind", [
    (lambda frame: pandas.cut(frame["timestamp"].dt.month, [0, 6, 12]), "Interval"), (lambda frame: [("a", 1)] * len(frame), "tuple"),
    (lambda frame: [b"a"] * len(frame), "bytes"), (lambda frame: [frozenset("a")] * len(frame), "frozenset")])
def test_groups_without_a_text_are_refused(frame, values, kind):
    with pytest.raises(FrameError, match=f"row .*: by has a group of the class {kind}_?, which is no text: make it one, as by .astype"):
        home_range(frame, by=values(frame))


def test_a_group_that_looks_like_a_class_is_a_text(frame):
    assert home_range(frame, 100, by=["<tuple>"] * len(frame)).summary()["group"].tolist() == ["<tuple>"] * 2


def test_values_for_the_records_of_a_file_are_refused(tmp_path):
    path = tmp_path / "fixes.csv"
    path.write_text("animal,second,easting,northing\na,0,1,2\nb,0,3,4\na,60,5,6\n", "utf-8")
    for by in ([1, 2, 1], pandas.Series(list("xyx"))):
        with pytest.raises(FrameError, match="another order: read the file before, as by pandas.read_csv, and hand in the data frame"):
            home_range(path, by=by)
        assert home_range(pandas.read_csv(path), by=by).animals == [f"a {by[0]}", f"b {by[1]}"]
    assert home_range(path, by=lambda fixes: fixes["easting"] > 2).groups


def refuses_order(fixes, by):
    """Refuses values of which nobody knows the fix, and takes them as a column, as it says."""
    with pytest.raises(FrameError, match="^by: it is not known which of the fixes each value is of.* make the values a column of that table "
                                         "before read_fixes, or, .* as by fixes.assign\\(group=..\\), and name it, as by by='group'$"):
        home_range(fixes, by=by)
    group = by.to_numpy() if isinstance(by, pandas.Series) else by
    with warnings.catch_warnings():
        warnings.simplefilter("ignore")  # fixes that stand in another order are sorted
        return areas(home_range(fixes.assign(group=group), 100, by="group"))


def test_values_beside_fixes_go_by_what_is_known_of_their_order(frame):
    """Rows of the frame take turns, and its fixes stand by animals: values of the one, in its order, are none of the other."""
    table = frame.assign(sex=["f", "f", "m"] * 26 + ["f", "m"]).reset_index(drop=True)
    wanted, fixes = hectares_of(table, table["sex"]), read_fixes(table)
    for by in (fixes["sex"], fixes["sex"].tolist(), fixes["sex"].to_numpy(), fixes["sex"].astype("category").array, table["sex"],
               fixes["sex"] + "", table["sex"].sample(frac=1, random_state=1)):
        assert areas(home_range(fixes, 100, by=by)) == wanted
    for by in ([*table["sex"]], table["sex"].to_numpy(), tuple(table["sex"]), table["sex"].set_axis([*range(100, 180)])):
        refuses_order(fixes, by)
    assert refuses_order(fixes, (fixes["sex"] + "!").tolist()) == {(name, f"{sex}!"): own for (name, sex), own in wanted.items()}
    # Labels that are no longer those of the table, or never were.
    refuses_order(fixes.reset_index(drop=True), table["sex"])
    refuses_order(read_fixes(table.rename_axis("row")).drop(columns="row"), table["sex"])
    own = fixes.reset_index(drop=True)
    assert areas(home_range(own, 100, by=own["sex"] + "")) == wanted


def test_values_in_the_order_of_a_table_are_taken_where_its_fixes_have_it(frame, tmp_path):
    table = frame.sort_values(["animal", "timestamp"]).reset_index(drop=True)
    sex, fixes = ["f", "m", "m", "m"] * 20, read_fixes(table)
    assert areas(home_range(fixes, 100, by=sex)) == areas(home_range(read_fixes(fixes), 100, by=sex)) == hectares_of(table, sex)
    local = fixes.assign(time=fixes["time"].dt.tz_convert("Asia/Tokyo"))
    assert areas(home_range(local, 100, by=sex)) == hectares_of(table, sex)
    for chosen in (fixes.iloc[1:], fixes.iloc[::-1], pandas.concat([fixes.iloc[:40], read_fixes(table.iloc[40:])]), read_fixes(fixes.iloc[1:])):
        refuses_order(chosen, sex[:len(chosen)])
    path = tmp_path / "fixes.csv"
    table.to_csv(path, index=False)
    refuses_order(read_fixes(path), sex)
    refuses_order(read_fixes(path), pandas.read_csv(path)["northing"].mod(3))


def test_a_title_is_that_of_the_column_of_the_frame(frame):
    collars = pandas.Series(["x", "y"] * 40, index=frame.index)
    named, read = frame.assign(collar=frame["animal"], animal=collars), {"animal": "collar"}
    moments = frame.rename(columns={"timestamp": "t2"}).assign(time=collars)
    sides = frame.rename(columns={"easting": "x_e", "northing": "y_n"}).assign(easting=1, northing=collars)
    for table, by, options in ((named, "animal", read), (moments, "time", {"time": "t2"}), (sides, "northing", {"easting": "x_e", "northing": "y_n"})):
        with pytest.warns(HomeRangeNote, match="^not in the fixes, which have columns of these titles: "):
            found = home_range(table, 100, by=by, **options)
        assert areas(found) == hectares_of(frame, collars)
    assert [*areas(home_range(frame, 100, by="animal"))] == [("fox", "fox"), ("otter", "otter")]
    geopandas = pytest.importorskip("geopandas")
    points = geopandas.GeoDataFrame(sides, geometry=geopandas.points_from_xy(frame["easting"], frame["northing"]), crs=32633)
    with pytest.warns(HomeRangeNote, match="^not in the fixes, which have columns of these titles: "):
        assert areas(home_range(points, 100, by="northing")) == hectares_of(frame, collars)


def test_columns_of_a_file_are_no_groups(frame, tmp_path):
    path = tmp_path / "fixes.csv"
    frame.assign(sex="f", collar=frame["animal"]).to_csv(path, index=False)
    said = "^by: the column '{}' of a file is not kept: read the file by pandas before, as by pandas.read_csv"
    for table, by, options in ((path, "sex", {}), (read_fixes(path), "sex", {}), (path, "animal", {"animal": "collar"})):
        with pytest.raises(FrameError, match=said.format(by)):
            home_range(table, by=by, **options)
    assert len(home_range(pandas.read_csv(path), by="sex").animals) == 2
    assert home_range(path, by="animal").animals == ["fox fox", "otter otter"]
    with pytest.raises(FrameError, match="^by: there is no column 'age', and it is none of 'year'"):
        home_range(path, by="age")


def test_series_that_are_counted_from_zero_go_by_no_guess():
    """Fixes that take turns in a table stand by animals, so that a Series of them without their index is of other fixes by its labels."""
    clock = pandas.date_range("2024-05-01", periods=8, freq="3h", tz="UTC")
    table = pandas.DataFrame({"animal": [*"ab"] * 8, "time": clock.repeat(2), "easting": [*range(0, 160, 10)], "northing": [0, 9, 5, 40] * 4})

    def night(fixes):
        return pandas.Series((fixes["time"].dt.hour < 6).to_numpy())
    with pytest.raises(FrameError, match="^by: the function's values are a Series of another index than that of the fixes: give them that, as by "):
        home_range(table, by=night)
    for by in (lambda fixes: night(fixes).to_numpy(), lambda fixes: pandas.Series(night(fixes).to_numpy(), index=fixes.index)):
        ranges = home_range(table, by=by)
        assert {name: len(ranges.fixes(name)) for name in ranges.animals} == {"a true": 2, "a false": 6, "b true": 2, "b false": 6}
    fixes = read_fixes(table)
    for by in (night(fixes), night(table)):
        with pytest.raises(FrameError, match="^by: it is not known which of the fixes each value is of"):
            home_range(fixes, by=by)


@pytest.mark.parametrize("by", ["season", "month", "year"])
def test_a_period_that_a_file_has_as_a_column_is_said_to_be_of_the_calendar(splitter, tmp_path, by):
    frame = frame_of(a=[(0, 0), (200, 0), (200, 200), (0, 200)])
    frame.assign(**{by: "rut"}).to_csv(tmp_path / "own.csv", index=False)
    frame.assign(note="rut").to_csv(tmp_path / "other.csv", index=False)
    said = (f"ranges are by the {by} of the calendar, and not by the column '{by}' of the file, which is not kept: read the file before to "
            "take that")
    wanted = {"season": "2024 Mar-May", "month": "2024-03", "year": "2024"}[by]
    for table in (tmp_path / "own.csv", read_fixes(tmp_path / "own.csv")):
        with pytest.warns(HomeRangeNote, match=f"^{re.escape(said)}$"):
            ranges = home_range(table, 100, by=by)
        assert ranges.summary()["group"].tolist() == [wanted]
    home_range(tmp_path / "other.csv", 100, by=by)  # a note would be a fault
    with pytest.raises(FrameError, match=f"^by='{by}' is a period of the calendar, and a column too"):
        home_range(frame.assign(**{by: "rut"}), 100, by=by)


def by_places(table, by):
    """How many fixes each animal's groups have."""
    return {key: len(own) for key, own in table.assign(group=[*by]).groupby(["animal", "group"])}


def counted(ranges):
    table = ranges.summary()
    return {(row.animal, row.group): row.fixes for row in table[table["level"] == 100].itertuples()}


@pytest.fixture
def dens():
    """Three fixes of a fox in its den and three of a boar that is out, by animals: in the order of times they take turns."""
    times = pandas.to_datetime([f"2024-01-0{day}" for day in (1, 3, 5, 2, 4, 6)], utc=True)
    return pandas.DataFrame({"animal": ["fox"] * 3 + ["boar"] * 3, "k": ["den"] * 3 + ["out"] * 3, "time": times,
                             "easting": [0, 900, 0, 5000, 5900, 5000], "northing": [0, 0, 900, 0, 0, 900]})


NAMED_K = ("^by is a Series named 'k', and the column of that title says otherwise: by='k' takes the column; if other values are meant, "
           "by.to_numpy\\(\\) goes by the places of values(, and by.reindex\\(frame.index\\) by their labels)?$")
TURNED_K = ("^by: the values are those of the column 'k' of the table in another order than that of its rows: name it, as by by='k', or make "
            "others a column of the table, as by frame.assign\\(group=..\\), and by='group'$")
WANTED_K = {("fox", "den"): 3, ("boar", "out"): 3}


def test_values_of_a_table_that_was_sorted_since_are_refused(dens):
    table = dens.sort_values("time", ignore_index=True)
    for own in (table, read_fixes(table)):
        for by, said in ((dens["k"], NAMED_K), (dens["k"].str.upper(), NAMED_K)):
            with pytest.raises(FrameError, match=f"{said}|^by: it is not known which"):
                home_range(own, by=by)
    for by in (dens["k"].rename(None), dens["k"].rename("z"), dens["k"].to_numpy(), [*dens["k"]], tuple(dens["k"]), dens["k"].astype("category").array):
        with pytest.raises(FrameError, match=TURNED_K):
            home_range(table, by=by)
    with pytest.raises(FrameError, match=NAMED_K):
        home_range(table, by=dens["k"])
    for by in ("k", table["k"], [*table["k"]], table["k"].rename("z"), dens["k"].reindex([0, 3, 1, 4, 2, 5]).to_numpy()):
        assert counted(home_range(table, by=by)) == WANTED_K
    assert counted(home_range(table.assign(n=range(6)), by=[*"012345"])) == by_places(table, "012345")
    assert counted(home_range(table, by=table["time"].dt.day > 3)) == by_places(table, ["false"] * 3 + ["true"] * 3)
    # Values in the order of the rows of a table whose fixes have it are held to its columns too.
    fixes = read_fixes(dens.iloc[::-1].sort_values("animal", ascending=False, kind="stable").sort_values(["animal", "time"], ignore_index=True))
    with pytest.raises(FrameError, match=TURNED_K):
        home_range(fixes, by=[*dens["k"]])


def test_what_is_meant_may_be_said_of_a_series(dens):
    table = dens.sort_values("time", ignore_index=True)
    by = dens["k"].str.upper()
    assert counted(home_range(table, by=by.to_numpy())) == by_places(table, by)
    assert counted(home_range(table, by=by.set_axis([3, 1, 4, 2, 5, 0]).reindex(table.index))) == by_places(table, by.iloc[[5, 1, 3, 0, 2, 4]])
    assert counted(home_range(dens, by=table["k"].str.upper().set_axis([0, 3, 1, 4, 2, 5]).reindex(dens.index))) == {
        ("fox", "DEN"): 3, ("boar", "OUT"): 3}


def test_a_series_of_other_rows_that_are_counted_from_zero_is_refused(dens):
    longer = pandas.Series([*"aabbccddeeff"])
    said = "^by is a Series of 12 values for 6 rows, which are counted from 0 as those of another table are: make it a column of the table"
    for table in (dens, read_fixes(dens)):
        with pytest.raises(FrameError, match=said):
            home_range(table, by=longer)
    both = pandas.concat([dens, dens.assign(animal=dens["animal"] + " 2", k="in")], ignore_index=True)
    assert counted(home_range(both.iloc[:6], by=both["k"])) == WANTED_K
    # Labels that are kept through a filter tell.
    rest = both[both["animal"] != "fox"]
    assert counted(home_range(rest, by=both["k"])) == counted(home_range(rest, by=both["k"].rename(None).str.lower())) == by_places(rest, rest["k"])
    with pytest.raises(FrameError, match=NAMED_K):
        home_range(rest.reset_index(drop=True), by=both["k"])
    fixes = read_fixes(dens)
    for table in (dens, fixes):
        assert counted(home_range(table[table["k"] == "out"], by=table["k"].str.upper())) == {("boar", "OUT"): 3}
    # But not what such a column has in other rows.
    with pytest.raises(FrameError, match=NAMED_K):
        home_range(dens.iloc[1:], by=dens.sort_values("time", ignore_index=True)["k"])


def test_labels_of_another_order_beside_rows_that_are_counted_from_zero_are_refused(dens):
    mixed = dens.iloc[[3, 0, 4, 1, 5, 2]]
    plain = mixed.reset_index(drop=True)
    for table in (plain, read_fixes(plain)):
        with pytest.raises(FrameError, match=NAMED_K):
            home_range(table, by=mixed["k"])
        with pytest.raises(FrameError, match="^by is a Series whose labels are 0, 1, 2, .. in another order, and rows are counted from 0 too, so that"
                                             " nobody knows of which each value is: by.to_numpy"):
            home_range(table, by=mixed["k"].rename(None).str.upper())
    for table in (mixed, read_fixes(mixed), dens):
        assert counted(home_range(table, by=mixed["k"])) == counted(home_range(table, by=dens["k"])) == WANTED_K
    for table in (mixed, read_fixes(mixed)):
        assert counted(home_range(table, by=mixed["k"].str.upper())) == {("fox", "DEN"): 3, ("boar", "OUT"): 3}


def test_values_by_the_names_of_animals_are_mapped(dens):
    by = pandas.DataFrame({"animal": ["boar", "fox"], "sex": ["m", "f"]}).set_index("animal")["sex"]
    for table in (dens, read_fixes(dens)):
        with pytest.raises(FrameError, match="^by is a Series whose labels are those of the column 'animal', and not of the rows: a column has it "
                                             "for each fix, as by frame\\['animal'\\].map\\(by\\)$"):
            home_range(table, by=by)
        assert counted(home_range(table, by=table["animal"].map(by))) == {("fox", "f"): 3, ("boar", "m"): 3}


@pytest.mark.parametrize("by, said", [
    (["year", "month"], "by names 2 columns or periods: write by='month', which has year too"),
    (["season", "year"], "by names 2 columns or periods: write by='season', which has year too"),
    (["k", "year"], "by names 2 columns or periods: join them, as by lambda fixes: fixes['k'].astype(str) + ' ' + fixes['time'].dt.strftime('%Y')"),
    (("k", "season"), "by names 2 columns or periods: write by='season' for fixes of one k alone, as by fixes[fixes['k'] == ..]"),
    (numpy.array(["animal", "k"]), "by names 2 columns: join them, as by fixes['animal'].astype(str) + ' ' + fixes['k'].astype(str)"),
    (["k", "sex"], "by: there is no column 'sex', and it is none of 'year', 'month', 'season'"),
    (["year"], "by is a list of 1 text: write by='year'"),
    ("K", "by: there is no column 'K', and it is none of 'year', 'month', 'season'; the column 'k' differs from it in capitals alone: write it so")])
def test_titles_and_periods_in_a_list_are_refused_with_what_helps(dens, by, said):
    with pytest.raises(FrameError, match=f"^{re.escape(said)}$"):
        home_range(dens, by=by)


def test_a_year_beside_a_column_is_joined_as_it_is_said(dens):
    ranges = home_range(dens, by=lambda fixes: fixes["k"].astype(str) + " " + fixes["time"].dt.strftime("%Y"))
    assert counted(ranges) == {("fox", "den 2024"): 3, ("boar", "out 2024"): 3}


@pytest.mark.parametrize("title, wanted, what", [
    ("La\u0308nge", "L\u00e4nge", "the form of letters"), ("k\u00a0x", "k x", "blanks or signs that are not seen"),
    ("k\u200b", "k", "blanks or signs that are not seen")])
def test_titles_that_look_alike_are_told_apart(dens, title, wanted, what):
    table, said = dens.rename(columns={"k": title}), re.escape(f"; the column {ascii(title)} differs from it in {what} alone: write it so")
    with pytest.raises(FrameError, match=f"^by: there is no column '{wanted}', .*{said}$"):
        home_range(table, by=wanted)
    with pytest.raises(FrameError, match=f"^easting: there is no column '{wanted}'; the table has .*{said}$"):
        read_fixes(table, easting=wanted, northing="northing")


def test_a_column_of_groups_is_not_said_to_be_not_read(dens):
    for more, wanted in (({}, []), ({"note": 1}, ["not read: note"])):
        with warnings.catch_warnings(record=True) as said:
            warnings.simplefilter("always")
            ranges = home_range(dens.assign(**more), by="k")
        assert [str(each.message) for each in said if str(each.message).startswith("not read")] == wanted
        assert [note for note in ranges.notes if note.startswith("not read")] == wanted


def test_a_period_in_other_capitals_is_a_column_too(dens, tmp_path):
    table = dens.rename(columns={"k": "Season"})
    for own in (table, read_fixes(table)):
        with pytest.raises(FrameError, match="^by='season' is a period of the calendar, and the column 'Season' too: by=fixes\\['Season'\\] takes"):
            home_range(own, by="season")
        assert counted(home_range(own, by="Season")) == counted(home_range(own, by=own["Season"])) == WANTED_K
    table.to_csv(tmp_path / "own.csv", index=False)
    with pytest.warns(HomeRangeNote, match="^ranges are by the season of the calendar, and not by the column 'Season' of the file"):
        home_range(tmp_path / "own.csv", by="season")
