"""Fixes that were changed since they were read: how many were taken away, what says which count, and what is refused."""
import copy
import pickle
import re
import warnings
from collections import Counter

import numpy
import pandas
import pytest
from frames import frame_of, noted, told

from homerange import FrameError, HomeRangeNote, home_range, write_page
from homerange.read.fixes import Fixes
from homerange.read.reading import read_fixes

SQUARE = [(500_000, 5_000_000), (500_200, 5_000_000), (500_200, 5_000_200), (500_000, 5_000_200)]
APART = [(east + 1000, north) for east, north in SQUARE]
DEGREES = [(15.0, 45.0), (15.002, 45.0), (15.002, 45.002), (15.0, 45.002)]


@pytest.fixture
def fixes(splitter):
    return read_fixes(frame_of(a=SQUARE, b=APART).drop(columns="timestamp").assign(time=frame_of(a=SQUARE, b=APART)["timestamp"]),
                      zone="33N", unit="dm", tz="Asia/Tokyo")


def chosen(fixes):
    """The counts of fixes that were taken away, by animal."""
    with warnings.catch_warnings():
        warnings.simplefilter("ignore")  # that rows are sorted, or there twice
        left = home_range(fixes).left_out()
    return {name: count for name, reason, count in left.values.tolist() if reason == "chosen"}


CHANGED = ("the fixes are not as they were read: (1 of them was taken away since, and )?what was left out before is neither in the folder nor "
           "on its page")
SWAPPED, OTHER = {"a": "b", "b": "a"}, {"a": "c", "b": "d"}


@pytest.mark.parametrize("change, gone", [
    (lambda fixes: fixes.iloc[2:], {"a": 2}), (lambda fixes: fixes.iloc[[0, 5, 6]], {"a": 3, "b": 2}),
    (lambda fixes: fixes.assign(animal=fixes["animal"].map(SWAPPED)), {}),
    (lambda fixes: fixes.assign(animal=fixes["animal"].map(SWAPPED)).iloc[1:], {"": 1}),
    (lambda fixes: fixes.assign(animal=fixes["animal"].map(OTHER)).iloc[3:], {"": 3}),
    (lambda fixes: fixes.assign(animal=fixes["animal"].map(SWAPPED)).iloc[:4], {"": 4}),
    (lambda fixes: fixes.assign(animal=fixes["animal"].replace("a", "c")).iloc[:5], {"b": 3}),
    (lambda fixes: fixes.assign(animal=fixes["animal"].mask(fixes.index < 1, "b")).drop(index=[3, 6]), {"": 2}),
    (lambda fixes: fixes.assign(animal="a").drop(index=[0, 5]), {"": 2}),
    (lambda fixes: fixes.loc[[1, 1, 2, 3, 4, 5, 6, 7]], {"": 1}),  # one dropped, and another there twice
    (lambda fixes: fixes.loc[[0, 0, 1, 1, 4]], {"": 2, "b": 3}),
    (lambda fixes: pandas.concat([fixes, fixes]), {}),
    (lambda fixes: fixes.assign(northing=fixes["northing"] + 10), {}),
    (lambda fixes: fixes.assign(northing=fixes["northing"] + 10).iloc[1:], {"a": 1}),
    (lambda fixes: fixes.assign(easting=fixes["easting"].where(fixes.index > 0, 500_100)).iloc[:6], {"b": 2}),
    (lambda fixes: fixes.assign(time=fixes["time"].dt.tz_convert("UTC")).iloc[1:], {"a": 1}),
    (lambda fixes: fixes.astype({"easting": "float32", "northing": "Int64", "animal": "category"}).iloc[1:], {"a": 1})])
def test_fixes_that_were_taken_away_are_counted(fixes, change, gone):
    own = change(fixes)
    assert chosen(own) == gone
    count = sum(gone.values())
    assert f"not chosen: {count} of 8 fixes that were read" in repr(own) if count else "not chosen" not in repr(own)


def test_fixes_that_are_read_again_say_by_which_columns(splitter):
    table = frame_of(a=SQUARE, b=APART).rename(columns={"easting": "utm_easting", "northing": "utm_northing"}).assign(dop=[1.0, 5.0] * 4)
    fixes = read_fixes(table, zone="33N")
    moved = read_fixes(fixes.assign(k=fixes["easting"] + 100), easting="k", northing="northing")
    assert (moved["easting"] - fixes["easting"]).tolist() == [100] * 8
    assert "read again by columns: animal, time, k, northing" in repr(moved) and "not read: dop" in repr(moved)
    with told("^4 fixes have a DOP above 3: left out$"):
        chosen = read_fixes(fixes, max_dop=3)
    assert "not read" not in repr(chosen) and "read again" not in repr(chosen)
    with pytest.raises(FrameError, match="^row 0: 'dop' was changed since this fix was read from it"):
        home_range(chosen.assign(dop=9.0))


def test_what_is_left_out_again_is_said_again(fixes):
    marked = frame_of(a=SQUARE * 3, b=APART * 3).assign(visible=[True] * 10 + [False] * 2 + [True] * 12)
    with pytest.warns(HomeRangeNote, match="^2 outliers: left out$"):
        fixes = read_fixes(marked, zone="33N")
    fixes.loc[fixes.index[:2], "visible"] = False
    with pytest.warns(HomeRangeNote, match="^2 outliers: left out$"):
        ranges = home_range(fixes)
    assert ranges.left_out()["fixes"].sum() == 4


@pytest.mark.parametrize("change", [
    lambda fixes: fixes.merge(fixes.head(2).assign(animal="c", easting=500_700), how="outer"),
    lambda fixes: fixes.combine_first(fixes.head(2).assign(animal="c", easting=500_700).set_axis([20, 21])),
    lambda fixes: fixes.combine_first(fixes.head(1).assign(easting=500_700).set_axis([20])),  # of an animal that has all of its own
    lambda fixes: fixes.iloc[4:].reindex([4, 5, 6, 7, 8]).fillna(fixes.iloc[0].to_dict() | {"animal": "c", "easting": 500_700.0}),
    lambda fixes: fixes.merge(fixes.head(2).assign(animal="c"), how="outer"),  # read once, and there by two names
    # Moved, and of another animal: they may be others.
    lambda fixes: fixes.assign(northing=fixes["northing"] + 10, animal="c").iloc[1:]])
def test_rows_that_were_not_read_are_refused(fixes, change):
    with pytest.raises(FrameError, match="was not read with the others: bind tables that read_fixes has read, by pandas.concat; or if"):
        home_range(change(fixes))


def test_fixes_of_one_moment_and_place_have_no_animal_once_they_are_named_otherwise(splitter):
    both = read_fixes(frame_of(a=SQUARE, b=SQUARE))
    assert chosen(both.iloc[1:]) == {"a": 1}
    renamed = both.assign(animal=both["animal"].map(OTHER))
    assert chosen(renamed) == {} and chosen(renamed.iloc[1:]) == {"": 1} and chosen(renamed.drop(index=[0, 4])) == {"": 2}


@pytest.mark.parametrize("seed", range(12))
def test_random_changes_are_counted_as_lists_of_rows_are(splitter, seed):
    random = numpy.random.default_rng(seed)
    places = {name: [(500_000 + int(east), 5_000_000 + int(north)) for east, north in 100 * random.integers(0, 3, (9, 2))] for name in "abc"}
    fixes = read_fixes(frame_of(**places), zone="33N")
    names = dict(zip("abc", random.permutation([*"abc"]) if seed % 2 else "abc"))
    named = fixes.assign(animal=fixes["animal"].map(names))
    kept = named[random.random(27) < 0.7]
    own = pandas.concat([kept, kept.sample(seed % 3, random_state=seed)]).sample(frac=1, random_state=seed)
    read, there = ([*zip(table["time"], table["easting"], table["northing"])] for table in (fixes, own))
    gone = Counter(read) - Counter(there)
    found = chosen(own)
    assert sum(found.values()) == sum(gone.values())
    assert all(found.get(name, 0) <= sum(row in gone for row, owner in zip(read, fixes["animal"]) if owner == name) for name in "abc")
    assert all(names[name] == name and found[name] + [*own["animal"]].count(name) <= 9 for name in {*found} - {""})
    if seed % 6 == 0:  # neither renamed nor there twice
        assert found == Counter(fixes["animal"]) - Counter(own["animal"])


def test_what_was_left_out_of_animals_that_have_other_names_is_of_none(splitter):
    frame = frame_of(a=[*SQUARE, (numpy.nan, 1)], b=[*APART, (numpy.nan, 1), (numpy.nan, 1)])
    with told("^3 records have no coordinates: left out$"):
        fixes = read_fixes(frame, zone="33N")
    for change, unknown, left in (
            (lambda animal: animal, {}, {("a", "coordinates"): 1, ("b", "coordinates"): 2, ("a", "chosen"): 1}),
            (lambda animal: animal.map(SWAPPED), {"a", "b"}, {("", "coordinates"): 3, ("", "chosen"): 1}),
            (lambda animal: animal.replace("a", "c"), {"c"}, {("", "coordinates"): 1, ("b", "coordinates"): 2, ("", "chosen"): 1})):
        found = home_range(fixes.assign(animal=change(fixes["animal"])).iloc[1:])
        assert {(name, reason): count for name, reason, count in found.left_out().values.tolist()} == left
        own = {animal: None if animal in unknown else sum(count for (name, _), count in left.items() if name == animal)
               for animal in found.animals}
        summary, overview = found.summary(), found.overview()
        for table, counts in ((summary, summary["left_out"]), (overview, overview["records"] - overview["used"])):
            assert dict(zip(table["animal"], counts.astype(object).where(counts.notna(), None))) == own


def test_what_is_not_known_of_an_animal_stays_so(splitter, tmp_path):
    frame = frame_of(a=[*SQUARE, (numpy.nan, 1)], b=[*APART, (numpy.nan, 1), (numpy.nan, 1)])
    with told("^3 records have no coordinates: left out$"):
        first = read_fixes(frame, zone="33N")
    second = read_fixes(first.assign(animal=first["animal"].replace("a", "c")))
    third = read_fixes(second.assign(animal=second["animal"].replace("c", "d")))
    for fixes, name in ((second, "c"), (third, "d"), (third.iloc[1:], "d")):
        ranges = home_range(fixes)
        assert ranges.summary().set_index("animal")["left_out"].isna().to_dict() == {"b": False, name: True}
        assert ranges.overview().set_index("animal").loc["b", ["records", "left_coordinates"]].tolist() == [6, 2]
        with told(CHANGED):
            write_page(ranges, tmp_path / "page.html")
        text = (tmp_path / "page.html").read_text()
        cells = re.findall('data-animal="(.)".*data-field="records">([^<]*)<', text)
        assert dict(cells) == {"b": "4", name: str(list(fixes["animal"]).count(name))} and re.search(f"“{CHANGED}”", text)


def test_of_an_animal_with_another_name_all_is_known_where_nothing_was_left_out(fixes):
    ranges = home_range(fixes.assign(animal=fixes["animal"].replace("a", "c")))
    assert ranges.summary()["left_out"].tolist() == [0] * 6 and ranges.overview()["records"].tolist() == [4, 4]


def test_fixes_bound_of_several_readings_are_counted(fixes):
    other = read_fixes(frame_of(c=SQUARE, b=SQUARE).rename(columns={"timestamp": "time"}), zone="33N", unit="dm", tz="Asia/Tokyo")
    bound = pandas.concat([fixes, other], ignore_index=True)
    assert chosen(bound) == {} and chosen(bound.iloc[5:-1]) == {"a": 4, "b": 2}


OPERATIONS = {
    "between": lambda fixes: fixes.set_index("time").between_time("00:00", "23:59").reset_index(),
    "resampled": lambda fixes: fixes.groupby(["animal", pandas.Grouper(key="time", freq="30min")]).first().reset_index(),
    "query": lambda fixes: fixes.query("easting > 0"), "head": lambda fixes: fixes.groupby("animal").head(9),
    "grouped": lambda fixes: fixes.groupby("animal", group_keys=False).apply(lambda own: own), "twice": lambda fixes: fixes.drop_duplicates(),
    "parts": lambda fixes: pandas.concat([own for _, own in fixes.groupby("animal")]), "exploded": lambda fixes: fixes.assign(k=[[1]] * 8).explode("k"),
    "merged": lambda fixes: fixes.merge(pandas.DataFrame({"animal": ["a", "b"], "age": [1, 2]})), "deep": copy.deepcopy,
    "joined": lambda fixes: fixes.join(pandas.DataFrame({"k": range(8)})), "pickled": lambda fixes: pickle.loads(pickle.dumps(fixes)),
    "applied": lambda fixes: fixes.apply(lambda column: column), "mapped": lambda fixes: fixes.apply(lambda row: row, axis=1),
    "melted": lambda fixes: fixes.assign(k=1).melt(["animal", "time", "easting", "northing"]), "classes": lambda fixes: fixes.convert_dtypes(),
    "statistics": lambda fixes: fixes.merge(fixes.groupby("animal")[["easting"]].mean().reset_index(), on="animal", suffixes=("", "_mean")),
    "itself": lambda fixes: fixes.merge(fixes[["animal", "time"]], on=["animal", "time"]), "beside": lambda fixes: pandas.concat([fixes[["animal", "time"]], fixes[["easting", "northing"]]], axis=1),
    "index": lambda fixes: fixes.set_index("animal").reset_index(), "renamed": lambda fixes: fixes.rename(columns={"time": "t"}).rename(columns={"t": "time"})}


@pytest.mark.parametrize("name", OPERATIONS)
def test_what_pandas_makes_of_fixes_knows_how_they_were_read(fixes, name):
    own = OPERATIONS[name](fixes)
    found = home_range(own)
    assert type(own) is Fixes and (found.unit, found.crs, found.tz) == ("dm", "EPSG:32633", "Asia/Tokyo")
    assert found.hectares("a") == found.hectares("b") == 4 and found.left_out().empty


@pytest.mark.parametrize("part", [
    lambda fixes: fixes.set_index("time").tz_convert("UTC"), lambda fixes: fixes.resample("1h", on="time").first(), lambda fixes: fixes.T,
    lambda fixes: fixes.groupby("animal").first(), lambda fixes: fixes[["animal", "easting", "northing"]].iloc[1:],
    lambda fixes: fixes.drop(columns="time").copy(), lambda fixes: fixes.rename(columns={"easting": "x", "northing": "y"}).iloc[1:]])
def test_parts_of_fixes_are_refused_with_what_helps(fixes, part):
    for call in (home_range, read_fixes):
        with pytest.raises(FrameError, match="^these fixes have no column '[a-z]+' any more: give it back, as by reset_index"):
            call(part(fixes))


@pytest.mark.parametrize("title, values, index", [
    ("use", [1, 1, 0, 1], ["use"]), ("Visible", [True, True, False, True], ["sex", "Visible"]), ("manually_marked_outlier", ["", "", 1, ""], ["manually_marked_outlier"])])
def test_marks_in_the_index_are_read(fixes, title, values, index):
    marked = fixes.assign(**{title: values * 2, "sex": "f"}).set_index(index)
    for found in (lambda: home_range(marked), lambda: home_range(read_fixes(marked))):
        with pytest.warns(HomeRangeNote, match="^2 outliers: left out$"):
            assert found().left_out().values.tolist() == [["a", "outlier", 1], ["b", "outlier", 1]]
    with pytest.warns(HomeRangeNote, match="^2 outliers: left out$"):
        home_range(fixes.assign(**{title: values * 2, "sex": "f"}).set_index(index, drop=False))


@pytest.mark.parametrize("title, values", [("outlier", [True, False]), ("lc", ["3", "A"]), ("zone", ["33N", "34N"]), ("utm-zone", ["33N", "33N"])])
def test_columns_of_doubt_in_the_index_are_judged(fixes, title, values):
    with pytest.raises(FrameError, match=f"^column 5 '{title}' "):
        home_range(fixes.assign(**{title: values * 4}).set_index(title))
    assert home_range(fixes.assign(sex=[*"fm"] * 4).set_index("sex")).left_out().empty


@pytest.fixture
def projected(splitter):
    frame = frame_of(a=DEGREES, b=DEGREES).rename(columns={"easting": "lon", "northing": "lat", "animal": "id"})
    with told("^coordinates are rounded"):
        return read_fixes(frame.assign(visible=True))


@pytest.mark.parametrize("title, value", [("lat", 46.5), ("lon", "x"), ("lat", None), ("id", "c"), ("timestamp", pandas.Timestamp("2024-05-01", tz="UTC"))])
def test_columns_that_fixes_were_read_from_may_not_change_alone(projected, title, value):
    other = projected.copy()
    other[title] = other[title].where(other.index != 5, value)
    said = rf"{title!r} was changed since this fix was read from it: change what fixes have of it, such as easting and northing, and drop it$"
    for part, place in ((other, "row 5"), (other.iloc[2:], r"row 5 \(frame.iloc\[3\]\)"), (other.iloc[2:].reset_index(drop=True), "row 3")):
        with pytest.raises(FrameError, match=f"^{place}: {said}") as fault:
            home_range(part)
        assert fault.value.kind == "columns"
    assert home_range(other.drop(columns=title)).left_out().empty
    assert len(home_range(other.drop(index=5)).fixes("b")) == 3
    if title != "id":
        moved = other.assign(easting=other["easting"] + (other.index == 5))
        assert home_range(moved).left_out().empty


@pytest.mark.parametrize("own, other, title", [
    ("Visible", "visible", "visible"), ("manually.marked.outlier", "manually-marked-outlier", "manually-marked-outlier")])
def test_two_spellings_of_a_mark_that_are_added_are_refused(splitter, own, other, title):
    fixes = read_fixes(frame_of(a=SQUARE))
    for call in (home_range, read_fixes):
        with pytest.raises(FrameError, match=f"column 5 '{own}' and column 6 '{other}' both fit {title}: rename one") as fault:
            call(fixes.assign(**{own: 1, other: 0}))
        assert fault.value.kind == "ambiguous"


@pytest.mark.parametrize("there, added, said", [
    ({"use": 1}, {"visible": 0}, "'visible' was added to the fixes, and is not read, since 'use' goes before it: change that, or drop 'visible'"),
    ({"Use": 1}, {"manually-marked-outlier": 1}, "'manually-marked-outlier' was added to the fixes, and is not read, since 'Use' goes before it: "
     "change that, or drop 'manually-marked-outlier'"),
    ({"use": 1}, {"outlier": 1}, "'outlier' was added .*, since 'use' goes before"), ({"use": 1}, {"event.visible": 0}, "'event.visible' was added"),
    ({}, {"sensor-type-id": 82798, "sensor-type": "gps"}, "'sensor-type-id' was added .*, since 'sensor-type' goes before it"),
    ({"use": 1, "visible": 1}, {"visible": 0}, "row [0145].*: 'visible' was changed since this fix was read, and is not read, since 'use' goes before it: "
     "change that, or drop 'visible'"),
    ({"use": 1, "outlier": 0}, {"outlier": 1}, "row [0145].*: 'outlier' was changed since this fix was read, and is not read, since 'use' goes")])
def test_what_says_which_fixes_count_and_is_not_read_is_refused(splitter, there, added, said):
    frame = frame_of(a=SQUARE, b=APART)
    fixes = read_fixes(frame.assign(**there))
    values = {title: [there.get(title, value)] * 5 + [value] + [there.get(title, value)] * 2 for title, value in added.items()}
    own = fixes.assign(**values)
    for changed in (own, own.iloc[1:], own.set_index([*added]), own.assign(northing=own["northing"] + 1)):
        for call in (home_range, read_fixes):
            with pytest.raises(FrameError, match=f"^{said}") as fault:
                call(changed)
            assert fault.value.kind == "columns"
    for part in (fixes, fixes.iloc[1:], own.drop(columns=next(iter(added)))):
        with warnings.catch_warnings():
            warnings.simplefilter("ignore")
            assert len(read_fixes(part)) >= 7


@pytest.mark.parametrize("title", ["outlier", "is_valid", "event-visible"])
def test_marks_that_are_passed_over_beside_use_are_refused_without_it(splitter, title):
    fixes = read_fixes(frame_of(a=SQUARE).assign(**{"use": 1, title: True}))
    assert len(home_range(fixes.iloc[1:]).fixes("a")) == 3
    for part in (fixes, fixes.iloc[1:]):
        with pytest.raises(FrameError, match=f"^column 5 '{title}' "):
            home_range(part.drop(columns="use"))
        assert home_range(part.drop(columns=["use", title])).animals == ["a"]


def test_marks_that_are_not_read_may_be_of_some_of_several_readings(splitter):
    one, other = read_fixes(frame_of(a=SQUARE).assign(use=1, visible=True)), read_fixes(frame_of(b=APART).assign(use=1))
    bound = pandas.concat([one, other], ignore_index=True)
    assert home_range(bound).animals == home_range(bound.iloc[1:]).animals == ["a", "b"]
    bound.loc[2, "visible"] = False
    with pytest.raises(FrameError, match="^row 2: 'visible' was changed since this fix was read, and is not read"):
        home_range(bound)


def test_columns_that_say_the_same_in_another_form_did_not_change(projected):
    for same in (projected.convert_dtypes(), projected.astype({"lat": object, "lon": str, "id": "category"}), projected.iloc[::-1].iloc[::-1],
                 projected.assign(timestamp=projected["timestamp"].dt.tz_convert("Asia/Tokyo"), age=1), projected.assign(id=projected["id"].astype(object))):
        assert home_range(same).left_out().empty
    with told("^1 outliers: left out$"):
        home_range(projected.assign(visible=projected.index != 3))
    north = projected.assign(lat=projected["lat"] + 0.001)
    with told("^coordinates are rounded"):
        again = read_fixes(north, lon="lon", lat="lat")
    assert numpy.allclose(again["northing"] - projected["northing"], 111, atol=1.5)  # a thousandth of a degree


def test_columns_that_say_what_fixes_have_did_not_change(projected):
    days = frame_of(a=SQUARE).assign(timestamp=pandas.date_range("2024-05-01", periods=4, freq="7h")).astype({"timestamp": str})
    fixes = read_fixes(days, tz="Asia/Tokyo", zone="33N")
    moments = pandas.to_datetime(fixes["timestamp"])
    for same in (moments, moments.dt.tz_localize("Asia/Tokyo"), fixes["time"], fixes["time"].dt.tz_convert("UTC"), fixes["time"].dt.date):
        assert home_range(fixes.assign(timestamp=same)).left_out().empty
        assert len(home_range(fixes.assign(timestamp=same).iloc[1:]).fixes("a")) == 3
    assert home_range(projected.assign(id=projected["animal"], lon=projected["easting"])).left_out().empty
    with pytest.raises(FrameError, match="^row 0: 'timestamp' was changed"):
        home_range(fixes.assign(timestamp=moments.dt.tz_localize("UTC")))


def test_changed_columns_of_bound_fixes(projected):
    other = read_fixes(frame_of(c=SQUARE), zone="33N")
    bound = pandas.concat([projected, other], ignore_index=True)
    assert home_range(bound).animals == ["a", "b", "c"]
    bound.loc[9, "lat"] = 45.0  # of a fix that was read from metres
    assert home_range(bound).animals == ["a", "b", "c"]
    bound.loc[2, "lat"] = 46.0
    with pytest.raises(FrameError, match="^row 2: 'lat' was changed"):
        home_range(bound)


def test_levels_of_the_index_stand_beside_fixes_as_columns(splitter):
    frame = frame_of(a=SQUARE).assign(herd=[*"xxyy"])
    fixes = read_fixes(frame.set_index(["herd", "timestamp"]))
    assert fixes["herd"].tolist() == [*"xxyy"] and fixes["timestamp"].tolist() == fixes["time"].tolist()
    assert home_range(frame.set_index("herd"), by="herd").animals == home_range(fixes.set_index("herd"), by="herd").animals == ["a x", "a y"]
    assert home_range(fixes.iloc[1:].set_index("herd"), by="herd").animals == home_range(fixes, by="herd").animals
    with pytest.raises(FrameError, match="^by='month' is a period of the calendar, and a column too"):
        home_range(frame.assign(month=3).set_index("month"), by="month")
    with pytest.warns(HomeRangeNote, match="^not in the fixes, which have columns of these titles: animal$"):
        read_fixes(frame.assign(tag=1).set_index("animal"), animal="tag")
    other = fixes.assign(timestamp=fixes["timestamp"] + pandas.Timedelta("1h")).set_index("timestamp")
    with pytest.raises(FrameError, match="^row 2024-03-01 01:00:00.*: 'timestamp' was changed since"):
        home_range(other)


def test_own_columns_that_fixes_cannot_have_are_said(splitter):
    frame = frame_of(a=SQUARE).assign(tag=7, time=1, note=1)
    frame.insert(0, "note", 2, allow_duplicates=True)
    with pytest.warns(HomeRangeNote) as said:
        fixes = read_fixes(frame, animal="tag", time="timestamp")
    assert noted(said) == ["not in the fixes, which have columns of these titles: animal, time", "not in the fixes, since their titles are there twice: note"]
    assert fixes["animal"].tolist() == ["7"] * 4 and "note" not in fixes
    assert read_fixes(frame_of(a=SQUARE).rename(columns={"timestamp": "time"})).equals(read_fixes(frame_of(a=SQUARE)).drop(columns="timestamp"))


def test_options_that_look_at_columns_of_fixes_find_their_own_first(projected):
    movebank = {"animal": "individual-local-identifier", "easting": "utm-easting", "northing": "utm-northing"}
    own = read_fixes(frame_of(a=SQUARE).rename(columns=movebank).assign(**{"utm-zone": "33N", "sensor-type": "gps"}))
    assert read_fixes(own, sensor="gps").equals(own)
    with told("^coordinates are rounded"):
        small = read_fixes(frame_of(a=[(0.5, 0.5), (50, 0), (50, 50.5), (0, 50)]), unit="m")
    small = small.assign(easting=small["easting"] + 0.5, dop=[1, 1, 1, 9])
    with told("^1 fixes have a DOP above 3: left out$"):
        assert len(read_fixes(small, max_dop=3)) == 3
    with told("^4 fixes have a DOP above 3: left out$"):
        fixes = read_fixes(projected.assign(dop=[1, 9] * 4), max_dop=3)
    assert len(fixes) == 4 and fixes.reading.zone == "33N"


@pytest.mark.parametrize("change", [
    lambda fixes: fixes.isna(), lambda fixes: fixes == fixes, lambda fixes: fixes.astype(str), lambda fixes: fixes.astype("category"),
    lambda fixes: fixes.assign(animal=[[1]] * 8), lambda fixes: fixes.assign(easting=[[1]] * 8), lambda fixes: fixes.assign(northing="x"),
    lambda fixes: fixes.assign(time=fixes["time"].dt.date), lambda fixes: fixes.assign(time=fixes["time"] - fixes["time"].min())])
def test_frames_of_other_values_are_printed_plainly(fixes, change):
    other = change(fixes)
    assert repr(other) == repr(pandas.DataFrame(other)) and "<pre>" not in other._repr_html_()


@pytest.mark.parametrize("other, words", [
    (lambda times: times.dt.strftime("%Y-%m-%d %H:%M"), {}), (lambda times: times.dt.strftime("%Y-%m-%d %H:%M").astype("category"), {}),
    (lambda times: times.dt.tz_localize(None), {}), (lambda times: times.dt.tz_localize(None).astype(object), {}),
    (lambda times: times.dt.tz_localize(None).dt.to_period("min"), {}), (lambda times: times.dt.tz_convert(None), {"tz": "UTC"}),
    (lambda times: times.dt.strftime("%d.%m.%Y %H:%M"), {"time_format": "%d.%m.%Y %H:%M"}),
    (lambda times: pandas.Series([*times.dt.tz_localize(None).to_numpy()], dtype=object), {}),
    (lambda times: (times.astype("int64") // 10 ** 9).astype(str), {}), (lambda times: times.dt.date, None), (lambda times: times.dt.strftime("%H:%M"), None),
    (lambda times: times.dt.tz_convert("UTC").dt.strftime("%Y-%m-%d %H:%M UTC"), None), (lambda times: times.dt.tz_localize(None).where(times.isna()), None)])
def test_times_of_fixes_that_have_no_zone_any_more(splitter, other, words):
    night = pandas.date_range("2024-10-26 23:30", periods=4, freq="30min", tz="UTC")  # whose last hour comes twice
    fixes = read_fixes(frame_of(a=SQUARE).drop(columns="timestamp").assign(time=night), zone="33N", tz="Europe/Ljubljana")
    changed = fixes.assign(time=other(fixes["time"]))
    said = "^the times of fixes have no zone any more: keep those that read_fixes gave, or read pandas.DataFrame.fixes. as a new table, with tz for"
    for call in (home_range, read_fixes):
        with pytest.raises(FrameError, match=said) as fault:
            call(changed)
        assert fault.value.kind == "time"
    assert home_range(changed.assign(time=fixes["time"])).left_out().empty
    if words is not None:
        with warnings.catch_warnings():
            warnings.simplefilter("ignore")
            again = read_fixes(pandas.DataFrame(changed), **{"tz": "Europe/Ljubljana", "zone": "33N", **words})
        assert again["time"].dt.tz_convert("UTC").tolist() == [*night]


def test_times_of_fixes_that_became_text_with_a_zone_are_read(fixes):
    local = fixes["time"].dt.strftime("%Y-%m-%d %H:%M")
    for same in (pandas.to_datetime(local).dt.tz_localize("Asia/Tokyo"), fixes["time"].astype(str), fixes["time"].dt.strftime("%Y-%m-%dT%H:%M%z"),
                 fixes["time"].astype("int64") // 10 ** 9):
        assert home_range(fixes.assign(time=same)).curve()["time"].tolist() == home_range(fixes).curve()["time"].tolist()


@pytest.mark.parametrize("change, said", [
    (lambda times: times.astype("int64"), "^row 0: time is '1709251200000000000', which is no second since 1970"),
    (lambda times: times.astype("int64").astype("Int64"), "^row 0: time is '1709251200000000000', which is no second since 1970"),
    (lambda times: pandas.to_timedelta(times.astype("int64")), "^row 0: time is of the class [Tt]imedelta"),
    (lambda times: pandas.Series([*times.dt.tz_convert("UTC").dt.tz_localize(None).to_numpy()], dtype=object), "^the times of fixes have no zone any more")])
def test_times_of_another_class_are_read_again(fixes, change, said):
    with pytest.raises(FrameError, match=said) as fault:
        home_range(fixes.assign(time=change(fixes["time"])))
    assert fault.value.kind == "time"


def test_a_level_of_other_animals_is_refused():
    fixes = read_fixes(frame_of(a=SQUARE))
    both = pandas.concat({"A": fixes, "B": fixes}, names=["animal", None])
    with pytest.raises(FrameError, match="animal is a column of the fixes and a level of their index, which differ") as fault:
        home_range(both)
    assert fault.value.kind == "ambiguous"
    assert home_range(fixes.set_index("animal", drop=False)).animals == ["a"]


def test_a_number_that_is_missing_is_so_in_each_way_in_which_it_is_written(tmp_path):
    frame = frame_of(a=SQUARE).astype({"easting": float, "northing": float})
    frame.loc[3, ["easting", "northing"]] = 999.999
    frame.to_csv(tmp_path / "table.csv", index=False)
    for table in (frame, frame.astype(object), tmp_path / "table.csv"):
        with told("1 records have no coordinates: left out"):
            assert len(read_fixes(table, na=999.999)) == len(frame) - 1
    frame.loc[3, ["easting", "northing"]] = 999.0
    frame.to_csv(tmp_path / "table.csv", index=False)
    for table in (frame, frame.astype({"easting": str, "northing": str}), tmp_path / "table.csv"):
        with told("1 records have no coordinates: left out"):
            assert len(read_fixes(table, na=999)) == len(frame) - 1
