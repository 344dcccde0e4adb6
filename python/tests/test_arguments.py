"""Arguments that cannot be right: each is refused by an error of the package, in one line, whatever its type is."""
import datetime
import decimal
import pathlib
import re
import shutil
import subprocess
import warnings
from inspect import Parameter, isfunction, signature

import numpy
import pandas
import pytest
from exact import cloud
from frames import frame_of

import homerange
from homerange import FileError, Fixes, FrameError, HomeRangeError, HomeRangeNote, HomeRanges, ReportError, home_range, plot_curve, plot_ranges, read_fixes
from homerange import read_report, share_inside, write_layers, write_page
from homerange.program import find_program
from homerange.read.words import ELSEWHERE, FLAGS, FORMS, OURS
from homerange.write.output import ARGUMENTS

EXAMPLES = pathlib.Path(__file__).parents[2] / "examples"
FRAME = frame_of(a=cloud(1, 12), b=cloud(2, 12))
ODD = [
    95.0, numpy.int64(5), numpy.float64("nan"), float("inf"), True, False, "x", "", "2h", b"x", 0, -1, 10 ** 30, [], [None], (),
    {}, {"a": 1}, None, pandas.NaT, pandas.NA, numpy.datetime64("2024-03-01"), datetime.date(2024, 3, 1),
    datetime.datetime(2024, 3, 1, 12), pandas.Timestamp("2024-03-01"), pandas.Period("2024-03"), FRAME["animal"], FRAME,
    FRAME.index, object(), iter([1]), numpy.array([1, 2]), numpy.array([[1]]), decimal.Decimal(5), 1j, "a" * 200, "9" * 5000,
    "a\nb", ["animal"], {50, 95}, range(3), numpy.array(1), Ellipsis, int, len, " ", "\ud800", "a\0b"]
WRONG = (complex, bytes, type(Ellipsis), dict)  # what no argument is, but for one
FURTHER = {  # what stands for the further arguments of a function
    "home_range": [*FORMS, *FLAGS, "nonsense"], "read_fixes": [*FORMS, *FLAGS, "nonsense"], "HomeRanges.evidence": [*ARGUMENTS, "nonsense"]}
NAMED = {  # what a refusal says of some arguments in place of their names
    "x": "neither a path nor a data frame", "ranges": "has no ranges", "animal": "no animal", "colours": "no colour"}


def functions():
    """All public functions, and those of what they answer, by their names."""
    found = {name: getattr(homerange, name) for name in homerange.__all__}
    for kind in (HomeRanges, Fixes):
        found.update({f"{kind.__name__}.{name}": own for name, own in vars(kind).items() if not name.startswith("_")})
    return {name: own for name, own in found.items() if isfunction(own)}


def arguments():
    """Each argument of each of these."""
    for name, function in functions().items():
        kinds = {own: part.kind for own, part in signature(function).parameters.items() if own != "self"}
        further = FURTHER[name] if Parameter.VAR_KEYWORD in kinds.values() else []
        yield from ((name, own) for own in [*(own for own, kind in kinds.items() if kind is not Parameter.VAR_KEYWORD), *further])


@pytest.fixture(scope="module")
def ranges():
    return home_range(FRAME, (50, 95, 100), zone="33N")


@pytest.fixture(scope="module")
def report(tmp_path_factory):
    path = tmp_path_factory.mktemp("report") / "report.txt"
    path.write_bytes(subprocess.run([find_program(), EXAMPLES / "fox.csv"], capture_output=True, check=True).stdout)
    return path


@pytest.fixture(scope="module")
def fixes():
    return read_fixes(FRAME, zone="33N")


@pytest.mark.filterwarnings("ignore:More than 20 figures")
@pytest.mark.parametrize("name, argument", arguments())
def test_an_argument_is_taken_or_refused_in_one_line_by_its_name(splitter, ranges, report, fixes, tmp_path, monkeypatch, name, argument):
    """An argument without a good value, and further ones of a function that nobody knows, are faults of this test."""
    pytest.importorskip("geopandas")
    pyplot = pytest.importorskip("matplotlib.pyplot")
    function = functions()[name]
    path = {"read_report": report, "write_page": tmp_path / "page.html", "write_layers": tmp_path / "layers.gpkg"}.get(name)
    good = {"x": FRAME, "ranges": ranges, "path": path, "reserve": ranges.polygons(), "animal": "a", "folder": tmp_path / "new",
            "table": ranges.summary()}
    own = [{"HomeRanges": ranges, "Fixes": fixes}[name.partition(".")[0]]] if "." in name else []
    needed = {key: good[key] for key, part in signature(function).parameters.items()
              if key != "self" and part.default is part.empty and part.kind is not part.VAR_KEYWORD}
    monkeypatch.chdir(tmp_path)
    for value in [*ODD, ranges.polygons().geometry, fixes, ranges]:
        shutil.rmtree(tmp_path / "new", ignore_errors=True)
        try:
            function(*own, **{**needed, argument: value})
        except (HomeRangeError, HomeRangeNote) as fault:
            said = str(fault)
            assert said and "\n" not in said and len(said) < 6000, value
            is_named = re.search(rf"^{argument}\b|\b{argument}( ?[=:]| is | has | takes )|no (argument|option) {argument}$", said)
            assert not isinstance(value, WRONG) or is_named or NAMED.get(argument, "\n") in said, (value, said)
        pyplot.close("all")


def test_options_of_reading_are_none_of_fixes_that_were_read(fixes):
    for name in (*FORMS, *FLAGS):
        for value in (95, "x"):
            with pytest.raises(HomeRangeError, match=f"^{name} says how a table is read, and these fixes were read already"):
                home_range(fixes, **{name: value})


def test_paths(ranges, report, tmp_path):
    for path, said in ((tmp_path / "none" / "a", "there is no such folder"), (tmp_path, "is a folder")):
        for write in (write_page, write_layers):
            with pytest.raises(FileError, match=said):
                write(ranges, path)
    with pytest.raises(HomeRangeError, match="there is no such folder"):
        ranges.evidence(tmp_path / "none" / "made")
    address = "https://example.org/report.txt"
    for name, call in {"x": read_fixes, "path": read_report, "record": lambda path: read_report(report, record=path),
                       "files": lambda path: read_report(report, files=[path])}.items():
        with pytest.raises(FrameError, match=f"^{name}='{address}' is an address, and a path is wanted: load the file down before$"):
            call(address)


def test_what_is_no_report_is_refused_as_such(ranges, report, tmp_path):
    other = tmp_path / "other"
    for data in (b"SQLite format 3\0" + bytes(100), b"animal,second,easting,northing\nfox,1,2,3\n", b"\x89PNG\r\n\x1a\n"):
        other.write_bytes(data)
        with pytest.raises(ReportError, match="other is no report: it does not begin as one, with a line 'animal,NAME,fixes,NUMBER'$"):
            read_report(other)
    other.write_bytes(b"SQLite format 3\0\xd8\xff")
    with pytest.raises(FrameError, match="other has no fix with animal, second, easting and northing$"):
        read_report(report, files=[other])
    with pytest.raises(FrameError, match="^files=DataFrame are not several paths"):
        read_report(report, files=FRAME)


def test_groups_that_are_no_value_for_each_fix_are_refused_with_what_helps():
    table, none = "by is a table, and a value for each row is wanted: take one column, or join several", "is none of 'year', 'month', 'season', no column"
    for by, said in ((FRAME, table), (FRAME[["animal"]], table), (FRAME.groupby("animal"), table),
                     ({"a": "x", "b": "y"}, f"by={{'a': 'x', 'b': 'y'}} {none}"), (dict.fromkeys(FRAME.index), f"by=dict {none}")):
        with pytest.raises(FrameError) as caught:
            home_range(FRAME, by=by)
        assert str(caught.value).startswith(said)
    with pytest.raises(FrameError, match=r": a column has it for each fix, as by fixes\['animal'\].map\(by\)$"):
        home_range(FRAME, by={"a": "x"})
    with pytest.raises(FrameError, match=": a set has no order, and a list has one$"):
        home_range(FRAME, by={"a"})
    with pytest.raises(FrameError, match="^by: the function of the fixes has failed: KeyError: 'nothing': a title, or a period such as 'month', stands in quotes$"):
        home_range(FRAME, by=lambda fixes: fixes["nothing"])
    with pytest.raises(FrameError, match="^progress: the function has failed: ZeroDivisionError: "):
        home_range(FRAME, progress=lambda done, of: 1 // 0)
    points = pytest.importorskip("geopandas").GeoSeries.from_xy(FRAME["easting"], FRAME["northing"])
    for call in (home_range, read_fixes):
        with pytest.raises(FrameError, match=r": make it one, as by geopandas.GeoDataFrame\({'animal': .., 'time': ..}, geometry=x\)$"):
            call(points)
    with pytest.raises(FrameError, match="^row 0: by has a group of the class Point, which is no text: make it one, as by .astype"):
        home_range(FRAME, by=points)


def test_a_title_that_means_something_else_is_no_group_and_another_title_is():
    table = FRAME.assign(zone=["core", "buffer"] * 12)
    for frame in (table, read_fixes(FRAME).assign(zone=["core", "buffer"] * 12)):
        with pytest.raises(FrameError, match=r"; of groups give it another title, as by frame.rename\(columns={'zone': 'group'}\), by='group'$"):
            home_range(frame, by="zone")
    with pytest.raises(FrameError, match="rename or remove it$"):
        read_fixes(table)
    assert len(home_range(table.rename(columns={"zone": "group"}), by="group").animals) == 4


def test_a_level_in_place_of_a_name_and_other_arguments_of_answers(ranges):
    with pytest.raises(FrameError, match="^share=95 is neither True nor False: a level is named, as by level=95$"):
        ranges.overlap(95)
    groups = home_range(read_fixes(FRAME), by="month")
    for table, said in ((5, "^table=int is no table"), (FRAME[["easting"]], "^table=DataFrame is no table"), (FRAME, "^there is no animal 'a': there are 'a 2024-03'")):
        with pytest.raises(FrameError, match=said):
            groups.by_group(table)
    with pytest.raises(FrameError, match="^report=1 is no report: home_range and read_report make ranges$"):
        HomeRanges(1, None)


def test_zones_of_python_are_taken_by_their_names():
    utc, summer = datetime.timezone.utc, datetime.timezone(datetime.timedelta(hours=2))
    assert read_fixes(FRAME, tz=utc).reading.tz == "UTC"
    with pytest.raises(FrameError, match=r"^tz='UTC\+02:00' is no time zone such as 'Europe/Ljubljana': the offset \+2 is that of 'Etc/GMT-2'$"):
        read_fixes(FRAME, tz=summer)
    dateutil = pytest.importorskip("dateutil.tz")
    assert read_fixes(FRAME, tz=dateutil.tzutc()).reading.tz == "UTC"


@pytest.mark.parametrize("options, said", [
    ({"since": "x"}, "since: 'x' is no time in UTC, such as"), ({"until": ""}, "until: '' is no time in UTC, such as"),
    ({"zone": ""}, "zone='' is no zone as 33N"), ({"unit": ""}, "unit:  is neither m nor dm"), ({"tz": ""}, "tz='' is no time zone")])
def test_an_empty_option_is_refused_by_its_name(options, said):
    with pytest.raises(FrameError) as caught:
        read_fixes(FRAME, **options)
    assert str(caught.value).startswith(said)


@pytest.mark.parametrize("value", [b"2", bytearray(b"2"), memoryview(b"2"), numpy.bytes_(b"2")])
def test_bytes_are_neither_numbers_nor_texts(ranges, report, value):
    pytest.importorskip("matplotlib").use("Agg")
    for call in (lambda: home_range(FRAME, value), lambda: home_range(FRAME, [value]), lambda: ranges.polygons(value), lambda: home_range(FRAME, by=value),
                 lambda: plot_ranges(ranges, level=value), lambda: plot_curve(ranges, animals=value), lambda: home_range(FRAME, by=lambda _: value),
                 lambda: read_fixes(FRAME, na=value), lambda: home_range(FRAME, jobs=value), lambda: read_report(report, files=value)):
        with pytest.raises(HomeRangeError):
            call()
    with pytest.raises(HomeRangeError, match="^by=bytearray.* is none of 'year'"):
        home_range(FRAME, by=bytearray(len(FRAME)))


@pytest.mark.parametrize("name, said", [
    ("percent", "here it is levels"), ("id", "here it is animal"), ("epsg", "here it is crs"), ("date", "here it is time"),
    ("timezone", "here it is tz"), ("group", "here it is by"), ("cores", "here it is jobs"), ("unout", "areas are in hectares"),
    ("unin", "coordinates are in metres, and in no other unit"),
    ("xy", "easting and northing name columns of metres, and lon and lat those of degrees"),
    ("sep", "read a file of another form by pandas before, as by pandas.read_csv, and give the data frame"),
    ("quiet", "warnings.simplefilter('ignore', homerange.HomeRangeInfo) has what was taken not shown")])
def test_what_others_call_an_option_is_refused_with_the_name_that_it_has_here(name, said):
    for table in (FRAME, read_fixes(FRAME)):
        with pytest.raises(FrameError) as caught:
            home_range(table, **{name: 95})
        assert str(caught.value) == f"there is no option {name}: {said}"


def test_names_of_others_lead_to_arguments_that_there_are():
    assert {*OURS} <= {*FORMS, *FLAGS, *signature(home_range).parameters}
    assert not {*ELSEWHERE} & {*FORMS, *FLAGS}
    with pytest.raises(FrameError, match="^there is no option levels: give it to home_range$"):
        read_fixes(FRAME, levels=95)
    with pytest.raises(FrameError, match="^there is no option nonsense$"):
        home_range(read_fixes(FRAME), nonsense=1)


def test_refusals_of_levels_name_the_argument(ranges):
    boundary = ranges.polygons().geometry.iloc[0]
    for call, said in (
            (lambda: share_inside(ranges, boundary, 0.95), "level=0.95 are not levels from 1 to 100: 0.95: levels are per cent, 95"),
            (lambda: home_range(FRAME, 95.5), "levels=95.5 are not levels from 1 to 100: 95.5 is not whole"),
            (lambda: home_range(FRAME, "50, 95"), "levels='50, 95' are not levels from 1 to 100: '50, 95' is a text, so write [50, 95] without quotes"),
            (lambda: share_inside(ranges, "reserve.gpkg"), "reserve is neither a GeoDataFrame with a geometry, a GeoSeries nor a shape of shapely: read "
             "its file, as by geopandas.read_file(reserve)"),
            (lambda: plot_ranges(ranges, animals="Fox"), "there is no animal 'Fox': there are 'a', 'b'"),
            (lambda: share_inside(ranges, boundary, [95, 95]), "level=[95, 95] has a level twice"),
            (lambda: share_inside(ranges, boundary, 90), "level 90 is none of these ranges (50, 95, 100)"),
            (lambda: ranges.polygons(0.95), "levels=0.95 are not levels from 1 to 100: 0.95: levels are per cent, 95"),
            (lambda: plot_ranges(ranges, level="95"), "level='95' are not levels from 1 to 100: '95' is a text, so write 95 without quotes"),
            (lambda: ranges.corners(0.95), "level 0.95 is none of these ranges (50, 95, 100): 0.95: levels are per cent, 95"),
            (lambda: ranges.hectares("a", "95"), "level '95' is none of these ranges (50, 95, 100): '95' is a text, so write 95 without quotes")):
        with pytest.raises(FrameError) as caught:
            call()
        assert str(caught.value) == said
    assert share_inside(ranges, boundary, [50, 95])["level"].tolist() == [50, 50, 95, 95]


def test_long_values_are_shown_in_part():
    with pytest.raises(HomeRangeError) as caught:
        home_range(FRAME, unit="x" * 5000)
    assert len(str(caught.value)) < 6000
    with pytest.raises(HomeRangeError) as caught:
        home_range(FRAME, levels="x" * 5000)
    assert str(caught.value).startswith("levels='xxx") and str(caught.value).endswith("xx' are not levels from 1 to 100")
    assert len(str(caught.value)) == 504


def test_half_a_sign_is_no_path(ranges, report, tmp_path, monkeypatch):
    monkeypatch.chdir(tmp_path)
    for call in (read_fixes, home_range, read_report, ranges.evidence, lambda path: write_page(ranges, path), lambda path: write_layers(ranges, path),
                 lambda path: read_report(report, record=path), lambda path: read_report(report, files=[path])):
        with pytest.raises(HomeRangeError, match=r"='x.ud83d.gpkg' is no path$"):
            call("x\ud83d.gpkg")


@pytest.mark.parametrize("call, name, own", [
    (plot_ranges, "levels", "level"), (plot_ranges, "color", "colours"), (plot_ranges, "boundary", "over"), (plot_ranges, "label", "over_name"),
    (plot_ranges, "axes", "ax"), (plot_curve, "individuals", "animals"), (plot_curve, "panels", "facets"), (HomeRanges.overlap, "levels", "level"),
    (HomeRanges.corners, "percent", "level"), (HomeRanges.polygons, "level", "levels"), (HomeRanges.hectares, "id", "animal"), (write_page, "author", "by"),
    (write_page, "boundary", "reserve"), (write_page, "file", "path"), (write_layers, "force", "overwrite"), (read_report, "epsg", "crs"),
    (share_inside, "over", "reserve"), (HomeRanges.evidence, "boundary", "reserve")])
def test_arguments_of_other_tools_are_named_as_they_are_here(ranges, tmp_path, call, name, own):
    with pytest.raises(FrameError, match=f"^there is no argument {name}: here it is {own}$"):
        call(ranges, **({"folder": tmp_path / "x"} if call is HomeRanges.evidence else {}), **{name: 1})
    assert call is HomeRanges.evidence or own in signature(call).parameters


def test_other_arguments_are_refused_by_their_names(ranges):
    for call in (plot_ranges, plot_curve, write_page, write_layers, share_inside, HomeRanges.overlap):
        with pytest.raises(FrameError, match="^there is no argument nothing$"):
            call(ranges, nothing=1)
    with pytest.raises(FrameError, match="^there is no argument title: the axes that are answered have it, as by .set_title\\(..\\)$"):
        plot_ranges(ranges, title="x")


def test_missing_arguments_and_such_that_are_too_many_are_refused(ranges, tmp_path):
    lost = {"x": (home_range, read_fixes), "ranges": (plot_ranges, plot_curve, write_page, write_layers, share_inside), "path": (read_report,)}
    for name, calls in lost.items():
        for call in calls:
            with pytest.raises(FrameError, match=f"^{name} is missing: .* wanted"):
                call()
    for name, calls in {"path": (write_page, write_layers), "reserve": (share_inside,), "folder": (HomeRanges.evidence,), "animal": (HomeRanges.hectares,)}.items():
        for call in calls:
            with pytest.raises(FrameError, match=f"^{name} is missing: .* wanted$"):
                call(ranges)
    for call in (HomeRanges.summary, HomeRanges.curve, HomeRanges.growth, HomeRanges.left_out, HomeRanges.overview):
        with pytest.raises(FrameError, match="^there is an argument too many$"):
            call(ranges, 1)
    with pytest.raises(FrameError, match="^there is an argument too many: path is there twice$"):
        write_page(ranges, tmp_path / "a.html", path="b")


def test_warnings_are_of_the_line_that_called_the_package(ranges):
    geopandas = pytest.importorskip("geopandas")
    reserve = geopandas.GeoSeries([geopandas.GeoSeries.from_xy([0], [0]).buffer(1)[0]], crs=32633)
    for call in (lambda: home_range(FRAME), lambda: share_inside(ranges, reserve), lambda: plot_ranges(ranges, over=reserve)):
        with warnings.catch_warnings(record=True) as heard:
            warnings.simplefilter("always")
            call()
        assert heard and {own.filename for own in heard} == {__file__}


def test_x_and_y_of_other_tools_are_no_columns():
    table = pandas.DataFrame({"id": "A", "lon": [15.8, 15.9], "lat": [46.3, 46.4]})
    said = "x is the table: name columns of degrees by lon='lon', lat='lat', and those of metres by easting and northing"
    for read in (home_range, read_fixes):
        with pytest.raises(FrameError, match=f"^{said}$"):
            read(table, x="lon", y="lat")
        with pytest.raises(FrameError, match="^there is an argument too many: x is there twice$"):
            read(table, x=table)
