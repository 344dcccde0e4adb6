"""Reports that were made elsewhere: what is read, and what is refused."""
import functools
import re
import subprocess
import warnings
from pathlib import Path

import numpy
import pandas
import pytest
from exact import area2, cloud, hull, nearest
from frames import frame_of

import homerange
from homerange import FileError, FrameError, HomeRangeNote, ReportError, read_report
from homerange.program import find_program
from homerange.ranges.outer import kept_of, outer_fixes, polygon_kept
from homerange.report import kept_places, read
from homerange.ranges.rows import rows_in
from homerange.read.call import split_table

TRACKS = {"vixen": cloud(7, 40), "old boar": cloud(8, 11)}


@pytest.fixture
def files(tmp_path):
    """The tracks as files, with one record of the first that is not used."""
    for number, (name, points) in enumerate(TRACKS.items()):
        lines = [f"{name},{1800 * at},{east},{north},1" for at, (east, north) in enumerate(points)]
        lines[1:1] = [f"{name},0,9,9,0"] if number == 0 else []
        text = "\r\n".join(["animal,second,easting,northing,use", *lines, ""])
        (tmp_path / f"{number}.csv").write_text("\ufeff" + text, encoding="utf-8", newline="")
    return [tmp_path / "0.csv", tmp_path / "1.csv"]


def report_of(files, *options):
    path = Path(files[0]).with_name("report.txt")
    with open(path, "wb") as file:
        subprocess.run([find_program(None), *options, *files], stdout=file, check=True)
    return path


def test_a_report_is_read(files):
    found = read_report(report_of(files), crs="EPSG:32633")
    assert (found.animals, found.levels, found.unit) == ([*TRACKS], [50, 95, 100], "m")
    assert found.corners() == {name: hull(points) for name, points in TRACKS.items()}
    assert found.summary()["left_out"].isna().all()
    assert found.fixes("vixen") is None
    assert found.summary()["first"][0] == 0


def test_a_report_with_its_files(files):
    pytest.importorskip("geopandas")
    found = read_report(report_of(files, "--percent", "30,95"), files=files[::-1], crs="EPSG:32633")
    assert found.corners(30) == {name: hull(nearest(points, 30)) for name, points in TRACKS.items()}
    assert found.fixes("old boar").tolist() == [[*point] for point in TRACKS["old boar"]]
    assert found.summary()["left_out"].tolist() == [1, 1, 0, 0]
    assert found.polygons(30).crs == "EPSG:32633"


@pytest.mark.parametrize("zone", ["localtime", "posixrules", "Factory", "right/UTC", "posix/Europe/Paris", "Mars"])
def test_zones_that_each_machine_has_otherwise_are_none(files, zone):
    with pytest.raises(homerange.FrameError, match=f"tz='{zone}' is no time zone"):
        read_report(report_of(files), tz=zone)


def test_a_file_without_a_used_fix_is_passed_over(files):
    report, marked = report_of(files), files[0].with_name("marked.csv")
    marked.write_text("animal,second,easting,northing,use\nhare,0,1,1,0\n")
    assert read_report(report, files=[*files, marked]).animals == [*TRACKS]


def test_a_report_in_decimetres(files):
    found = read_report(report_of(files, "--unit", "dm"))
    assert found.unit == "dm"
    assert found.corners() == {name: [(e / 10, n / 10) for e, n in hull(points)] for name, points in TRACKS.items()}


def test_polygons_below_100_want_fixes(files):
    with pytest.raises(FrameError, match=r"need the fixes: read_report\(path, files=..\)"):
        read_report(report_of(files)).polygons(95)


def test_files_of_other_fixes_are_refused(files):
    report = report_of(files)
    with pytest.raises(ReportError, match="no file has the animal old boar of the report"):
        read_report(report, files=files[:1])
    lines = files[1].read_text("utf-8").splitlines()
    files[1].write_text("\n".join(lines[:-1]) + "\n")
    with pytest.raises(ReportError, match="the file of old boar has other fixes than the report"):
        read_report(report, files=files)
    files[1].write_text("animal,second,easting,northing\nold boar,5,6\n")
    with pytest.raises(FrameError, match="1.csv has a fix whose second, easting or northing is no number"):
        read_report(report, files=files)
    files[1].write_text("animal,second\na,5\n")
    with pytest.raises(FrameError, match="1.csv has no fix with animal, second, easting and northing"):
        read_report(report, files=files)


def test_fixes_in_other_places_are_refused(files):
    report = report_of(files)
    text, points = files[1].read_text("utf-8"), TRACKS["old boar"]
    files[1].write_text(text.replace(f",{points[3][0]},", ",1,"))
    with pytest.raises(ReportError, match="the polygon of the file of old boar is not that of the report"):
        read_report(report, files=files)
    inner = next(point for point in nearest(points, 95) if point not in hull(points))
    middle = "{},{}".format(*(sum(end[axis] for end in hull(points)) // len(hull(points)) for axis in (0, 1)))
    files[1].write_text(text.replace("{},{}".format(*inner), middle))
    with pytest.raises(ReportError, match="50 per cent polygon of old boar is not that of the report"):
        read_report(report, files=files).corners(50)


@pytest.mark.parametrize("points", [
    cloud(1, 400), cloud(2, 400, spread=9), [(7, 5)], [(7, 5), (9, 5)], [(at, 3 * at) for at in range(50)],
    [(5, at) for at in range(50)], [(at, at * at) for at in range(99)], [(4 ** 20 * at, 9 ** 20 - at * at) for at in range(99)]])
def test_few_fixes_have_the_polygon_of_all(points):
    track, corners = numpy.array(points, dtype=object if max(map(max, points)) > 2 ** 62 else "int64"), hull(points)
    assert hull(outer_fixes(track, corners)) == corners
    for place in range(len(corners)):
        east, north = corners[place]
        for other in ([], [(east + 1, north)], [(east, north - 1)], [(2 * east + 3, north)]):
            wrong = [*corners[:place], *other, *corners[place + 1:]]
            assert not wrong or hull(outer_fixes(track, wrong)) != wrong


@pytest.mark.parametrize("level", [1, 50, 95, 100])
@pytest.mark.parametrize("points", [
    cloud(3, 500), cloud(4, 500, spread=4), [(0, 0), (2, 0), (0, 2), (2, 2)] * 9, [(7, 5)],
    [(2 ** 27 - at % 2, 2 ** 27 * (at % 3 // 2)) for at in range(99)]])
def test_fixes_that_a_level_keeps(points, level):
    track = numpy.array([(at, *point) for at, point in enumerate(points)])
    places = kept_places(*zip(*points), level)
    assert kept_of(track, level)[:, 0].tolist() == places
    assert sorted(points[at] for at in places) == sorted(nearest(points, level))
    assert polygon_kept(track, level) == hull(nearest(points, level))


def changed(text, kind, change):
    """The text with the first line of a kind changed; a change to None takes the line out."""
    lines = text.splitlines(keepends=True)
    at = next(number for number, line in enumerate(lines) if line.startswith(kind))
    lines[at:at + 1] = change(lines[at])
    return "".join(lines)


@pytest.mark.parametrize("kind, change, said", [
    ("end", lambda line: [], "is cut off"),
    ("end", lambda line: ["end,2"], "is cut off"),
    ("end", lambda line: [line, line], "line [0-9]*: a line behind the end"),
    ("end", lambda line: ["row,vixen,1,1,1,1\n", line], "'row,vixen,1,1,1,1', but 'end,'"),
    ("end", lambda line: ["end,3\n"], "the report is not of 2 animals"),
    ("animal,vixen", lambda line: [], "line 1: 'box,vixen,.*, but 'animal,vixen,fixes,'"),
    ("animal,vixen", lambda line: ["animal,vixen,fixes,41\n"], "but 'row,vixen,41,'"),
    ("animal,old boar", lambda line: ["animal,vixen,fixes,11\n"], "but 'box,vixen,'"),
    ("box", lambda line: [], "but 'box,vixen,'"),
    ("box", lambda line: [line.replace("box,vixen,", "box,vixen,1")], "the corners are not of the box"),
    ("row,vixen,3,", lambda line: [], "line 5: 'row,vixen,4,"),
    ("row,vixen,3,", lambda line: [line, line], "line 6: 'row,vixen,3,"),
    ("row,old boar,3,", lambda line: [line.replace("old boar", "vixen")], "'row,vixen,3,.*, but 'row,old boar,3,'"),
    ("row,vixen,3,", lambda line: ["row,vixen,3,-5,1,0\n"], "'row,vixen,3,-5,1,0', but"),
    ("row,vixen,40,", lambda line: [line[:-1] + "0\n"], "the corners are not of the area"),
    ("corner,vixen,2,", lambda line: [], "'corner,vixen,3,.*, but 'corner,vixen,2,'"),
    ("percent,vixen,50,", lambda line: ["percent,vixen,50,21,3,9\n"], "vixen: 21 fixes are not 50 percent"),
    ("percent,vixen,100,", lambda line: [line[:-1] + "0\n"], "vixen: no polygon of fixes that are kept"),
    ("percent,vixen,50,", lambda line: [], "'percent,old boar,50,.*, but 'percent,old boar,95,'"),
    ("overlap,vixen", lambda line: [], "'overlap,old boar,vixen,.*, but 'overlap,vixen,old boar,'"),
    ("overlap,vixen", lambda line: ["overlap,vixen,old boar,41,40\n"], "41 of 40 fixes, but vixen has 40"),
    ("overlap,vixen", lambda line: ["overlap,vixen,old boar,5,39\n"], "5 of 39 fixes, but vixen has 40"),
])
def test_a_report_that_is_not_whole_is_refused(files, kind, change, said):
    path = report_of(files)
    path.write_text(changed(path.read_text(), kind, change))
    with pytest.raises(ReportError, match=said):
        read_report(path)


@pytest.fixture(scope="module")
def long_report(tmp_path_factory):
    """The lines of a report of many rows, with a walk that comes back."""
    path, points = tmp_path_factory.mktemp("long") / "walk.csv", cloud(9, 2600, spread=40)
    lines = [f"walk,{60 * at},{east},{north}" for at, (east, north) in enumerate(points)]
    path.write_text("\n".join(["animal,second,easting,northing", *lines, ""]))
    return path, points, report_of([path]).read_text().splitlines(keepends=True)


@pytest.fixture(autouse=True)
def rows_in_pieces(monkeypatch):
    monkeypatch.setattr("homerange.report.PIECE", 1000)


def test_many_rows_are_read(long_report):
    path, points, lines = long_report
    assert read(path.with_name("report.txt")) == read(path.with_name("report.txt"), rows_in)
    found = read_report(path.with_name("report.txt"), files=[path])
    rows = found.report.tables["walk"].rows
    assert rows.seconds.tolist() == [60 * at for at in range(2600)]
    for count in (1, 999, 1000, 1001, 2000, 2600):
        corners = hull(points[:count])
        assert (rows.corners[count - 1], rows.areas[count - 1]) == (len(corners), area2(corners))
    # Points of a small grid, many of which lie as far from the mean.
    assert {level: found.corners(level)["walk"] for level in found.levels} == {
        level: hull(nearest(points, level)) for level in found.levels}


@pytest.mark.parametrize("n", [1, 2, 1000, 1001, 1002, 1700, 2600])
@pytest.mark.parametrize("change, said", [
    (r"row,walk,\1,\2,\3,0\4", "but 'row,walk,{n},' and numbers (3) are wanted"),
    (r"row,walk,\1,\2,\3, \4", "but 'row,walk,{n},' and numbers (3) are wanted"),
    (r"row,walk,0\1,\2,\3,\4", "but 'row,walk,{n},' and numbers (3) are wanted"),
    (r"row,walks,\1,\2,\3,\4", "but 'row,walk,{n},' and numbers (3) are wanted"),
    (r"row,walk,9\1,\2,\3,\4", "but 'row,walk,{n},' and numbers (3) are wanted"),
    (r"row,walk,\1,\2,\3,\4\nrow,walk,\1,\2,\3,\4", None),
    ("", None)])
def test_a_fault_among_many_rows_is_found(long_report, n, change, said):
    path, _, lines = long_report
    changed = path.with_name("changed.txt")
    changed.write_text("".join(
        re.sub("^row,walk,([0-9]+),([0-9]+),([0-9]+),([0-9]+)", change, line) if at == n + 1 else line
        for at, line in enumerate(lines)))
    at = n + 2 + (said is None and change != "")
    for reader in (None, rows_in):
        with pytest.raises(ReportError) as fault:
            read(changed, reader)
        assert f": line {at}: " in str(fault.value)
        assert said is None or said.format(n=n) in str(fault.value)


@pytest.mark.parametrize("n, field", [(3, 3), (1000, 3), (1001, 3), (1000, 5), (1001, 5), (2600, 5)])
def test_what_falls_among_many_rows_is_found(long_report, n, field):
    path, _, lines = long_report
    before, own = (line.rstrip("\n").split(",") for line in lines[n:n + 2])
    own[field] = str(int(before[field]) - 1)
    changed = path.with_name("changed.txt")
    changed.write_text("".join([*lines[:n + 1], ",".join(own) + "\n", *lines[n + 2:]]))
    for reader in (None, rows_in):
        with pytest.raises(ReportError, match=f": line {n + 2}: walk: seconds or areas fall"):
            read(changed, reader)


@pytest.mark.parametrize("text", ["", "\n", "end,0\n", "unit,dm\nend,0\n"])
def test_what_has_no_animals_is_no_report(tmp_path, text):
    path = tmp_path / "report.txt"
    path.write_text(text)
    with pytest.raises(ReportError):
        read_report(path)


def test_what_is_no_text_is_no_report(tmp_path):
    path = tmp_path / "report.txt"
    for text, said in (("Jäger", "is no report: it does not begin as one"), ("animal,Jäger,fixes,3", "is cut off")):
        path.write_bytes(text.encode("latin-1"))
        with pytest.raises(ReportError, match=said):
            read_report(path)


def test_a_report_whose_lines_end_in_two_signs_is_not_called_cut_off(files, tmp_path):
    path = tmp_path / "report.txt"
    path.write_bytes(Path(report_of(files)).read_bytes().replace(b"\n", b"\r\n"))
    with pytest.raises(ReportError, match="report.txt has lines that end in CR and LF, .*: take the file as the program wrote it$"):
        read_report(path)


def test_a_file_that_is_not_there_is_refused(files, tmp_path):
    report, none = report_of(files), tmp_path / "none"
    for call in (lambda: read_report(none), lambda: read_report(report, files=[none]), lambda: read_report(report, record=none)):
        with pytest.raises(FileError, match="^.*: there is no such file$"):
            call()


def test_the_examples_in_the_repository():
    """The fox's area is that of the hull of its file."""
    examples = Path(__file__).parents[2] / "examples"
    if not examples.is_dir():
        pytest.skip("no examples")
    frame = pandas.read_csv(examples / "fox.csv")
    points = [*zip(frame["easting"].tolist(), frame["northing"].tolist())]
    found = homerange.home_range(frame)
    assert found.corners(95) == {"fox": hull(nearest(points, 95))}


@pytest.fixture
def folder(files, tmp_path):
    """A folder of evidence of both tracks, and a call that makes another one."""
    def make(name, **options):
        frame = frame_of(**{**TRACKS, **options.pop("tracks", {})})
        homerange.home_range(frame, zone="33N", **options).evidence(tmp_path / name)
        return tmp_path / name / "tracks" / "split.txt"

    return make


def test_a_record_that_is_none_of_a_report_or_its_files_is_refused(folder, tmp_path):
    own = folder("own")
    report, files = tmp_path / "own" / "report.txt", [*own.parent.glob("*.csv")]
    assert read_report(report, files=files, record=own, crs=32633).crs == 32633
    assert read_report(report, files=files, record=own).crs == "EPSG:32633"
    moved = {"old boar": [(east, north + 1) for east, north in TRACKS["old boar"]]}
    for record, said in ((folder("fewer", tracks={"vixen": TRACKS["vixen"][:-1]}), "the report has 40 fixes of vixen, and split.txt has 39: was a track"),
                         (folder("dm", unit="dm"), "the report is in m, and split.txt in dm: take the record of the tracks of this report$")):
        for paths in ((), files):
            with pytest.raises(FrameError, match=said):
                read_report(report, files=paths, record=record)
    with pytest.raises(FrameError, match="^no file is the track of old boar of which split.txt has the checksum: take the record of these files"):
        read_report(report, files=files, record=folder("moved", tracks=moved))


def test_what_the_record_says_otherwise_is_refused(folder, tmp_path):
    own = folder("own")
    read = functools.partial(read_report, tmp_path / "own" / "report.txt", record=own)
    for crs in (32632, "EPSG:32632", "EPSG:3035"):
        with pytest.raises(FrameError, match=rf"^crs={crs} is not EPSG:32633 \(WGS 84 / UTM zone 33N\), which the coordinates are of, by split.txt: leave"):
            read(crs=crs)
    with pytest.raises(FrameError, match=r"^shift=\(1000000, 0\) is not \(0, 0\), by which split.txt has coordinates shifted: leave shift out$"):
        read(shift=(1_000_000, 0))
    own.write_text(own.read_text("utf-8").replace("\nzone,33N\n", "\nzone,none\nshift,-4000000,2000000\n"), "utf-8")
    assert read(shift=(-4_000_000, 2_000_000)).shift == read().shift == (-4_000_000, 2_000_000) and read(crs=3035).crs == 3035


def test_a_report_of_tracks_that_were_shifted_lies_where_its_system_is(splitter, tmp_path, monkeypatch):
    """Prague by Krovak's grid, of which both axes are below 0: the program adds 1000 km to the east, and 2000 km to the north."""
    pytest.importorskip("pyproj")
    places = [(-744_000, -1_044_000), (-743_500, -1_044_000), (-743_500, -1_043_500), (-744_000, -1_043_500)]
    rows = "".join(f"fox,{60 * at},{east},{north}\n" for at, (east, north) in enumerate(places))
    (tmp_path / "own.csv").write_text(f"animal,second,x,y\n{rows}", "utf-8")
    monkeypatch.chdir(tmp_path)
    split_table("own.csv", "tracks", [], splitter)
    report = report_of([tmp_path / "tracks" / "fox.csv"])
    read = functools.partial(read_report, report, crs=5514)
    for more in ({"shift": (1_000_000, 2_000_000)}, {"record": "tracks/split.txt"}):
        assert read(**more).box == (-744_000, -1_044_000, -743_500, -1_043_500)
    where = "the ranges lie near [0-9.]+ E [0-9.]+ N, and S-JTSK / Krovak East North is of 12.1 E to 22.6 E, 47.7 N to 51.1 N"
    helps = "were they shifted[?] name what was added, as the line shift of split.txt has it, as by shift=\\(1000000, 0\\), or that file, as by record="
    with pytest.raises(FrameError, match=f"^crs: {where}: {helps}'tracks/split.txt'$"):
        read()
    with pytest.raises(FrameError, match=f"^crs: {where}: {helps}'{re.escape(str(tmp_path))}/tracks/split.txt'$"):
        read(files=[tmp_path / "tracks" / "fox.csv"])
    with pytest.raises(FrameError, match="^shift=\\(-1000000, -2000000\\) puts the ranges near .*: a shift is what was added, so write shift=\\(1000000, 2000000\\)$"):
        read(shift=(-1_000_000, -2_000_000))
    with pytest.raises(FrameError, match="^shift=\\(-1000000, -2000000\\) is not \\(1000000, 2000000\\), by which split.txt has coordinates shifted"):
        read(shift=(-1_000_000, -2_000_000), record="tracks/split.txt")
    beside = tmp_path / "tracks" / "split.txt"
    said = (f"coordinates are shifted by 1000000 m east and 2000000 m north, as {beside} has it, and lie so here: name it, as by "
            f"record={str(beside)!r}")
    elsewhere = tmp_path / "elsewhere.txt"
    elsewhere.write_bytes(report.read_bytes())
    with pytest.warns(HomeRangeNote, match=f"^{re.escape(said)}$"):
        assert read(crs=None).box[0] == 256_000
    with pytest.warns(HomeRangeNote, match=f"^{re.escape(said)}$"):
        assert read_report(elsewhere, files=[tmp_path / "tracks" / "fox.csv"]).box[0] == 256_000
    assert read_report(elsewhere).box[0] == 256_000
    with warnings.catch_warnings():
        warnings.simplefilter("error")
        read(crs=None, files=[tmp_path / "tracks" / "fox.csv"], record=beside)
        read(crs=None, files=[tmp_path / "tracks" / "fox.csv"], shift=(1_000_000, 2_000_000))
        beside.write_text(beside.read_text("utf-8").replace("shift,1000000,2000000\n", ""), "utf-8")
        read(crs=None, files=[tmp_path / "tracks" / "fox.csv"])
        beside.write_text("none", "utf-8")
        read(crs=None, files=[tmp_path / "tracks" / "fox.csv"])


def test_what_is_no_system_of_a_report(files):
    report = report_of(files)
    for crs in (4326, 2263, 3857):
        with pytest.raises(FrameError, match="^crs: (the CRS|areas in the CRS) .*: name that of the coordinates of the report, which are eastings and northings in metres$"):
            read_report(report, crs=crs)
    for none in (None, b"x", 5):
        with pytest.raises(FrameError, match=r" are not several paths, such as \['fox.csv'\]: leave files out where there are none$"):
            read_report(report, files=none)


def test_a_folder_and_an_empty_path_are_no_file(files, tmp_path):
    report = report_of(files)
    for call in (lambda path: read_report(path), lambda path: read_report(report, files=[path]), lambda path: read_report(report, record=path)):
        with pytest.raises(FileError, match=f"^{tmp_path} is a folder, and a file is wanted$"):
            call(tmp_path)
        with pytest.raises(FileError, match="^/dev/null is a pipe or a device, and a file is wanted$"):
            call("/dev/null")
        with pytest.raises(FileError, match="^none: there is no such file$"):
            call("none")
        with pytest.raises(FrameError, match="='' is no path: it is empty$"):
            call("")
    for call in (homerange.home_range, homerange.read_fixes, read_report(report).evidence):
        with pytest.raises(FrameError, match="='' is no path: it is empty$"):
            call("")


@pytest.mark.parametrize("coding", ["utf-16", "utf-16-le", "utf-16-be"])
def test_a_report_in_utf16_is_said_to_be_none_in_utf8(tmp_path, coding):
    path = tmp_path / "report.txt"
    path.write_bytes("animal,fox,fixes,1\nend,1\n".encode(coding))
    with pytest.raises(homerange.ReportError, match="report.txt is no text in UTF-8: it has a byte 0, as files in UTF-16 have: write it in UTF-8$"):
        homerange.read_report(path)
