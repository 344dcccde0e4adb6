"""The folder of evidence of ranges: its files, what the verifier of the repository says of them, and what is refused."""
import hashlib
import os
import shutil
import subprocess
import sys
from pathlib import Path

import pandas
import pytest
from exact import cloud
from frames import frame_of, with_splitter

from homerange import FileError, FrameError, HomeRangeInfo, HomeRangeNote, ProgramError, ReportError, home_range, read_fixes, read_report
from homerange.write import evidence
from homerange.program import find_program, program_of

TOOLS = Path(__file__).parents[2] / "tools"
POINTS = {"vixen": cloud(1, 40), "a/b": cloud(2, 31), "Žiga Ä": cloud(3, 12)}


def verify(folder, *words):
    """The status of the verifier, and what it says."""
    call = [sys.executable, TOOLS / "verify.py", folder, *words, "--program", find_program(None)]
    found = subprocess.run(call, capture_output=True, text=True, encoding="utf-8")
    return found.returncode, found.stdout


def about_of(folder):
    return dict(line.split(": ", 1) for line in (folder / "evidence.txt").read_text("utf-8").splitlines())


@pytest.fixture
def ranges():
    frame = frame_of(**POINTS)
    frame["visible"] = [at != 3 for at in range(len(frame))]
    with pytest.warns(HomeRangeNote, match="1 outliers: left out"):
        return home_range(read_fixes(frame, crs="EPSG:32633", tz="Europe/Ljubljana"), [95, 100])


def lines_of(folder):
    """The record of the tracks, and what made them."""
    lines = (folder / "tracks" / "split.txt").read_text("utf-8").splitlines()
    return [line for line in lines if not line.startswith("tool,")], [line for line in lines if line.startswith("tool,")]


def test_some_tracks_of_a_split_are_no_evidence(ranges, tmp_path):
    ranges.evidence(tmp_path / "whole")
    tracks = tmp_path / "whole" / "tracks"
    said = f"^{tracks}/(a_b|Žiga Ä).csv is of the same split, and was not named: take all tracks of the folder {tracks}$"
    wish = evidence.Wish("95,100", None, program_of(find_program(None)))
    with pytest.raises(FrameError, match=said):
        evidence.write_evidence(tmp_path / "made", [tracks / "vixen.csv"], wish)
    (tracks / "a_b.csv").unlink()
    with pytest.raises(FrameError, match="^a_b.csv is not among the tracks, by split.txt beside them: split the export again$"):
        evidence.write_evidence(tmp_path / "made", [tracks], wish)
    for path in ("none", "none.csv"):
        with pytest.raises(FileError, match=f"^{tmp_path / path}: there is no such file$"):
            evidence.write_evidence(tmp_path / "made", [tmp_path / path], wish)
    assert not (tmp_path / "made").exists()


def test_a_folder_that_is_not_in_utf8(ranges, tmp_path):
    pytest.importorskip("geopandas")
    odd = Path(os.fsdecode(os.fsencode(tmp_path) + b"/M\xfcller"))
    odd.mkdir()
    for folder in (tmp_path, odd):
        ranges.evidence(folder / "made")
    own, plain = ({path.relative_to(folder): path.read_bytes() for path in (folder / "made").rglob("*") if path.is_file()} for folder in (odd, tmp_path))
    assert {*own} == {*plain} and own[Path("made/ranges.gpkg")] == plain[Path("made/ranges.gpkg")]


def test_the_folder_to_make_is_named_as_it_was(tmp_path):
    for into, said in ((tmp_path / "none" / "made", f"{tmp_path}/none: there is no such folder"), (Path("/proc/made"), "/proc/made: [A-Z][a-z ]+")):
        with pytest.raises(FileError, match=f"^{said}$"):
            evidence.new_folder(into, Path.iterdir)


def test_evidence_of_a_frame(ranges, tmp_path):
    pytest.importorskip("geopandas")
    folder = tmp_path / "hand-in"
    with pytest.warns(HomeRangeInfo, match="animal 'a/b' is named a_b"):
        ranges.evidence(folder, title="Three animals", by="Maja")
    names = sorted(path.relative_to(folder).as_posix() for path in folder.rglob("*") if path.is_file())
    assert {*names} - {"build.log"} == {
        "SHA256SUMS", "animals.csv", "evidence.txt", "overlaps.csv", "ranges.gpkg", "report.html", "report.txt", "summary.csv",
        "tracks/a_b.csv", "tracks/split.txt", "tracks/vixen.csv", "tracks/Žiga Ä.csv"}
    sums = (folder / "SHA256SUMS").read_text("utf-8").splitlines()
    assert [line[66:] for line in sums] == sorted({*names} - {"SHA256SUMS"}, key=os.fsencode)
    assert all(line[:64] == hashlib.sha256((folder / line[66:]).read_bytes()).hexdigest() for line in sums)
    assert (folder / "tracks/vixen.csv").read_text().splitlines()[:2] == [
        "animal,second,easting,northing", "vixen,{},{},{}".format(1709251200, *POINTS["vixen"][0])]
    about = about_of(folder)
    assert (about["unit"], about["levels"], about["export"]) == ("m", "95,100", "fixes.csv")
    assert about["arguments"] == "--percent 95,100 --unit m -- tracks/a_b.csv tracks/vixen.csv 'tracks/Žiga Ä.csv'"
    assert not {"crs", "zone", "shift", "notes"} & {*about}


def checksums_in(folder):
    return {path.stem: hashlib.sha256(path.read_bytes()).hexdigest() for path in (folder / "tracks").glob("*.csv")}


def kinds(lines, *wanted):
    """The lines of a record of these kinds."""
    return [line for line in lines if line.split(",")[0] in wanted]


def test_the_record_of_a_frame(ranges, tmp_path):
    ranges.evidence(tmp_path / "hand-in")
    lines, tools = lines_of(tmp_path / "hand-in")
    sums = checksums_in(tmp_path / "hand-in")
    assert kinds(lines, "export", "unit", "zone", "crs", "option", "left", "track") == [
        "export,fixes.csv", "unit,m", "zone,33N", "option,tz,Europe/Ljubljana", "option,zone,33N", "left,vixen,1,outlier",
        f"track,vixen,39,39,{sums['vixen']}", f"track,a_b,31,31,{sums['a_b']}", f"track,Žiga Ä,12,12,{sums['Žiga Ä']}"]
    assert "said,1 outliers: left out" in lines and "said,animal 'a/b' is named a_b" in lines
    assert len(tools) == 1 and tools[0].startswith("tool,homerange-split 1.")
    assert not (tmp_path / "hand-in" / "tracks" / "records.txt").exists()


def by_program(folder, frame, splitter, *words):
    """What the program makes of the text of a frame that pandas writes."""
    frame.to_csv(folder / "fixes.csv", index=False, date_format="%Y-%m-%dT%H:%M:%SZ")
    subprocess.run([splitter, "--into", folder / "made", *words, folder / "fixes.csv"], check=True, capture_output=True)
    return {path.name: path.read_bytes() for path in (folder / "made").glob("*.csv")}


def test_tracks_of_fixes_as_they_were_read_are_those_of_the_program(tmp_path, splitter):
    frame = frame_of(**POINTS)
    home_range(read_fixes(frame, zone="33N")).evidence(tmp_path / "hand-in")
    tracks = {path.name: path.read_bytes() for path in (tmp_path / "hand-in" / "tracks").glob("*.csv")}
    assert tracks == by_program(tmp_path, frame, splitter, "--zone", "33N")


CHOSEN = ("^the fixes are not as they were read: {} taken away since, and what was left out before is neither in the folder nor on its "
          "page$")


def test_evidence_of_fixes_that_were_chosen_and_bound(tmp_path, splitter):
    frame = frame_of(**POINTS).assign(sex="f")
    with pytest.warns(HomeRangeNote):
        other = read_fixes(frame_of(urchin=[(-1_500_000 + east, north) for east, north in cloud(4, 20)]))
    fixes = read_fixes(frame)
    chosen = fixes[fixes["easting"] > 562_000]
    gone = CHOSEN.format(f"{len(fixes) - len(chosen)} of them were")
    for number, own in enumerate((chosen, pandas.concat([chosen, other]), chosen.sort_values("time"))):
        folder = tmp_path / f"hand-in{number}"
        found = home_range(own, [50, 100])
        with pytest.warns(HomeRangeNote, match=gone):
            found.evidence(folder)
        lines, _ = lines_of(folder)
        assert lines[0] == "export,fixes.csv" and not kinds(lines, "left")
        status, said = verify(folder)
        assert status == 3 and "did not hold" not in said, said
        areas = pandas.read_csv(folder / "summary.csv").set_index(["animal", "level"])["hectares"]
        assert {name: areas[name, 100] for name in ("vixen", "a_b")} == {
            name: found.hectares(name.replace("_", "/")) for name in ("vixen", "a_b")}
    laea = home_range(read_fixes(frame.assign(easting=frame["easting"] + 3_759_000, northing=frame["northing"] - 1_924_000), crs=3035).iloc[1:])
    with pytest.warns(HomeRangeNote, match=CHOSEN.format("1 of them was")):
        laea.evidence(tmp_path / "laea")
    assert "option,crs,EPSG:3035 (ETRS89-extended / LAEA Europe)" in lines_of(tmp_path / "laea")[0]
    assert verify(tmp_path / "laea")[0] == 3
    # Moved as a whole fixes are shifted otherwise, and have the areas that they had.
    with pytest.warns(HomeRangeNote, match="^coordinates are shifted by 7000000 m east and 0 m north$"):
        moved = home_range(chosen.assign(easting=chosen["easting"] - 7_000_000))
    with pytest.warns(HomeRangeNote, match=gone):
        moved.evidence(tmp_path / "moved")
    assert "shift,7000000,0" in lines_of(tmp_path / "moved")[0]
    assert verify(tmp_path / "moved")[0] == 3


def test_evidence_of_a_file_is_held_with_it(tmp_path, splitter):
    export = TOOLS.parent / "examples" / "export.csv"
    with pytest.warns(HomeRangeNote):
        found = home_range(export, 100, zone="33N")
    found.evidence(tmp_path / "hand-in")
    assert about_of(tmp_path / "hand-in")["export"] == "export.csv"
    status, said = verify(tmp_path / "hand-in", export)
    assert status == 0, said


def test_names_that_windows_cannot_tell_apart_or_hold(tmp_path):
    frame = frame_of(Fox=cloud(1, 9), con=cloud(2, 9), FOX_2=cloud(3, 2), fox=cloud(4, 9))
    frame["visible"] = frame["animal"] != "FOX_2"
    with pytest.warns(HomeRangeNote):
        found = home_range(frame, 100)
    with pytest.warns(HomeRangeInfo) as warned:
        found.evidence(tmp_path / "hand-in")
    renamed = ["animal 'con' is named _con", "animal 'fox' is named fox_3"]
    assert [str(warning.message) for warning in warned if "is named" in str(warning.message)] == renamed
    lines, _ = lines_of(tmp_path / "hand-in")
    assert [line for line in lines if "is named" in line] == [f"said,{line}" for line in renamed]
    assert [line for line in lines if line.startswith("left,")] == ["left,FOX_2,2,outlier"]
    assert [line.split(",")[1] for line in lines if line.startswith("track,")] == ["Fox", "_con", "fox_3"]
    assert sorted(path.name for path in (tmp_path / "hand-in" / "tracks").iterdir()) == [
        "Fox.csv", "_con.csv", "fox_3.csv", "split.txt"]


def test_another_reference_system_than_that_of_a_zone(tmp_path):
    pytest.importorskip("geopandas")
    found = home_range(frame_of(a=[(4321000 + e - 562000, 3210000 + n - 5134000) for e, n in cloud(1, 40)]), crs=3035, unit="dm")
    found.evidence(tmp_path / "hand-in")
    lines, _ = lines_of(tmp_path / "hand-in")
    assert kinds(lines, "unit", "zone", "crs", "option") == [
        "unit,dm", "zone,none", "option,crs,EPSG:3035 (ETRS89-extended / LAEA Europe)"]
    status, said = verify(tmp_path / "hand-in")
    assert status == 3 and "did not hold" not in said, said
    assert "held: ranges.gpkg: made again it has the same layers" in said
    assert "not known: whether the reference system 'EPSG:3035 (ETRS89-extended / LAEA Europe)' is called so" in said
    again = read_report(tmp_path / "hand-in" / "report.txt", record=tmp_path / "hand-in" / "tracks" / "split.txt")
    assert again.crs == "EPSG:3035"


def test_more_animals_than_a_run_takes_without_a_clone(tmp_path, monkeypatch):
    monkeypatch.setattr(evidence, "CLONE", None)
    herd = {f"deer{number}": cloud(number, 5, 300) for number in range(70)}
    found = home_range(frame_of(**herd), [50, 95], unit="dm")
    found.evidence(tmp_path / "hand-in")
    report = (tmp_path / "hand-in" / "report.txt").read_text()
    assert report.startswith("unit,dm\nanimal,deer0,fixes,5\n") and report.endswith("\nend,70\n")
    assert report.count("unit,dm") == 1 and report.count("\noverlap,") == 70 * 69
    assert about_of(tmp_path / "hand-in")["runs"] == "6 of groups of 32 animals"
    status, said = verify(tmp_path / "hand-in")
    assert status == 3 and "held: run again the program makes the same report" in said, said


def test_the_log_of_a_program_that_was_built_here_goes_with_it(tmp_path, monkeypatch):
    built = with_splitter(Path(shutil.copy(find_program(None), tmp_path)))
    (tmp_path / "build.log").write_text("rt: homerange proved\n")
    monkeypatch.setenv("HOMERANGE", str(built))
    home_range(frame_of(a=cloud(1, 9)), 100).evidence(tmp_path / "hand-in")
    assert (tmp_path / "hand-in" / "build.log").read_text() == "rt: homerange proved\n"
    assert "  build.log\n" in (tmp_path / "hand-in" / "SHA256SUMS").read_text()


def test_the_verifier_holds_it_but_for_the_export(ranges, tmp_path):
    ranges.evidence(tmp_path / "hand-in")
    status, said = verify(tmp_path / "hand-in")
    assert status == 3, said
    assert said.endswith("verify.py: 8 held, 0 did not, 1 not looked at\n")
    assert "not looked at: whether the tracks are those of an export: name it behind the folder" in said
    for part in ("animals.csv", "ranges.gpkg", "report.html"):
        assert any(line.startswith("held:") and part in line for line in said.splitlines())
    assert verify(tmp_path / "hand-in", TOOLS.parent / "examples" / "export.csv")[0] == 1
    for name, old, new in (("report.txt", "animal,vixen", "animal,other"), ("tracks/split.txt", "zone,33N", "zone,34N")):
        path = tmp_path / "hand-in" / name
        text = path.read_text("utf-8")
        path.write_text(text.replace(old, new), "utf-8")
        assert verify(tmp_path / "hand-in")[0] == 1
        path.write_text(text, "utf-8")


def test_tables_have_the_names_and_the_order_of_the_report(ranges, tmp_path):
    ranges.evidence(tmp_path / "hand-in")
    found = pandas.read_csv(tmp_path / "hand-in" / "animals.csv")
    assert found["animal"].tolist() == ["a_b", "vixen", "Žiga Ä"]
    assert found[["records", "left_outlier", "used"]].values.tolist() == [[31, 0, 31], [40, 1, 39], [12, 0, 12]]
    assert found["first"][0] == "2024-03-01T00:00:00Z"
    summary = pandas.read_csv(tmp_path / "hand-in" / "summary.csv")
    assert summary["hectares"].tolist() == [
        ranges.hectares(name, level) for name in ("a/b", "vixen", "Žiga Ä") for level in (95, 100)]
    page = (tmp_path / "hand-in" / "report.html").read_text("utf-8")
    assert 'data-animal="a_b"' in page and "a/b" not in page.split("When the fixes")[0]


def test_seconds_without_a_date_stay_whole_numbers_in_tables(tmp_path):
    frame = frame_of(a=[(0, 0), (100, 0), (0, 100), (1, 1)]).assign(second=[5, 3605, 7205, 10805]).drop(columns="timestamp")
    home_range(frame, 100).evidence(tmp_path / "hand-in")
    rows = {name: (tmp_path / "hand-in" / f"{name}.csv").read_text().splitlines()[1] for name in ("summary", "animals")}
    assert rows["summary"].startswith("a,5,10805,4,100,")
    assert rows["animals"] == "a,4,4,5,10805,0.125,1.0,1.0,0.5,3,7205,0.0,0.0"


def test_a_name_is_no_formula_in_tables(tmp_path):
    names = ["=1+1", "+7", "-7", "@sum", "'quoted", "it's", "a=b"]
    cells = ["''quoted", "'+7", "'-7", "'=1+1", "'@sum", "a=b", "it's"]  # in the order of files
    home_range(frame_of(**{name: cloud(at, 9) for at, name in enumerate(names)}), 100).evidence(tmp_path / "hand-in")
    for name in ("summary", "animals", "overlaps"):
        titles, *rows = (tmp_path / "hand-in" / f"{name}.csv").read_text().splitlines()
        assert [row.split(",")[0] for row in rows] == cells
    assert titles.split(",") == ["fixes_of", *cells]
    assert "animal,=1+1,fixes,9" in (tmp_path / "hand-in" / "report.txt").read_text().splitlines()
    assert "track,=1+1,9,9" in (tmp_path / "hand-in" / "tracks" / "split.txt").read_text()
    status, said = verify(tmp_path / "hand-in")
    assert status == 3 and "did not hold" not in said, said


def test_evidence_of_a_grid_of_its_own(tmp_path):
    with pytest.warns(HomeRangeNote, match="shifted"):
        found = home_range(frame_of(a=[(-100, 5), (50, 60), (40, 90)]), 100, unit="dm")
    found.evidence(tmp_path / "hand-in")
    lines, _ = lines_of(tmp_path / "hand-in")
    assert kinds(lines, "unit", "zone", "shift", "crs", "option") == [
        "unit,dm", "zone,none", "shift,{},{}".format(*found.shift)] and found.shift != (0, 0)
    status, said = verify(tmp_path / "hand-in")
    assert status == 3 and "did not hold" not in said, said


def test_evidence_of_a_report_and_files_of_a_frame(ranges, tmp_path):
    ranges.evidence(tmp_path / "hand-in")
    tracks = tmp_path / "hand-in" / "tracks"
    found = read_report(tmp_path / "hand-in" / "report.txt", files=tracks.glob("*.csv"), record=tracks / "split.txt")
    assert (found.crs, found.left_out().values.tolist()) == ("EPSG:32633", [["vixen", "outlier", 1]])
    found.evidence(tmp_path / "again")
    assert lines_of(tmp_path / "again") == lines_of(tmp_path / "hand-in")
    status, said = verify(tmp_path / "again")
    assert status == 3 and "did not hold" not in said, said


def test_layers_without_an_area_are_said(tmp_path):
    pytest.importorskip("geopandas")
    with pytest.warns(HomeRangeNote) as warned:
        home_range(frame_of(a=cloud(1, 9), one=[(5, 6)]), 100).evidence(tmp_path / "hand-in")
    assert [str(warning.message) for warning in warned if "not in" in str(warning.message)] == [
        "not in ranges.gpkg, since they have no area at 100 %: one"]


@pytest.fixture
def split(tmp_path, splitter):
    """The folder of tracks of the example of an export, with the report of it."""
    export = TOOLS.parent / "examples" / "export.csv"
    subprocess.run([splitter, export], cwd=tmp_path, capture_output=True, check=True)
    files = sorted((tmp_path / "tracks").glob("*.csv"))
    report = subprocess.run([find_program(None), "--percent", "95,100", *files], capture_output=True, check=True).stdout
    (tmp_path / "report.txt").write_bytes(report)
    return export, files


def test_evidence_of_a_report_and_its_files(split, tmp_path):
    export, files = split
    found = read_report(tmp_path / "report.txt", files=files[::-1], record=tmp_path / "tracks" / "split.txt")
    found.evidence(tmp_path / "hand-in")
    assert (tmp_path / "hand-in" / "report.txt").read_bytes() == (tmp_path / "report.txt").read_bytes()
    assert about_of(tmp_path / "hand-in")["export"] == "export.csv"
    status, said = verify(tmp_path / "hand-in", export)
    assert status == 0, said


def test_a_record_from_elsewhere_goes_with_the_files(split, tmp_path):
    shutil.move(tmp_path / "tracks" / "split.txt", tmp_path / "record.txt")
    found = read_report(tmp_path / "report.txt", files=split[1], record=tmp_path / "record.txt")
    found.evidence(tmp_path / "hand-in")
    assert verify(tmp_path / "hand-in", split[0])[0] == 0


def refuses(call, fault, text, tmp_path):
    """Whether a call is refused, in one line, and leaves nothing."""
    with pytest.raises(fault, match=text) as refused:
        call(tmp_path / "none")
    assert "\n" not in str(refused.value)
    assert not (tmp_path / "none").exists() and not (tmp_path / "none.part").exists()


def test_what_is_refused_of_files(split, tmp_path):
    record = tmp_path / "tracks" / "split.txt"
    refuses(read_report(tmp_path / "report.txt").evidence, FrameError, "evidence needs the fixes", tmp_path)
    found = read_report(tmp_path / "report.txt", files=split[1])
    text = split[1][0].read_text()
    split[1][0].write_text(text.replace(",560", ",561").replace(",562", ",563"))
    refuses(found.evidence, FrameError, "was changed since it was split", tmp_path)
    record.unlink()
    refuses(found.evidence, ReportError, "reports other numbers of these tracks", tmp_path)


def test_what_is_refused_of_frames_and_programs(ranges, tmp_path):
    with pytest.raises(FrameError, match="would both be named a_b"):
        home_range(frame_of(**{"a/b": [(1, 2), (3, 4)], "a\\b": [(5, 6), (7, 8)]}))
    (tmp_path / "there").mkdir()
    with pytest.raises(FrameError, match="is there already"):
        ranges.evidence(tmp_path / "there")
    ranges.named = "/bin/true"
    refuses(ranges.evidence, ProgramError, "is not homerange", tmp_path)
    program = tmp_path / "program"
    program.write_text(f'#!/bin/sh\n[ "$1" = --version ] || echo "# more" >>{program}\nexec {find_program(None)} "$@"\n')
    program.chmod(0o755)
    ranges.named = program
    refuses(ranges.evidence, ProgramError, "changed while it ran", tmp_path)
    program.write_text(f'#!/bin/sh\n[ "$1" = --version ] || shift 2\nexec {find_program(None)} "$@"\n')
    refuses(ranges.evidence, ReportError, "has other levels than 95,100", tmp_path)
