"""The commands: each runs as a module too, and says what is wrong by the words of its own command line."""
import os
import subprocess
import sys
from pathlib import Path

import pandas
import pytest
from exact import cloud
from frames import frame_of

PYTHON = Path(__file__).parents[1]
OF_PACKAGE = ["corners", "evidence", "herd", "ranges", "split", "tables"]
NAMED = {**{f"homerange.commands.{name}": f"homerange-{name}" for name in OF_PACKAGE},
         **{f"homerange_verifier.{name}": f"homerange-{name}" for name in ("check", "verify")}}


def run(module, *words, **options):
    """What a module says that is run as a command."""
    own = {**os.environ, "PYTHONPATH": str(PYTHON)}
    return subprocess.run([sys.executable, "-m", module, *words], capture_output=True, text=True, env=own, **options)


@pytest.mark.parametrize("module", NAMED)
def test_each_runs_as_a_module(module):
    found = run(module, "--help")
    assert found.returncode == 0 and NAMED[module] in found.stdout + found.stderr
    assert run(module, "--nonsense").returncode == 2


@pytest.fixture(scope="module")
def room(tmp_path_factory):
    """A folder with an export, boundaries, and what is made of it with a zone."""
    geopandas, shapely = pytest.importorskip("geopandas"), pytest.importorskip("shapely.geometry")
    pytest.importorskip("matplotlib")
    room = tmp_path_factory.mktemp("room")
    points = {name: [(562_000 + east, 5_134_000 + north) for east, north in cloud(at, 15)] for at, name in enumerate("ab")}
    frame_of(**points).rename(columns={"timestamp": "time"}).to_csv(room / "table.csv", index=False)
    box, bow = shapely.box(561_000, 5_133_000, 563_000, 5_135_000), shapely.Polygon([(0, 0), (10, 10), (10, 0), (0, 10)])
    for name, shape, crs in (("with", box, 32633), ("without", box, None), ("bow", bow, 32633)):
        geopandas.GeoDataFrame({"a": [1]}, geometry=[shape], crs=crs).to_file(room / f"{name}.shp")
    assert run("homerange.commands.ranges", "table.csv", "made", "--zone", "33N", cwd=room).returncode == 0
    return room


@pytest.mark.parametrize("words, status, said", [
    (["--over", "with.shp"], 1, "--over {}/with.shp: it has a reference system, and none is known of the tracks: name their UTM zone by --zone"),
    (["--zone", "33N", "--over", "without.shp"], 1, "--over {}/without.shp: it has no reference system, and the tracks have one: write it with "
     "its own, as a Shapefile with its .prj"),
    (["--zone", "33N", "--over", "bow.shp"], 2, "--over {}/bow.shp: row 0: the boundary of the reserve crosses itself: mend it"),
    (["--over", "table.csv"], 1, "--over {}/table.csv: it has no shapes: take a file such as a GeoPackage or a Shapefile"),
    (["--percent", "95,50,95"], 2, "--percent 95,50,95 has a level twice"),
    (["--clock", "Mars"], 2, "--clock Mars is no time zone such as Europe/Ljubljana")])
def test_ranges_refuses_by_its_own_words(room, words, status, said):
    found = run("homerange.commands.ranges", "table.csv", "none", *words, cwd=room)
    assert (found.returncode, found.stderr.splitlines()[-1]) == (status, f"homerange-ranges: {said.format(room)}")
    assert not (room / "none").exists()


def test_ranges_wants_a_file_and_a_folder(room):
    table = (room / "table.csv").read_text()
    found = run("homerange.commands.ranges", "/dev/stdin", "none", "--zone", "33N", cwd=room, input=table)
    assert (found.returncode, found.stderr) == (
        1, "homerange-ranges: /dev/stdin is a pipe, or a file without a name: write what it gives into a file\n")
    found = run("homerange.commands.ranges", "table.csv", "no/where", cwd=room)
    assert (found.returncode, found.stderr) == (1, f"homerange-ranges: {room}/no: there is no such folder\n")


@pytest.mark.parametrize("words, said", [
    (["none"], "none: there is no such folder"), (["."], "tracks: No such file or directory"),
    (["made", "--zone", "34N"], "--zone 34N is not that of the tracks, which are of EPSG:32633 (WGS 84 / UTM zone 33N), by split.txt: leave --zone out"),
    (["made", "--tz", "Mars"], "--tz Mars is no time zone such as Europe/Ljubljana"),
    (["made", "--over", "table.csv"], "--over table.csv: it has no shapes: take a file such as a GeoPackage or a Shapefile")])
def test_tables_refuses_by_its_own_words(room, words, said):
    found = run("homerange.commands.tables", *words, cwd=room)
    assert (found.returncode, found.stderr.splitlines()[-1]) == (1, f"homerange-tables: {said}")


def test_a_report_with_a_level_twice_has_no_tables(room):
    assert run("homerange.commands.evidence", "twice", "made/tracks", "--percent", "95,95", cwd=room).returncode == 0
    found = run("homerange.commands.tables", "twice", cwd=room)
    assert found.stderr.splitlines()[-1] == "homerange-tables: report.txt has the level 95 twice: make it anew with each level once"


def test_what_is_not_there_is_said_in_one_line(room, tmp_path):
    for module, words, said in (
            ("evidence", ["new", "none"], "none: there is no such file"), ("evidence", ["new", "--herd", "none"], "none: there is no such folder"),
            ("evidence", ["no/where", "made/tracks"], "no: there is no such folder"), ("herd", ["merge", "none"], "none: there is no such folder")):
        found = run(f"homerange.commands.{module}", *words, cwd=room)
        assert (found.returncode, found.stderr) == (1, f"homerange-{module}: {said}\n")
    without = "from pathlib import Path; from homerange.commands import herd; herd.SCRIPTS = Path('/none'); herd.main()"
    found = subprocess.run([sys.executable, "-c", without, "run", "made/tracks", tmp_path / "out"], capture_output=True, text=True, cwd=room,
                           env={**os.environ, "PYTHONPATH": str(PYTHON)})
    assert (found.returncode, found.stderr) == (
        1, "homerange-herd: /none/plan.sh does not run: No such file or directory: install the package again\n")


def test_answers_are_those_of_the_ranges(room):
    summary = pandas.read_csv(room / "made" / "summary.csv")
    assert summary["animal"].unique().tolist() == ["a", "b"] and summary["fixes"].tolist() == [15] * 6
