"""How the programs are found, and which errors come of what homerange says."""
import hashlib
import os
import stat
import subprocess
import sys
from pathlib import Path

import pytest
from exact import cloud
from frames import frame_of, with_splitter

import homerange
from homerange import home_range
from homerange import program as finder
from homerange.ranges import runs
from homerange.program import find_program, find_split_program

POINTS = cloud(6, 20)
CLONE = Path(homerange.__file__).parents[2]
VERSION = '[ "$1" != --version ] || exec echo "homerange of a test"'


@pytest.fixture
def stand_in(tmp_path):
    """Makes a program of these lines of shell."""

    def make(*lines):
        path = tmp_path / "homerange"
        path.write_text("\n".join(["#!/bin/sh", VERSION, *lines]) + "\n")
        path.chmod(path.stat().st_mode | stat.S_IXUSR)
        return with_splitter(path)

    return make


def real_program():
    return find_program(None)


def runnable(path):
    """Makes a file that can be run, and its folder."""
    path.parent.mkdir(exist_ok=True)
    path.write_text("#!/bin/sh\n")
    path.chmod(0o755)
    return path


@pytest.mark.parametrize("status, kind", [
    (1, homerange.FileError), (2, homerange.OptionError), (3, homerange.OutOfMemoryError), (4, homerange.OutputError),
    (5, homerange.CutError)])
def test_each_status_has_its_error(stand_in, status, kind):
    program = stand_in('echo "homerange: ./old boar.csv: record 5: what is wrong" >&2', f"exit {status}")
    with pytest.raises(kind) as caught:
        home_range(frame_of(a=POINTS, **{"old boar": POINTS}), program=program)
    assert str(caught.value) == "homerange: old boar: record 5: what is wrong"
    assert caught.value.status == status
    assert isinstance(caught.value, homerange.HomeRangeError)


@pytest.mark.parametrize("line, said", [
    ("exit 70", "ended with status 70"), ("kill -9 $$", "ended with status -9"),
    ('echo "no such thing" >&2; exit 127', "^no such thing$")])
def test_a_program_that_is_ended_is_no_fault_of_files(stand_in, line, said):
    with pytest.raises(homerange.ProgramError, match=said) as caught:
        home_range(frame_of(a=POINTS), program=stand_in(line))
    assert caught.value.status is None


def test_the_programs_own_refusals():
    with pytest.raises(homerange.OptionError, match="^levels: more than 8 levels$"):
        home_range(frame_of(a=POINTS), range(1, 10))


def test_no_program(tmp_path, monkeypatch, stand_in):
    with pytest.raises(homerange.ProgramError, match="there is no program .*: name it by program=.. or in"):
        home_range(frame_of(a=POINTS), program=tmp_path / "none")
    text = stand_in()
    text.write_bytes(b"\x7fELF")
    with pytest.raises(homerange.ProgramError, match="does not run"):
        home_range(frame_of(a=POINTS), program=text)
    monkeypatch.setenv("HOMERANGE", str(tmp_path / "none"))
    with pytest.raises(homerange.ProgramError, match="there is no program"):
        home_range(frame_of(a=POINTS))


def test_where_the_program_is_looked_for(tmp_path, monkeypatch, stand_in):
    real = real_program()
    told = stand_in(f'echo >>"{tmp_path}/calls"', f'exec "{real}" "$@"')

    def calls(**words):
        home_range(frame_of(a=POINTS), **words)
        log = tmp_path / "calls"
        return log.exists() and not log.unlink()

    monkeypatch.delenv("HOMERANGE", raising=False)
    assert calls(program=told)
    monkeypatch.setenv("HOMERANGE", str(told))
    assert calls()
    assert not calls(program=real)
    monkeypatch.setenv("HOMERANGE", "./homerange")
    monkeypatch.chdir(tmp_path)
    assert calls()
    monkeypatch.delenv("HOMERANGE")
    if os.access(CLONE / "release" / "homerange", os.X_OK):
        assert find_program(None) == str(CLONE / "release" / "homerange")
    monkeypatch.setattr(finder, "CLONE", None)
    monkeypatch.setenv("PATH", str(tmp_path), prepend=os.pathsep)
    assert calls()


def test_folders_of_data_are_not_looked_into(tmp_path, monkeypatch, stand_in):
    """A folder in which one works, and one above it, may have a program of anybody's."""
    (tmp_path / "release").mkdir()
    stand_in("exit 1").rename(tmp_path / "release" / "homerange")
    (tmp_path / "release" / "SOURCES").write_text("sources 0\nlogic 0\n")
    (tmp_path / "data").mkdir()
    monkeypatch.delenv("HOMERANGE", raising=False)
    monkeypatch.setattr(finder, "CLONE", None)
    monkeypatch.setenv("PATH", str(tmp_path / "none"))
    for folder in (tmp_path, tmp_path / "data"):
        monkeypatch.chdir(folder)
        with pytest.raises(homerange.ProgramError, match="there is no program homerange: name it"):
            find_program()


def test_a_clone_is_known_by_its_own_files(tmp_path):
    assert finder.clone_of(CLONE / "python" / "homerange") == CLONE
    (tmp_path / "python" / "homerange").mkdir(parents=True)
    (tmp_path / "release").mkdir()
    assert finder.clone_of(tmp_path / "python" / "homerange") is None
    assert finder.clone_of(Path("/homerange")) is None


@pytest.fixture
def wheel(tmp_path, monkeypatch):
    """A folder release as a wheel has it, of two programs."""
    folder = tmp_path / "release"
    folder.mkdir()
    for name in ("homerange", "homerange-split"):
        runnable(folder / name)
    said = subprocess.run(["sha256sum", "release/homerange", "release/homerange-split"], cwd=tmp_path, capture_output=True)
    (folder / "SHA256SUMS").write_bytes(said.stdout)
    monkeypatch.delenv("HOMERANGE", raising=False)
    monkeypatch.setattr(finder, "OWN", folder / "homerange")
    yield folder


def test_the_programs_of_a_wheel_are_held_to_their_checksums(wheel):
    for find, name in ((find_program, "homerange"), (find_split_program, "homerange-split")):
        own = wheel / name
        assert find() == str(own)
        own.write_bytes(own.read_bytes() + b"x")
        with pytest.raises(homerange.ProgramError, match=f"/{name} is not the program that this package was built with"):
            find()
        own.write_bytes(own.read_bytes()[:-1])
    named = real_program()
    assert find_program(named) == named


def test_a_wheel_that_lost_a_file_is_refused(wheel):
    (wheel / "homerange-split").unlink()
    with pytest.raises(homerange.ProgramError, match="/homerange-split is not the program .*: install the package again"):
        find_split_program()
    (wheel / "SHA256SUMS").unlink()
    with pytest.raises(homerange.ProgramError, match="/homerange is not the program .*: install the package again"):
        find_split_program()


def test_the_second_program_lies_beside_the_first(tmp_path, monkeypatch):
    monkeypatch.delenv("HOMERANGE", raising=False)
    monkeypatch.setattr(finder, "OWN", tmp_path / "none")
    monkeypatch.setattr(finder, "CLONE", None)
    real, linked = runnable(tmp_path / "real" / "homerange"), tmp_path / "linked" / "homerange"
    linked.parent.mkdir()
    linked.symlink_to(real)
    for named in (real, linked):
        with pytest.raises(homerange.ProgramError, match=f"there is no program homerange-split beside {named}: install it there"):
            find_split_program(named)
    beside = runnable(real.with_name("homerange-split"))
    monkeypatch.setenv("PATH", str(linked.parent))
    assert find_split_program(real) == find_split_program(linked) == find_split_program() == str(beside)
    nearer = runnable(linked.with_name("homerange-split"))
    assert find_split_program() == str(nearer)
    monkeypatch.setenv("HOMERANGE", str(real))
    assert find_split_program() == str(beside)


def test_a_command_is_not_taken_for_the_program_of_its_name(tmp_path, monkeypatch):
    named = runnable(tmp_path / "homerange")
    command = runnable(tmp_path / "homerange-split")
    monkeypatch.setattr(sys, "argv", [str(command), "--version"])
    with pytest.raises(homerange.ProgramError, match="there is no program homerange-split"):
        find_split_program(named)


def test_ranges_know_their_program():
    found = home_range(frame_of(a=POINTS)).program
    assert found.path == real_program() and found.checksum == hashlib.sha256(Path(found.path).read_bytes()).hexdigest()
    assert found.version.startswith("homerange 1.")


@pytest.mark.parametrize("change, said", [
    ("s/^end,1$//", "is cut off"),
    ("s/^row,a,7,/row,a,8,/", "line 9: 'row,a,8,.*, but 'row,a,7,'"),
    ("/^box/d", "line 2: 'row,a,1,.*, but 'box,a,'"),
    ("s/,a,/,b,/", "reports another unit, other animals or fixes"),
])
def test_a_report_that_does_not_fit_is_refused(stand_in, change, said):
    with pytest.raises(homerange.ReportError, match=said):
        home_range(frame_of(a=POINTS), program=stand_in(f'"{real_program()}" "$@" | sed "{change}"'))


def test_kept_fixes_that_are_not_those_of_the_report_are_refused(stand_in):
    """A program that reports the 95 per cent polygon of other fixes than the rule keeps."""
    program = stand_in(f'"{real_program()}" "$@" | sed "s/^\\(percent,a,95,19,[0-9]*\\),.*/\\1,1/"')
    found = home_range(frame_of(a=POINTS), program=program)
    with pytest.raises(homerange.ReportError, match="the 95 per cent polygon of a is not that of the report"):
        found.corners(95)


def test_no_file_is_left(tmp_path, monkeypatch, stand_in):
    monkeypatch.setattr(runs.tempfile, "tempdir", str(tmp_path))
    home_range(frame_of(a=POINTS)).corners(50)
    with pytest.raises(homerange.OptionError):
        home_range(frame_of(a=POINTS), range(1, 10))
    assert [*tmp_path.iterdir()] == []
