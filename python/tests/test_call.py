"""The call of homerange-split: arguments become its options, its refusals become errors, and what it says names arguments."""
import datetime as clock
import os
import subprocess
import sys
import tempfile
from pathlib import Path

import numpy
import pandas
import pytest

import homerange
from homerange import FrameError
from homerange.read.call import as_arguments
from homerange.read.reading import read_fixes

TOP = Path(__file__).parents[2]
EXPORT = TOP / "examples" / "export.csv"


@pytest.fixture
def stub(tmp_path, monkeypatch):
    """Puts a program in the place of homerange-split: a script of a shell, in which $into is the folder to make."""
    def put(script):
        for name, text in (("homerange", "exit 0"), ("homerange-split", script)):
            path = tmp_path / "programs" / name
            path.parent.mkdir(exist_ok=True)
            path.write_text(f'#!/bin/sh\nprintf "%s\\n" "$@" >"$0.words"\ninto=${{2#--into=}}\n{text}\n')
            path.chmod(0o755)
        monkeypatch.setenv("HOMERANGE", str(tmp_path / "programs" / "homerange"))
        return tmp_path / "programs" / "homerange-split.words"

    return put


@pytest.mark.parametrize("options, said", [
    ({"zome": "33N"}, "there is no option zome"), ({"into": "x"}, "no option into"), ({"machine": True}, "no option machine"),
    ({"use": "good"}, "there is no option use: choose the rows of the frame before"), ({"mark": True}, "no option mark: fixes that"),
    ({"months": 5}, "there is no option months: choose among the fixes"), ({"hours": (18, 6)}, "no option hours: choose among the fixes"),
    ({"to": "2024-05-01"}, "there is no option to: until"), ({"every_hours": 2}, "no option every_hours: every takes hours"),
    ({"zone": 33}, "zone=33 is no text"), ({"encoding": 8}, "encoding=8 is no text"),
    ({"skip_lines": "2"}, "skip_lines is '2' and not a number from 0"), ({"skip_lines": True}, "skip_lines is True and"),
    ({"skip_unnamed": "yes"}, "skip_unnamed='yes' is neither True nor False"),
    ({"animal": ["a,b", "c"]}, "animal: 'a,b' has a comma, which stands between words"), ({"animal": {"a"}}, "no name of a column"),
    ({"sensor": ["gps", "a,b"]}, "sensor: 'a,b' has a comma"), ({"sensor": []}, "sensor: there is no word"),
    ({"sensor": True}, "sensor: True is no word"), ({"na": float("nan")}, "na: nan is no word"), ({"argos_class": [None]}, "argos_class: None is no word"),
    ({"max_dop": -1}, "max_dop is -1 and not a number from 0"), ({"max_speed": "fast"}, "max_speed is 'fast' and not a number"),
    ({"max_dop": float("nan")}, "max_dop is nan and"), ({"max_dop": True}, "max_dop is True and"),
    ({"every": "often"}, "every='often' is not a second or more"), ({"every": 0.0001}, "every=0.0001 is not a second or more"),
    ({"every": True}, "every=True is not a second"), ({"every": clock.timedelta(seconds=-5)}, "is not a second or more"),
    ({"every": "1d"}, "every='1d' is not a second or more in h, min or s, such as '24h', '30min' or '90s'"),
    ({"every": 1.0001}, "every=1.0001 is no whole number of seconds"),
    ({"every": clock.timedelta(seconds=2.5)}, "is no whole number of seconds: write such as '90min' or '5s'"),
    ({"since": 20240401}, "since=20240401 is neither a text such as '2024-05-01' nor a date"),
    ({"until": pandas.NaT}, "until is missing, and a moment is wanted"), ({"until": numpy.datetime64("NaT")}, "until is missing"), ({"since": 1.5}, "is neither"),
    ({"max_dop": numpy.True_}, "max_dop is .*True_? and"), ({"skip_lines": numpy.int64(-1)}, "skip_lines is .* and not a number from 0"),
    ({"lon": "a\0b"}, "lon is 'a.x00b', which the program cannot be told, since it has a byte 0$"),
    ({"lon": "a\udce4"}, "which the program cannot be told, since it is no text in UTF-8$"),
    ({"lon": "a" * 70_000}, "which the program cannot be told, since it has more than 65536 bytes$"),
])
def test_what_no_option_can_say_is_refused(stub, options, said):
    words = stub("exit 70")
    for table in (EXPORT, pandas.DataFrame({"x": [1], "y": [2]})):
        with pytest.raises(FrameError, match=said) as fault:
            read_fixes(table, **options)
        assert fault.value.kind == "option" and len(str(fault.value)) < 600
    assert not words.exists()


@pytest.mark.parametrize("options, wanted", [
    ({}, []), ({"zone": None, "skip_unnamed": False}, []), ({"skip_unnamed": True}, ["--skip-unnamed"]),
    ({"from_": "lotek", "unit": "dm"}, ["--from=lotek", "--unit=dm"]),
    ({"zone": "33N", "tz": "Europe/Ljubljana"}, ["--zone=33N", "--tz=Europe/Ljubljana"]),
    ({"animal": "A,B", "time": ["Day", "Hour of it"]}, ["--animal=A,B", "--time=Day,Hour of it"]),
    ({"na": ["-9999", ""], "sensor": "gps,none"}, ["--na=-9999,", "--sensor=gps,none"]),
    ({"na": -9999}, ["--na=-9999"]), ({"na": [999.125, "x"]}, ["--na=999.125,x"]),
    ({"na": numpy.float32(99.9)}, ["--na=99.9"]), ({"na": numpy.int64(0)}, ["--na=0"]),
    ({"argos_class": (3, 2.0, "B"), "fix_type": ["3D"]}, ["--argos-class=3,2,B", "--fix-type=3D"]),
    ({"max_dop": 5, "max_speed": 0.1}, ["--max-dop=5", "--max-speed=0.1"]),
    ({"max_dop": numpy.float32(2.3), "max_speed": numpy.float16(1.1)}, ["--max-dop=2.3", "--max-speed=1.1"]),
    ({"every": numpy.float32(0.1), "skip_lines": numpy.int64(2)}, ["--every=360s", "--skip-lines=2"]),
    ({"max_dop": "5.0", "max_speed": 1e-7}, ["--max-dop=5.0", "--max-speed=0.0000001"]),
    ({"max_dop": numpy.float64(2.5), "max_speed": 1e22}, ["--max-dop=2.5", "--max-speed=10000000000000000000000"]),
    ({"since": clock.date(2024, 5, 1), "until": clock.datetime(2024, 5, 31, 12)},
     ["--since=2024-05-01", "--until=2024-05-31T12:00:00"]),
    ({"since": pandas.Timestamp("2024-05-01 14:00", tz="Europe/Ljubljana"), "until": "2024-06-30"},
     ["--since=2024-05-01T12:00:00Z", "--until=2024-06-30"]),
    ({"since": clock.datetime(2024, 5, 1, 1, tzinfo=clock.timezone(clock.timedelta(hours=2))), "until": numpy.datetime64("2024-05-31")},
     ["--since=2024-04-30T23:00:00Z", "--until=2024-05-31"]),
    ({"every": "90min"}, ["--every=90min"]), ({"every": 2}, ["--every=7200s"]), ({"every": 1 / 3}, ["--every=1200s"]),
    ({"every": clock.timedelta(hours=1.5)}, ["--every=5400s"]), ({"every": pandas.Timedelta("2h")}, ["--every=7200s"]),
    ({"every": numpy.timedelta64(90, "m")}, ["--every=5400s"]), ({"every": numpy.timedelta64(10 ** 10, "ns")}, ["--every=10s"]),
    ({"skip_lines": 2, "header": "Acquisition"}, ["--skip-lines=2", "--header=Acquisition"]),
    ({"encoding": "latin-1", "name": "-x", "time_format": "%d.%m.%Y"}, ["--encoding=latin-1", "--name=-x", "--time-format=%d.%m.%Y"]),
    ({"easting": "E", "northing": "N"}, ["--easting=E", "--northing=N"]),
    ({"lon": "x", "lat": "y", "argos": "c", "dop": "d", "fix": "f"}, ["--lon=x", "--lat=y", "--argos=c", "--dop=d", "--fix=f"]),
])
def test_arguments_become_options(stub, options, wanted):
    words = stub("exit 70")
    with pytest.raises(homerange.ProgramError, match="homerange-split ended with status 70: it says no more"):
        read_fixes(EXPORT, **options)
    machine, into, *own = words.read_text().splitlines()
    assert (machine, own) == ("--machine", [*wanted, "--", str(EXPORT)])
    assert into.startswith("--into=/") and not Path(into.removeprefix("--into=")).parent.exists()


def test_a_system_is_told(stub):
    pytest.importorskip("pyproj")
    words = stub("exit 70")
    frame = pandas.DataFrame({"x": [1], "y": [2]})
    for crs, own in (("EPSG:3035", "--crs=EPSG:3035 (ETRS89-extended / LAEA Europe)"), (32733, "--zone=33S")):
        for table, records in ((EXPORT, []), (frame, ["--records"])):
            with pytest.raises(homerange.ProgramError):
                read_fixes(table, crs=crs)
            assert words.read_text().splitlines()[2:-2] == [*records, own]


@pytest.mark.parametrize("status, record, kind, text", [
    (1, 'number,export.csv,3,"x is \'1,5\', so"', FrameError, "export.csv: record 3: x is '1,5', so"),
    (1, "text,export.csv,,export.csv is no GPX", FrameError, "export.csv is no GPX"),
    (2, "option,,,--unit: km is neither m nor dm", FrameError, "export.csv: unit: km is neither m nor dm"),
    (2, "option,,,max-dop is '-1' and not a number from 0", FrameError, "export.csv: max_dop is '-1' and not a number from 0"),
    (3, "memory,export.csv,,not enough memory", homerange.OutOfMemoryError, "not enough memory"),
    (4, "output,export.csv,,tracks: No space left on device", homerange.OutputError, "tracks: No space left on device"),
    (1, "split: no record", homerange.ProgramError, "homerange-split ended with status 1: split: no record"),
    (1, "text,export.csv,-3,x", homerange.ProgramError, "homerange-split ended with status 1: text,export.csv,-3,x"),
    (70, "text,export.csv,,x", homerange.ProgramError, "homerange-split ended with status 70: text,export.csv,,x"),
    (127, "error while loading shared libraries", homerange.ProgramError, "ended with status 127: error while loading shared libraries"),
])
def test_refusals_become_errors(stub, tmp_path, status, record, kind, text):
    (tmp_path / "record").write_text(f"{record}\n")
    stub(f"cat '{tmp_path}/record' >&2\nexit {status}")
    with pytest.raises(kind) as fault:
        read_fixes("export.csv")
    assert str(fault.value).endswith(text)
    if kind is FrameError:
        assert (fault.value.kind, fault.value.record) == (record.split(",")[0], 3 if status == 1 and "3" in text else None)


def test_refusals_of_frames_have_the_row_and_not_the_text(stub, tmp_path):
    frame = pandas.DataFrame({"x": [1, 2, 3], "y": 4})
    for record, text in (("number,fixes.csv,2,x is 'a'", "row 1: x is 'a'"), ("text,fixes.csv,,fixes.csv: a byte 0", "a byte 0")):
        stub(f'echo "{record}" >&2\nexit 1')
        with pytest.raises(FrameError) as fault:
            read_fixes(frame)
        assert str(fault.value) == text and str(tmp_path) not in text
    with pytest.raises(FrameError, match=r"^a byte 0$"):
        read_fixes(frame.set_axis(["p", "q", "r"]))
    stub('echo "number,fixes.csv,2,x is \'a\'" >&2\nexit 1')
    with pytest.raises(FrameError, match=r"^row q \(frame.iloc\[1\]\): x is 'a'$"):
        read_fixes(frame.set_axis(["p", "q", "r"]))


def test_a_program_that_is_ended_is_no_bad_table(stub):
    stub("kill -9 $$")
    with pytest.raises(homerange.ProgramError, match="homerange-split ended with status -9: it says no more"):
        read_fixes(EXPORT)


@pytest.mark.parametrize("said, wanted", [
    ("name it, as by --time 'a b'", "name it, as by time='a b'"), ("such as --zone 33N", "such as zone='33N'"),
    ("name it, by --na=x", "name it, by na='x'"), ("by --lon and --lat and --zone 33N, or", "by lon and lat and zone='33N', or"),
    ("name it, by --na=.", "name it, by na='.'"), ("by --na=.., or", "by na='..', or"), ("(by --na=n/a)", "(by na='n/a')"),
    ("by --na='x;y'", "by na='x;y'"), ("x is 'a', which --na names, and so no time: leave it out of --na",
                                       "x is 'a', which na names, and so no time: leave it out of na"),
    ("such as --argos-class 3,2,1 (none is a fix", "such as argos_class='3,2,1' (none is a fix"),
    ("leave it out, by --skip-lines 1", "leave it out, by skip_lines=1"), ("read them by --from lotek", "read them by from_='lotek'"),
    (", and --skip-unnamed leaves such records out", ", and skip_unnamed=True leaves such records out"),
    ("say so by --lon 'a b' --lat y --zone 33N; or", "say so by lon='a b', lat='y', zone='33N'; or"),
    ("--max-dop leaves out 2 of 3", "max_dop leaves out 2 of 3"), ("leave --tz out, or", "leave tz out, or"),
    ("--encoding is for texts", "encoding is for texts"), ("with %p in --time-format, or", "with %p in time_format, or"),
    ("as by --time DAY,COLUMN, or remove it", "as by time='DAY,COLUMN', or remove it"), ("--sensor: no fix is of x", "sensor: no fix is of x"),
    ("column 3 '--zone 33N' and --lon x, --lat y", "column 3 '--zone 33N' and lon='x', lat='y'"), ("--bogus", "--bogus"),
    ("and without --tz times are", "and without tz times are"), ("as by --tz Europe/Ljubljana, or", "as by tz='Europe/Ljubljana', or"),
])
def test_what_the_program_says_names_arguments(said, wanted):
    assert as_arguments(said) == wanted


def test_the_command_becomes_the_program(stub):
    words = stub("echo said; exit 7")
    call = "import sys; sys.path.insert(0, sys.argv.pop(1)); from homerange.commands.split import main; main()"
    run = subprocess.run([sys.executable, "-c", call, TOP / "python", "--nonsense", "a b", "--", ""], capture_output=True)
    assert (run.returncode, run.stdout, run.stderr) == (7, b"said\n", b"")
    assert words.read_text() == "--nonsense\na b\n--\n\n"
    words.with_name("homerange-split").unlink()
    run = subprocess.run([sys.executable, "-c", call, TOP / "python"], capture_output=True)
    assert run.returncode == 1 and run.stderr.startswith(b"homerange-split: ") and run.stderr.count(b"\n") == 1


def test_a_program_that_is_not_there_is_named(stub, tmp_path):
    stub("exit 0")
    (tmp_path / "programs" / "homerange-split").unlink()
    with pytest.raises(homerange.ProgramError, match="homerange-split"):
        read_fixes(EXPORT)


def test_a_file_that_is_called_as_standard_input_is_a_file(stub):
    words = stub("exit 70")
    with pytest.raises(homerange.ProgramError):
        read_fixes("-")
    assert words.read_text().splitlines()[-1] == "./-"


def test_a_pipe_is_no_table():
    call = [sys.executable, "-c", "import sys; from homerange import read_fixes; print(len(read_fixes(sys.argv[1], zone='33N')))", "/dev/stdin"]
    own = {**os.environ, "PYTHONPATH": str(TOP / "python")}
    table = "animal,second,easting,northing\n" + "".join(f"a,{at},{5000 * at},{7000 * at * at}\n" for at in range(4))
    piped = subprocess.run(call, input=table, capture_output=True, text=True, env=own)
    assert piped.stderr.endswith("FileError: /dev/stdin is a pipe, or a file without a name: write what it gives into a file\n")
    with tempfile.TemporaryFile("w+") as file:
        file.write(table)
        file.seek(0)
        unnamed = subprocess.run(call, stdin=file, capture_output=True, text=True, env=own)
    assert unnamed.stderr.endswith("FileError: /dev/stdin is a pipe, or a file without a name: write what it gives into a file\n")
    with tempfile.NamedTemporaryFile("w+") as file:
        file.write(table)
        file.seek(0)
        assert subprocess.run(call, stdin=file, capture_output=True, text=True, env=own).stdout == "4\n"
