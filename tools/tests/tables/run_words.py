#!/usr/bin/env python3
"""run_words.py PROGRAM: the words that homerange-split refuses, with the line that it says, all written by hand; and its help and
version. No export is there, so a word is refused before any file is looked for."""
import subprocess
import sys
import tempfile
from pathlib import Path

sys.dont_write_bytecode = True
from cases import finish

NO_FORM = "which is no form of a day, such as %Y-%m-%d, %d.%m.%y, %d %b %Y or %Y %j, with %H:%M:%S or %I:%M %p"
MAKERS = "is none of vectronic, lotek, telonics, eobs, ornitela, argos, gpx"
NOT_GPX = "is for texts with a line of titles, and not for GPX: leave it out beside --from gpx"
ENCODINGS = ("utf-8, ascii, utf-16, utf-16-le, utf-16-be, utf-32, utf-32-le, utf-32-be, latin-1, iso-8859-2, windows-1250, windows-1251, "
             "windows-1252")
NOT_OF_GPX = "is for a column, which track points of GPX do not have: leave it out beside --from gpx"
NO_LIST = "and not a word, or several with commas between"
NO_ZONE = "is no time zone such as 'Europe/Ljubljana'"
LJUBLJANA = ["--tz", "Europe/Ljubljana"]
# The words behind a.csv, and the line.
REFUSED = [
    (["--unit", "km"], "--unit: km is neither m nor dm"),
    (["--into", ""], "into: the folder has no name"),
    (["--name="], "--name: a name without control characters is wanted"),
    (["--max-dop=-1"], "max-dop is '-1' and not a number from 0"),
    (["--max-speed", "1e3"], "max-speed is '1e3' and not a number of metres a second from 0 to 1,000,000 with at most six decimals"),
    (["--every", "2d"], "every is '2d' and not a whole number of seconds, such as 2h, 30min or 90s"),
    (["--skip-lines=-1"], "skip-lines is '-1' and not a number from 0"),
    (["--encoding", "cp1253"], f"encoding: cp1253 is none of {ENCODINGS}"),
    (["a.csv"], "a.csv is named twice: name each export once"),
    (["--time-format", "%d.%m. %H:%M"], f"time-format is '%d.%m. %H:%M', {NO_FORM}"),
    (["--time-format", "%Y-%m-%d|%Y-%q|x"], f"time-format is '%Y-%q', {NO_FORM}"),
    (["--time-format="], f"time-format is '', {NO_FORM}"),
    (["--time-format", "%Y-%m-%d" + 248 * "x"], "time-format has 256 bytes, and may have 255: name fewer forms, or shorter ones"),
    (["--tz=Europe/../etc"], "tz='Europe/../etc' is no time zone such as 'Europe/Ljubljana'"),
    (["--tz=localtime"], f"tz='localtime' {NO_ZONE}"),
    (["--tz=Posixrules"], f"tz='Posixrules' {NO_ZONE}"),
    (["--tz=Factory"], f"tz='Factory' {NO_ZONE}"),
    (["--tz=posix/Europe/Ljubljana"], f"tz='posix/Europe/Ljubljana' {NO_ZONE}"),
    (["--tz=right/Europe/Ljubljana"], f"tz='right/Europe/Ljubljana' {NO_ZONE}"),
    (["--argos-class="], f"argos-class is '' {NO_LIST}"),
    (["--argos-class", "3,,1"], f"argos-class is '3,,1' {NO_LIST}"),
    (["--sensor", " "], f"sensor is ' ' {NO_LIST}"),
    (["--fix-type", "3D,"], f"fix-type is '3D,' {NO_LIST}"),
    (["--na="], f"na is '' {NO_LIST}"),
    (["--tz="], "tz='' is no time zone such as 'Europe/Ljubljana'"),
    ([*LJUBLJANA, "--since", "1.5.2024"], "'1.5.2024' is no time in Europe/Ljubljana, such as '2024-05-01' or '2024-05-01 00:30:04'"),
    (["--until="], "'' is no time in UTC, such as '2024-05-01' or '2024-05-01 00:30:04'"),
    ([*LJUBLJANA, "--until", "2024-03-31 02:30"], "'2024-03-31 02:30' is no time in Europe/Ljubljana, whose clocks passed it over"),
    (["--since", "2024-05-01 00:00:00.1234567891"],
     "'2024-05-01 00:00:00.1234567891' has more than nine decimals of a second: write at most nine"),
    ([*LJUBLJANA, "--until", "1970-01-01 00:30"], "until is '1970-01-01 00:30', and no fix is before 1970: name a later time"),
    (["--from", "Lotek"], f"from: Lotek {MAKERS}"),
    (["--from="], f"from:  {MAKERS}"),
    (["--from=gpx", "--encoding=latin-1"], f"--encoding {NOT_GPX}"),
    (["--from=gpx", "--skip-lines=1"], f"--skip-lines {NOT_GPX}"),
    (["--from=gpx", "--header=animal"], f"--header {NOT_GPX}"),
    (["--from=gpx", "--max-dop=5"], f"--max-dop {NOT_OF_GPX}"),
    (["--from=gpx", "--fix-type=3D"], f"--fix-type {NOT_OF_GPX}"),
    (["--from=gpx", "--argos-class=3"], f"--argos-class {NOT_OF_GPX}"),
    (["--from=gpx", "--dop=hdop"], f"--dop {NOT_OF_GPX}"),
    (["--from=gpx", "--sensor=gps"], f"--sensor {NOT_OF_GPX}"),
    (["--header="], "--header: the start of the line of titles is wanted, such as 'Acquisition Time'"),
]
# Words that are none of the program's: what they are called in the line.
UNKNOWN = [(["--longitude", "x"], "--longitude"), (["--zone"], "--zone"), (["--mark=1"], "--mark"), (["--unit", "m", "--unit", "m"], "--unit")]


def run(program, words):
    """What the program does with some words, in an empty folder."""
    with tempfile.TemporaryDirectory() as name:
        return subprocess.run([program, *words], capture_output=True, cwd=name, text=True)


def fault(program, words, wanted):
    """How the program does not end with one line that has this."""
    found = run(program, words)
    lines = found.stderr.splitlines()
    is_refused = found.returncode == 2 and not found.stdout and len(lines) == 1 and wanted(lines[0])
    return None if is_refused else f"status {found.returncode}: {found.stderr!r}"


def help_fault(program):
    """How the help is not one that fits on a screen, or the version is not one line."""
    text, version = run(program, ["--help"]).stdout, run(program, ["a.csv", "-V"]).stdout
    is_told = "Usage: homerange-split [OPTIONS] EXPORT...\n" in text and all(len(line) <= 80 for line in text.splitlines())
    return None if is_told and version.startswith("homerange-split ") and version.count("\n") == 1 else f"{text!r} and {version!r}"


def faults(program):
    """Each case with how the program does not do what it wants; None where it does."""
    yield "the help and the version", help_fault(program)
    yield "no export", fault(program, ["--mark"], "split: no export is named: name its file, as by homerange-split export.csv".__eq__)
    for words, line in REFUSED:
        yield f"refused: {' '.join(words)}", fault(program, ["a.csv", *words], f"split: {line}".__eq__)
    for words, name in UNKNOWN:
        yield f"unknown: {' '.join(words)}", fault(program, ["a.csv", *words], lambda found, name=name: name in found)


def main():
    finish(list(faults(str(Path(sys.argv[1]).resolve()))))


if __name__ == "__main__":
    main()
