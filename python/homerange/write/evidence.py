"""Evidence of a report: a folder with all that is handed in, its checksums, and a record of the run. docs/EVIDENCE.md says
what it shows, and how it is checked."""

from __future__ import annotations

import csv
import itertools
import os
import shutil
import subprocess
import tempfile
from pathlib import Path
from typing import Any, Callable, Iterable, NamedTuple, Sequence, TextIO

from ..about import BESIDE, NO_COMMIT, About, Words, export_of, now, write_about
from ..errors import (
    FAULTS, UNPRINTABLE, FileError, ProgramError, ReportError, check_file, check_folder, check_place, one_line, refuse)
from ..program import CLONE, MOST_ANIMALS, Program, checksum_of, steps_of, workers
from ..record import Record, difference_from_record, read_record, record_in
from ..report import TEXT, Animal, Lines, Reader, Report, Table, check_end, overlaps_of

SOURCES = ["crates.txt", "HANDLES", *(f":(glob)crates/*/{part}/**" for part in ("src", "specs", "proofs")), "python/homerange",
           "python/homerange_verifier", "r/R", "release", "tools"]
SUMS, ABOUT, REPORT, TRACKS = "SHA256SUMS", "evidence.txt", "report.txt", "tracks"


class Wish(NamedTuple):
    """What a report is to be of."""

    levels: str  # whole numbers between commas
    unit: str | None  # None is that of the record of the tracks, or else metres
    program: Program


def read_animal(path: Path) -> tuple[str, int]:
    """The animal of a file, and how many of its records are used."""
    with open(path, encoding="utf-8-sig", errors="surrogateescape", newline="") as file:
        rows = csv.reader(file)
        titles: list[str] = next(rows, [])
        at_use = titles.index("use") if "use" in titles else None
        names, used = set[str](), 0
        for row in filter(None, rows):
            names.add(row[0])
            used += at_use is None or row[at_use:at_use + 1] == ["1"]
    return (names.pop() if len(names) == 1 else "", used)


def is_utf8(name: str) -> bool:
    return not any("\ud800" <= sign <= "\udfff" for sign in name)


def check_names(names: Iterable[str]) -> None:
    """Refuses names that a list of checksums cannot have as they are."""
    for name in names:
        if UNPRINTABLE.search(name) or "\\" in name or not is_utf8(name):
            refuse(f"{name} has a backslash, a line end or a control character in its name, or is not in UTF-8: rename it", "name")


def check_record(folder: Path, record: Record) -> None:
    """Refuses tracks that are not those of their record, and those whose names no list of checksums can have."""
    odd = next(filter(UNPRINTABLE.search, record.tracks), None)
    if odd is not None:
        refuse(f"the name of the animal {odd} has a control character or a separator of lines, which the names of files of evidence "
               "cannot have: rename it in its table", "name")
    files = {path.stem: path for path in folder.iterdir() if path.name.endswith(".csv")}
    for name in sorted({*files}.symmetric_difference(record.tracks)):
        what = "is not among the tracks" if name in record.tracks else "was not made by it"
        refuse(f"{name}.csv {what}, by split.txt beside them: split the export again", "text")
    for name, made in record.tracks.items():
        if made.checksum is None:
            refuse("split.txt has no checksums of the tracks, as older versions wrote it: split the export again", "text")
        if made.checksum != checksum_of(files[name]):
            refuse(f"{name}.csv was changed since it was split: split the export again", "text")


def unit_of(wish: Wish, record: Record | None) -> str:
    """The unit of the run, which has to be that of the record."""
    unit = wish.unit or (record.unit if record else "m")
    if record and unit != record.unit:
        refuse(f"the tracks are in {record.unit}, by split.txt beside them, and not in {unit}: leave --unit out")
    return unit


def check_report(path: Path, unit: str, levels: str, animals: dict[str, int], reader: Reader | None) -> Report:
    """The report in a file, whose rows are kept where they have a reader. One that is not whole, or of another unit, other levels,
    animals or numbers of fixes is refused."""
    fixes: dict[str, int] = {}
    report, wanted = Report(unit, {}, {}), list(map(int, levels.split(",")))
    with open(path, **TEXT) as file:
        lines = Lines(file, str(path.name))
        if lines.unit() != unit:
            raise ReportError(f"{path.name} is of another unit than {unit}")
        while lines.line.startswith("animal,") or not fixes:
            animal = Animal(lines, None, keeps_rows=reader is not None, reader=reader)
            if animal.levels != wanted:
                raise ReportError(f"{path.name} has other levels than {levels} for {one_line(animal.name)}")
            fixes[animal.name] = animal.fixes
            report.tables[animal.name] = Table(animal.rows, animal.corners, animal.percents)
        if fixes != animals:
            name = sorted({*fixes.items()} ^ {*animals.items()})[0][0]
            raise ReportError(f"{path.name} has {fixes.get(name, 0)} fixes of {one_line(name)}, and the tracks have "
                              f"{animals.get(name, 0)}")
        report.overlaps.update(overlaps_of(lines, fixes))
    return report


def run_once(program: str, words: Sequence[str], folder: Path, into: Path) -> None:
    """Has the program write its report of tracks in the folder into a file."""
    with open(into, "wb") as report:
        run = subprocess.run([program, *words], cwd=folder, stdin=subprocess.DEVNULL, stdout=report, stderr=subprocess.PIPE)
    if run.returncode != 0:
        said = run.stderr.decode("utf-8", "replace").strip() or f"{program} ended with status {run.returncode}"
        raise FAULTS.get(run.returncode, ProgramError)(one_line(said.splitlines()[-1]))


def run_groups(program: str, options: Sequence[str], tracks: Sequence[str], folder: Path) -> None:
    """Has the program report of many tracks in groups, and writes the report that one run would make of them all. How its
    lines fit each other is not looked at."""
    steps = steps_of(tracks)
    with tempfile.TemporaryDirectory(prefix="homerange-") as room, workers(None) as pool:
        parts = [Path(room, str(number)) for number in range(len(steps))]
        calls = ([*options, "--", *itertools.chain(*step)] for step in steps)
        list(pool.map(lambda words, part: run_once(program, words, folder, part), calls, parts))
        with open(folder / REPORT, "x", **TEXT) as report:
            join_reports(parts, sum(len(step) == 1 for step in steps), report)


def join_reports(parts: Sequence[Path], groups: int, report: TextIO) -> None:
    """Writes the tables of so many reports of groups, and then the overlaps that they and those of pairs of groups have, in
    the order of all animals."""
    names: list[str] = []
    overlaps: dict[tuple[str, ...], str] = {}
    for number, part in enumerate(parts):
        tables, lines = tables_and_overlaps(part)
        overlaps.update((tuple(line.split(",")[1:3]), line) for line in lines)
        if number < groups:
            names += animals_of(tables)
            report.write(tables.removeprefix("unit,dm\n") if number else tables)
    report.writelines(f"{overlaps.get(pair, '')}\n" for pair in itertools.permutations(names, 2))
    report.write(f"end,{len(names)}\n")


def tables_and_overlaps(path: Path) -> tuple[str, list[str]]:
    """The tables of a report, and its lines of overlaps, which are its last but one."""
    with open(path, **TEXT) as file:
        text = file.read()
    check_end(text, "the report of a group")
    found = text.find("\noverlap,") + 1 or text.rfind("\nend,") + 1
    return text[:found], text[found:].split("\n")[:-2]


def animals_of(tables: str) -> list[str]:
    """The names of the animals of tables."""
    names, at = list[str](), tables.find("animal,")
    while at >= 0:
        names.append(tables[at:tables.index("\n", at)].split(",")[1])
        at = tables.find("\nanimal,", at) + 1 or -1
    return names


def used_tracks(folder: Path) -> dict[str, tuple[str, int]]:
    """The animal and the number of used fixes of each file of tracks that has some, by its name in the folder, in order of
    names as bytes."""
    names = sorted((path.name for path in (folder / TRACKS).iterdir() if path.name.endswith(".csv")), key=os.fsencode)
    check_names(names)
    found = {f"{TRACKS}/{name}": read_animal(folder / TRACKS / name) for name in names}
    found = {name: animal for name, animal in found.items() if animal[1]}
    if not found:
        refuse("no file of tracks has a used fix", "empty")
    return found


def make_report(folder: Path, wish: Wish, words: Words = Words(), reader: Reader | None = None) -> Report:
    """Has the program report of the tracks in a folder, and writes the record of the run. Answers the report, with its rows
    where these have a reader."""
    record = record_in(folder / TRACKS)
    if record:
        check_record(folder / TRACKS, record)
    unit, tracks = unit_of(wish, record), used_tracks(folder)
    options = ["--percent", wish.levels, "--unit", unit]
    before = {name: checksum_of(folder / name) for name in tracks}
    if len(tracks) > MOST_ANIMALS:
        run_groups(wish.program.path, options, [*tracks], folder)
    else:
        run_once(wish.program.path, [*options, "--", *tracks], folder, folder / REPORT)
    for name, checksum in before.items():
        if checksum_of(folder / name) != checksum:
            refuse(f"{name} changed while it was read", "text")
    return finish(folder, wish, unit, tracks, record, words, reader)


def finish(folder: Path, wish: Wish, unit: str, tracks: dict[str, tuple[str, int]], record: Record | None, words: Words = Words(),
           reader: Reader | None = None) -> Report:
    """Looks whether a report is that of the tracks, and writes the record of the run. Answers the report, with its rows where
    these have a reader."""
    program = wish.program
    report = check_report(folder / REPORT, unit, wish.levels, dict(tracks.values()), reader)
    fault = record and difference_from_record(record, dict(tracks.values()))
    if fault:
        raise ReportError(fault)
    if checksum_of(program.path) != program.checksum:
        raise ProgramError(f"{program.path} changed while it ran")
    log = Path(program.path).with_name("build.log")
    if log.is_file():
        shutil.copyfile(log, folder / "build.log")
    write_about(folder / ABOUT, about_of(wish, [*tracks], unit, record, words))
    return report


def about_of(wish: Wish, files: Sequence[str], unit: str, record: Record | None, words: Words) -> About:
    """The record of a run of some files that is made now."""
    return About(now(), wish.program.version, wish.program.checksum, files, unit, wish.levels, commit_of_clone(),
                 made_from(wish.program, "sources"), made_from(wish.program, "logic"), export_of(record), words)


def made_from(program: Program, kind: str) -> str:
    """A line of SOURCES beside the program: the checksum of what it was made from, or of the logic."""
    path = Path(program.path).with_name("SOURCES")
    lines = path.read_text("utf-8", errors="replace").split("\n") if path.is_file() else []
    found = [line.removeprefix(f"{kind} ") for line in lines if line.startswith(f"{kind} ")]
    return found[0] if found else BESIDE


def git(*words: str) -> str | None:
    """What git says in the clone; None where it fails."""
    try:
        run = subprocess.run(["git", "-C", str(CLONE), *words], stdin=subprocess.DEVNULL, capture_output=True, text=True)
    except OSError:
        return None
    return run.stdout.rstrip("\n") if run.returncode == 0 else None


def commit_of_clone() -> str:
    """The commit of the clone that this package stands in, and whether what makes reports is not as it is there."""
    if CLONE is None or git("rev-parse", "--show-toplevel") != str(CLONE):
        return NO_COMMIT[0]
    commit = git("rev-parse", "--verify", "-q", "HEAD")
    changed = git("status", "--porcelain", "--untracked-files=all", "--", *SOURCES)
    if commit is None or changed is None:
        return NO_COMMIT[1]
    return f"{commit}{', changed' * bool(changed)}"


def write_sums(folder: Path) -> None:
    """Writes the checksums of all files of a folder."""
    paths = [path for path in folder.rglob("*") if not path.is_dir() and path != folder / SUMS]
    names = sorted((path.relative_to(folder).as_posix() for path in paths), key=os.fsencode)
    check_names(names)
    with open(folder / SUMS, "x", **TEXT) as file:
        file.writelines(f"{checksum_of(folder / name)}  {name}\n" for name in names)


def copy_files(paths: Sequence[Path], folder: Path) -> None:
    """Copies tracks."""
    (folder / TRACKS).mkdir()
    names: dict[str, Path] = {}
    for path in paths:
        if names.setdefault(path.name, path) != path:
            refuse(f"{names[path.name]} and {path} have the same name", "name")
        if not path.name.endswith(".csv"):
            refuse(f"{path} is no track: its name does not end in .csv", "name")
        shutil.copyfile(path, folder / TRACKS / path.name)


def copy_tracks(paths: Sequence[Path], folder: Path) -> None:
    """Copies tracks, and the record beside them where all of them are of one."""
    copy_files(paths, folder)
    folders = {path.parent.resolve() for path in paths}
    records = [each / "split.txt" for each in folders if (each / "split.txt").is_file()]
    if records and len(folders) > 1:
        refuse("the tracks are of several folders of which one has a record of its split: take those of one", "text")
    for record in records:
        check_all(record, {path.name for path in paths})
        shutil.copyfile(record, folder / TRACKS / "split.txt")


def check_all(record: Path, names: Iterable[str]) -> None:
    """Refuses some files alone of the tracks of a record, whose others lie beside it."""
    others = (f"{name}.csv" for name in sorted({*read_record(record).tracks}))
    odd = next((name for name in others if name not in names and record.with_name(name).is_file()), None)
    if odd is not None:
        refuse(f"{record.with_name(odd)} is of the same split, and was not named: take all tracks of the folder {record.parent}", "text")


def tracks_at(path: Path) -> list[Path]:
    """A file, or the tracks of a folder."""
    if not path.is_dir():
        return [check_file(path)]
    return sorted((each for each in path.iterdir() if each.name.endswith(".csv")), key=os.fsencode)


def new_folder(into: Path, fill: Callable[[Path], object]) -> None:
    """Makes a folder that is there only once it is whole, with its checksums."""
    if os.path.lexists(into):
        refuse(f"{into} is there already: name another folder", "text")
    part = into.with_name(f"{into.name}.part")
    if part.exists():
        refuse(f"{part} is there: another call is at work, or was killed and left it to be removed", "text")
    check_place(into)
    try:
        part.mkdir()
    except OSError as fault:
        raise FileError(one_line(f"{into}: {fault.strerror}")) from fault
    try:
        fill(part)
        write_sums(part)
        part.rename(into)
    except BaseException:
        shutil.rmtree(part, ignore_errors=True)
        raise


def write_evidence(into: str | os.PathLike[str], paths: Sequence[str | os.PathLike[str]], wish: Wish) -> None:
    """Makes the folder of a report of tracks: files, or folders of them."""
    tracks = [each for path in paths for each in tracks_at(Path(path))]

    def fill(folder: Path) -> None:
        copy_tracks(tracks, folder)
        make_report(folder, wish)

    new_folder(Path(into), fill)


def options_of_herd(words: Sequence[str]) -> dict[str, Any]:
    """The levels and the unit among the options of a herd's runs."""
    found = {"percent": "50,95,100", "unit": "m"}
    rest = list(words)
    while rest:
        word = rest.pop(0)
        name, has_value, value = word.removeprefix("--").partition("=")
        if not has_value:
            value = rest.pop(0) if rest else ""
        found[name] = value
    return found


def write_herd_evidence(into: str | os.PathLike[str], out: Path, program: Program) -> None:
    """Makes the folder of the report of a herd, which tools/herd made in the folder OUT by this program. The one that OUT
    names is not run: the folder may be a stranger's."""
    def lines(path: Path) -> list[str]:
        return path.read_text(encoding="utf-8", errors="surrogateescape").split("\n")[:-1]

    groups = sorted((check_folder(out) / "groups").iterdir())
    paths = [Path(line) for group in groups for line in lines(group)]
    sums = [line.split(" ")[0] for group in groups for line in lines(out / "sums" / group.name)]
    if lines(out / "program")[0].split(" ")[0] != program.checksum:
        raise ProgramError(f"{program.path} is not the program of the plan: name that by HOMERANGE, or call plan.sh")
    options = options_of_herd(lines(out / "options"))

    def fill(folder: Path) -> None:
        copy_tracks(paths, folder)
        for path, wanted in zip(paths, sums):
            if checksum_of(folder / TRACKS / path.name) != wanted:
                refuse(f"{path} is not as plan.sh found it: call plan.sh", "text")
        record = record_in(folder / TRACKS)
        if record:
            check_record(folder / TRACKS, record)
        wish = Wish(options["percent"], options["unit"], program)
        shutil.copyfile(out / REPORT, folder / REPORT)
        finish(folder, wish, unit_of(wish, record), used_tracks(folder), record)

    new_folder(Path(into), fill)
