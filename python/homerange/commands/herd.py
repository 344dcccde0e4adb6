"""The runs of a herd, of more animals than a run of homerange takes, and one report of them, as a single run would write it.

    plan TRACKS OUT [OPTION ..]   writes into OUT what is to be run of the files TRACKS/*.csv
    run TRACKS OUT [OPTION ..]    plans, makes all runs, several at once, and merges
    merge OUT                     writes OUT/report.txt of the runs that were made

OPTION .. are those of homerange, such as --unit dm. JOBS in the environment says how many runs are made at once. A call that
was killed is called again, and goes on where it was.

A merge reads each report of a run by its grammar. All are to be of the groups that were planned, in one unit and of the same
levels; each animal is to stand in one of them, and an overlap that several have is to be the same in all. Where
homerange-split made the tracks, animals and numbers of fixes are to be those of its record. Each run is to be of the program,
the options and the tracks of the plan, and each track is to be as it was planned. What is not so is said in one line, with
status 1, and there is no OUT/report.txt then."""

from __future__ import annotations

import argparse
import hashlib
import os
import subprocess
import sys
from array import array
from concurrent.futures import ThreadPoolExecutor
from contextlib import contextmanager
from itertools import chain, combinations
from pathlib import Path
from typing import Callable, Iterator, Sequence

from ..bar import progress_of
from ..errors import HomeRangeError, ProgramError, ReportError, check_folder, one_line
from ..program import CLONE, PACKAGE, checksum_of
from ..record import difference_from_record, record_in
from ..report import TEXT, Animal, Lines
from .options import Options, program_of_command, text_of_fault

# The scripts of a plan and of a run: those of the clone, which the wheel carries.
SCRIPTS = PACKAGE / "herd" if CLONE is None else CLONE / "tools" / "herd"


def need(holds: object, text: str) -> None:
    if not holds:
        raise ReportError(one_line(text))


@contextmanager
def report_of(path: Path) -> Iterator[Lines]:
    """The lines of a run's report."""
    with open(path, **TEXT) as file:
        yield Lines(file, str(path))


def lines_of(path: Path) -> list[str]:
    with open(path, **TEXT) as file:
        return [line.rstrip("\n") for line in file]


def read_groups(out: Path) -> dict[str, int]:
    """The number of files of each group, by its name, where the groups are those of the steps."""
    groups = {path.name: len(lines_of(path)) for path in sorted((out / "groups").iterdir())}
    need(groups, f"{out / 'groups'}: there is none")
    need(list(groups) == [f"{number:04}" for number in range(len(groups))], f"{out / 'groups'}: one is not there")
    planned = [*(f"{group} {group}" for group in groups), *map(" ".join, combinations(groups, 2))]
    need(lines_of(out / "steps") == planned, f"{out / 'steps'}: not the steps of the {len(groups)} groups")
    return groups


def check_record(out: Path, animals: dict[str, int]) -> None:
    """Refuses animals, and numbers of fixes, that are not those of the record beside the tracks, where there is one."""
    folders = {Path(line).parent for group in (out / "groups").iterdir() for line in lines_of(group)}
    for record in filter(None, map(record_in, sorted(folders))):
        fault = difference_from_record(record, animals)
        need(fault is None or len(folders) > 1, f"{out}: {fault}")


def sum_of(path: str) -> str:
    """The line that sha256sum has for a file."""
    checksum = checksum_of(path)
    plain = path.replace("\\", "\\\\")
    return f"{chr(92) * (plain != path)}{checksum}  {plain}"


def check_tracks(out: Path, group: str) -> None:
    """Refuses a group one of whose tracks is not as plan.sh found it."""
    sums = lines_of(out / "sums" / group)
    paths = lines_of(out / "groups" / group)
    need(len(sums) == len(paths), f"{out / 'sums' / group}: other files than in the group: call plan.sh")
    for path, wanted in zip(paths, sums):
        need(sum_of(path) == wanted, f"{path} is not as plan.sh found it: call plan.sh")


def key_of(out: Path, groups: Sequence[str]) -> str:
    """What step.sh writes beside what it made of these groups."""
    program = (out / "program").read_bytes().split(b" ")[0] + b"\n"
    parts = [program, (out / "options").read_bytes(), *((out / "sums" / group).read_bytes() for group in groups)]
    return hashlib.sha256(b"".join(parts)).hexdigest()


def check_run(out: Path, made: Path, *groups: str) -> None:
    """Refuses a run that was made of something else than is planned."""
    need(lines_of(out / made.with_suffix(".key")) == [key_of(out, groups)],
         f"{out / made} was made of other tracks or options, or by another program: call step.sh")


class Herd:
    """The reports of a herd's runs, and what is known of them."""

    def __init__(self, out: Path, write: Callable[[str], object]) -> None:
        self.out, self.write = out, write
        self.files = read_groups(out)
        self.unit: str | None = None
        self.levels: list[int] | None = None
        self.animals: dict[str, dict[str, int]] = {}  # the number of fixes of each animal, by group and name
        self.counts: dict[str, dict[str, array[int]]] = {}  # the overlaps of each animal with a group, by its name and the group

    def read_group(self, group: str) -> None:
        """Hands on the lines of a group's animals, and keeps their overlaps."""
        animals = self.animals.setdefault(group, {})
        with report_of(self.out / "reports" / f"{group}.txt") as report:
            unit = report.unit()
            need(self.unit in (None, unit), f"{report.where}: another unit than in the groups before")
            if self.unit is None and unit == "dm":
                self.write("unit,dm\n")
            self.unit = unit
            for _ in range(self.files[group]):
                animal = Animal(report, self.levels, self.write)
                need(animal.name not in self.counts, f"{report.where}: {animal.name} is there twice")
                animals[animal.name], self.levels = animal.fixes, animal.levels
                self.counts[animal.name] = {}
            for name, counts in report.overlaps(animals).items():
                self.counts[name][group] = counts
            report.end(self.files[group])

    def read_pair(self, first: str, second: str) -> None:
        """Keeps the overlaps of two groups' animals, where those within a group are what the group has."""
        with report_of(self.out / "pairs" / f"{first}-{second}.txt") as report:
            counts = report.overlaps(self.animals[first] | self.animals[second])
            report.end(self.files[first] + self.files[second])
        others = self.files[first]
        for group, other, own, cross in (
            (first, second, slice(others - 1), slice(others - 1, None)),
            (second, first, slice(others, None), slice(others)),
        ):
            for name in self.animals[group]:
                same = counts[name][own] == self.counts[name][group]
                need(same, f"{report.where}: {name} has other overlaps than in group {group}")
                self.counts[name][other] = counts[name][cross]

    def write_overlaps(self, group: str, names: Sequence[str]) -> None:
        """Hands on the overlaps of a group's animals with all others, and keeps them no longer."""
        for name, fixes in self.animals[group].items():
            counts = self.counts.pop(name)
            others = (other for other in names if other != name)
            for other, count in zip(others, chain.from_iterable(counts[group] for group in self.files)):
                self.write(f"overlap,{name},{other},{count},{fixes}\n")

    def merge(self) -> int:
        """Hands on the whole report, and says of how many animals it is."""
        for group in self.files:
            self.read_group(group)
        check_record(self.out, {name: fixes for animals in self.animals.values() for name, fixes in animals.items()})
        names = list(self.counts)
        for number, group in enumerate(self.files):
            check_tracks(self.out, group)
            check_run(self.out, Path("reports", f"{group}.txt"), group)
            for other in list(self.files)[number + 1:]:
                self.read_pair(group, other)
                check_run(self.out, Path("pairs", f"{group}-{other}.txt"), group, other)
            self.write_overlaps(group, names)
        self.write(f"end,{len(names)}\n")
        return len(names)


def merge(out: Path, name: str) -> None:
    """Writes the report of a herd, or none."""
    check_folder(out)
    report, part = out / "report.txt", out / "report.part"
    try:
        report.unlink(missing_ok=True)
        with part.open("w", **TEXT) as file:
            animals = Herd(out, file.write).merge()
        part.rename(report)
    except (HomeRangeError, OSError) as fault:
        part.unlink(missing_ok=True)
        text = f"{fault.filename or part}: {fault.strerror}" if isinstance(fault, OSError) else str(fault)
        raise ReportError(text.encode(errors="surrogateescape").decode(errors="replace")) from None
    print(f"{name}: {animals} animals, {animals * (animals - 1)} overlaps", file=sys.stderr)


def call(script: str, words: Sequence[str], program: str) -> int:
    """The status of a script, which says itself what is wrong."""
    try:
        return subprocess.run([SCRIPTS / script, *words], env={**os.environ, "HOMERANGE": program}).returncode
    except OSError as fault:
        raise ProgramError(one_line(f"{SCRIPTS / script} does not run: {fault.strerror}: install the package again")) from fault


def run(out: str, program: str) -> bool:
    """Makes the runs of a plan, several at once; answers whether all are there."""
    steps = [line.split(" ") for line in lines_of(Path(out, "steps"))]
    jobs = os.environ.get("JOBS") or str(len(os.sched_getaffinity(0)))
    need(jobs.isdecimal() and int(jobs), f"JOBS={jobs} is not a number from 1")
    shown = progress_of(None)
    faults = 0
    with ThreadPoolExecutor(int(jobs)) as pool:
        for done, status in enumerate(pool.map(lambda groups: call("step.sh", [out, *groups], program), steps), 1):
            faults += status != 0
            if shown:
                shown(done, len(steps))
    return not faults


def folders_of(words: Sequence[str]) -> list[str]:
    """The words that are no options of homerange, each of which has a value."""
    found, left = list[str](), list(words)
    while left:
        word = left.pop(0)
        if not word.startswith("--"):
            found.append(word)
        elif "=" not in word and left:
            left.pop(0)
    return found


def read_options(name: str) -> argparse.Namespace:
    parser = Options(name, __doc__)
    parser.add_argument("what", choices=("plan", "run", "merge"), help="what to do")
    parser.add_argument("words", nargs=argparse.REMAINDER, metavar="..", help="the folders, and the options of homerange")
    options = parser.parse_args()
    for word in {"-h", "--help", "--version"}.intersection(options.words):
        parser.parse_args([word])
    if options.what == "merge" and options.words[:1] and options.words[0].startswith("-"):
        parser.error(f"{options.words[0]} is no option")
    if (len(options.words) != 1) if options.what == "merge" else (len(folders_of(options.words)) != 2):
        parser.error("give the folder OUT alone" if options.what == "merge" else
                     "give the folder of the tracks and the folder to make")
    return options


def main(name: str = "homerange-herd") -> None:
    options = read_options(name)
    try:
        if options.what == "merge":
            merge(Path(options.words[0]), name)
            return
        program = program_of_command()
        planned = call("plan.sh", options.words, program)
        if planned or options.what == "run" and not run(folders_of(options.words)[1], program):
            sys.exit(planned or 1)
        if options.what == "run":
            merge(Path(folders_of(options.words)[1]), name)
    except (HomeRangeError, OSError) as fault:
        sys.exit(f"{name}: {text_of_fault(fault)}")


if __name__ == "__main__":
    main()
