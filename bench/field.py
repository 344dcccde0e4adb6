"""Times homerange beside what is used today from Debian's packages: base R, sf, Shapely and SciPy.

A peer is a script in bench/field, as its users would write it: it reads the files and prints lines of the report. At
first each program is run once, and its lines are compared with homerange's; where they differ and no reason is known,
the run ends. Then the programs take turns, and a row has the medians: seconds from start to end and of the processor,
the ratio to homerange's time, and the most MB held, of which nothing is known below what this script holds. A program
that takes long is run only that first time. homerange makes its whole report in each case, a peer only what is named.

The folder has the files that `program_files tracks FOLDER` makes; if one is missing, all are made there, for which
`rustc` is needed. Needs Debian's packages r-base-core, r-cran-sf, python3-numpy, python3-scipy and python3-shapely.
"""

import argparse
import itertools
import pathlib
import random
import resource
import shutil
import subprocess
import tempfile
from dataclasses import dataclass

import program
import programs
import timing

SCRIPTS = programs.TOP / "bench" / "field"
# Debian's own Python, which its packages are for.
INTERPRETERS = {".R": "Rscript", ".py": "/usr/bin/python3"}
# What has to succeed where the packages are there.
LOADS = (("Rscript", "-e", "library(sf)"), ("/usr/bin/python3", "-c", "import numpy, scipy, shapely"))
# What takes more milliseconds is run once.
LONG = 15000
HEAD = "| Case | Fixes | Program | s | processor, s | times homerange | MB |\n|---|---|---|---|---|---|---|"
COLUMNS = {
    "row": ("row", "animal", "n", "second", "corners", "area2"),
    "percent": ("percent", "animal", "level", "kept", "corners", "area2"),
    "overlap": ("overlap", "animal", "other", "count", "fixes"),
}
TABLES = {"base R, `chull`": "chull_table.R", "Shapely": "shapely_table.py", "SciPy": "scipy_table.py"}
EACH = {"SciPy, `incremental`": "scipy_each.py"}
PERCENTS = {
    "base R, `chull`": "chull_percents.R",
    "sf": "sf_percents.R",
    "Shapely": "shapely_percents.py",
    "SciPy": "scipy_percents.py",
}
OVERLAPS = {"sf": "sf_overlaps.R", "Shapely": "shapely_overlaps.py", "SciPy": "scipy_overlaps.py"}
# Why a column of a script may differ from the report's.
REASONS = {
    ("chull_table.R", "corners"): "`chull` at times keeps a fix in line with an edge",
    ("scipy_each.py", "area2"): "`volume` leaves out an edge that a fix in line with it made longer",
}


@dataclass(frozen=True)
class Case:
    """Lines of the report that begin with a word, of these files, and the peers that make them: names and scripts."""

    name: str
    word: str
    files: tuple
    peers: dict


CASES = (
    Case("table", "row", ("part0",), TABLES),
    Case("table, shorter walk", "row", ("herd0",), EACH),
    Case("table, traps", "row", ("traps",), TABLES | EACH),
    Case("percent polygons", "percent", ("walk",), PERCENTS),
    Case("overlaps, eight animals", "overlap", program.EIGHT, OVERLAPS),
)


def read_options():
    parser = argparse.ArgumentParser(description=__doc__, formatter_class=argparse.RawDescriptionHelpFormatter)
    parser.add_argument("--homerange", type=pathlib.Path, required=True, metavar="PROG", help="the built program")
    parser.add_argument("--files", type=pathlib.Path, required=True, metavar="FOLDER", help="where the files are, or are made")
    parser.add_argument("--turns", type=timing.one_or_more, default=5, metavar="N", help="how often each program is timed (5)")
    return parser.parse_args()


def check_programs(homerange):
    """Ends the run where a program that is timed is not there."""
    if not shutil.which(homerange):
        raise SystemExit(f"{homerange} is no program")
    for command in LOADS:
        if not shutil.which(command[0]) or subprocess.run(command, capture_output=True).returncode:
            raise SystemExit(f"`{' '.join(command)}` fails: install Debian's packages, which --help lists")


def path_of(folder, name):
    return folder / f"{name}.csv"


def make_traps(folder):
    """A track of an animal that was caught in traps on a grid, 10 m apart: many of its fixes are in line."""
    chosen = random.Random(2)
    places = [(562000 + 10 * chosen.randrange(60), 5134000 + 10 * chosen.randrange(60)) for _ in range(2048)]
    lines = [f"traps,{60 * i},{easting},{northing}\n" for i, (easting, northing) in enumerate(places)]
    path_of(folder, "traps").write_text("animal,second,easting,northing\n" + "".join(lines))


def make_files(folder):
    folder.mkdir(parents=True, exist_ok=True)
    make_traps(folder)
    names = {name for case in CASES for name in case.files}
    if not all(path_of(folder, name).exists() for name in names):
        with tempfile.TemporaryDirectory() as built:
            program.make_files(programs.plain("program_files.rs", built), names, folder)


def commands_of(case, homerange):
    """By name the commands of homerange and its peers."""
    paths = [f"{name}.csv" for name in case.files]
    scripts = {peer: SCRIPTS / script for peer, script in case.peers.items()}
    return {"homerange": [homerange, *paths]} | {
        peer: [INTERPRETERS[script.suffix], script, *paths] for peer, script in scripts.items()
    }


def lines_of(path, word):
    """The fields of the lines that begin with a word."""
    with path.open() as lines:
        yield from (line.rstrip("\n").split(",") for line in lines if line.startswith(f"{word},"))


def differences(report, result, word):
    """By column in how many lines two results differ, and the last two values that do."""
    found = {}
    for ours, theirs in itertools.zip_longest(lines_of(report, word), lines_of(result, word), fillvalue=()):
        if len(ours) != len(theirs):
            raise SystemExit(f"{result.name}: {','.join(theirs) or 'no line'} for {','.join(ours) or 'no line'}")
        for column, our, their in zip(COLUMNS[word], ours, theirs):
            if our != their:
                found[column] = (found.get(column, (0,))[0] + 1, their, our)
    return found


def compare(case, peer, outputs):
    """What is to be said of a peer whose lines differ from the report's. Ends the run where no reason is known."""
    for column, (count, their, our) in differences(outputs["homerange"], outputs[peer], case.word).items():
        said = f"{case.name}, {peer}: `{column}` differs in {count} lines, in the last of them {their} for {our}"
        if (case.peers[peer], column) not in REASONS:
            raise SystemExit(said)
        yield f"{said}, as {REASONS[case.peers[peer], column]}."


def first_runs(commands, outputs, folder):
    """By name what each command took when it wrote its output."""
    found = {}
    for name, command in commands.items():
        with outputs[name].open("wb") as out:
            found[name] = timing.measured(command, folder, out)
    return found


def timed(case, options):
    """How many fixes there are, by name what each program takes, and what is to be said of the results."""
    commands = commands_of(case, options.homerange.resolve())
    with tempfile.TemporaryDirectory() as work:
        outputs = {name: pathlib.Path(work, name) for name in commands}
        found = first_runs(commands, outputs, options.files)
        notes = [note for peer in case.peers for note in compare(case, peer, outputs)]
        fixes = sum(int(count) for *_, count in lines_of(outputs["homerange"], "animal"))
    quick = {name: command for name, command in commands.items() if found[name][0] <= LONG}
    found |= zip(quick, timing.medians(list(quick.values()), options.files, options.turns))
    return fixes, found, notes


def number(value):
    return f"{value:.3f}" if value < 1 else f"{value:.1f}" if value < 10 else f"{value:,.0f}"


def row(names, took, ours):
    """A line of the table: what a program took, behind its names, and the ratio to homerange's time."""
    wall, user, system, memory = took
    least = resource.getrusage(resource.RUSAGE_SELF).ru_maxrss / 1024
    held = f"{memory:,.0f}" if memory > least else f"under {least + 1:.0f}"
    cells = (number(wall / 1000), number((user + system) / 1000), number(wall / ours), held)
    return f"| {' | '.join((*names, *cells))} |"


def main():
    options = read_options()
    check_programs(options.homerange.resolve())
    make_files(options.files)
    began, notes = timing.now(), []
    print(HEAD, flush=True)
    for case in CASES:
        fixes, found, said = timed(case, options)
        notes += said
        for name, took in found.items():
            print(row((case.name, f"{fixes:,}", name), took, found["homerange"][0]), flush=True)
    print("\n".join(["", *notes, "All other lines are those of homerange's report.", timing.stolen_since(began)]))


if __name__ == "__main__":
    main()
