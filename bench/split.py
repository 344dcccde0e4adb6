"""Times homerange-split beside R that reads and projects, over exports of several sizes.

An export has Movebank's 17 columns with longitude and latitude, or 5 columns in metres, and 1 animal, 1,000 or 10,000. R, a
script of bench/field, only reads by `data.table::fread`, projects by `sf::st_transform`, sorts and writes one file. Both
take turns, and a row has the medians: seconds from start to end and of the processor, microseconds of the processor for
each record, and the most MB held, of which nothing is known below what this script holds.

Needs Debian's packages r-cran-data.table and r-cran-sf; without them R is left out.
"""

import argparse
import datetime
import pathlib
import random
import shutil
import statistics
import subprocess
import tempfile
from dataclasses import dataclass

import programs
import timing

SCRIPT = programs.TOP / "bench" / "field" / "fread_tracks.R"
START = datetime.datetime(2024, 5, 1)
SIZES = (100, 1_000, 10_000, 100_000, 1_000_000, 10_000_000)
USUAL = 1_000_000
ANIMALS = (1, 1_000, 10_000)
MOVEBANK = (
    "event-id,visible,timestamp,location-long,location-lat,gps:dop,gps:satellite-count,height-above-msl,"
    "external-temperature,tag-voltage,import-marked-outlier,sensor-type,individual-taxon-canonical-name,tag-local-identifier,"
    "individual-local-identifier,study-name,study-local-timestamp"
)
METRES = "id,date,x,y,note"
HEAD = (
    "| Export | Records | Animals | MB | Program | s | processor, s | microseconds a record | MB held |\n"
    "|---|---|---|---|---|---|---|---|---|"
)
# What a command is begun by, so that it says nothing.
QUIET = ("sh", "-c", 'exec "$@" 2>/dev/null', "sh")


@dataclass(frozen=True)
class Case:
    """An export: whether it has Movebank's columns, and how many records and animals."""

    is_movebank: bool
    records: int
    animals: int

    @property
    def name(self):
        return "Movebank, degrees" if self.is_movebank else "metres"


def movebank_line(draw, at, animal, time):
    """A record as Movebank writes it."""
    east, north = 15.8 + 0.1 * draw(), 46.3 + 0.1 * draw()
    clock = time.strftime("%Y-%m-%d %H:%M:%S.000")
    return (
        f"{9_000_000_000 + at},true,{clock},{east:.7f},{north:.7f},{1 + 4 * draw():.1f},{4 + at % 9},"
        f'{300 + 90 * draw():.1f},{20 * draw():.1f},{3500 + at % 700},,"gps","Vulpes vulpes","tag {animal}",'
        f'"fox {animal}","A study of foxes",{clock}\n'
    )


def metres_line(draw, at, animal, time):
    east, north = 562_000 + 9000 * draw(), 5_134_000 + 9000 * draw()
    return f"fox {animal},{time:%Y-%m-%dT%H:%M:%SZ},{east:.2f},{north:.2f},none\n"


def write_export(case, path):
    """Writes the export of a case, whose animals take turns."""
    draw, line = random.Random(1).random, movebank_line if case.is_movebank else metres_line
    with path.open("w", encoding="utf-8") as file:
        file.write(f"{MOVEBANK if case.is_movebank else METRES}\n")
        for at in range(case.records):
            file.write(line(draw, at, at % case.animals, START + datetime.timedelta(seconds=30 * (at // case.animals))))


def loads(command):
    return shutil.which(command[0]) and subprocess.run(command, capture_output=True).returncode == 0


def all_peers(proved, is_movebank):
    """The folder and the command of each program, by name, without those whose packages are not there."""
    found = {"homerange-split": ("own", proved, "--into", "own", "export.csv")}
    if loads(["Rscript", "-e", "library(data.table); library(sf)"]):
        name = "R, `fread`, `st_transform`" if is_movebank else "R, `fread`"
        found[name] = "third", "Rscript", SCRIPT, "export.csv", "third"
    return {name: (folder, [*QUIET, *map(str, command)]) for name, (folder, *command) in found.items()}


def measured(into, command, folder):
    """What a command takes that makes this folder anew."""
    shutil.rmtree(folder / into, ignore_errors=True)
    return timing.measured(command, folder)


def time_case(case, proved, turns):
    """Prints the rows of a case."""
    with tempfile.TemporaryDirectory() as name:
        folder = pathlib.Path(name)
        timing.apart(write_export, case, folder / "export.csv")
        size = (folder / "export.csv").stat().st_size / 1e6
        peers = all_peers(proved, case.is_movebank)
        for peer in peers.values():
            measured(*peer, folder)
        runs = [[measured(*peer, folder) for peer in peers.values()] for _ in range(turns)]
    for peer, own in zip(peers, zip(*runs)):
        took, user, system, held = map(statistics.median, zip(*own))
        used = (user + system) / 1000
        start = f"| {case.name} | {case.records:,} | {case.animals:,} | {size:.1f} | {peer}"
        print(f"{start} | {took / 1000:.3f} | {used:.3f} | {1e6 * used / case.records:.2f} | {held:.0f} |", flush=True)


def read_options():
    parser = argparse.ArgumentParser(description=__doc__.split("\n\n")[0])
    parser.add_argument("--program", type=pathlib.Path, help="the built program; if left out it is built by rt")
    parser.add_argument("--turns", type=timing.one_or_more, default=3, help="how often each is run [default: 3]")
    parser.add_argument("--most", type=timing.one_or_more, default=USUAL, help=f"records of the greatest export [default: {USUAL}]")
    return parser.parse_args()


def main():
    options = read_options()
    proved = (options.program or programs.proved("homerange_split", "--version")).resolve()
    then = timing.now()
    print(HEAD)
    for is_movebank in (True, False):
        for records in (size for size in SIZES if size <= options.most):
            for animals in (count for count in ANIMALS if 2 * count <= records):
                time_case(Case(is_movebank, records, animals), proved, options.turns)
    print(timing.stolen_since(then))


if __name__ == "__main__":
    main()
