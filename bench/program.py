"""The cases in which the whole program is timed beside plain Rust on one thread, and their files.

Plain Rust has its chains of corners as sorted vectors or as trees, and reads fields by itself, or by the crate csv (with
trees for curves). What all programs write is compared, byte for byte.
"""

import filecmp
import os
import pathlib
import subprocess
from dataclasses import dataclass

import programs
import timing

# The curves: how many corners they have, and the limit of their coordinates.
CURVES = {"curve": (227264, timing.METRES), "fine-curve": (900000, timing.DECIMETRES)}
EIGHT = tuple(f"part{i}" for i in range(8))
HERD = tuple(f"herd{i}" for i in range(64))
PEERS = {"vectors": (), "trees": ("--trees",)}
BY_CSV = "csv"


@dataclass(frozen=True)
class Case:
    """What is run: the files, the options that all programs get, those of the proved one alone, and the peers."""

    name: str
    files: tuple
    options: tuple = ()
    own: tuple = ()
    peers: tuple = tuple(PEERS)
    cores: int = 0  # all of them where it is 0
    turns: int = 9


def all_cases():
    """Walks and the like at first, then the curves."""
    for name in ("walk", "scattered", "growing"):
        yield Case(name, (name,))
    for cores in (1, 2, 4):
        yield Case(f"walk-cores-{cores}", ("walk",), cores=cores)
    yield Case("walk-block-1", ("walk",), own=("--block", "1"))
    yield Case("walk-cores-1-block-1", ("walk",), own=("--block", "1"), cores=1)
    for workers in (1, 2, 4, 8):
        yield Case(f"eight-workers-{workers}", EIGHT, own=("--workers", str(workers)))
    yield Case("herd", HERD)
    orders = ("", "-shuffled", "-falling")
    for order in orders:
        yield Case(f"curve{order}", (f"curve{order}",), turns=5)
    yield Case("curve-block-1", ("curve",), own=("--block", "1"), turns=3)
    # Vectors would take minutes.
    for order in orders:
        yield Case(f"fine-curve{order}", (f"fine-curve{order}",), ("--unit", "dm"), peers=("trees",), turns=3)


CASES = {case.name: case for case in all_cases()}


def make_files(maker, names, folder):
    """Writes the files of these names, and those that are made with them."""
    for curve, (count, limit) in CURVES.items():
        if any(name.startswith(curve) for name in names):
            timing.make_curves(maker, curve, count, limit, folder)
    programs.output([maker, "tracks", folder], "")


def commands_of(case, proved, plain, by_csv):
    """The command of the proved program, and those of its peers, by name; the last is that of the crate csv."""
    cores = sorted(os.sched_getaffinity(0))[: case.cores]
    start = ["taskset", "-c", ",".join(map(str, cores))] if case.cores else []
    arguments = [*case.options, *(f"{name}.csv" for name in case.files)]
    peers = {peer: [*start, plain, *PEERS[peer], *arguments] for peer in case.peers}
    chains = PEERS["trees" if "curve" in case.name else "vectors"]
    return {"homerange": [*start, proved, *case.own, *arguments], **peers, BY_CSV: [*start, by_csv, *chains, *arguments]}


def compare(case, commands, folder):
    """Ends the run where what the commands print differs."""
    reports = [pathlib.Path(folder) / f"report{i}" for i in range(len(commands))]
    for command, report in zip(commands.values(), reports):
        with report.open("wb") as out:
            subprocess.run(command, cwd=folder, stdout=out, check=True)
    if not all(filecmp.cmp(reports[0], report, shallow=False) for report in reports[1:]):
        raise SystemExit(f"{case.name}: the reports differ")
    for report in reports:
        report.unlink()
