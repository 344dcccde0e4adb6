"""The parts of the program that are timed beside plain Rust: cover flags and counts of points, inserts into a hull,
percent polygons, and files that are followed.

Each part gives its cases, and one run of it what each way came to and took in each of them: the proved program of the
crate `benches`, and plain Rust in the ways that it has.
"""

from collections.abc import Callable
from dataclasses import dataclass
from typing import NamedTuple

import polygon
import programs

OURS = "homerange"
CURVE = 227264
SIZES = (4, 12, 34, 200, 20000)
WORKERS = {**dict.fromkeys(("walk", "cloud", "spiral", "curve", "shuffled"), (1, 4)), "files": (1, 2, 4, 8)}


class Found(NamedTuple):
    """What one way came to in one case, and how many milliseconds it took."""

    case: str
    way: str
    came: str
    took: float


@dataclass(frozen=True)
class Part:
    """A part by its cases; a run is called with the proved program, a plain one by its source, and the wanted cases."""

    cases: tuple
    run: Callable


def milliseconds(text):
    return int(text) / 1000


def text_of(corners):
    return "".join(f"{easting},{northing}\n" for easting, northing in corners)


def curve_text():
    return text_of(polygon.corners(CURVE, margin=0))


def proved(benches, part, text):
    """Of each line of the proved program what it came to, and what it took."""
    results, times = programs.output([benches, part], text)
    return zip(results.splitlines(), times.splitlines(), strict=True)


def flags_run(benches, plain, wanted, size):
    text = text_of(polygon.corners(size))
    for came, took in proved(benches, "lanes", text):
        track, _, covered = came.split(",")
        cases = (f"flags-{size}-{track}", f"counts-{size}-{track}")
        if wanted.isdisjoint(cases):
            continue
        for case, time in zip(cases, took.split(",")[2:]):
            yield Found(case, OURS, covered, milliseconds(time))
        *times, covered = programs.output([plain("lanes_plain.rs"), track], text)[0].split()
        for case, scan, search in zip(cases, times[::2], times[1::2]):
            yield Found(case, "scan", covered, float(scan))
            yield Found(case, "search", covered, float(search))


def flags(size):
    cases = [f"{work}-{size}-{track}" for work in ("flags", "counts") for track in ("scattered", "walk")]
    return Part(tuple(cases), lambda *given: flags_run(*given, size))


def inserts_run(benches, plain, wanted):
    text = curve_text()
    for came, took in proved(benches, "hull", text):
        track, came = came.split(",", 1)
        case = f"inserts-{track}"
        if case in wanted:
            yield Found(case, OURS, came, milliseconds(took.split(",")[1]))
            for chains in ("vectors", "trees"):
                took, came = programs.output([plain("hull_plain.rs"), track, chains], text)[0].split()
                yield Found(case, chains, came, milliseconds(took))


def percents_run(benches, plain, _):
    rows, time = programs.output([benches, "percents"], "")
    yield Found("percents", OURS, rows, milliseconds(time))
    rows, times = programs.output([plain("stats_plain.rs")], "")
    for way, time in zip(("full sort", "selection"), times.split(), strict=True):
        yield Found("percents", way, rows, milliseconds(time))


def follow_case(track, workers):
    return f"follow-{track}-{workers}"


def follow_run(benches, plain, _):
    text = curve_text()
    for came, took in proved(benches, "follow", text):
        track, workers, came = came.split(",", 2)
        yield Found(follow_case(track, workers), OURS, came, milliseconds(took.split(",")[2]))
    for line in programs.output([plain("follow_plain.rs")], text)[0].splitlines():
        track, took, came = line.split(",", 2)
        for workers in WORKERS[track]:
            yield Found(follow_case(track, workers), "one thread", came, milliseconds(took))


PARTS = (
    *map(flags, SIZES),
    Part(tuple(f"inserts-{track}" for track in ("walk", "cloud", "spiral", "curve", "shuffled")), inserts_run),
    Part(("percents",), percents_run),
    Part(tuple(follow_case(track, count) for track, counts in WORKERS.items() for count in counts), follow_run),
)


def one_run(part, benches, plain, wanted):
    """By case and way what a run took. Ends where two ways came to something else."""
    took, came = {}, {}
    for found in part.run(benches, plain, wanted):
        if came.setdefault(found.case, found.came) != found.came:
            raise SystemExit(f"{found.case}: {came[found.case]}, but {found.way} says {found.came}")
        took.setdefault(found.case, {})[found.way] = found.took
    return took


def best(part, benches, plain, wanted, runs):
    """By wanted case and way the least that any of the runs took."""
    took = [one_run(part, benches, plain, wanted) for _ in range(runs)]
    return {
        case: {way: min(run[case][way] for run in took) for way in took[0][case]}
        for case in part.cases
        if case in wanted
    }
