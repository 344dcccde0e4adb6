"""What calls of the package for Python take for tables of walks: seconds of processors, of Python and of the programs that it
runs, and the greatest memory of Python. Each job has a process of its own, which makes its table first.

    /usr/bin/python3 bench/package.py [JOB ..]
"""

import multiprocessing
import os
import resource
import subprocess
import sys
import tempfile
import warnings
from pathlib import Path

TOP = Path(__file__).resolve().parent.parent
sys.path.insert(0, str(TOP / "python"))
SIDE = 5  # metres of a step of a walk, as a standard deviation
APART = 400  # metres between the first fixes of two animals


def walks(animals, fixes):
    """A table of walks of so many animals, a fix a minute."""
    import numpy
    import pandas

    draw = numpy.random.default_rng(1)
    steps = draw.normal(0, SIDE, (2, animals, fixes)).cumsum(axis=2).round(1)
    first = APART * numpy.arange(animals)[:, None]
    return pandas.DataFrame({
        "animal": numpy.repeat([f"animal {number}" for number in range(1, animals + 1)], fixes),
        "timestamp": pandas.Timestamp("2020-01-01", tz="UTC") + pandas.to_timedelta(numpy.tile(numpy.arange(fixes), animals), "min"),
        "easting": (562000 + first + steps[0]).ravel(), "northing": (5134000 + steps[1]).ravel()})


def seconds_of(who):
    used = resource.getrusage(who)
    return used.ru_utime + used.ru_stime


class Clock:
    """The seconds of processors since it was made, of this process and of those that it ran and that ended."""

    def __init__(self):
        self.begin = self.now()

    def now(self):
        return seconds_of(resource.RUSAGE_SELF), seconds_of(resource.RUSAGE_CHILDREN)

    def said(self):
        own, others = (now - before for now, before in zip(self.now(), self.begin))
        return f"{own + others:.2f} s ({others:.2f} of programs)"


def timed(name, call):
    """Says what a call takes, and answers what it does."""
    clock = Clock()
    found = call()
    peak = resource.getrusage(resource.RUSAGE_SELF).ru_maxrss // 1024
    print(f"{name}: {clock.said()}, {peak} MB", flush=True)
    return found


def of_table(animals, fixes):
    """The ranges of a table, and what is asked of them at 95 per cent."""
    from homerange import home_range

    table, name = walks(animals, fixes), f"{animals} animals of {fixes} fixes"
    ranges = timed(name, lambda: home_range(table, progress=False))
    timed(f"{name}, corners at 95 %", lambda: ranges.corners(95))
    if animals > 1:
        timed(f"{name}, overlaps at 95 %", lambda: ranges.overlap(level=95))


def evidence(animals, fixes):
    """The folder of evidence of a table."""
    from homerange import home_range

    ranges = home_range(walks(animals, fixes), progress=False)
    with tempfile.TemporaryDirectory() as folder:
        timed(f"evidence of {animals} animals of {fixes} fixes", lambda: ranges.evidence(Path(folder, "made")))


def script(animals, fixes):
    """The command that goes from an export to tables, layers and the page."""
    with tempfile.TemporaryDirectory() as folder:
        walks(animals, fixes).to_csv(Path(folder, "export.csv"), index=False)
        command = [TOP / "tools" / "ranges.sh", "export.csv", "made"]
        timed(f"ranges.sh of {animals} animals of {fixes} fixes", lambda: subprocess.run(command, cwd=folder, capture_output=True, check=True))


JOBS = {
    "one": lambda: of_table(1, 10 ** 6), "some": lambda: of_table(200, 5_000), "many": lambda: of_table(960, 100),
    "evidence": lambda: evidence(64, 10_000), "script": lambda: script(40, 5_000)}


def main():
    warnings.simplefilter("ignore")
    for name in sys.argv[1:] or JOBS:
        job = multiprocessing.get_context("fork").Process(target=JOBS[name])
        job.start()
        job.join()
        if job.exitcode:
            sys.exit(f"package.py: the job {name} failed")


if __name__ == "__main__":
    os.environ.setdefault("PYTHONDONTWRITEBYTECODE", "1")
    main()
