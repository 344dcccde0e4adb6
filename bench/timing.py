"""What the benches share: files that are made, and programs that are timed in turns."""

import argparse
import multiprocessing
import os
import pathlib
import statistics
import subprocess
import time

import polygon
import programs

# The limits of coordinates in metres and in decimetres.
METRES = 1 << 24
DECIMETRES = 1 << 27


def one_or_more(text):
    """How often something is run, from a word of the command line."""
    if not text.isdecimal() or int(text) < 1:
        raise argparse.ArgumentTypeError(f"{text} is not 1 or more")
    return int(text)


def make_curves(maker, name, count, limit, folder):
    """Writes the files of a curve of so many corners, whose fixes come in three orders."""
    text = "".join(f"{e},{n}\n" for e, n in polygon.corners(count, margin=0, limit=limit))
    programs.output([maker, "curve", folder, name], text)


def apart(work, *given):
    """Works in a process of its own, since a run's peak counts what the process that starts it held."""
    working = multiprocessing.Process(target=work, args=given)
    working.start()
    working.join()
    if working.exitcode:
        raise SystemExit(working.exitcode)


def measured(command, folder, out=subprocess.DEVNULL):
    """The milliseconds that a command takes, those of its processor time, its own and the system's, and the most MB."""
    start = time.perf_counter()
    running = subprocess.Popen(command, cwd=folder, stdout=out)
    _, status, usage = os.wait4(running.pid, 0)
    took = time.perf_counter() - start
    if status:
        words = " ".join(map(str, command))
        raise SystemExit(f"{words} ended with {os.waitstatus_to_exitcode(status)}")
    return took * 1000, usage.ru_utime * 1000, usage.ru_stime * 1000, usage.ru_maxrss / 1024


def medians(commands, folder, turns):
    """Of each command the medians of what it takes; the commands take turns."""
    runs = [[measured(command, folder) for command in commands] for _ in range(turns)]
    return [tuple(map(statistics.median, zip(*command))) for command in zip(*runs)]


def stolen():
    """The seconds of this machine's processors that other machines had while work waited here, since it was started."""
    ticks = pathlib.Path("/proc/stat").read_text().split("\n")[0].split()[8]
    return int(ticks) / os.sysconf("SC_CLK_TCK")


def now():
    """The time, and what other machines had until then."""
    return time.monotonic(), stolen()


def stolen_since(then):
    """The share of the processors' time that other machines took since then, in words."""
    (began, before), (ended, after) = then, now()
    return f"Other machines took {(after - before) / (ended - began) / os.cpu_count():.1%} of the processors' time."
