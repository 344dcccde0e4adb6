"""What homerange-page takes for the folders of herds: seconds from start to end and of the processor, and the greatest memory beside
the bytes of the folder. The report, the tracks and their record are those that the package for Python makes of walks.

    /usr/bin/python3 bench/page.py [ANIMALS FIXES] ..
"""

import os
import subprocess
import sys
import tempfile
import time
import warnings
from pathlib import Path

from package import walks

from homerange import home_range
from homerange.program import find_page_program
from homerange.write.page import put_ranges

JOBS = (64, 10_000), (1_000, 1_000)
TURNS = 3


def folder_of(animals, fixes, folder):
    """Makes the folder of a herd, and answers how many bytes its files have."""
    put_ranges(home_range(walks(animals, fixes), zone="33N", progress=False), folder)
    return sum(path.stat().st_size for path in folder.rglob("*") if path.is_file())


def run(folder):
    """Seconds from start to end and of the processor, and bytes of memory, of one run."""
    begin = time.monotonic()
    running = subprocess.Popen([find_page_program(), folder], stdin=subprocess.DEVNULL)
    _, status, used = os.wait4(running.pid, 0)
    if status != 0:
        sys.exit(f"homerange-page ended with {status}")
    return time.monotonic() - begin, used.ru_utime + used.ru_stime, used.ru_maxrss * 1024


def main(words):
    numbers = [*map(int, words)]
    warnings.simplefilter("ignore")
    for animals, fixes in [*zip(numbers[::2], numbers[1::2])] or JOBS:
        with tempfile.TemporaryDirectory() as room:
            size = folder_of(animals, fixes, Path(room))
            wall, processor, peak = (min(column) for column in zip(*(run(room) for _ in range(TURNS))))
        print(f"{animals} animals of {fixes} fixes: {wall:.2f} s, {processor:.2f} s of the processor, {peak / 1e6:.0f} MB "
              f"beside a folder of {size / 1e6:.0f} MB", flush=True)


if __name__ == "__main__":
    main(sys.argv[1:])
