#!/usr/bin/env python3
"""Says how far `rt ci` is, of which it reads what is written: a line for each crate that is proved, for its tests and for
its edits as they begin, with the minutes so far. What failed is passed on as it stands.

    rt ci 2>&1 | tools/progress.py
"""
import os
import re
import sys
import time
from pathlib import Path

CRATES = Path(__file__).resolve().parents[1] / "crates"
GATE_SECONDS = 12_685  # of processors, from nothing: docs/GATE.md
DONE = re.compile("rt: ([a-z_]+)(?:: (its tests are|trying its must-fail edits))?( proved)?")
FAILED = re.compile("NOT PROVED|BAD EDIT|FAILED|[0-9]+ passed, [0-9]+ failed")


class Progress:
    """What is done, of how much."""

    def __init__(self, crates: int, with_edits: int, minutes: int) -> None:
        self.all, self.minutes, self.begin = {"proved": crates, "begun": with_edits}, minutes, time.monotonic()
        self.done = {"proved": 0, "begun": 0}

    def count(self, what: str) -> str:
        self.done[what] += 1
        return f"{self.done[what]} of {self.all[what]}"

    def said_of(self, line: str) -> str | None:
        """What to say of a line; None where that is nothing."""
        found = DONE.match(line)
        if FAILED.search(line):
            return line
        if not found or not (found[2] or found[3]):
            return None
        name, of, _ = found.groups()
        if of is None:
            text = f"{self.count('proved')} crates are proved: {name}"
        elif of == "its tests are":
            text = f"tests of {name} are proved"
        else:
            text = f"{self.count('begun')} crates' edits are tried: {name}"
        return f"gate: {text}; {(time.monotonic() - self.begin) / 60:.0f} of some {self.minutes} minutes"


def main() -> None:
    folders = [path for path in CRATES.iterdir() if (path / "src").is_dir()]
    minutes = -(-GATE_SECONDS // 60 // len(os.sched_getaffinity(0)))
    progress = Progress(len(folders), sum((path / "must-fail").is_dir() for path in folders), minutes)
    for line in sys.stdin:
        said = progress.said_of(line.rstrip("\n"))
        if said is not None:
            print(said, flush=True)


if __name__ == "__main__":
    main()
