"""Runs of a program in which calls are made to fail by the library of `refuse.c`, which is preloaded. Needs `cc`."""

import itertools
import os
import pathlib
import struct
import subprocess
import typing

HERE = pathlib.Path(__file__).resolve().parent
SECONDS = 60
# The kinds of calls, in the order in which they are counted.
KINDS = ("REFUSE", "READ", "WRITE", "STORE", "SAY", "OPEN", "STAT", "MAKE", "SYNC", "CLOSE", "PLACE", "LIST", "REMOVE")


class Wrong(Exception):
    """An answer that no run with these failures may give."""


def sampled(count, most):
    """The numbers from 1 to this one, or so many of them, as far apart."""
    if count <= most:
        return range(1, count + 1)
    return [1 + i * (count - 1) // (most - 1) for i in range(most)]


def tree(folder):
    """What a folder holds: what a link leads to, the bytes of each file, and nothing of all else."""
    found = {}
    for path in folder.rglob("*"):
        kept = os.readlink(path) if path.is_symlink() else path.read_bytes() if path.is_file() else None
        found[str(path.relative_to(folder))] = kept
    return found


class Found(typing.NamedTuple):
    """What a run came to: its status, both outputs, and what its folder then holds."""

    status: int
    output: str
    told: str
    files: dict

    def __str__(self):
        return f"status {self.status}, {self.told[:400]!r}, files {sorted(self.files)}"


class Runs:
    """Runs of a program in a folder in which calls fail."""

    def __init__(self, program, folder):
        self.program, self.folder, self.numbers = str(program.resolve()), folder, itertools.count()
        self.library = folder / "refuse.so"
        subprocess.run(["cc", "-O2", "-shared", "-fPIC", HERE / "refuse.c", "-o", self.library], check=True)

    def run(self, words, failing, folder=None, input_path="/dev/null"):
        """Status, output and standard error of a run in which these fail, and the number of its calls of each kind."""
        count = self.folder / f"count-{next(self.numbers)}"
        environment = {"LD_PRELOAD": str(self.library), "REFUSE_COUNT": str(count), **failing}
        try:
            with open(input_path, "rb") as given:
                done = subprocess.run(
                    [self.program, *words],
                    cwd=folder or self.folder,
                    env=environment,
                    stdin=given,
                    capture_output=True,
                    text=True,
                    timeout=SECONDS,
                )
        except subprocess.TimeoutExpired:
            raise Wrong(f"{failing} failed: no end within {SECONDS} seconds") from None
        counts = struct.unpack(f"<{len(KINDS)}q", count.read_bytes())
        count.unlink()
        return (done.returncode, done.stdout, done.stderr), dict(zip(KINDS, counts))
