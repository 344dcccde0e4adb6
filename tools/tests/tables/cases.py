"""Reads the cases that unpack.py wrote, and compares with them what a front end made."""
import sys
from pathlib import Path

LISTS = {"animal", "time", "na", "sensor", "argos-class", "fix-type"}


class Case:
    """A case: its table, its call, and what is wanted."""

    def __init__(self, folder):
        self.folder, self.name = folder, folder.name
        self.table = folder / "table.csv"
        self.only = (self.lines("only") or [""])[0]
        self.options = dict(line.partition(" ")[::2] for line in self.lines("call"))
        self.names = dict(line.split("\t") for line in self.lines("names"))
        self.said, self.silent = self.lines("said"), self.lines("silent")
        self.shift = tuple(map(int, (self.lines("shift") or ["0,0"])[0].split(",")))
        self.tracks = {path.stem: path.read_bytes() for path in folder.glob("tracks/*.csv")}

    def lines(self, name):
        path = self.folder / name
        return path.read_text("utf-8").split("\n")[:-1] if path.exists() else []

    def refusal(self):
        """The record and the kind of the refusal that is wanted, or None."""
        found = self.lines("refusal")
        return tuple(found[0].split(" ")) if found else None


def cases(folder, kind):
    """The cases that can be given to this kind of front end, text or frame."""
    for own in sorted(Path(folder).iterdir()):
        case = Case(own)
        if case.only in ("", kind):
            yield case


def difference(wanted, found):
    """How two sets of tracks differ, None where they do not."""
    if wanted.keys() != found.keys():
        return f"animals {sorted(found)} where {sorted(wanted)} are wanted"
    bad = next((name for name in wanted if wanted[name] != found[name]), None)
    return bad and f"{bad}: {found[bad]!r} where {wanted[bad]!r} is wanted"


def report(results):
    """Prints what does not hold, and how many cases do; the status is 0 where all do."""
    bad = [(name, fault) for name, fault in results if fault]
    for name, fault in bad:
        print(f"{name}: {fault}")
    print(f"{len(results) - len(bad)} of {len(results)} tables")
    return 1 if bad or not results else 0


def finish(found):
    """Prints how cases do not come to what is wanted, of their names and faults, which are None where they do, and the counts; and
    ends the run."""
    bad = [(name, fault) for name, fault in found if fault]
    for name, fault in bad:
        print(f"{name}: {fault[:600]}")
    print(f"{len(found) - len(bad)} passed, {len(bad)} failed")
    sys.exit(bool(bad))
