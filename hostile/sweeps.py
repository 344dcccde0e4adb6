"""Sweeps over a program that reads and writes files: calls of it fail in turn. `split_faults.py` and `page_faults.py` say what
each program is given and in which ways a run may end. Needs `cc`.

Each run has a folder of its own, and first goes unhindered. Then call k of each kind fails, k = 1, 2, .. until a run has no
such call: alone and with each call of the kind behind it, with one error and another; reads and writes also take less than
they are given. Each run has to end within a minute.
"""

import argparse
import collections
import concurrent.futures
import os
import pathlib
import re
import sys
import tempfile
import typing
from errno import EACCES, EDQUOT, EEXIST, EINTR, EINVAL, EIO, EMFILE, ENOSPC, ENOTEMPTY, EPIPE, EROFS, EXDEV

import refusing
from refusing import Found, Wrong, sampled, tree

SHOWN = 3  # wrong runs of a sweep
LESS = 0  # no error: less is read or written
# The errors of each kind of call.
ERRORS = {
    "REFUSE": (None,),
    "READ": (EIO, EINTR, LESS),
    "WRITE": (ENOSPC, EPIPE, EINTR, LESS),
    "STORE": (ENOSPC, EDQUOT, EIO, EINTR, LESS),
    "SAY": (ENOSPC, EPIPE, EINTR, LESS),
    "OPEN": (EMFILE, EACCES, EINTR),
    "STAT": (EACCES, EIO),
    "MAKE": (EACCES, ENOSPC, EROFS, EEXIST),
    "SYNC": (EIO, ENOSPC, EINVAL, EINTR),
    "CLOSE": (EIO, EINTR),
    "PLACE": (EIO, EXDEV, EACCES, ENOTEMPTY),
    "LIST": (EIO, EACCES),
    "REMOVE": (EIO, EACCES),
}


class Case(typing.NamedTuple):
    """Words of the program, the files of its folder, the status that it ends with, and what is standard input."""

    name: str
    words: tuple
    files: dict
    status: int = 0
    given: str | None = None


class Trial(typing.NamedTuple):
    """Calls of a kind that fail in turn, with this error, alone or for good, beside what fails already."""

    kind: str
    error: int | None
    is_for_good: bool
    beside: dict = {}

    def failing(self, at):
        more = {f"{self.kind}_AT": str(at)}
        if self.error is not None:
            more[f"{self.kind}_AS"] = str(self.error)
        if self.is_for_good:
            more[f"{self.kind}_ON"] = "1"
        return {**self.beside, **more}

    @property
    def kinds(self):
        return {self.kind, *(name.removesuffix("_AT") for name in self.beside)}


def single_trials(kinds):
    """Each of these kinds alone."""
    for kind in kinds:
        for error in ERRORS[kind]:
            yield Trial(kind, error, False)
            if error != EINTR:  # a call that a signal interrupts is tried again, as often as one does
                yield Trial(kind, error, True)


class Tries:
    """Runs of a case, each in a folder of its own. A class for each program says what its runs may come to."""

    line: re.Pattern  # what it says of a refusal
    no_memory: re.Pattern  # what it says where memory ran out
    statuses: dict  # with which a run may end in which a call of a kind fails

    def __init__(self, runs, case):
        self.runs, self.case = runs, case
        self.plain, self.counts = self.run({})
        if self.plain.status != case.status:
            raise Wrong(f"unhindered it is {self.plain}")

    def trials(self):
        """What fails in turn."""
        raise NotImplementedError

    def left(self, found):
        """What is there that was not there before, and should not be; Wrong where something else changed."""
        raise NotImplementedError

    def refused_answer(self, trial, found):
        """In which way a run ended that was refused; Wrong where none may end so."""
        raise NotImplementedError

    def run(self, failing):
        """What a run comes to in which these fail, and its numbers of calls."""
        with tempfile.TemporaryDirectory(dir=self.runs.folder) as name:
            folder = pathlib.Path(name)
            for path, text in self.case.files.items():
                (folder / path).parent.mkdir(parents=True, exist_ok=True)
                (folder / path).write_bytes(text)
            given = folder / self.case.given if self.case.given else "/dev/null"
            found, counts = self.runs.run(self.case.words, failing, folder, given)
            return Found(*found, tree(folder)), counts

    def files_before(self):
        found = dict(self.case.files)
        for path in self.case.files:
            found.update({str(parent): None for parent in pathlib.PurePath(path).parents if str(parent) != "."})
        return found

    def answer(self, trial, found):
        """In which way a run ended; Wrong where no run may end so."""
        plain, is_unsaid = self.plain, trial.kind in ("SAY", "REFUSE")
        if found == plain:
            return "as unhindered"
        if found.status == 0:
            return self.unsaid_answer(found)
        if found.status == plain.status and is_unsaid and self.is_lost(found.told) and not self.left(found):
            return "unsaid"
        if found.status not in self.statuses_of(trial) | {plain.status} - {0}:
            raise Wrong("the status is not that of what failed")
        if not plain.output.startswith(found.output):
            raise Wrong("the output is not a begin of what it has to be")
        if not (trial.kind == "SAY" and not found.told) and not self.line.fullmatch(found.told):
            raise Wrong("not one line on standard error")
        return self.refused_answer(trial, found)

    def statuses_of(self, trial):
        return {status for kind in trial.kinds for status in self.statuses.get(kind, ())}

    def is_lost(self, told):
        """Whether lines are those of the unhindered run, but for some or for the ends of some."""
        return len(told) < len(self.plain.told) and all(line in self.plain.told for line in told.splitlines())

    def unsaid_answer(self, found):
        """The answer of a run that ended well and did not say all."""
        lines = [line for line in found.told.splitlines(keepends=True) if not self.no_memory.fullmatch(line)]
        is_whole = (self.plain.status, found.output, found.files) == (0, self.plain.output, self.plain.files)
        if not is_whole or not all(line in self.plain.told for line in lines):
            raise Wrong("status 0, and not all is as it has to be")
        return "unsaid" if len(lines) == len(found.told.splitlines()) else "unsaid, for want of memory"


def numbers_of(tries, trial, most):
    """The calls that are to fail, as far as is known before."""
    _, counts = tries.run(trial.beside) if trial.beside else (None, tries.counts)
    return sampled(counts[trial.kind], most if trial.kind == "REFUSE" else sys.maxsize)


def sweep(tries, trial, most, workers):
    """How often each answer came, and the runs that were wrong."""
    answers, wrong = collections.Counter(), []

    def judged(at):
        failing = trial.failing(at)
        try:
            found, counts = tries.run(failing)
        except Wrong as why:
            return failing, str(why), None, True
        try:
            return failing, None, tries.answer(trial, found), counts[trial.kind] >= at
        except Wrong as why:
            return failing, f"{why}: {found}", None, True

    for failing, fault, answer, is_met in workers.map(judged, numbers_of(tries, trial, most)):
        if fault:
            wrong.append((failing, fault))
        elif is_met:
            answers[answer] += 1
    return answers, wrong


def told_sweep(case, kind, answers, wrong):
    """Says what came of all sweeps of a kind."""
    counts = ", ".join(f"{answer} {count}" for answer, count in sorted(answers.items()))
    print(f"{case.name}: {kind}: {answers.total()} runs: {counts or 'no such call'}")
    for failing, fault in wrong[:SHOWN]:
        print(f"failed: {case.name}: {failing}: {fault}")
    if len(wrong) > SHOWN:
        print(f"failed: {case.name}: {kind}: {len(wrong) - SHOWN} more")


def swept_case(tries_of, runs, case, most, workers):
    """How many runs of a case were right, and how many wrong."""
    try:
        tries = tries_of(runs, case)
    except Wrong as why:
        print(f"failed: {case.name}: {why}")
        return 0, 1
    by_kind = collections.defaultdict(lambda: (collections.Counter(), []))
    for trial in tries.trials():
        answers, wrong = sweep(tries, trial, most, workers)
        total, faults = by_kind[trial.kind + (" while it is removed" if trial.beside else "")]
        total.update(answers)
        faults.extend(wrong)
    for kind, (total, faults) in by_kind.items():
        told_sweep(case, kind, total, faults)
    return sum(total.total() for total, _ in by_kind.values()), sum(len(faults) for _, faults in by_kind.values())


def read_options(description):
    parser = argparse.ArgumentParser(description=description)
    parser.add_argument("program", type=pathlib.Path, help="the built program")
    parser.add_argument("--most", type=int, default=120, help="allocations of a sweep that fail at most [default: 120]")
    return parser.parse_args()


def main(description, tries_of, cases):
    """Sweeps over all cases, and ends."""
    options = read_options(description)
    with tempfile.TemporaryDirectory() as room, concurrent.futures.ThreadPoolExecutor(os.cpu_count()) as workers:
        runs = refusing.Runs(options.program, pathlib.Path(room))
        found = [swept_case(tries_of, runs, case, options.most, workers) for case in cases]
    passed, failed = map(sum, zip(*found))
    print(f"{passed} passed, {failed} failed")
    raise SystemExit(failed > 0)
