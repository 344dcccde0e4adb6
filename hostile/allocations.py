"""Makes calls of `homerange` and of `test_allocations` fail: allocations and starts of threads, each in turn.

    python3 allocations.py HOMERANGE [TEST_ALLOCATIONS] [--sweeps N]

HOMERANGE and TEST_ALLOCATIONS are the built programs (`rt ci` leaves both in `crates/NAME/out/NAME`). `refuse.c`, which
is preloaded, makes calls fail. Each run has to end within a minute: one whose threads wait for each other would not.

`homerange` first runs with ample memory, and has to come to what is written down: the report in `reports`, which the
program did not make, or the refusal here. Where it makes N calls, it is then run N times, the k-th with a failure of
its k-th call alone, and N times more with a failure of that call and of all behind it. Each run has to end with status
3 and its one line, nothing written, which has to come at least once; or as with ample memory; or, where that is a
refusal, with its status and another line, since a line takes memory. Reports are swept once more with a disk that fails
beside it: at the first, the middle or the last read of a run (status 1), or at such a write (status 4, and a beginning
of the report). Of more than `SAMPLED` calls these sweeps take as many: the first, the last and others between them, as
far apart.

How threads meet decides which call is the k-th. So `test_allocations`, in which they meet in more ways, is swept
several times (`--sweeps`; all that was ever looked at were 50), each time up to a k that no call of its run reaches.
Each of its lines has to be as with ample memory, or to say that its call ran out of memory and what that may leave, and
each call has to say so in some run.

Prints what was swept and how often each answer came; the last line is 'N passed, M failed', of commands that were
swept, with ', 1 skipped' where TEST_ALLOCATIONS is left out. Needs `cc`.
"""

import argparse
import collections
import concurrent.futures
import operator
import os
import pathlib
import re
import sys
import tempfile
import typing

import refusing
import tracks
from refusing import Wrong, sampled

HERE = pathlib.Path(__file__).resolve().parent
SIZES = (5, 3)
BLOCK = 2
SAMPLED = 120
MEMORY = ("homerange: out of memory\n", "homerange: out of memory, or a thread could not be started\n")
LINE = re.compile("homerange: [ -~]+\n")
STOPPED = "an estimator stopped"
UNREAD = "a reader ran out of memory"
WANTED = "out of memory"
CALLS = ("next", "open_line", "pump", "follow", "judge", "report", "analyse")
MET = {STOPPED, UNREAD, *(f"{call} ran out of memory" for call in CALLS)}
FOLLOWED = re.compile("follow (whole|memory) ")
WANTS = re.compile(
    "next (0 memory true false|[1-5] memory true true)|(pump|follow|judge|report|analyse) memory|pump memory [0-5] true"
)
# Plans, and the reports that they are to come to.
REPORTS = (
    ("", "one"),
    ("", "two"),
    ("--block 1 --depth 1 --workers 8", "two"),
    ("--block 1 --depth 1 --workers 1", "two"),
    ("", "decimetres"),
    ("", "use"),
    ("--block 7 --depth 1 --workers 8", "use"),
    ("", "curve"),
    ("", "long"),
)
# Words that are refused, with the status and the line of that.
REFUSED = (
    ("--block 0", 2, ".*--block.*"),
    ("--percent 0 a.csv", 2, "--percent: level 1 is not a whole number from 1 to 100.*"),
    ("--unit ft a.csv", 2, ".*--unit.*"),
    ("bad.csv", 1, r"bad\.csv: record 6: easting is not a whole number.*"),
    ("used.csv bad.csv blocks.csv", 1, r"bad\.csv: record 6: easting is not a whole number.*"),
    ("a.csv a.csv", 1, r"a\.csv and a\.csv have the same animal, A"),
    ("missing.csv", 1, r"missing\.csv: No such file or directory"),
)
OPTIONS = "--percent --unit --block --depth --workers --help --version"
FAILING = {"alone": {}, "for good": {"REFUSE_ON": "1"}}


class Case(typing.NamedTuple):
    """Words of `homerange`, what fails beside its allocations, and what it comes to with ample memory."""

    words: str
    beside: dict
    status: int
    output: str
    is_output: typing.Callable[[str, str], bool]
    told: str

    def has_output(self, status, output):
        return status == self.status and self.is_output(output, self.output)

    def is_met(self, status, output, told):
        return self.has_output(status, output) and re.fullmatch(self.told, told) is not None


def is_cut(output, report):
    """Whether this is a beginning of a report, and not all of it."""
    return output != report and report.startswith(output)


def has_words(output, words):
    return all(word in output for word in words.split())


def shown(found):
    """What a run came to, cut short."""
    return tuple(text if len(str(text)) < 200 else f"{text[:60]}.. of {len(text)} bytes" for text in found)


def ample_run(runs, case):
    """The numbers of calls, reads and writes of a run with ample memory, which has to be as the case says."""
    found, counts = runs.run(case.words.split(), case.beside)
    if not case.is_met(*found):
        raise Wrong(f"with ample memory it is {shown(found)}")
    return counts


def homerange_answer(case, found):
    """What a run with failed allocations came to, or nothing where that may not be."""
    status, output, told = found
    if (status, output) == (3, "") and told in MEMORY:
        return WANTED
    if case.is_met(*found):
        return "as ample"
    if status and case.has_output(status, output) and LINE.fullmatch(told):
        return "another line"
    return None


def sweep_homerange(runs, case, most):
    """How often each answer came while calls failed in turn, alone and for good, and how many failed."""
    calls = ample_run(runs, case)["REFUSE"]
    answers, swept = collections.Counter(), 0
    for way, more in FAILING.items():
        failures = [{**case.beside, **more, "REFUSE_AT": str(call)} for call in sampled(calls, most)]
        with concurrent.futures.ThreadPoolExecutor(os.cpu_count()) as workers:
            found = list(workers.map(lambda failing: runs.run(case.words.split(), failing), failures))
        for failing, (came, counts) in zip(failures, found):
            answer = homerange_answer(case, came)
            if answer is None:
                raise Wrong(f"call {failing['REFUSE_AT']} failed {way}: {shown(came)}")
            answers[answer] += 1
            swept += counts["REFUSE"] >= int(failing["REFUSE_AT"])
    if not answers[WANTED]:
        raise Wrong("it never ran out of memory")
    return answers, swept


def sweep(runs, answer_of):
    """How often each answer came while each call failed in turn, and how many calls that were."""
    ample, _ = runs.run([], {})
    answers, failing = collections.Counter(), 0
    while True:
        failing += 1
        found, counts = runs.run([], {"REFUSE_AT": str(failing)})
        if counts["REFUSE"] < failing:
            return answers, failing - 1
        answer = answer_of(found, ample)
        if answer is None:
            raise Wrong(f"call {failing} failed: {found}, and not {ample}")
        answers[answer] += 1


def is_followed(line, size):
    """Whether a file of that many fixes may come out like this where one allocation failed: its mark came, and
    all fixes that were sent were taken; or it was sent whole, and its estimator stopped behind some of its blocks."""
    found = re.fullmatch(r"follow (whole|memory) (\d+) (\d+) true (true|false)", line)
    if not found:
        return False
    sent, taken = int(found[2]), int(found[3])
    is_whole = found[1] == "whole"
    if found[4] == "true":
        return is_whole and sent == size and taken < size and taken % BLOCK == 0
    return taken == sent and (sent == size if is_whole else sent <= size)


def calls_answer(found, ample):
    """Which call ran out of memory, or nothing where a line is no answer to one failed allocation."""
    if found == ample:
        return "as ample"
    status, text, told = found
    lines, whole = text.splitlines(), ample[1].splitlines()
    followed = [line for line in lines if FOLLOWED.match(line)]
    troubled = [line for line in followed if line not in whole]
    wants = [line for line in lines if line not in whole and line not in troubled]
    is_well = status == 0 and not told and len(troubled) <= 1 and all(map(is_followed, followed, SIZES))
    if not is_well or not all(map(WANTS.fullmatch, wants)) or len(wants) != 1:
        return None
    if troubled and wants != ["judge memory"]:
        return None
    if troubled:
        return STOPPED if troubled[0].endswith(" true true") else UNREAD
    # The program opens a line for its pump, and says "pump memory" alone where that failed.
    call = "open_line" if wants[0] == "pump memory" else wants[0].split()[0]
    return f"{call} ran out of memory"


def sweep_calls(runs, sweeps):
    """All sweeps of `test_allocations`, in which each call has to run out of memory, and an estimator to stop alone."""
    total, swept = collections.Counter(), 0
    for _ in range(sweeps):
        answers, count = sweep(runs, calls_answer)
        total, swept = total + answers, swept + count
    if missing := MET - total.keys():
        raise Wrong(f"no sweep met: {', '.join(sorted(missing))}")
    return total, swept


def is_well(name, swept, *given):
    """Sweeps, says what came of it, and returns whether each answer was one that may be."""
    try:
        answers, calls = swept(*given)
    except Wrong as wrong:
        print(f"failed: {name}: {wrong}")
        return False
    counts = ", ".join(f"{answer} {count}" for answer, count in sorted(answers.items()))
    print(f"{name}: {calls} failed calls: {counts}")
    return True


def report_cases():
    """Runs with a report."""
    for plan, name in REPORTS:
        report = (HERE / "reports" / f"{name}.txt").read_text()
        yield Case(f"{plan} {tracks.REPORTS[name]}".strip(), {}, 0, report, operator.eq, "")


def other_cases():
    """Runs without a report."""
    for words, status, line in REFUSED:
        yield Case(words, {}, status, "", operator.eq, f"homerange: {line}\n")
    yield Case("--help", {}, 0, OPTIONS, has_words, "")


def failing_cases(runs, case):
    """A run with a report, with a read or a write that fails: the first of them, the middle and the last."""
    counts = ample_run(runs, case)
    reads, writes = counts["READ"], counts["WRITE"]
    for read in sorted({1, (reads + 1) // 2, reads}):
        told = r"homerange: \w+\.csv: Input/output error\n"
        yield case._replace(beside={"READ_AT": str(read)}, status=1, output="", told=told)
    for write in sorted({1, (writes + 1) // 2, writes}):
        told = "homerange: standard output: No space left on device\n"
        yield case._replace(beside={"WRITE_AT": str(write)}, status=4, is_output=is_cut, told=told)


def sweep_failing(runs, case):
    """Sweeps of a run with a report, with a disk that fails beside them."""
    total, swept = collections.Counter(), 0
    for failing in failing_cases(runs, case):
        answers, count = sweep_homerange(runs, failing, SAMPLED)
        total, swept = total + answers, swept + count
    return total, swept


def homerange_sweeps(runs):
    """The name of each sweep of `homerange`, its function, and what that is given."""
    for case in (*report_cases(), *other_cases()):
        yield f"homerange {case.words}", sweep_homerange, runs, case, sys.maxsize
    for case in report_cases():
        yield f"homerange {case.words}, a disk fails, {SAMPLED} calls at most in turn", sweep_failing, runs, case


def read_options():
    parser = argparse.ArgumentParser(description=__doc__.split("\n\n")[0])
    parser.add_argument("homerange", type=pathlib.Path, help="the built program")
    parser.add_argument("test_allocations", nargs="?", type=pathlib.Path, help="the other program [default: none]")
    parser.add_argument("--sweeps", type=int, default=10, help="how often that one is swept, 10 times if left out")
    return parser.parse_args()


def main():
    options = read_options()
    with tempfile.TemporaryDirectory() as room:
        folder = pathlib.Path(room)
        tracks.write(folder)
        (folder / "bad.csv").write_text(tracks.FILE_A + "A,300,x,5\n")
        found = [is_well(*given) for given in homerange_sweeps(refusing.Runs(options.homerange, folder))]
        if options.test_allocations:
            runs = refusing.Runs(options.test_allocations, folder)
            found.append(is_well(f"test_allocations, {options.sweeps} sweeps", sweep_calls, runs, options.sweeps))
    skipped = "" if options.test_allocations else ", 1 skipped"
    print(f"{found.count(True)} passed, {found.count(False)} failed{skipped}")
    raise SystemExit(not all(found))


if __name__ == "__main__":
    main()
