"""Makes calls of `homerange-page` fail: allocations, reads, writes and all that looks at, lists, makes, replaces or removes a
file, each in turn.

    python3 page_faults.py HOMERANGE_PAGE [--most N]

HOMERANGE_PAGE is the program, such as `tools/program.sh homerange-page` names. `refuse.c`, which is preloaded, makes calls
fail, by the sweeps of `sweeps.py`. Behind a disk that fails while the files are written each call of what removes them fails
too.

Each run has to end within a minute in one of these ways:

    as unhindered   with that status and those files byte for byte
    unsaid          the same, but for a line on standard error that could not be written or had no memory
    refused         with a status that is that of the call that failed (or that of the refusal without it), one line on
                    standard error, and all files as before
    some written    the same, but with some of the four files replaced as a whole, where replacing one of them failed, or
                    memory for its name
    left            the same, but for files beside their places, where removing failed

So no file in its place is there in part. Of more than N allocations (120 if left out) so many fail: the first, the last and
others between them, as far apart. Prints of each sweep how often each answer came; the last line is 'N passed, M failed', of
runs. Needs `cc`.
"""

import re
import sys
from errno import EACCES, EIO, ENOSPC

sys.dont_write_bytecode = True

import sweeps
from page_folder import MADE, OWL, OWN, PARTS, REPORT, WHOLE
from refusing import Wrong
from sweeps import Case, Trial

# What fails while the files are written or replaced, and kinds of calls that fail in turn while they are removed.
WRITING = ({"STORE_AT": "1"}, {"STORE_AT": "3", "STORE_ON": "1"}, {"SYNC_AT": "2"}, {"PLACE_AT": "1"}, {"PLACE_AT": "3"})
REMOVING_FAULTS = {"REMOVE": (EIO, EACCES), "REFUSE": (None,), "SAY": (ENOSPC,)}


def all_cases():
    yield Case("a report alone", ("of",), {"of/report.txt": REPORT})
    yield Case("tracks", ("of",), OWN)
    yield Case("a record, a boundary and a clock", ("--clock", "Europe/Ljubljana", "of"), WHOLE)
    yield Case("files of yesterday", ("of",), {**OWN, **{name: b"of yesterday" for name in MADE}})
    yield Case("what another run left", ("of",), {**OWN, "of/.summary.csv.part": b"x"})
    yield Case("a report that is cut", ("of",), {**OWN, "of/report.txt": REPORT[:-1]}, 1)
    yield Case("a track that was changed", ("of",), {**OWN, "of/tracks/owl.csv": OWL.replace(b"1050", b"1051")}, 1)
    yield Case("no folder", ("none",), OWN, 1)
    yield Case("a word that is refused", ("--shift", "east", "of"), OWN, 2)
    yield Case("a zone that there is not", ("--clock", "Europe/Nowhere", "of"), OWN, 2)
    yield Case("the help", ("--help",), {})
    yield Case("the version", ("--version",), {})


def removing_trials():
    for beside in WRITING:
        for kind, errors in REMOVING_FAULTS.items():
            yield from (Trial(kind, error, is_for_good, beside) for error in errors for is_for_good in (False, True))


class Tries(sweeps.Tries):
    """Runs of a case: each of four files is made or replaced as a whole."""

    line = re.compile("homerange-page: [^\x00-\x1f\x7f-\x9f\u2028\u2029]+\n")
    no_memory = re.compile("homerange-page: not enough memory\n")
    statuses = {
        "REFUSE": (3,),
        "READ": (1,),
        "WRITE": (4,),
        "STORE": (4,),
        "SAY": (),
        "OPEN": (1, 4),
        "STAT": (1,),
        "SYNC": (4,),
        "CLOSE": (4,),
        "PLACE": (4,),
        "LIST": (1,),
        "REMOVE": (4,),
    }

    def trials(self):
        yield from sweeps.single_trials(self.statuses)
        if self.case.status == 0 and self.plain.files.keys() > self.files_before().keys() - PARTS:
            yield from removing_trials()

    def statuses_of(self, trial):
        """A zone whose file cannot be read, for whatever reason, is refused as one that there is not."""
        is_zone_read = "--clock" in self.case.words and trial.kinds & {"REFUSE", "READ", "OPEN"}
        return super().statuses_of(trial) | ({2} if is_zone_read else set())

    def left(self, found):
        before, after = self.files_before(), self.plain.files
        for path in before.keys() - PARTS:
            if path not in found.files or found.files[path] not in (before[path], after[path]):
                raise Wrong(f"{path} is neither as it was nor as it has to be")
        for path in found.files.keys() - before.keys() - PARTS:
            if found.files[path] != after.get(path, 0):
                raise Wrong(f"{path} is not as it has to be")
        return found.files.keys() & PARTS - before.keys()

    def is_replaced(self, found):
        """Whether some file is the new one, and no more the old one."""
        before = self.files_before()
        return any(found.files.get(path, 0) != before.get(path, 0) for path in self.plain.files)

    def may_leave(self, trial):
        """Whether removing may fail: where it is made to, and where there is no memory for the name of what is removed."""
        return "REMOVE" in trial.kinds or (trial.kind == "REFUSE" and (trial.is_for_good or bool(trial.beside)))

    def refused_answer(self, trial, found):
        answer = f"refused with {found.status}"
        left = self.left(found)
        if left and not self.may_leave(trial):
            raise Wrong("something is left")
        if self.is_replaced(found):
            if not trial.kinds & {"PLACE", "REFUSE"}:
                raise Wrong("a file was replaced, and not all")
            answer += ", some written"
        return answer + ", left" * bool(left)


if __name__ == "__main__":
    sweeps.main(__doc__.split("\n\n")[0], Tries, all_cases())
