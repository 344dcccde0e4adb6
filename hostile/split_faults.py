"""Makes calls of `homerange-split` fail: allocations, reads, writes and all that makes or removes a folder, each in turn.

    python3 split_faults.py HOMERANGE_SPLIT [--most N]

HOMERANGE_SPLIT is the program, such as `tools/program.sh homerange-split` names. `refuse.c`, which is preloaded, makes
calls fail, by the sweeps of `sweeps.py`. Behind a disk that fails while the folder is written each call of what removes it
fails too.

Each run has to end within a minute in one of these ways:

    as unhindered   with that status, those lines, and the folder byte for byte
    unsaid          the same, but for lines on standard error that could not be written or had no memory
    refused         with a status that is that of the call that failed (or that of the refusal without it), one line on
                    standard error, and all files as before
    left            the same, but for what could not be removed, where removing failed: then the line says so, and where
                    it is

Of more than N allocations (120 if left out) so many fail: the first, the last and others between them, as far apart.
Prints of each sweep how often each answer came; the last line is 'N passed, M failed', of runs. Needs `cc`.
"""

import re
import sys
from errno import EACCES, EIO, EMFILE, ENOSPC

sys.dont_write_bytecode = True

import sweeps
from refusing import Wrong
from sweeps import Case, Trial

REMOVING = re.compile("could not be removed")
TITLES = "animal,second,easting,northing"
METRES = f"""{TITLES}\nfox,0,1000.25,2000\notter,0,1500,2500\nfox,60,1010,2020.5
otter,60,,\notter,30,1510,2490\nfox,30,1005,2005\n""".encode()
DEGREES = """individual-local-identifier,timestamp,location-long,location-lat,visible
fox,2024-05-01 00:00:00.000,15.805899,46.356742,true\notter,2024-05-01 00:00:00.000,15.806,46.3568,true
fox,2024-05-01 01:00:00.500,15.805999,46.356842,true\notter,2024-05-01 01:00:00.000,15.81,46.36,false
otter,2024-05-01 02:00:00.000,15.8062,46.357,true\n""".encode()
GPX = b"""<?xml version="1.0" encoding="UTF-8"?><gpx><trk><name>fox</name><trkseg>
<trkpt lat="46.356742" lon="15.805899"><time>2024-05-01T00:00:00Z</time></trkpt>
<trkpt lat="46.356842" lon="15.805999"><time>2024-05-01T01:00:00Z</time></trkpt></trkseg></trk></gpx>"""
# What fails while the folder is written, and kinds of calls that fail in turn while it is removed.
WRITING = ({"STORE_AT": "1"}, {"STORE_AT": "3", "STORE_ON": "1"}, {"SYNC_AT": "2"}, {"PLACE_AT": "1"})
REMOVING_FAULTS = {
    "REMOVE": (EIO, EACCES),
    "LIST": (EIO,),
    "OPEN": (EMFILE,),
    "STAT": (EACCES,),
    "CLOSE": (EIO,),
    "REFUSE": (None,),
    "SAY": (ENOSPC,),
}
# What is left for good, so that the line has to say so, for which memory may lack.
KEEPING = {"STORE_AT": "1", "REMOVE_AT": "1", "REMOVE_ON": "1"}


def all_cases():
    own = {"export.csv": METRES}
    yield Case("metres of two animals", ("export.csv",), own)
    yield Case("longitude and latitude", ("export.csv",), {"export.csv": DEGREES})
    yield Case("GPX", ("--from", "gpx", "export.gpx"), {"export.gpx": GPX})
    yield Case("standard input", ("-",), own, given="export.csv")
    yield Case("marks", ("--mark", "--unit", "dm", "export.csv"), {"export.csv": DEGREES})
    in_latin = METRES.replace(b"otter", b"loutre \xe9")
    yield Case("latin-1", ("--encoding", "latin-1", "export.csv"), {"export.csv": in_latin})
    yield Case("parents that are made", ("--into", "of/this/year", "export.csv"), own)
    two = {**own, "other.csv": f"{TITLES}\notter,5,1501,2501\nfox,90,1020,2030\n".encode()}
    yield Case("two exports", ("export.csv", "other.csv"), two)
    yield Case("a refusal in the second of two", ("export.csv", "other.csv"), {**two, "other.csv": f"{TITLES}\nfox,9,x,1\n".encode()}, 1)
    yield Case("what another run left", ("export.csv",), {**own, ".tracks.part-1/fox.csv": b"x"})
    yield Case("a refusal in record 3", ("export.csv",), {"export.csv": METRES.replace(b"2020.5", b"x")}, 1)
    yield Case("a folder that is there", ("export.csv",), {**own, "tracks/fox.csv": b"of yesterday"}, 1)
    yield Case("no export", ("export.csv",), {}, 1)
    yield Case("a word that is refused", ("--unit", "ft", "export.csv"), own, 2)
    yield Case("the help", ("--help",), {})
    yield Case("the version", ("--version",), {})


def removing_trials():
    for beside in WRITING:
        for kind, errors in REMOVING_FAULTS.items():
            yield from (Trial(kind, error, is_for_good, beside) for error in errors for is_for_good in (False, True))
    yield from (Trial("REFUSE", None, is_for_good, KEEPING) for is_for_good in (False, True))


def is_removing(trial):
    """Whether removing may fail: where it is made to, and where files cannot be opened or looked at any more."""
    return bool(trial.beside) or (trial.is_for_good and trial.kind in ("OPEN", "STAT"))


class Tries(sweeps.Tries):
    """Runs of a case: a folder is made whole or not at all."""

    line = re.compile("(?:homerange-)?split: [^\x00-\x1f\x7f-\x9f\u2028\u2029]+\n")
    no_memory = re.compile("(?:homerange-)?split: not enough memory\n")
    statuses = {
        "REFUSE": (3,),
        "READ": (1,),
        "WRITE": (4,),
        "STORE": (4,),
        "SAY": (),
        "OPEN": (1, 4),
        "STAT": (4,),
        "MAKE": (1, 4),
        "SYNC": (4,),
        "CLOSE": (4,),
        "PLACE": (1, 4),
    }

    def trials(self):
        yield from sweeps.single_trials(self.statuses)
        if self.case.status == 0 and self.plain.files.keys() > self.files_before().keys():
            yield from removing_trials()

    def left(self, found):
        before = self.files_before()
        if any(found.files.get(path, 0) != text for path, text in before.items()):
            raise Wrong("a file that was there is not as it was")
        return {path for path in found.files if path not in before}

    def refused_answer(self, trial, found):
        left = self.left(found)
        if not left:
            if REMOVING.search(found.told):
                raise Wrong("it says that something is left, and nothing is")
            return f"refused with {found.status}"
        if not is_removing(trial):
            raise Wrong("something is left")
        where = max((path for path in left if found.files[path] is None), key=lambda path: path.count("/"))
        is_unsaid = trial.kind == "SAY" and not found.told
        if not is_unsaid and not (REMOVING.search(found.told) and where in found.told):
            raise Wrong(f"{where} is left, and the line does not say so")
        return f"left, with {found.status}"


if __name__ == "__main__":
    sweeps.main(__doc__.split("\n\n")[0], Tries, all_cases())
