"""Tests what the benches say of lines that differ, of a command that fails and of words, and their cells."""

import argparse
import pathlib
import tempfile

import field
import timing

CASE = field.Case("table", "row", ("a",), {"R": "chull_table.R", "SciPy": "scipy_table.py"})
OURS = "animal,a,fixes,2\nrow,a,1,0,1,0\nrow,a,2,60,2,0\nend,1\n"


def notes(peer, theirs):
    """What is said of a peer's lines, beside homerange's."""
    with tempfile.TemporaryDirectory() as work:
        outputs = {"homerange": pathlib.Path(work, "homerange"), peer: pathlib.Path(work, peer)}
        outputs["homerange"].write_text(OURS)
        outputs[peer].write_text(theirs)
        return list(field.compare(CASE, peer, outputs))


def refused(text, kind, work, *given):
    """Whether this ends with an error that says so."""
    try:
        work(*given)
    except kind as ended:
        return text in str(ended)
    return False


assert notes("SciPy", "row,a,1,0,1,0\nrow,a,2,60,2,0\n") == []
[note] = notes("R", "row,a,1,0,1,0\nrow,a,2,60,3,0\n")
assert "R: `corners` differs in 1 lines, in the last of them 3 for 2, as `chull` at times" in note
# No reason is known for these.
assert refused("`corners` differs in 1 lines", SystemExit, notes, "SciPy", "row,a,1,0,1,0\nrow,a,2,60,3,0\n")
assert refused("`area2` differs in 2 lines", SystemExit, notes, "R", "row,a,1,0,1,7\nrow,a,2,60,2,4\n")
assert refused("no line for row,a,2,60,2,0", SystemExit, notes, "SciPy", "row,a,1,0,1,0\n")
assert refused("row,a,3,90,2,0 for no line", SystemExit, notes, "SciPy", OURS + "row,a,3,90,2,0\n")

assert [field.number(seconds) for seconds in (0.0344, 1.74, 108.2, 12031)] == ["0.034", "1.7", "108", "12,031"]
assert refused("false ended with 1", SystemExit, timing.measured, ["false"], ".")
assert refused("none is no program", SystemExit, field.check_programs, "none")
assert timing.one_or_more("15") == 15
for word in ("0", "-1", "1.5", "many"):
    assert refused("is not 1 or more", argparse.ArgumentTypeError, timing.one_or_more, word)
