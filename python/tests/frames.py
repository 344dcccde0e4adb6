"""Data frames of made-up fixes, what was noted of them, and programs that stand in for others."""
import re
import warnings
from contextlib import contextmanager
from pathlib import Path

import pandas
import pytest

from homerange import HomeRangeNote
from homerange.program import find_page_program, find_split_program

START = pandas.Timestamp("2024-03-01", tz="UTC")


def frame_of(**animals):
    """A data frame of the points of some animals, with a fix every half an hour from the first of March 2024."""
    rows = [(name, START + pandas.Timedelta(minutes=30 * at), *point)
            for name, points in animals.items() for at, point in enumerate(points)]
    return pandas.DataFrame(rows, columns=["animal", "timestamp", "easting", "northing"])


def quietly(call, *words, **options):
    """What a call answers, whatever it notes."""
    with warnings.catch_warnings():
        warnings.simplefilter("ignore", HomeRangeNote)
        return call(*words, **options)


def noted(warned):
    """The texts of the notes among warnings, but for questions."""
    notes = [str(warning.message) for warning in warned if warning.category is HomeRangeNote]
    return [note for note in notes if not note.endswith("?")]


@contextmanager
def told(text, category=UserWarning):
    """Whether a warning has this text, whatever others there are."""
    with pytest.warns(category) as warned:
        yield warned
    assert any(re.search(text, str(warning.message)) for warning in warned), [str(warning.message) for warning in warned]


def with_splitter(program):
    """A program beside which homerange-split and homerange-page are put, where they are looked for."""
    for other in (find_split_program(None), find_page_program(None)):
        beside = program.with_name(Path(other).name)
        beside.unlink(missing_ok=True)
        beside.symlink_to(other)
    return program
