"""Finds the package, and makes notes faults, so that a test says which notes it expects."""
import sys
import warnings
from pathlib import Path

import pytest

sys.path[:0] = [str(Path(__file__).parents[1]), str(Path(__file__).parent)]

import homerange  # noqa: E402


@pytest.fixture(autouse=True)
def no_unexpected_notes():
    with warnings.catch_warnings():
        warnings.simplefilter("error", homerange.HomeRangeNote)
        warnings.simplefilter("ignore", homerange.HomeRangeInfo)
        # Made-up fixes raise questions.
        warnings.filterwarnings("ignore", r".*[?]\Z", homerange.HomeRangeNote)
        yield


@pytest.fixture
def splitter():
    """The program homerange-split."""
    from homerange.program import find_split_program

    try:
        return find_split_program()
    except homerange.ProgramError as fault:
        pytest.skip(str(fault))
