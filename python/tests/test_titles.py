"""Usual titles that stand in the program too: each list of a package has those of the program, and no others."""
import re
from pathlib import Path

import pytest

from homerange.read.changes import JUDGED, MARKS, NO_MARKS, WORDS_OF_GRIDS, WORDS_OF_MARKS, WORDS_OF_SATELLITES, words_of
from homerange.read.letters import without_accents
from homerange.read.text import TIMES, plain

TOP = Path(__file__).parents[2]
pytestmark = pytest.mark.skipif(not (TOP / "crates").is_dir(), reason="no sources of the program")
OF_MARKS = ("USE", "VISIBLE", "MANUAL_OUTLIER", "ALGORITHM_OUTLIER", "IMPORT_OUTLIER", "MANUAL_VALID")
OF_DOUBT = ("ODD_CLASSES", "ARGOS_CLASSES", "SENSOR", "SENSOR_NUMBER", "UTM_ZONE", "ZONES")


def titles(*names):
    """The titles that constants of the program have, as they are compared."""
    text = "".join((TOP / "crates" / path).read_text("utf-8") for path in ("split_titles/src/usual.rt", "split_chain/src/passed.rt", "split_chain/src/systems.rt"))
    constants = dict(re.findall(r"const ([A-Z_]+): [^=]+ =([^;]+);", text))
    values = [re.sub(r"\b[A-Z_]+\b", lambda own: constants.get(own[0], own[0]), constants[name]) for name in names]
    return {plain(title) for value in values for title in re.findall('"([^"]+)"', value)}


def words(*names):
    """The words that constants of the program have, without accents."""
    return {without_accents(word) for word in titles(*names)}


def titles_in_r(name):
    """The titles that a list of the package for R has."""
    text = (TOP / "r" / "R" / "read_again.R").read_text("utf-8")
    own = re.search(rf"^{name} <- c\(([^)]+)\)", text, re.MULTILINE)[1]
    return {*re.findall('"([^"]+)"', re.sub(r"\\u([0-9a-f]{4})", lambda code: chr(int(code[1], 16)), own))}


def test_titles_of_marks_and_of_doubt_are_those_of_the_program():
    assert len(titles(*OF_MARKS)) == 6 and len(titles(*OF_DOUBT)) == 31
    assert MARKS == titles(*OF_MARKS) == titles_in_r("titles_of_marks")
    assert JUDGED == titles(*OF_DOUBT) == titles_in_r("titles_of_doubt")
    assert WORDS_OF_MARKS == words("MARK_WORDS") == titles_in_r("words_of_marks")
    assert WORDS_OF_GRIDS == words("ZONE_WORDS", "CODE_WORDS") == titles_in_r("words_of_grids")
    assert WORDS_OF_SATELLITES == titles("SATELLITE_WORDS") == titles_in_r("words_of_satellites")
    assert NO_MARKS == titles("NO_MARKS") == titles_in_r("no_marks")


def test_words_of_titles_are_cut_as_by_the_program():
    assert words_of("UTCOffset..h.") == {"utcoffset", "h"} and words_of("utcOffset (h)") == {"utc", "offset", "h"}
    assert words_of("flagOutlier2?") == {"flag", "outlier", "2"} and words_of("Ausreißer\u00a0[n°]") == {"ausreißer", "n"}
    assert words_of("V\u00e1lido ODLEHL\u00c1 aykırı Wa\u017cny") == words_of("Va\u0301lido odlehla\u0301 Aykiri wazny") == {"valido", "odlehla", "aykiri", "wazny"}
    assert words_of("Пояс ΖΏΝΗ strefa Øst") == {"пояс", "ζωνη", "strefa", "ost"}


def test_titles_of_times_are_those_of_the_program():
    assert TIMES == titles("TIMES")
