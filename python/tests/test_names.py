"""How names of files are compared, by what Python itself has of Unicode; and names with signs that end lines."""
import random
import subprocess
import unicodedata

import pytest
from exact import cloud
from frames import frame_of

from homerange import FrameError, HomeRangeNote, home_range, read_fixes, read_report
from homerange.names import folded, known_letters
from homerange.program import find_program
from homerange.record import read_record, record_text

SIGNS = [chr(code) for code in range(0x110000) if not 0xD800 <= code < 0xE000]


def canonical(text):
    """The text as Unicode compares texts without case."""
    return unicodedata.normalize("NFD", unicodedata.normalize("NFD", text).casefold())


def test_letters_are_those_of_unicode():
    letters = known_letters()
    known = {*letters.parts, *letters.place, *letters.folded}
    unlike = {sign for sign in SIGNS if folded(sign) != canonical(sign)}
    assert not unlike & known
    assert not unlike or unicodedata.unidata_version != "14.0.0"
    assert {sign for sign in known if unicodedata.category(sign) == "Cn"} == set()


def test_names_of_several_signs_are_compared_as_unicode_does():
    letters, draw = known_letters(), random.Random(1)
    pools = [*letters.place], [*letters.parts], [*letters.folded], ["e", "한", "ᄒ", "ᅡ", "ᆫ", "Ω", "ϒ", "ss"]
    for _ in range(5000):
        name = "".join(draw.choice(draw.choice(pools)) for _ in range(draw.randrange(1, 9)))
        assert folded(name) == canonical(name), ascii(name)


NAMES = ["a\x85b", "c\u2028", "d\u2029d", "e\tf"]
ESCAPED = ["a\\x85b", "c\\u2028", "d\\u2029d", "e\\x09f"]


@pytest.fixture
def odd_names(splitter):
    frame = frame_of(**{name: cloud(at, 20) for at, name in enumerate(NAMES)}).assign(visible=[at % 20 != 3 for at in range(80)])
    with pytest.warns(HomeRangeNote, match="4 outliers: left out"):
        return home_range(frame)


@pytest.mark.filterwarnings("ignore::homerange.HomeRangeNote")
def test_answers_have_names_in_one_line(odd_names):
    assert odd_names.animals == [*odd_names.overlap().columns] == [*odd_names.overview()["animal"]] == ESCAPED
    assert odd_names.left_out().values.tolist() == [[name, "outlier", 1] for name in ESCAPED]
    fixes = read_fixes(frame_of(**{name: cloud(at, 20) for at, name in enumerate(NAMES)}))
    assert [*fixes["animal"].unique()] == ESCAPED and home_range(fixes[fixes["easting"] > 0]).animals == ESCAPED


@pytest.mark.filterwarnings("ignore::homerange.HomeRangeNote")
def test_names_that_no_file_of_evidence_has_are_refused(odd_names, tmp_path):
    with pytest.raises(FrameError, match="^the name of the animal a.x85b has a control character or a separator of lines, which the names of files "
                       "of evidence cannot have: rename it in its table$") as fault:
        odd_names.evidence(tmp_path / "made")
    assert fault.value.kind == "name" and not [*tmp_path.iterdir()]


@pytest.mark.filterwarnings("ignore::homerange.HomeRangeNote")
def test_a_record_has_the_names_of_the_report(splitter, tmp_path):
    table = tmp_path / "table.csv"
    frame_of(**{name: cloud(at, 20) for at, name in enumerate(NAMES[:3])}).to_csv(table, index=False)
    subprocess.run([splitter, f"--into={tmp_path / 'tracks'}", table], check=True, capture_output=True)
    files = sorted((tmp_path / "tracks").glob("*.csv"))
    assert [file.stem for file in files] == NAMES[:3]
    report = tmp_path / "report.txt"
    report.write_bytes(subprocess.run([find_program(), *files], check=True, capture_output=True).stdout)
    found = read_report(report, files=files, record=tmp_path / "tracks" / "split.txt")
    assert found.summary()["left_out"].tolist() == [0] * 9
    record = tmp_path / "tracks" / "split.txt"
    assert record_text(read_record(record)) == record.read_text("utf-8")
