"""How areas grew, and the table of one row an animal: compared with sums in fractions, and worked out by hand."""
import subprocess
from fractions import Fraction
from pathlib import Path

import pandas
import pytest
from exact import area2, cloud, hull
from frames import frame_of

from homerange import FrameError, HomeRangeNote, home_range, read_report
from homerange.ranges.growth import growth_of
from homerange.program import find_program
from homerange.record import read_record


def by_definition(areas):
    """The number of the fix and the shares, by fractions."""
    fixes, last = len(areas), areas[-1]
    after = {0: 0, **dict(enumerate(areas, 1))}
    if last == 0:
        return None, 0, 0
    within = min(n for n in after if n and Fraction(after[n], last) >= Fraction(95, 100))
    added = [1 - Fraction(after[int(Fraction(part * fixes))], last) for part in (Fraction(9, 10), Fraction(3, 4))]
    return within, *added


@pytest.mark.parametrize("areas", [
    [0], [0, 0, 0], [0] * 40, [7], [0, 0, 100], [0, 95, 100], [0, 94, 100], list(range(1, 31)), list(range(1, 30)),
    [95] * 30 + [100] * 10, [96] * 30 + [100] * 10, [95] * 29 + [100], [0] * 29 + [1], [10 ** 17] * 29 + [10 ** 17 + 1],
    [19] * 30 + [20] * 9, [19 * 10 ** 16] * 30 + [20 * 10 ** 16 - 1] * 10])
def test_growth_is_that_of_fractions(areas):
    found = growth_of(areas)
    whole = areas[-1] or 1
    assert (found.within, Fraction(found.tenth, whole), Fraction(found.quarter, whole)) == by_definition(areas)


def test_growth_worked_out_by_hand():
    # 95 per cent are enough; of 40 fixes 36 and 30 are before the last tenth and the last quarter, of 33 fixes 29 and 24.
    assert growth_of([95] * 30 + [100] * 10) == (100, 1, 0, 5)
    assert growth_of([94] * 36 + [100] * 4) == (100, 37, 6, 6)
    assert growth_of([10] * 24 + [50] * 5 + [100] * 4) == (100, 30, 50, 90)


def test_growth_of_ranges():
    points = {"vixen": cloud(1, 60), "boar": cloud(2, 29), "one": [(5, 6)]}
    found = home_range(frame_of(**points), tz="Europe/Ljubljana").growth()
    assert found["animal"].tolist() == [*points]
    for row in found.itertuples():
        areas = [area2(hull(points[row.animal][:n])) for n in range(1, len(points[row.animal]) + 1)]
        within, tenth, quarter = by_definition(areas)
        assert (row.fixes, row.hectares) == (len(areas), areas[-1] / 20000)
        if within is None:
            assert all(map(pandas.isna, (row.within_95_fix, row.within_95_time, row.last_tenth, row.last_quarter)))
            continue
        time = frame_of(a=points[row.animal])["timestamp"][within - 1].tz_convert("Europe/Ljubljana")
        assert (row.within_95_fix, row.within_95_time) == (within, time)
        assert (row.last_tenth, row.last_quarter) == pytest.approx((float(tenth), float(quarter)))


def test_overview_of_a_frame():
    frame = frame_of(a=[(0, 0), (200, 0), (200, 200), (0, 200)], b=[(5, 5)])
    frame["visible"] = [True, True, False, True, True]
    with pytest.warns(match="1 outliers: left out"):
        found = home_range(frame, [50, 100]).overview()
    assert found[["animal", "records", "left_outlier", "used"]].values.tolist() == [["a", 4, 1, 3], ["b", 1, 0, 1]]
    assert found["days"].tolist() == [1.5 / 24, 0]
    assert found["median_hours"].tolist()[0] == 0.75  # of half an hour and a whole one
    assert found["longest_hours"].tolist()[0] == 1
    assert found[["median_hours", "longest_hours"]].isna().all(axis=1).tolist() == [False, True]
    assert found[["hectares_50", "hectares_100"]].values.tolist() == [[0, 2], [0, 0]]
    assert [*found.columns[-4:]] == ["within_95_fix", "within_95_time", "last_tenth", "last_quarter"]


SPLIT = f"""export,deer.csv
sha256,{64 * "a"}
unit,m
zone,33S
shift,100,200
option,max-dop,4
option,na,"N/A,-
said,2 records have no coordinates: left out
left,,3,animal
left,a,2,coordinates
left,gone,5,no dop
track,a,6,4
"""


@pytest.fixture
def made(tmp_path):
    """A report of a track of six records, two of them not used, and the record of its split."""
    lines = [f"a,{60 * at},{100 + at * at},{200 + at},{int(at not in (2, 3))}" for at in range(6)]
    (tmp_path / "a.csv").write_text("\n".join(["animal,second,easting,northing,use", *lines, ""]))
    (tmp_path / "split.txt").write_text(SPLIT)
    report = subprocess.run([find_program(None), tmp_path / "a.csv"], capture_output=True, check=True).stdout
    (tmp_path / "report.txt").write_bytes(report)
    return tmp_path


def test_overview_of_a_split(made: Path):
    found = read_report(made / "report.txt", files=[made / "a.csv"], record=made / "split.txt")
    assert (found.crs, found.shift) == ("EPSG:32733", (100, 200))
    assert found.corners()["a"][0] == (0, 0)
    row = found.overview().iloc[0]
    assert row["records":"used"].to_dict() == {"records": 8, "left_coordinates": 2, "left_outlier": 2, "used": 4}
    assert found.left_out().values.tolist() == [
        ["", "animal", 3], ["a", "coordinates", 2], ["a", "outlier", 2], ["gone", "no dop", 5]]


def test_overview_of_files_alone(made: Path):
    with pytest.warns(HomeRangeNote, match="^coordinates are shifted by 100 m east and 200 m north, as .*, and lie so here: name it, as by record="):
        found = read_report(made / "report.txt", files=[made / "a.csv"]).overview().iloc[0]
    assert found["records":"used"].to_dict() == {"records": 6, "left_use": 2, "used": 4}
    with pytest.warns(HomeRangeNote, match="^coordinates are shifted by "):
        assert pandas.isna(read_report(made / "report.txt").overview()["records"][0])


def test_a_record_is_read(made: Path):
    found = read_record(made / "split.txt")
    assert (found.export, found.checksum, found.of_source()["gone"]) == ("deer.csv", 64 * "a", 5)
    assert found.options == [("max-dop", "4"), ("na", '"N/A,-')]
    text = (made / "split.txt").read_text()
    for old, new in (("track,a,6,4", "track,a"), ("gone,5,", "gone,x,"), ("export,", "export,exports/"), (64 * "a", "abc")):
        (made / "split.txt").write_text(text.replace(old, new))
        with pytest.raises(FrameError, match="does not fit there"):
            read_record(made / "split.txt")
    (made / "split.txt").write_text(f"export,hare.csv\nsha256,{64 * 'b'}\n{text}")
    with pytest.raises(FrameError, match="its tracks are of several exports"):
        read_record(made / "split.txt")
