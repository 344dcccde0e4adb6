"""The page of ranges: its numbers, read back and compared with hulls and rules that are computed here; what is escaped; and
that nothing outside it is asked for."""
import datetime
import hashlib
import statistics
import subprocess
from decimal import Decimal
from pathlib import Path

import pandas
import pytest
from exact import area2, cloud, covers, hull, nearest
from frames import START, frame_of, quietly, told
from pages import DASH, Page, area, day, length, rounded, share
from test_growth import SPLIT, by_definition

from homerange import FileError, FrameError, HomeRangeNote, home_range, read_fixes, read_report, write_page
from homerange.program import find_program

HERD = {"vixen": cloud(1, 120), "old boar": cloud(2, 75, 300, 562500), "pup": cloud(3, 9, 5), "NA": [(562001, 5134002)]}
LEVELS = [50, 95, 100]
ZONE = "Europe/Ljubljana"
SECOND = int(START.timestamp())


def page_of(ranges, folder, **words):
    write_page(ranges, folder / "report.html", **words)
    return Page(folder / "report.html")


@pytest.fixture(scope="module")
def page(tmp_path_factory):
    return page_of(home_range(frame_of(**HERD), LEVELS, zone="33N"), tmp_path_factory.mktemp("page"), tz=ZONE)


def test_each_cell_of_an_animal(page):
    assert [*page.animals] == [*HERD]
    for number, (name, points) in enumerate(HERD.items(), 1):
        last = SECOND + 1800 * (len(points) - 1)
        within, _, quarter = by_definition([area2(hull(points[:n])) for n in range(1, len(points) + 1)])
        days = Decimal(last - SECOND) / 86_400
        interval = length(1800) if len(points) > 1 else DASH
        cells = page.animals[name]
        wanted = {
            "number": str(number), "records": f"{len(points):,}", "used": f"{len(points):,}", "first": day(SECOND, ZONE),
            "last": day(last, ZONE), "days": rounded(days, 1 if days < 10 else 0), "median_interval": interval,
            "longest_interval": interval,
            **{f"hectares_{level}": area(area2(hull(nearest(points, level)))) for level in LEVELS},
            "within_95_fix": str(within) if within else DASH,
            "within_95_date": day(SECOND + 1800 * (within - 1), ZONE) if within else DASH,
            "last_quarter": f"{rounded(100 * Decimal(quarter.numerator) / quarter.denominator, 1)} %" if within else DASH,
            "places": str(len({*points})), "repeats": "0", "clashes": "0", "gap": "1 Mar 2024" if len(points) > 1 else DASH}
        # What else the areas rest on tools/tests/second_way computes.
        assert {field: cells[field] for field in wanted} == wanted
        assert {*cells} - {*wanted} == {"quoted_days", "quoted_fixes", "quoted_since", "last_days", "one_fix", "one_fix_share",
                                        "half_days", "step", "step_date"}


def test_each_cell_of_overlaps(page):
    polygons = {name: hull(points) for name, points in HERD.items() if area2(hull(points))}
    for name, points in HERD.items():
        for other, polygon in polygons.items():
            if other != name:
                count = sum(covers(polygon, point) for point in points)
                assert page.overlaps[name, other] == share(count, len(points))
    assert {*page.overlaps} == {(a, b) for a in HERD for b in HERD if a != b}


def test_a_sentence_for_each_animal(page):
    kept = nearest(HERD["vixen"], 95)
    whole, early = area2(hull(kept)), area2(hull(nearest(HERD["vixen"][:90], 95)))
    assert page.all("li")[0] == (f"vixen: 95 % MCP {area(whole)} ha, {len(kept)} of 120 fixes, 1 to 3 Mar 2024; over the last quarter of "
                                 f"the days it grew by {rounded(100 * Decimal(whole - early) / whole, 1)} %")
    assert page.all("li")[3] == "NA: 95 % MCP has no area, 1 fix, 1 Mar 2024"
    assert page.fields["period"] == f"1 to 3 Mar 2024 (dates of {ZONE})"
    assert "Pairs of animals that meet: " in page.text
    assert "Areas on the grid differ from those on the ellipsoid by -0.07 % here." in page.text


def test_the_last_fix_of_a_gap_and_of_even_intervals(tmp_path):
    frame = frame_of(a=cloud(4, 5))
    seconds = [0, 30, 90, 400_000, 400_045]
    frame["timestamp"] = [START + datetime.timedelta(seconds=second) for second in seconds]
    cells = page_of(home_range(frame), tmp_path).animals["a"]
    intervals = [later - former for former, later in zip(seconds, seconds[1:])]
    assert cells["median_interval"] == length(statistics.median(intervals)) == "53 s"  # of 52.5, halves up
    assert cells["longest_interval"] == length(max(intervals)) == "4.6 d"
    assert cells["days"] == "4.6"


@pytest.mark.parametrize("levels, sentence", [([50, 90], "90 % MCP"), (100, "100 % MCP"), ([99, 95, 10], "95 % MCP")])
def test_the_level_of_sentences(tmp_path, levels, sentence):
    assert sentence in page_of(home_range(frame_of(a=HERD["vixen"]), levels), tmp_path).all("li")[0]


def test_seconds_that_are_not_since_1970(tmp_path):
    frame = frame_of(a=cloud(5, 100)).assign(second=range(0, 200_000, 2000)).drop(columns="timestamp")
    page = page_of(home_range(frame), tmp_path)
    assert (page.animals["a"]["first"], page.animals["a"]["last"]) == ("day 1", "day 3")
    assert page.fields["period"] == "day 1 to 3 (counted from the start that the files have)"


BAD = '</title><script>alert("x")</script>&amp;\'\u202e\U0001f98a ' + "long " * 40


def test_what_a_user_typed_is_text(tmp_path):
    names = [BAD.strip(), "<b>&", "{{title}}", "ذئب", "A" * 300]
    animals = {name: cloud(number, 20) for number, name in enumerate(names)}
    ranges = home_range(frame_of(**animals))
    own = [ranges.tracks.names.get(name, name) for name in names]
    with told(f"^animal '{'A' * 300}' is named {own[4]}$"):
        page = page_of(ranges, tmp_path, title=BAD, study="{{maps}}", species="<img src=x>", by="a\nb\x01", reference="7 & 8",
                       purpose="<b>")
    assert "script" not in page.tags and "img" not in page.tags and "b" not in page.order
    assert page.all("title") == page.all("h1") == [BAD.replace("\u202e", "\\u202e")]
    assert sorted(page.animals) == sorted(own) and own[1:4] == ["_b_&", "{{title}}", "ذئب"]
    assert {name for pair in page.overlaps for name in pair} == {*own}
    for text in ("Study: {{maps}}", "Species: <img src=x>", "By: a\\x0ab\\x01", "Reference: 7 & 8", "Purpose: <b>"):
        assert text in page.text


@pytest.mark.parametrize("text", ["a\0b", "\udcff", "fox \ud83d"])
@pytest.mark.parametrize("name", ["title", "study", "species", "by", "reference", "purpose"])
def test_what_no_page_can_have_is_refused(tmp_path, name, text):
    ranges = home_range(frame_of(a=HERD["pup"]))
    for call in (lambda: write_page(ranges, tmp_path / "page.html", **{name: text}), lambda: ranges.evidence(tmp_path / "e", **{name: text})):
        with pytest.raises(FrameError, match=f"^{name}=.* is no text in UTF-8 without a zero byte: mend it$"):
            call()
    assert [*tmp_path.iterdir()] == []


def test_of_files_without_a_record_it_is_not_known_what_was_left_out(tmp_path):
    frame = frame_of(a=cloud(6, 40), b=cloud(7, 30)).assign(visible=[True] * 30 + [False] * 10 + [True] * 30)
    with told("10 outliers: left out"):
        home_range(frame).evidence(tmp_path / "hand-in")
    ranges = read_report(tmp_path / "hand-in/report.txt", files=[tmp_path / f"hand-in/tracks/{name}.csv" for name in "ab"])
    assert ranges.summary()["left_out"].isna().all() and ranges.overview()["records"].isna().all()
    page = page_of(ranges, tmp_path)
    assert page.animals["a"]["records"] == DASH and "How many fixes were left out is not known." in page.text


def test_nothing_outside_is_asked_for(page, tmp_path):
    assert not {"script", "img", "link", "iframe", "object", "embed", "a", "form", "base", "use", "image"} & {*page.tags}
    names = {name for name, _ in page.attributes}
    assert not names & {"href", "src", "style", "xlink:href", "action", "data"} and not any(n.startswith("on") for n in names)
    write_page(home_range(frame_of(**HERD)), tmp_path / "report.html")
    text = (tmp_path / "report.html").read_text("utf-8")
    for word in ("http:", "https:", "url(", "@import", "javascript:"):
        assert word not in text
    assert "default-src 'none'" in text


def test_a_page_is_written_over_its_like_and_over_another_file_if_it_is_said(tmp_path):
    ranges, path = home_range(frame_of(**HERD)), tmp_path / "report.html"
    path.touch()
    write_page(ranges, path)
    write_page(ranges, path, title="<title>", made=datetime.date(2024, 12, 1))
    page = path.read_bytes()
    for other in (b'<!DOCTYPE html>\n<html lang="en">\n<title>mine</title>\n', b"PK\0\4"):
        path.write_bytes(other)
        with pytest.raises(FileError, match="report.html is there, and is no page of write_page: name another file, or say overwrite=True$"):
            write_page(ranges, path)
        assert path.read_bytes() == other
    write_page(ranges, path, title="<title>", made=datetime.date(2024, 12, 1), overwrite=True)
    assert path.read_bytes() == page
    for name in ("fixes.csv", "page", "html", ".html"):
        with pytest.raises(FrameError, match="^path=.*: a name that ends in .html or .htm is wanted$"):
            write_page(ranges, tmp_path / name)
    with pytest.raises(FrameError, match="^overwrite=1 is neither True nor False$"):
        write_page(ranges, path, overwrite=1)


def test_the_day_of_making_and_the_same_bytes(tmp_path):
    ranges = home_range(frame_of(**HERD))
    texts = []
    for name in ("a.html", "b.HTM"):
        write_page(ranges, tmp_path / name, made=datetime.date(2024, 12, 1))
        texts.append((tmp_path / name).read_bytes())
    assert texts[0] == texts[1] and b"Made on 1 Dec 2024 with homerange" in texts[0]


def test_fixes_left_out_of_a_frame(tmp_path):
    frame = frame_of(a=cloud(6, 40), b=cloud(7, 30)).assign(visible=[True] * 30 + [False] * 10 + [True] * 30)
    with pytest.warns(HomeRangeNote):
        ranges = home_range(frame, every="1h")
    page = page_of(ranges, tmp_path)
    assert page.animals["a"]["left_outlier"] == "10" and page.animals["a"]["left_every"] == "15"
    assert (page.animals["a"]["records"], page.animals["a"]["used"], page.animals["b"]["left_outlier"]) == ("40", "15", "0")
    assert "Of 70 fixes of the data 40 were left out: 10 marked as outliers and 30 not the first" in page.text
    assert "“10 outliers: left out”" in page.text


def test_an_export_that_is_called_as_the_text_of_a_frame(tmp_path):
    path = tmp_path / "fixes.csv"
    frame_of(a=cloud(6, 40), b=cloud(7, 30)).to_csv(path, index=False)
    checksum = hashlib.sha256(path.read_bytes()).hexdigest()
    fixes = quietly(read_fixes, path)
    for of_file in (home_range(path), home_range(fixes)):
        page = page_of(of_file, tmp_path)
        assert page.fields["export_sha256"] == checksum and "fixes.csv" in page.text
    # Those of the same rows as a frame, and of fixes of the file that were changed since, have no export that anybody has.
    for of_frame in (home_range(pandas.read_csv(path)), quietly(home_range, fixes.iloc[1:])):
        page = quietly(page_of, of_frame, tmp_path)
        assert page.fields["export_sha256"] == "none: the tracks were made of a data frame" and "fixes.csv" not in page.text


def test_a_page_of_a_split(tmp_path):
    lines = [f"a,{SECOND + 60 * at},{100 + at * at},{200 + at},{int(at not in (2, 3))}" for at in range(6)]
    (tmp_path / "a.csv").write_text("\n".join(["animal,second,easting,northing,use", *lines, ""]))
    checksum = hashlib.sha256((tmp_path / "a.csv").read_bytes()).hexdigest()
    (tmp_path / "split.txt").write_text(SPLIT.replace("track,a,6,4", f"track,a,6,4,{checksum}") + "tool,homerange-split 1.0.0\n")
    report = subprocess.run([find_program(None), tmp_path / "a.csv"], capture_output=True, check=True).stdout
    (tmp_path / "report.txt").write_bytes(report)
    ranges = read_report(tmp_path / "report.txt", files=[tmp_path / "a.csv"], record=tmp_path / "split.txt")
    page = page_of(ranges, tmp_path)
    cells = page.animals["a"]
    assert [cells[field] for field in ("records", "left_coordinates", "left_outlier", "used")] == ["8", "2", "2", "4"]
    assert ("Of 16 fixes of the export 12 were left out: 3 of no animal, 2 without coordinates, 2 marked as outliers and "
            "5 without a dilution of precision (DOP). Options of the split: max-dop 4, na \"N/A,-." in page.text)
    assert "Without a range, since none of their fixes is used (fixes of the export): gone (5)." in page.text
    assert "EPSG:32733 (WGS 84 / UTM zone 33S)" in page.text
    sums = {name: subprocess.run(["sha256sum", path], capture_output=True, text=True).stdout[:64]
            for name, path in (("report", tmp_path / "report.txt"), ("program", find_program(None)))}
    assert page.fields["export_sha256"] == 64 * "a" and "deer.csv" in page.text
    assert (page.fields["report_sha256"], page.fields["program_sha256"]) == (sums["report"], sums["program"])
    assert "python3 tools/verify.py FOLDER EXPORT" in page.text and "cannot be verified" not in page.text


def test_a_report_alone_has_what_is_known(tmp_path):
    frame = Path(tmp_path / "a.csv")
    frame.write_text("animal,second,easting,northing\n" + "".join(f"a,{n},{n * n},{n}\n" for n in range(50)))
    report = subprocess.run([find_program(None), frame], capture_output=True, check=True).stdout
    (tmp_path / "report.txt").write_bytes(report)
    page = page_of(read_report(tmp_path / "report.txt"), tmp_path)
    assert page.animals["a"]["records"] == DASH
    assert "reference system not known" in page.text and "How many fixes were left out is not known." in page.text
    assert page.fields["report_sha256"] == hashlib.sha256(report).hexdigest()
    assert "python3 tools/verify.py FOLDER" in page.text and "python3 tools/verify.py FOLDER EXPORT" not in page.text


def test_one_pair_and_several_that_do_not_meet(tmp_path):
    herd = {name: cloud(number, 9, 50, 560000 + 2000 * number) for number, name in enumerate("abc")}
    for names, pairs in (("ab", "(1 pair)."), ("abc", "(3 pairs).")):
        page = page_of(home_range(frame_of(**{name: herd[name] for name in names})), tmp_path)
        assert f"No animal has a fix in the range of another {pairs}" in page.text


def test_animals_of_a_frame_without_a_range_are_named(tmp_path):
    frame = frame_of(a=cloud(6, 40), b=[(1, 2), (3, 4)])
    with told("no fix of 'b' is left"):
        page = page_of(home_range(frame.assign(visible=frame["animal"] == "a")), tmp_path)
    assert "Without a range, since none of their fixes is used (fixes of the data): b (2)." in page.text
    assert "Of 42 fixes of the data 2 were left out: 2 marked as outliers." in page.text


def test_decimetres(tmp_path):
    square = [(500, 500), (502, 500), (502, 502.5), (500, 502.5)]
    cells = page_of(home_range(frame_of(newt=square, toad=[(3 * e, 3 * n) for e, n in square]), unit="dm"), tmp_path).animals
    assert [cells[name]["hectares_100"] for name in cells] == [area(1000, 10), area(9000, 10)] == ["5.00 m²", "45.0 m²"]


def test_many_animals_have_a_sentence_for_all_and_the_pairs_that_meet(tmp_path):
    herd = {f"deer {number}": cloud(number, 20, 400, 562000 + 500 * number) for number in range(70)}
    ranges = home_range(frame_of(**herd))
    page = page_of(ranges, tmp_path)
    counts = ranges.overlap()
    meeting = [(a, b) for at, a in enumerate(herd) for b in [*herd][at + 1:] if counts.loc[a, b] or counts.loc[b, a]]
    assert len(meeting) > 60 and f"Pairs of animals that meet: {len(meeting)} of 2,415 " in page.text
    assert len(page.overlaps) == 120 and len({*page.overlaps} & {*meeting}) == 60
    assert all(text == share(int(counts.loc[pair]), 20) for pair, text in page.overlaps.items())
    best = sorted((-max(counts.loc[a, b], counts.loc[b, a]) for a, b in meeting))[:60]
    shown = [-max(counts.loc[a, b], counts.loc[b, a]) for a, b in [*page.overlaps][::2]]
    assert shown == best
    areas = {name: area2(hull(nearest(points, 95))) for name, points in herd.items()}
    order = sorted(areas, key=areas.get)
    assert (f"70 animals: 95 % MCP from {area(areas[order[0]])} ha ({order[0]}) to {area(areas[order[-1]])} ha ({order[-1]}); "
            f"half of them have {area(areas[order[34]])} ha or less.") in page.text


def test_many_levels_have_a_table_of_their_own(tmp_path):
    levels = [10, 25, 50, 75, 90, 95, 99, 100]
    page = page_of(home_range(frame_of(**HERD), levels), tmp_path)
    for name, points in HERD.items():
        assert [page.animals[name][f"hectares_{level}"] for level in levels] == [
            area(area2(hull(nearest(points, level)))) for level in levels]
    assert ("id", "areas") in page.attributes and len(page.animals["vixen"]) == 32
