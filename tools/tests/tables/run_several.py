#!/usr/bin/env python3
"""run_several.py PROGRAM: several exports as one table. Cases by hand, of which stand here the options, the exports, and the lines
that are said or the refusal; and the random tables of random_tables.py, each cut into exports, which have to come to what
definition.py says of the whole table."""
import copy
import csv
import hashlib
import itertools
import subprocess
import sys
import tempfile
from pathlib import Path

sys.dont_write_bytecode = True
from cases import finish
from definition import made_of
from random_tables import Table, fault_in, sized_seeds

RECORDS = 10_000  # of random tables
TITLES = "animal,second,easting,northing"
ONE = f"{TITLES}\nfox,0,1000,2000\nfox,60,1010,2010\nhen,0,1100,2100\n".encode()
TWO = f"{TITLES}\nhen,50,1110,2110\nfox,120,1020,2000\n".encode()
TRACKS = {"fox": "fox,0,1000,2000\nfox,60,1010,2010\nfox,120,1020,2000\n", "hen": "hen,0,1100,2100\nhen,50,1110,2110\n"}
OWN, COLUMNS = "coordinates are those of the table; zone: not known", "columns: animal, second, easting, northing; 2 animals, box 0.110 by 0.110 km, from second 0 to 120"
COUNTS = "exports: one.csv 3 records, two.csv 2 records"
COMMAS = [b"id;date;x;y\na;2024-05-01;1000,5;2000,25\n", b"id;date;x;y\na;2024-05-02;1030,5;2040,25\n"]
FAR = [f"{TITLES}\n{''.join(f'v,{at},{500000 + 10 * at},{5000000 + 7 * at}' + chr(10) for at in range(9))}".encode(),
       f"{TITLES}\nv,10,500010,5000003\nv,9,505000,5000000\nv,11,500012,5000004\n".encode(), f"{TITLES}\nv,8,505001,5000001\n".encode()]
POINT = '<trkpt lat="46.356742" lon="15.805899"><time>2024-05-0{}T00:00:00Z</time></trkpt>'
GPX = [f"<gpx><trk><name>fox</name><trkseg>{POINT.format(day)}{POINT.format(day + 1)}</trkseg></trk></gpx>".encode() for day in (1, 3)]
TWICE = [b"id,timestamp,x,y\na,2024-10-27 02:30,1000,2000\na,2024-10-27 02:40,1010,2000\n", b"id,timestamp,x,y\na,2024-10-26 02:30,1000,2010\na,2024-10-27 02:50,1030,2040\n"]
NAMES = ("one.csv", "two.csv", "three.csv")

# Name, options, exports, whose names are one.csv, two.csv and so on, and the lines that are said but the last, with ... for those
# that are said of one export too; and the tracks by their names.
READ = [
    ("animals in both", [], [ONE, TWO], [COUNTS, OWN, COLUMNS], TRACKS),
    ("ends of lines, quotes and a mark", [], [ONE.rstrip(), b"\xef\xbb\xbf" + TWO.replace(b"\n", b"\r\n").replace(b"animal", b'"animal"')], [COUNTS, OWN, COLUMNS], TRACKS),
    ("an export without records", [], [ONE, TWO, f"{TITLES}\n".encode()], [COUNTS + ", three.csv 0 records", OWN, COLUMNS], TRACKS),
    ("decimal commas between semicolons", [], COMMAS, ["exports: one.csv 1 records, two.csv 1 records", ...], {"a": "a,1714521600,1001,2000\na,1714608000,1031,2040\n"}),
    ("lines before the titles", ["--skip-lines", "1"], [b"made by x\n" + ONE, b"made by y\n" + TWO], [COUNTS, OWN, COLUMNS], TRACKS),
    ("a header", ["--header", "animal,"], [b"made by x\n\n" + ONE, TWO], [COUNTS, OWN, COLUMNS], TRACKS),
    ("latin-1", ["--encoding", "latin-1"], [ONE, TWO.replace(b"fox", b"fox"), f"{TITLES}\né,0,1000,2000\né,1,1000,2001\n".encode("latin-1")],
     ["exports: one.csv 3 records, two.csv 2 records, three.csv 2 records", ...], TRACKS | {"é": "é,0,1000,2000\né,1,1000,2001\n"}),
    ("GPX", ["--from", "gpx"], GPX, ["exports: one.csv 2 records, two.csv 2 records", ...],
     {"fox": "".join(f"fox,{second},562000,5134001\n" for second in (1714521600, 1714608000, 1714694400, 1714780800))}),
    ("fixes far from the others", [], FAR, ["exports: one.csv 9 records, two.csv 3 records, three.csv 1 records", OWN,
     "2 records of v come before an earlier one: sorted by time", "1 records of v have the second of the one before: kept",
     "2 of 13 fixes of v lie 4,920 m from the others: records 2 of two.csv, 1 of three.csv: are they hers?", ...], None),
    ("an hour that comes twice", ["--tz", "Europe/Ljubljana"], TWICE,
     ["exports: one.csv 2 records, two.csv 2 records", "times are read as ISO text, in Europe/Ljubljana", "3 records lie in the hour that comes twice in Europe/Ljubljana: records 1, 2 of one.csv, 2 of two.csv", ...], None),
]
# The same, and the export, the record and a part of the refusal.
REFUSED = [
    ("another title", [], [ONE, TWO.replace(b"easting", b"x")], "two.csv", None, "its titles are not those of one.csv: 'x' stands in place of 'easting'"),
    ("a title less", [], [ONE, b"animal,second,easting\nfox,0,1000\n"], "two.csv", None, "no title stands in place of 'northing'"),
    ("other signs between fields", [], [ONE, TWO.replace(b",", b";")], "two.csv", None, "its fields do not stand between the same signs as those of one.csv"),
    ("a fault of the second", [], [ONE, TWO.replace(b"1020", b"x")], "two.csv", 2, "easting is 'x' and not a number"),
    ("a fault of the third", [], [ONE, TWO, f"{TITLES}\nfox,500,1,2\nfox,x,1,2\n".encode()], "three.csv", 2, "second is 'x'"),
    ("a quote that the next would close", [], [ONE + b'fox,"70,1,2\n', TWO + b'fox,1,1,2"\n'], "one.csv", 4, "a quote has no end"),
    ("a stray quote", [], [ONE, TWO + b'fox,1,a"b,2\n'], "two.csv", 3, "a quote stands inside a field"),
    ("bytes that are none of UTF-8", [], [ONE, TWO + b"\xe9"], None, None, "two.csv is no text in UTF-8"),
    ("the same bytes", [], [ONE, TWO, ONE], None, None, "three.csv is one.csv once more, byte for byte: name each export once"),
    ("no titles", [], [ONE, b"\n\n"], None, None, "two.csv has no line of titles"),
    ("a header of one alone", ["--header", "animal,"], [ONE, TWO.replace(b"animal", b"id")], "two.csv", None, "no line begins with 'animal,'"),
    ("a class of titles", [], [ONE.replace(b"easting", b"length"), TWO.replace(b"easting", b"length")], None, None, "no column"),
    ("a time of no clock", ["--tz", "Europe/Ljubljana"], [TWICE[0], TWICE[1].replace(b"10-26", b"03-31")], "two.csv", 1, "the clocks of Europe/Ljubljana passed over that time"),
]


def run(program, words, exports, folder):
    for name, export in zip(NAMES, exports):
        (folder / name).write_bytes(export)
    return subprocess.run([program, *words, *NAMES[:len(exports)]], capture_output=True, cwd=folder, stdin=subprocess.DEVNULL)


def tracks_in(folder):
    return {path.stem: path.read_text("utf-8").partition("\n")[2] for path in (folder / "tracks").glob("*.csv")}


def made_folder(lines, exports):
    """What split.txt has to say of exports."""
    wanted = [line for name, export in zip(NAMES, exports) for line in (f"export,{name}", f"sha256,{hashlib.sha256(export).hexdigest()}")]
    return lines[:len(wanted)] == wanted


def reading_fault(case, program, folder):
    _, words, exports, wanted, tracks = case
    found = run(program, words, exports, folder)
    lines = [line.removeprefix("split: ") for line in found.stderr.decode().splitlines()][:-1]
    is_open = wanted[-1] is ...
    if found.returncode or (lines[:len(wanted) - 1] != wanted[:-1] if is_open else lines != wanted):
        return f"status {found.returncode}: {lines}"
    record = (folder / "tracks" / "split.txt").read_text("utf-8").splitlines()
    if not made_folder(record, exports) or f"said,{wanted[0]}" not in record:
        return f"split.txt: {record}"
    return None if tracks in (None, tracks_in(folder)) else f"makes {tracks_in(folder)}"


def refusal_fault(case, program, folder):
    _, words, exports, export, record, text = case
    found = run(program, words, exports, folder)
    line = found.stderr.decode()
    start = "split: " + (f"{export}: " if export else "") + (f"record {record}: " if record else "")
    if found.returncode not in (1, 2) or not line.startswith(start) or text not in line or line.count("\n") != 1 or (folder / "tracks").exists():
        return f"status {found.returncode}: {line}"
    told = list(csv.reader(run(program, [*words, "--machine"], exports, folder).stderr.decode().splitlines()))
    return None if len(told) == 1 and told[0][1:3] == [export or "", str(record or "")] and text.removeprefix(start) in told[0][3] else f"--machine: {told}"


def standard_input_fault(program, folder):
    (folder / "two.csv").write_bytes(TWO)
    found = subprocess.run([program, "-", "two.csv"], capture_output=True, cwd=folder, input=ONE)
    if found.returncode or tracks_in(folder) != TRACKS:
        return f"status {found.returncode}: {found.stderr}"
    found = subprocess.run([program, "--into", "other", "-", "-"], capture_output=True, cwd=folder, input=ONE)
    return None if found.returncode == 2 and b"- is named twice" in found.stderr else f"status {found.returncode}: {found.stderr}"


def parts_of(table):
    """The table cut into exports with the same columns, each written anew."""
    columns = table.columns()
    cuts = sorted(table.draw.choices(range(len(table.records) + 1), k=table.draw.choice((1, 1, 2))))
    for start, end in itertools.pairwise([0, *cuts, len(table.records)]):
        part = copy.copy(table)
        part.columns, part.records = lambda: columns, table.records[start:end]
        yield part.text()


def random_fault(seed, program, folder):
    table = Table(seed)
    exports = list(parts_of(table))
    if len({*exports}) < len(exports):
        return None
    made = made_of(table.records, table.asked)
    found = run(program, table.words(), exports, folder)
    if found.returncode:
        return f"status {found.returncode}: {found.stderr.decode()}"
    texts = {path.name: path.read_bytes().decode() for path in (folder / "tracks").iterdir()}
    return fault_in(texts, made, table.asked)


def faults(program):
    """Each case with how the program does not do what it wants; None where it does."""
    cases = [*((case[0], lambda folder, case=case: reading_fault(case, program, folder)) for case in READ),
             *((case[0], lambda folder, case=case: refusal_fault(case, program, folder)) for case in REFUSED),
             ("standard input", lambda folder: standard_input_fault(program, folder)),
             *((f"table {seed} in parts", lambda folder, seed=seed: random_fault(seed, program, folder)) for seed in sized_seeds(0, RECORDS))]
    for name, fault_of in cases:
        with tempfile.TemporaryDirectory() as folder:
            yield name, fault_of(Path(folder))


def main():
    finish(list(faults(str(Path(sys.argv[1]).resolve()))))


if __name__ == "__main__":
    main()
