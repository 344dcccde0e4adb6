"""same_frames.py FOLDER: of the tables of frames.R in a folder, and of the evidence that the package for R makes of them in
by_r, it makes that of the package for Python in by_python, and says which files are not the same bytes, or whose evidence
the verifier of the repository does not hold; and which calls say something else, or are refused otherwise."""
import csv
import re
import subprocess
import sys
import warnings
from datetime import date, datetime, timezone
from pathlib import Path

TOOLS = Path(__file__).resolve().parents[1]
sys.path.insert(0, str(TOOLS.parent / "python"))

import geopandas
import pandas
from shapely import geometry

from homerange import HomeRangeError, home_range, read_fixes, read_report, share_inside, write_page
from homerange.program import find_program

OWN = ("made: ", "commit: ", "tool,")  # how lines begin that say what made a folder, and when
CALLS = {
    "deer": {},
    "told": {
        "zone": "33N", "tz": "Europe/Ljubljana", "every": 6, "since": date(2024, 4, 2),
        "until": datetime(2024, 5, 10, 12, tzinfo=timezone.utc), "max_dop": "6", "max_speed": 0.5},
    "system": {"crs": "EPSG:3035", "unit": "dm", "animal": "animal"},
    "filtered": {"crs": 3035},
    "grid": {"name": "Fox", "since": "2024-04-20 05:00"},
    "decimals": {"unit": "dm"},
    "degrees": {},
    "many": {"skip_unnamed": True}}
LEVELS = {"filtered": (33, 90), "many": 95}


def hand_in(folder, name, words):
    """Makes the evidence of a table as a data frame, of all or some of the fixes."""
    fixes = read_fixes(pandas.read_csv(folder / f"{name}.csv"), **words)
    chosen = fixes[fixes["easting"] % 2 == 0] if name == "filtered" else fixes
    title = "<b> & deer" if name == "deer" else None
    home_range(chosen, LEVELS.get(name, (50, 95, 100))).evidence(folder / "by_python" / name, title=title, made=DAY)


def hand_in_again(folder):
    """Makes the evidence of a report and its files, with their record, which the package for R made."""
    made = folder / "by_r" / "told"
    files = sorted((made / "tracks").glob("*.csv"))
    found = read_report(made / "report.txt", files=files, record=made / "tracks" / "split.txt")
    found.evidence(folder / "by_python" / "again", made=DAY)


def calls_of(told, small):
    """The calls of frames.R whose answers are compared."""
    fixes, seconds = read_fixes(told, zone="33N"), read_fixes(small, unit="dm")
    ranges = home_range(fixes, 50)
    moments = told[["animal", "easting", "northing"]].assign(local_time=pandas.to_datetime(told["timestamp"], utc=True))
    when = pandas.to_datetime(told["timestamp"])
    clocks = told.assign(timestamp=when.dt.tz_localize("Asia/Tokyo"), released=when.dt.tz_localize("UTC"))
    in_spain = told.assign(easting=told["easting"] - 562_000 + 2_900_000, northing=told["northing"] - 5_134_000 + 1_700_000)
    swapped = fixes.assign(easting=fixes["northing"], northing=fixes["easting"])
    return {
        "all": lambda: read_fixes(told, zone="33N"), "decimals": lambda: read_fixes(small, unit="dm"), "fixes": lambda: home_range(fixes),
        "sorted": lambda: home_range(fixes.sort_values("easting", kind="stable")), "swapped": lambda: home_range(swapped),
        "moved": lambda: home_range(fixes.assign(easting=fixes["easting"] + 0.25)), "twice": lambda: home_range(pandas.concat([fixes, fixes])),
        "marked": lambda: home_range(fixes.assign(use=fixes["easting"] % 2)), "none": lambda: home_range(fixes.iloc[:0]),
        "unread": lambda: home_range(fixes.assign(visible=0, use=1)),
        "source": lambda: home_range(fixes.assign(timestamp=fixes["timestamp"].where(fixes.index != fixes.index[2], "2024-01-01"))),
        "own": lambda: read_fixes(told.assign(tag="Fox"), animal="tag", zone="33N"), "clock": lambda: read_fixes(clocks, zone="33N"),
        "again": lambda: home_range(fixes, zone="33N"), "bound": lambda: pandas.concat([fixes, read_fixes(told, zone="33N", unit="dm")]),
        "list": lambda: read_fixes(told.assign(**{"sensor.type": told["animal"].map(list)})), "rows": lambda: read_fixes(told.head(0)),
        "part": lambda: read_fixes(told.assign(animal=1.5)), "moments": lambda: read_fixes(moments, zone="33N"),
        "option": lambda: read_fixes(told, nonsense=1), "percent": lambda: home_range(fixes, percent=95), "list given": lambda: home_range([5]),
        "sensor": lambda: read_fixes(told, sensor="gps"), "types": lambda: read_fixes(told.assign(fixtype="3D"), fix_type="3-D"),
        "hours": lambda: read_fixes(told.assign(timestamp=told["timestamp"].str[:10], hour=5)),
        "joined": lambda: read_fixes(told.assign(timestamp=told["timestamp"].str[:10], hour=5), time=["timestamp", "hour"]),
        "commas": lambda: read_fixes(told.assign(easting="500000,5")), "days": lambda: read_fixes(told.assign(timestamp=45352.5)),
        "year": lambda: read_fixes(told.assign(timestamp="0024-03-01")), "offset": lambda: read_fixes(told, tz="UTC+2"),
        "digits": lambda: read_fixes(told.assign(animal=2.0 ** 60)), "groups": lambda: home_range(seconds, by=["M", "M ", "M", "-"]), "zone": lambda: read_fixes(told, zone=33),
        "word": lambda: read_fixes(told, sensor=["gps", "a,b"]), "files": lambda: read_fixes(told, encoding="latin-1"),
        "degrees": lambda: read_fixes(told, crs=4326), "moon": lambda: read_fixes(told, crs="+proj=tmerc +R=1737400 +units=m"),
        "lengths": lambda: read_fixes(in_spain, crs=3035), "world": lambda: read_fixes(in_spain, crs="EPSG:6933"),
        "earth": lambda: read_fixes(in_spain, crs="ESRI:54009"), "turned": lambda: read_fixes(told, crs=5513),
        "by": lambda: home_range(fixes, by="nothing"), "season": lambda: home_range(seconds, by="season"),
        "parts": lambda: home_range(seconds, by=[1, 1.5, 2, 2]), "page": lambda: write_page(ranges, "none/page.html"),
        "order": lambda: home_range(fixes, by=(["a", "b", "b"] * len(fixes))[:len(fixes)]),
        "added": lambda: home_range(fixes.assign(exclude=1, keep=0)), "named": lambda: home_range(fixes.assign(exclude=1, keep=0), by="keep"),
        "ending": lambda: write_page(ranges, "page.csv"),
        "far": lambda: share_inside(ranges, geopandas.GeoSeries([geometry.box(900_000, 5_134_000, 901_000, 5_135_000)], crs=32633)),
        "report": lambda: read_report("none")}


def answer(call):
    """What a call says, or the kind and the text of its refusal."""
    with warnings.catch_warnings(record=True) as said:
        warnings.simplefilter("always")
        try:
            call()
        except HomeRangeError as fault:
            kind = getattr(fault, "kind", type(fault).__name__.removesuffix("Error").lower())
            return [(kind, str(fault))]
    return [("said", str(warning.message)) for warning in said]


def plain(text):
    """A line of either language, without what each has by its own syntax."""
    text = re.sub(r" \((frame[.]iloc\[[0-9]+\]|x\[[0-9]+, \])\)", "", text.replace('"', "'").replace(" = ", "="))
    text = re.sub("(?<= as by )(frame|x|pandas|fixes|data|as|read|format)[.[($].*", "..", text)
    return re.sub(": (make times of them|make text, numbers or times|do[.]call|leave fixes without|project it|make it one|make points of|sf::st_transform).*", "", text)


def other_answers(folder):
    """The calls whose answers are not the same in both languages, with both."""
    told, small = (pandas.read_csv(folder / f"{name}.csv") for name in ("told", "decimals"))
    for table in (told, small):
        table.index += 1  # as rows are numbered in R
    with open(folder / "by_r" / "said.csv", encoding="utf-8", newline="") as file:
        by_r = [(row["call"], row["kind"], plain(row["text"])) for row in csv.DictReader(file)]
    by_python = [(name, kind, plain(text)) for name, call in calls_of(told, small).items() for kind, text in answer(call)]
    return [f"{who}: {', '.join(own)}" for who, these, those in (("R", by_r, by_python), ("Python", by_python, by_r))
            for own in these if own not in those]


def shared(path):
    """What both packages write into a file of evidence."""
    lines = path.read_bytes().split(b"\n")
    return [line for line in lines if not line.startswith(tuple(begin.encode() for begin in OWN))]


def others(folder, name):
    """The files of the evidence of a table that are not the same in both languages. Bases of layers have the moment in them."""
    one, other = (folder / by / name for by in ("by_python", "by_r"))
    files, again = ({path.relative_to(each) for path in each.rglob("*") if path.is_file()} for each in (one, other))
    both = {path for path in files & again if path.name not in ("SHA256SUMS", "ranges.gpkg")}
    unlike = {path for path in both if shared(one / path) != shared(other / path)}
    return [f"{name}/{path}" for path in sorted((files ^ again) | unlike)]


def unheld(folder, name):
    """The evidence of a table that is not held but for the table."""
    for by in ("by_python", "by_r"):
        words = [sys.executable, TOOLS / "verify.py", folder / by / name, "--program", find_program(None)]
        run = subprocess.run(words, capture_output=True, text=True)
        if run.returncode != 3 or not run.stdout.endswith("verify.py: 8 held, 0 did not, 1 not looked at\n"):
            yield f"{by}/{name}: {run.stdout}"


folder, DAY = Path(sys.argv[1]), date(2026, 11, 26)
warnings.simplefilter("ignore")
(folder / "by_python").mkdir()
for name, words in CALLS.items():
    hand_in(folder, name, words)
hand_in_again(folder)
names = [*CALLS, "again"]
found = [path for name in names for path in others(folder, name)]
faults = [f"not the same bytes: {', '.join(found)}"] if found else []
sys.exit("\n".join([*faults, *other_answers(folder), *(fault for name in names for fault in unheld(folder, name))]) or 0)
