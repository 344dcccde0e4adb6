"""same_pages.py make FOLDER, and same_pages.py hold FOLDER: whether the packages for R and for Python make the same bytes of
the same ranges, and evidence that tools/verify.py holds.

The first writes cases into a folder: fixes, and cases.csv, which says with what same_pages.R makes their evidence, in by_r.
The second makes that of the package for Python, in by_python, and prints what does not hold. HOMERANGE is the program."""
import csv
import os
import random
import subprocess
import sys
import warnings
from datetime import date
from pathlib import Path

TOOLS = Path(__file__).resolve().parents[1]
sys.path.insert(0, str(TOOLS.parent / "python"))

TITLES = ["name", "levels", "unit", "crs", "tz", "title", "study", "boundary", "boundary_crs", "boundary_name"]
TABLES = ("report.html", "summary.csv", "animals.csv", "overlaps.csv")
FILES = ("report.txt", *TABLES)
ODD = ("<script>", "a & b", "it's", "فهد", "אבא", "\U0001f98a", "x  y", "{{title}}", "turned \u202e", "NA", "007", "c\\d", "%s",
       "Č", "č", "con", "nul.1 ", "e\u0301", "É", "=1+1", "+7", "-7", "@sum", "'tis")
WOOD = ("MULTIPOLYGON (((560500 5133600, 561700 5133600, 561700 5134800, 560500 5134800, 560500 5133600), (560800 5133800, "
        "560800 5134100, 561100 5134100, 561100 5133800, 560800 5133800)), ((562000 5133000, 562400 5133000, 562400 5133400, "
        "562000 5133400, 562000 5133000)))")
VALLEY = "POLYGON ((15.79 46.35, 15.81 46.35, 15.81 46.37, 15.79 46.37, 15.79 46.35))"
GRID = "+proj=tmerc +lat_0=0 +lon_0=15 +k=0.9999 +x_0=500000 +y_0=0 +ellps=bessel +units=m +no_defs"


def walks(names, steps, at, apart=400, part=0.0):
    """Fixes of animals that walk from places in rows of seven, so far apart."""
    draw, rows = random.Random(len(names)), []
    for number, name in enumerate(names):
        second, place = 1714521600, [at[0] + apart * (number % 7), at[1] + apart * (number // 7)]
        for _ in range(steps):
            second += draw.randrange(600, 20_000)
            place = [end + draw.randrange(-60, 61) for end in place]
            rows.append([name, second, *(end + part for end in place)])
    return rows


def cases():
    """Of each case its fixes, and what is not as usual."""
    here = (561_000, 5_134_000)
    yield walks(["fox"], 40, here), {"name": "one"}
    yield walks(["a", "b"], 40, here), {
        "name": "boundary", "crs": "EPSG:32633", "boundary": WOOD, "boundary_crs": "EPSG:32633",
        "boundary_name": '<wood> & "x"', "title": "<script>alert('x')</script> {{maps}} \\1 \u202e",
        "study": "a\nb \ufeff שלום"}
    yield walks(["a", "b", "c"], 40, here, 60_000, 0.3), {
        "name": "details", "unit": "dm", "crs": "EPSG:32633", "boundary": VALLEY, "boundary_crs": "EPSG:4326"}
    yield walks(["a", "b"], 40, (4_600_000, 2_600_000)), {"name": "europe", "crs": "EPSG:3035", "levels": "100,50"}
    yield walks(["a", "b"], 40, (700_000, 6_877_000)), {"name": "france", "crs": "EPSG:2154"}
    yield walks(["a", "b"], 40, (500_000, 100_000)), {"name": "slovenia", "crs": "EPSG:3794", "tz": "Europe/Ljubljana"}
    yield walks(["a", "b"], 40, (500_000, 400_000)), {"name": "america", "crs": "ESRI:102003", "levels": "7"}
    yield walks(["a", "b"], 40, here), {"name": "no code", "crs": GRID}
    yield walks(["a", "b"], 40, (-300, -400)), {"name": "local", "levels": "1,20,33,50,66,75,90,100"}
    yield walks(ODD, 35, here), {"name": "odd", "crs": "EPSG:32633"}
    yield walks([f"n{number:02} <i>&'x" for number in range(30)], 35, here), {"name": "thirty", "crs": "EPSG:32633"}
    yield walks([f"n{number:02}" for number in range(70)], 12, here), {"name": "seventy", "crs": "EPSG:32633"}


def make(folder):
    """Writes the cases."""
    rows = []
    for fixes, words in cases():
        rows.append({"levels": "50,95,100", "unit": "m", "tz": "UTC", **words})
        with open(folder / f"{words['name']}.csv", "w", encoding="utf-8", newline="") as file:
            csv.writer(file).writerows([["animal", "second", "easting", "northing"], *fixes])
    with open(folder / "cases.csv", "w", encoding="utf-8", newline="") as file:
        writer = csv.DictWriter(file, TITLES)
        writer.writeheader()
        writer.writerows(rows)


def make_by_python(folder, own):
    """The evidence of a case."""
    import geopandas
    import pandas

    from homerange import home_range

    fixes = pandas.read_csv(folder / f"{own['name']}.csv", dtype={"animal": str}, keep_default_na=False)
    levels = [int(level) for level in own["levels"].split(",")]
    ranges = home_range(fixes, levels=levels, unit=own["unit"], crs=own["crs"] or None, tz=own["tz"])
    wood = geopandas.GeoSeries.from_wkt([own["boundary"]], crs=own["boundary_crs"]) if own["boundary"] else None
    ranges.evidence(
        folder / "by_python" / own["name"], title=own["title"], study=own["study"], reserve=wood,
        reserve_name=own["boundary_name"], made=date(2026, 11, 26))


def fault_of(folder):
    """What the verifier says of evidence, where all but the table of fixes does not hold."""
    run = subprocess.run(
        [sys.executable, TOOLS / "verify.py", folder, "--program", os.environ["HOMERANGE"]], stdout=subprocess.PIPE, text=True)
    return None if run.returncode == 3 and "did not hold" not in run.stdout else run.stdout


def other_files(folder, names):
    """Which files of both packages are not the same bytes."""
    return [name for name in names if (folder / "by_r" / name).read_bytes() != (folder / "by_python" / name).read_bytes()]


def hold(folder):
    """Prints what does not hold, and answers whether something does not."""
    from homerange import read_report, write_page

    warnings.simplefilter("ignore")
    with open(folder / "cases.csv", encoding="utf-8", newline="") as file:
        known = list(csv.DictReader(file))
    for own in known:
        make_by_python(folder, own)
    write_page(read_report(folder / "report.txt"), folder / "by_python" / "report.html", made=date(2026, 11, 26))
    names = [own["name"] for own in known]
    faults = [f"not the same bytes: {name}" for name in other_files(folder, [
        "report.html", *(f"{name}/{file}" for name in names for file in FILES)])]
    pages = [(name, fault_of(folder / "by_r" / name)) for name in names]
    faults += [f"the evidence {name} does not hold: {fault}" for name, fault in pages if fault]
    print("\n".join(faults))
    return bool(faults)


if __name__ == "__main__":
    folder = Path(sys.argv[2])
    sys.exit(make(folder) if sys.argv[1] == "make" else hold(folder))
