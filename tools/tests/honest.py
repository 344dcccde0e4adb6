"""honest.py FOLDER: makes exports in a folder, and evidence of data frames in folders of it: what second_way.sh holds."""
import random
import sys
import warnings
from datetime import date, datetime, timedelta
from pathlib import Path

TOOLS = Path(__file__).resolve().parents[1]
sys.path.insert(0, str(TOOLS.parent / "python"))

ODD = ("<script>", "a & b", "it's", "אבא", "x  y", "{{title}}", "007", "turned \u202e", "c\\d")
UTM = "individual-local-identifier,timestamp,utm-easting,utm-northing,utm-zone,visible"


def walks(names, steps, at, apart):
    """Fixes of animals that walk, each from a place of its own: name, moment, easting, northing."""
    draw = random.Random(len(names))
    for number, name in enumerate(names):
        moment, place = datetime(2023, 12, 28), [at[0] + apart * (number % 7), at[1] + apart * (number // 7)]
        for _ in range(steps):
            moment += timedelta(seconds=draw.randrange(600, 40_000))
            place = [round(end + draw.randrange(-60, 61) * apart / 200, 6) for end in place]
            yield name, moment, *place


def write(path, titles, rows):
    path.write_text("".join(f"{line}\n" for line in (titles, *rows)), "utf-8")


def degrees():
    """Lines of an export with longitude and latitude: some fixes are outliers, have no coordinates, or are at 0, 0."""
    for number, (name, moment, east, north) in enumerate(walks(("Asta", "Bor", "Cilla"), 40, (15.8, 46.35), 0.01)):
        place = "," if number % 17 == 5 else "0,0" if number % 29 == 3 else f"{east},{north}"
        yield f"{name},{moment},{place},{'false' if number % 9 == 4 else 'true'}"


def utm(names):
    """Lines of an export with coordinates of a zone; of the seventh animal one fix alone is in use."""
    for number, (name, moment, east, north) in enumerate(walks(names, 30, (561_000, 5_134_000), 200)):
        yield f"{name},{moment},{east},{north},33N,{'false' if 180 < number < 210 else 'true'}"


def make_exports(folder):
    write(folder / "degrees.csv", "individual-local-identifier,timestamp,location-long,location-lat,visible", degrees())
    write(folder / "one.csv", UTM, utm(["fox"]))
    write(folder / "names.csv", UTM, utm(ODD))
    write(folder / "grid.csv", "id,date,x,y", (",".join(map(str, row)) for row in walks(("a", "b"), 40, (-300, -400), 200)))
    (folder / "wood.geojson").write_text(
        '{"type": "FeatureCollection", "features": [{"type": "Feature", "properties": {}, "geometry": {"type": "Polygon", '
        '"coordinates": [[[15.79, 46.35], [15.82, 46.35], [15.82, 46.36], [15.79, 46.36], [15.79, 46.35]]]}}]}')


def frame(at, names=("Asta/1", "Žiga, Ä"), steps=60):
    """A table of fixes with a dilution of precision, of which two have no place."""
    import pandas

    table = pandas.DataFrame(walks(names, steps, at, 200), columns=["animal", "timestamp", "easting", "northing"])
    table.loc[[3, 70], "easting"] = None
    return table.assign(dop=[number % 7 + 1 for number in range(len(table))])


def make_frames(folder):
    """Evidence of frames: filtered in a zone, of some of the fixes that were read, in another reference system, without one, and of a
    herd."""
    import geopandas

    from homerange import home_range, read_fixes

    fixes = read_fixes(frame((561_000, 5_134_000)), zone="33N", tz="Europe/Ljubljana", max_dop="6", every=6)
    home_range(fixes).evidence(folder / "of_zone", title="Wolves & <i>dogs</i>", study="x\ny \ufeff", made=date(2024, 5, 1))
    home_range(fixes[fixes["time"].dt.hour >= 4]).evidence(folder / "of_hours", made=date(2024, 5, 1))
    wood = geopandas.GeoSeries.from_wkt(["POLYGON ((4321000 3210000, 4322000 3210000, 4321500 3211000, 4321000 3210000))"],
                                        crs="EPSG:3035")
    europe = home_range(frame((4_321_000, 3_210_000)), levels=(33, 90), crs="EPSG:3035", unit="dm")
    europe.evidence(folder / "of_europe", reserve=wood, reserve_name='wood & "x"', species="Canis lupus", by="Ana")
    home_range(frame((100, 100)), levels=(7, 100)).evidence(folder / "of_nothing", tz="Pacific/Honolulu")
    herd = frame((561_000, 5_134_000), [f"deer {number}" for number in range(70)], 9)
    home_range(herd, levels=80, zone="33N").evidence(folder / "herd")


if __name__ == "__main__":
    warnings.simplefilter("ignore")
    make_exports(Path(sys.argv[1]))
    make_frames(Path(sys.argv[1]))
