"""Tables, layers, pictures and a page of the report FOLDER/report.txt, into the same folder.

FOLDER/tracks has the files that the report was made from; the zone is the UTM zone of their coordinates. Where
homerange-split made them, the report has to have the animals and fixes of its record, and coordinates that it shifted are
shifted back. Files made:

    summary.csv    for each animal and level the fixes, the kept ones, corners and hectares
    animals.csv    for each animal what was left out, times, intervals, hectares, and how the area grew
    overlaps.csv   which share of the fixes of the row's animal lie in the polygon of the column's
    ranges.gpkg    layers for a GIS: the polygons of all levels, the fixes, and how QGIS draws them
    curves.png     the area after each fix
    ranges.png     the polygons of all fixes
    report.html    the page: one file to read, to print and to hand in

Numbers are those of the report. Polygons below 100 per cent are those of the fixes that the level keeps, which the
program is run on, and are compared with the report."""

from __future__ import annotations

import argparse
import sys
from importlib.util import find_spec
from pathlib import Path
from typing import TYPE_CHECKING

from ..about import TYPED, About, Words
from ..bar import Log
from ..errors import HomeRangeError, check_folder, refuse
from ..program import find_program, program_of
from ..record import record_in
from ..units import zone_of_time
from ..write.boundary import BOUNDARY
from ..write.evidence import REPORT, TRACKS, Wish, about_of, used_tracks
from ..write.page import PAGE, TABLES
from ..write.results import LAYERS, read_ranges, write_results
from ..zones import text_of_zone, zone_of
from .options import Options, text_of_fault
from .words import boundary_in, check_clock, check_levels_of, check_zone, said_of_boundary

if TYPE_CHECKING:
    from ..ranges.home import HomeRanges
    from ..report import Report

PICTURES = ("curves.png", "ranges.png")
MANY = 12  # animals whose curves are drawn into one picture at most
NEEDED = ("geopandas", "matplotlib")
HELP = dict(zip(TYPED, ("the title of the page", "the study that the page names", "the species that the page names",
                        "who made the page", "the reference of the case, such as its file number", "what the page is for")))


def check_libraries() -> None:
    """Refuses a machine without what tables, layers and pictures need."""
    if any(find_spec(module) is None for module in NEEDED):
        raise HomeRangeError(f"it needs {' and '.join(NEEDED)}: apt-get install python3-geopandas python3-matplotlib")


def add_page_options(parser: argparse.ArgumentParser) -> None:
    """Adds the options of the page."""
    for name, text in HELP.items():
        parser.add_argument(f"--{name}", metavar="TEXT", help=text)
    parser.add_argument("--over", type=Path, metavar="FILE", help="a boundary for the map of the page, as of a reserve")


def write_pictures(ranges: HomeRanges, folder: Path) -> None:
    """Writes the curves, of many animals each in a panel of its own, and the polygons of all levels that can be had."""
    import matplotlib

    from ..write.page import levels_drawn
    from ..write.plot import plot_curve, plot_ranges

    matplotlib.use("Agg")
    many = len(ranges.animals) > MANY
    curves = plot_curve(ranges, facets=True)[0] if many else plot_curve(ranges)
    for name, axes in zip(PICTURES, (curves, plot_ranges(ranges, level=levels_drawn(ranges)))):
        axes.figure.savefig(folder / name, dpi=300)


def write_all(folder: Path, over: Path | None, about: About, log: Log, program: str | None = None,
              report: Report | None = None) -> None:
    """Writes all that is made of a report, which may be known, into its folder; the page has what the record of the run says."""
    from ..write.boundary import rings_given, write_rings

    log.at("reading the report")
    ranges = read_ranges(folder, about, program, report)
    if ranges.crs is None:
        log.say("no reference system is known: that of ranges.gpkg is an undefined one of metres")
    check_levels_of(REPORT, ranges.levels)
    with said_of_boundary(over):
        write_rings(rings_given(ranges, boundary_in(over, ranges.crs)), folder)
    log.at("writing tables, layers and page")
    for line in write_results(folder, ranges, about):
        log.say(line)
    log.at("drawing pictures")
    write_pictures(ranges, folder)


def check_links(folder: Path) -> None:
    """Refuses a folder in which something that is written over is a link: the folder may be a stranger's."""
    check_folder(folder)
    links = [name for name in (*TABLES, LAYERS, PAGE, BOUNDARY, *PICTURES) if (folder / name).is_symlink()]
    if links:
        refuse(f"{folder / links[0]} is a link to elsewhere: remove it", "text")


def words_of(options: argparse.Namespace, clock: str) -> Words:
    """What was typed in for the page."""
    zone_of_time(clock)
    return Words(title=options.title or None, study=options.study or None, species=options.species or None, by=options.by or None,
                 reference=options.reference or None, purpose=options.purpose or None,
                 boundary=options.over and options.over.stem, clock=clock)


def main(name: str = "homerange-tables") -> None:
    parser = Options(name, __doc__)
    parser.add_argument("folder", type=Path, metavar="FOLDER", help="the folder with report.txt and tracks")
    parser.add_argument("--zone", metavar="33N", help="the UTM zone; without it that of the record of the tracks")
    add_page_options(parser)
    parser.add_argument("--tz", default="UTC", metavar="ZONE", help="the zone of dates on the page [default: UTC]")
    options, log = parser.parse_args(), Log(name)
    try:
        check_libraries()
        check_links(options.folder)
        check_clock(options.tz, "tz")
        zone, record = options.zone and zone_of(options.zone), record_in(options.folder / TRACKS)
        if zone:
            check_zone(zone, record)
        words = words_of(options, options.tz)._replace(crs=zone and text_of_zone(zone))
        program = program_of(find_program())
        files = [*used_tracks(options.folder)]
        wish = Wish("100", "m", program)
        write_all(options.folder, options.over, about_of(wish, files, "m", record, words), log)
    except (HomeRangeError, OSError, ValueError) as fault:
        log.say(text_of_fault(fault))
        sys.exit(1)
    finally:
        log.clear()


if __name__ == "__main__":
    main()
