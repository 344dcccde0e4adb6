"""Home ranges: home_range makes them of a data frame, read_report of a report, and HomeRanges answers what they are."""

from __future__ import annotations

import math
import os
import tempfile
from collections import Counter
from dataclasses import replace
from functools import cached_property
from pathlib import Path
from typing import TYPE_CHECKING, Any, Callable, Iterable, Mapping, NoReturn, Sequence

import numpy
import pandas

from ..arguments import says_ours
from ..bar import progress_of
from ..errors import HomeRangeError, ReportError, check_file, is_several, path_of, refuse, shown, truth_of
from ..program import Program, checksum_of, find_program, program_of
from ..read.fixes import Fixes, clock_of, is_of_fixes, reading_of
from ..read.reading import ReadTable, has_calendar, read_again, read_table, tell, times_of
from ..read.systems import crs_named, middle_outside
from ..read.words import check_names
from ..record import Record, difference_from_record, read_record
from ..report import Corners, Percent, Report, Table, doubled_area, read as read_lines
from ..units import UNITS, zone_of_time, zone_text
from ..zones import text_of_crs
from .groups import Group, check_by, group_tracks, is_period, labels_of, named_by, questions_of, said_of_period, without_title
from .growth import share
from .outer import counts_within, polygon_kept
from .overview import Facts, Row, facts_of, reasons_of, rows_of
from .reserve import Bounds, boundary_of
from .rows import rows_in
from .runs import Runs
from .tracks import Tracks, tracks_of_files, tracks_of_fixes

if TYPE_CHECKING:
    import geopandas
    from numpy.typing import NDArray


class HomeRanges:
    """The home ranges of some animals: what the program reported, in hectares and metres.

    ``animals`` has their names, ``levels`` the levels of the percent polygons, ``unit`` is 'm' or 'dm', that of the
    program's coordinates, ``crs`` the reference system of the coordinates (None where it is not known), and ``notes`` are
    the texts of the warnings. ``program`` has the ``path``, the ``version`` and the ``checksum`` (SHA-256) of the program
    that made the ranges; it is None where a report was read. Where ranges are by groups, ``animals`` has the names of
    ranges, such as 'fox 2024', ``groups`` has by these names the animal and the group, and tables have a column ``group``.
    """

    @says_ours
    def __init__(
        self, report: Report, tracks: Tracks | None, *, crs: Any = None, tz: str = "UTC", program: Program | None = None,
        named: str | os.PathLike[str] | None = None,
    ) -> None:
        if not isinstance(report, Report):
            refuse(f"report={shown(report)} is no report: home_range and read_report make ranges")
        self._report, self._tracks, self.program = report, tracks, program
        # The program of later runs; None finds one.
        self.named = program and program.path if named is None else path_of(named, "program")
        self.groups: dict[str, Group] = {}  # what ranges are of, where they are of groups
        self._corners: dict[int, dict[str, Corners]] = {}
        self.record: Record | None = None  # of how the files were made, where they were read with one
        self.split: Path | None = None  # its file
        self.files: list[Path] = []  # of the fixes, where they were read with a report
        self.checksum: str | None = None  # of the report, where it was read
        self.crs, self.tz, self.unit = crs, tz, report.unit
        self.notes = tracks.notes if tracks else []
        self.shift = tracks.shift if tracks else (0, 0)
        self.animals = list(report.tables)
        self.levels = [percent.level for percent in report.tables[self.animals[0]].percents]

    def __repr__(self) -> str:
        fixes = sum(table.fixes for table in self._report.tables.values())
        return f"<HomeRanges of {len(self.animals)} animals, {fixes} fixes; levels {', '.join(map(str, self.levels))}>"

    @property
    def report(self) -> Report:
        """What the program reported, in its own whole numbers."""
        return self._report

    def _hectares(self, area2: int) -> float:
        return area2 / UNITS[self.unit].hectare

    @cached_property
    def _has_calendar(self) -> bool:
        """Whether all seconds have a date, as those of the fixes have that the program read."""
        seconds = (table.rows.seconds for table in self._report.tables.values())
        return all(has_calendar(own[0], own[-1]) for own in seconds)

    def _times(self, seconds: Sequence[int | None] | pandas.Series) -> pandas.Series:
        """Seconds by the clock of the ranges, or as they are where they have no date."""
        whole = pandas.Series(seconds, dtype="Int64")
        if self._has_calendar:
            return times_of(whole.fillna(0).astype("int64"), self.tz).where(whole.notna())
        return whole if whole.hasnans else whole.astype("int64")

    def _in_metres(self, points: Iterable[tuple[int, int]]) -> list[tuple[float, float]]:
        scale, (east, north) = UNITS[self.unit].per_metre, self.shift
        return [(easting / scale - east, northing / scale - north) for easting, northing in points]

    @says_ours
    def summary(self) -> pandas.DataFrame:
        """A row for each animal and level: ``animal``; ``first`` and ``last``, the times of its first and last fix;
        ``fixes``, how many there are, and ``left_out``, how many rows of the frame are not among them (missing where it
        is not known, as of an animal that got another name); ``level`` in per cent; ``kept``, how many fixes the level
        keeps; and ``corners`` and ``hectares`` of their polygon. Times are whole seconds where they have no date, as those
        since a start of their own."""
        left_out, rows = self._left_by_animal(), []
        for name, table in self._report.tables.items():
            for level, kept, corners, area2 in table.percents:
                rows.append((
                    name, table.rows.seconds[0], table.rows.seconds[-1], table.fixes, left_out.get(name), level, kept,
                    corners, self._hectares(area2)))
        titles = ["animal", "first", "last", "fixes", "left_out", "level", "kept", "corners", "hectares"]
        summary = pandas.DataFrame(rows, columns=titles)
        times = {title: self._times(summary[title]) for title in ("first", "last")}
        return self.by_group(summary.assign(**times, left_out=summary["left_out"].astype("Int64")))

    def _left_by_animal(self) -> Mapping[str, int]:
        """How many fixes of each animal were left out, where it is known: by the record of its tracks, or by these."""
        if self.record is None:
            return self._tracks.left_out if self._tracks else {}
        left = Counter[str]()
        for (name, _), count in self.record.left_out().items():
            left[name] += count
        return {name: left[name] for name in self.record.tracks}

    @says_ours
    def by_group(self, table: pandas.DataFrame) -> pandas.DataFrame:
        """A table with a column of animals, which where ranges are by groups gets one of groups behind it."""
        if not isinstance(table, pandas.DataFrame) or "animal" not in table:
            refuse(f"table={type(table).__name__} is no table of these ranges, with a column animal")
        odd = next((name for name in table["animal"] if name not in self.groups), None) if self.groups else None
        if odd is not None:
            refuse_animal(odd, self.groups)
        if self.groups:
            known = [self.groups[name] for name in table["animal"]]
            table["animal"] = [animal for animal, _ in known]
            table.insert(1, "group", [group for _, group in known])
        return table

    @says_ours
    def of_source(self) -> Counter[str]:
        """How many records of the export or the frame each animal has; empty where it is not known."""
        if self.record:
            return self.record.of_source()
        if self._tracks is None or self.groups:
            return Counter()
        found = Counter({name: table.fixes for name, table in self._report.tables.items()})
        for (name, _), count in self._tracks.reasons.items():
            found[name] += count
        return found

    @says_ours
    def reasons(self) -> Counter[tuple[str, str]]:
        """How many fixes were left out, by animal and reason, as far as it is known."""
        return self.record.left_out() if self.record else self._tracks.reasons if self._tracks else Counter()

    @says_ours
    def rows(self) -> list[Row]:
        """The facts of each animal in whole numbers, of which ``overview`` makes a table."""
        records, tracks = self.of_source(), self._tracks
        if self.record is None and tracks is not None:
            records = Counter({name: count for name, count in records.items() if name in tracks.left_out})
        return rows_of(self._facts, records, Counter() if self.groups else self.reasons())

    @cached_property
    def _facts(self) -> dict[str, Facts]:
        """What follows from the report alone."""
        return {name: facts_of(table) for name, table in self._report.tables.items()}

    @says_ours
    def overview(self) -> pandas.DataFrame:
        """A row for each animal: ``animal``; ``records``, its fixes in the export or the frame; ``left_REASON`` for each
        reason that occurs, how many were left out for it (both missing where it is not known, as of an animal that got
        another name: ``left_out`` has these of none); ``used``, how many fixes the
        range has; ``first`` and ``last``, their times; ``days`` from the one to the other; ``median_hours`` and
        ``longest_hours``, the intervals between fixes; ``hectares_LEVEL`` for each level; and the columns of
        ``growth`` behind them."""
        rows = self.rows()
        table: dict[str, Any] = {"animal": [row.animal for row in rows]}
        table["records"] = pandas.array([row.records for row in rows], dtype="Int64")
        for reason in reasons_of(rows):
            counts = [None if row.records is None else row.left.get(reason, 0) for row in rows]
            table[f"left_{reason.replace(' ', '_')}"] = pandas.array(counts, dtype="Int64")
        table["used"] = [row.used for row in rows]
        table["first"] = self._times([row.first for row in rows])
        table["last"] = self._times([row.last for row in rows])
        table["days"] = [(row.last - row.first) / 86400 for row in rows]
        table["median_hours"] = [math.nan if row.median2 is None else row.median2 / 7200 for row in rows]
        table["longest_hours"] = [math.nan if row.longest is None else row.longest / 3600 for row in rows]
        for level in self.levels:
            table[f"hectares_{level}"] = [self._hectares(row.percents[level].area2) for row in rows]
        growth = self._growth(rows).drop(columns=["animal", "fixes", "hectares"])
        return self.by_group(pandas.concat([pandas.DataFrame(table), growth], axis="columns"))

    @says_ours
    def growth(self) -> pandas.DataFrame:
        """How the area of all fixes grew with their number (incremental area analysis, Harris et al. 1990), a row for
        each animal: ``animal``; ``fixes``; ``hectares`` of all of them; ``within_95_fix`` and ``within_95_time``, the
        number and the time of the first fix from which on the area stayed at 95 per cent or more of that; and
        ``last_tenth`` and ``last_quarter``, the share of it that the last tenth and the last quarter of the fixes added
        (0 to 1). The last four are missing where there is no area."""
        return self.by_group(self._growth(self.rows()))

    def _growth(self, rows: Sequence[Row]) -> pandas.DataFrame:
        found = [row.growth for row in rows]
        return pandas.DataFrame({
            "animal": self.animals, "fixes": [row.used for row in rows],
            "hectares": [self._hectares(own.area2) for own in found],
            "within_95_fix": pandas.array([own.within for own in found], dtype="Int64"),
            "within_95_time": self._times([row.within_second for row in rows]),
            "last_tenth": [share(own.tenth, own.area2) for own in found],
            "last_quarter": [share(own.quarter, own.area2) for own in found]})

    @says_ours
    def left_out(self) -> pandas.DataFrame:
        """How many fixes were left out of the table, a row for each ``animal`` and ``reason``, with ``fixes``. The reasons
        are those of docs/TABLES.md, such as chosen, of fixes that were read and are not among those that were handed in."""
        rows = [(name, reason, count) for (name, reason), count in sorted(self.reasons().items()) if count]
        return pandas.DataFrame(rows, columns=["animal", "reason", "fixes"])

    @says_ours
    def curve(self) -> pandas.DataFrame:
        """The table of incremental area analysis (Harris et al. 1990), a row for each fix: ``animal``; ``n``, the
        number of the fix; its ``time``; and ``corners`` and ``hectares`` of the polygon of the first n fixes. Where seconds
        have no date they stand in a column ``second``, and ``time`` counts them from 1970-01-01."""
        tables = self._report.tables
        counts = [table.fixes for table in tables.values()]
        seconds, corners, areas = (numpy.concatenate(own) for own in zip(*(table.rows for table in tables.values())))
        when = {"time": times_of(pandas.Series(seconds), self.tz)}
        return self.by_group(pandas.DataFrame({
            "animal": numpy.repeat(numpy.array([*tables], dtype=object), counts),
            "n": numpy.concatenate([numpy.arange(1, count + 1) for count in counts]),
            **(when if self._has_calendar else {"second": seconds, **when}), "corners": corners, "hectares": areas / UNITS[self.unit].hectare}))

    @says_ours
    def overlap(self, share: bool = False, level: int = 100) -> pandas.DataFrame:
        """How many of the fixes of the row's animal lie in the polygon of the column's, its edges included; with
        ``share`` which share of its fixes, 0 to 1. At 100 per cent these are the program's counts, and all fixes of an
        animal lie in its own polygon, whatever levels the ranges were made at; the columns are named by the level, as
        ``in_range_of_100``. For a lower level the package counts all fixes of the row's animal in the polygon of
        that level of the column's, by whole numbers; that needs the fixes."""
        is_share = truth_of(share, "share", f": a level is named, as by level={share!r}" if whole_number(share) in {100, *self.levels} else "")
        fixes = {name: table.fixes for name, table in self._report.tables.items()}
        if self._level(level) == 100:
            counts = {**self._report.overlaps, **{(name, name): count for name, count in fixes.items()}}
        else:
            counts = self._overlaps_at(level)
        matrix = pandas.DataFrame(
            [[counts[name, other] for other in fixes] for name in fixes],
            index=pandas.Index(fixes, name="fixes_of"), columns=pandas.Index(fixes, name=f"in_range_of_{whole_number(level)}"))
        return matrix.div(pandas.Series(fixes), axis="index") if is_share else matrix

    @says_ours
    def corners(self, level: int = 100) -> dict[str, list[tuple[float, float]]]:
        """The corners of each animal's polygon at a level, easting and northing in metres, counterclockwise from the
        westernmost, the first not repeated. For a level below 100 the package finds them, by whole numbers, among the fixes
        that the level keeps; their number and their area have to be those of the report (``ReportError``)."""
        level = self._level(level)
        if level not in self._corners:
            whole = {name: table.corners for name, table in self._report.tables.items()}
            self._corners[level] = whole if level == 100 else self._kept_corners(level)
        return {name: self._in_metres(points) for name, points in self._corners[level].items()}

    @property
    def box(self) -> Bounds:
        """The box of all ranges, in metres."""
        eastings, northings = zip(*(corner for corners in self.corners().values() for corner in corners))
        return min(eastings), min(northings), max(eastings), max(northings)

    def _overlaps_at(self, level: int) -> dict[tuple[str, str], int]:
        """The counts of the fixes of each animal in the polygon of each."""
        self.corners(level)
        polygons = self._corners[level]
        tracks = {} if self._tracks is None else self._tracks.by_name
        return counts_within(tracks, polygons) if tracks else {}

    def _level(self, level: Any) -> int:
        """A level of these ranges."""
        found = whole_number(level)
        if found not in {100, *self.levels}:
            known = ", ".join(map(str, sorted({100, *self.levels})))
            refuse(f"level {level!r} is none of these ranges ({known}){remedy([level], 'levels')}")
        return int(found)

    def _kept_corners(self, level: int) -> dict[str, Corners]:
        """The polygons of the fixes that a level keeps."""
        if self._tracks is None:
            refuse("polygons below 100 per cent need the fixes: read_report(path, files=..)")
        found = {name: polygon_kept(track, level) for name, track in self._tracks.by_name.items()}
        for name, corners in found.items():
            if (len(corners), doubled_area(corners)) != self._percent(name, level)[2:]:
                raise ReportError(f"the {level} per cent polygon of {name} is not that of the report")
        return found

    def _percent(self, animal: str, level: int) -> Percent:
        """What the report says of an animal's polygon at a level."""
        table = self._table(animal)
        whole = Percent(100, table.fixes, *table.last)
        return {100: whole, **{percent.level: percent for percent in table.percents}}[level]

    def _table(self, animal: str) -> Table:
        """What the report has of an animal."""
        if not isinstance(animal, str) or animal not in self._report.tables:
            refuse_animal(animal, self._report.tables)
        return self._report.tables[animal]

    @says_ours
    def hectares(self, animal: str, level: int = 100) -> float:
        """The area of an animal's polygon at a level."""
        return self._hectares(self._percent(animal, self._level(level)).area2)

    @property
    def tracks(self) -> Tracks | None:
        """The fixes in whole units, and what became of others; None where the fixes are not known."""
        return self._tracks

    @property
    def has_fixes(self) -> bool:
        """Whether the fixes are known."""
        return self._tracks is not None

    @says_ours
    def fixes(self, animal: str) -> NDArray[numpy.float64] | None:
        """The fixes of an animal in the order of time, an array of eastings and northings in metres; None where they
        are not known."""
        self._table(animal)
        if self._tracks is None:
            return None
        places = self._tracks.by_name[animal][:, 1:]
        return numpy.asarray(places / UNITS[self.unit].per_metre - self.shift, dtype="float64")

    @says_ours
    def polygons(self, levels: int | Iterable[int] = 100) -> geopandas.GeoDataFrame:
        """The polygons at one level, or at several below each other, as a GeoDataFrame in metres: ``animal``, ``level``,
        ``fixes``, ``kept``, ``corners``, ``hectares`` and ``geometry``, which of one corner is a point and of two a line.
        Wants geopandas: ``corners`` answers without it. See there for levels below 100."""
        try:
            import geopandas
            from shapely import geometry
        except ImportError:
            refuse("polygons want geopandas, which is not installed (python3-geopandas): corners(level) does without")
        wanted = [self._level(level) for level in levels_of(levels)]
        shapes = {1: lambda points: geometry.Point(points[0]), 2: geometry.LineString}
        rows = []
        for level, (name, points) in ((level, own) for level in wanted for own in self.corners(level).items()):
            _, kept, count, area2 = self._percent(name, level)
            shape = shapes.get(len(points), geometry.Polygon)(points)
            rows.append((name, level, self._report.tables[name].fixes, kept, count, self._hectares(area2), shape))
        titles = ["animal", "level", "fixes", "kept", "corners", "hectares", "geometry"]
        table = self.by_group(pandas.DataFrame(rows, columns=titles))
        return geopandas.GeoDataFrame(table, geometry="geometry", crs=self.crs)

    @says_ours
    def evidence(self, folder: str | os.PathLike[str], **page: Any) -> None:
        """Makes all that is handed in, in a new folder, as docs/EVIDENCE.md describes it: the fixes as files, by names as
        homerange-split makes them, with a record of how they were made, or the files and the record that ``read_report`` was
        given; the report of a new run over these files, which has to have the numbers of these ranges; the record of the
        run; tables; polygons, where geopandas is there; the page, with the arguments of ``write_page``; and the checksums
        of all these. ``tools/verify.py`` of homerange's repository checks it.

        Refused are a folder that is there, two names that come out the same, ranges without fixes, and what is refused
        of reports and programs elsewhere."""
        from ..write.output import write_folder

        tell(write_folder(self, folder, page))


def refuse_animal(animal: Any, known: Iterable[str]) -> NoReturn:
    """Refuses an animal that there is not, with those that there are."""
    names = [*map(repr, known)]
    refuse(f"there is no animal {animal!r}: there are {', '.join(names[:5])}{', ..' if len(names) > 5 else ''}")


def whole_number(value: Any) -> int | None:
    """A value as a whole number, None where it is none."""
    try:
        return None if isinstance(value, (bool, str)) or value != int(value) else int(value)
    except (TypeError, ValueError, OverflowError):
        return None


def whole_numbers(values: Any, least: int, most: int, what: str) -> list[int]:
    """One whole number, or several, within bounds, of an argument; all else is refused."""
    several = is_several(values)
    given = list(values) if several else [values]
    found = [number for number in map(whole_number, given) if number is not None and least <= number <= most]
    if not given or len(found) < len(given):
        names = f"{what.removesuffix('s')}s"
        refuse(f"{what}={given if several else values!r} are not {names} from {least} to {most}{remedy(given, names)}")
    return found


def remedy(given: Sequence[Any], what: str) -> str:
    """What to write for a share of 1, or for a number in quotes."""
    odd = next((value for value in given if isinstance(value, str) or isinstance(value, float) and not value.is_integer()), None)
    if isinstance(odd, str):
        plain = odd.replace("%", "").strip()
        text = plain if plain.isdecimal() else f"[{plain}]"
        return f": {odd!r} is a text, so write {text} without quotes" if plain.replace(",", "").replace(" ", "").isdecimal() else ""
    if odd is None or not math.isfinite(odd):
        return ""
    return f": {odd}: {what} are per cent, {round(100 * odd, 6):g}" if 0 < odd < 1 else f": {odd} is not whole"


def jobs_of(jobs: Any) -> int:
    """How many processors are to be taken."""
    found = whole_number(jobs)
    return found if found is not None and 1 <= found <= 1024 else refuse(f"jobs={shown(jobs)} is no whole number from 1 to 1024")


def levels_of(levels: Any, what: str = "levels") -> list[int]:
    """The levels of percent polygons, of an argument."""
    found = whole_numbers(levels, 1, 100, what)
    if len({*found}) < len(found):
        refuse(f"{what}={found} has a level twice")
    return found


@says_ours
def home_range(
    x: Any, levels: int | Iterable[int] = (50, 95, 100), by: Any = None, program: str | os.PathLike[str] | None = None,
    jobs: int | None = None, progress: Callable[[int, int], object] | bool | None = None, **reading: Any,
) -> HomeRanges:
    """The home ranges of animals, by the minimum convex polygon (Mohr 1947).

    x: fixes that ``read_fixes`` has read, of which rows may have been chosen; or what it reads, a data frame with a row for each
        fix or a file.
    levels: 1 to 8 whole numbers from 1 to 100. Level p keeps, of n fixes, the (p * n + 99) // 100 nearest to the mean
        of all, of fixes as near the earlier.
    by: makes a range of each group of an animal's fixes: of a 'year', a 'month' ('2024-05') or a 'season' of a year, by the
        clock of the fixes; of a column of the frame, or of the fixes; of values, one for each fix, or for each row of a frame (a
        Series goes by its index; values that may be of other rows, as of a frame that was sorted since, are refused); or of what
        a function of the fixes answers. Seasons are those of meteorology and are named by their months, '2024 Jun-Aug', and '2023-2024 Dec-Feb' for a December with the months behind it. Moments name groups as
        their own clock shows them, and by days where all are midnights.
    program: the program; if left out, that in the environment as HOMERANGE, the package's own, that of the clone that the
        package is in, or homerange on PATH (README.md, Which program runs).
    jobs: how many processors are taken; if left out, all that this process may have.
    progress: is called with how many of how many runs are done; more than 64 animals are several runs. True shows that in a
        line on standard error, as is done on a terminal if left out, and False does not.
    reading: the options of ``read_fixes``, such as ``zone='33N'``, where x is still to be read.

    How a table is read, and what is refused, is said in docs/TABLES.md. What is left out or changed is said in warnings
    (HomeRangeNote), and what was taken (HomeRangeInfo). Raises FrameError where the fixes or an argument cannot be right,
    ProgramError where the program does not run, and the error of the program's status where it refuses (FileError, OptionError,
    OutOfMemoryError, OutputError, CutError); ReportError where a report is not whole.
    """
    wanted = levels_of(levels)
    if by is not None:
        check_by(by, isinstance(x, (str, os.PathLike)))
    if jobs is not None:
        jobs = jobs_of(jobs)
    shown, found = progress_of(progress), program_of(find_program(program))
    with tempfile.TemporaryDirectory(prefix="homerange-") as folder:
        with named_by(by):
            table = table_of(x, reading, Path(folder), program, by)
        tracks, groups = tracks_of_fixes(table.fixes), dict[str, Group]()
        if by is not None:
            labels = labels_of(table, by)
            questions = said_of_period(table.fixes, by) if is_period(by) else questions_of(labels, Path(folder), program)
            tracks, groups = group_tracks(tracks, labels, questions)
        own, files, said = reading_of(table.fixes), Path(folder) / "tracks", [*table.said]
        new = tracks.notes[len(own.notes):]
        if isinstance(by, str) and not is_period(by):
            said, tracks = without_title(said, by), replace(tracks, notes=without_title(tracks.notes, by))
        tell([*said, *new])
        made = files if files.is_dir() and by is None else None  # the files that the program made of these tracks
        report = Runs(found.path, tracks.by_name, ",".join(map(str, wanted)), own.unit, made, tracks.names).report(shown, jobs)
    ranges = HomeRanges(report, tracks, crs=own.system, tz=clock_of(table.fixes), program=found)
    ranges.groups = groups
    return ranges


def table_of(x: Any, reading: dict[str, Any], folder: Path, program: str | os.PathLike[str] | None, by: Any) -> ReadTable:
    """The fixes as they were given, or as they are read; without a frame's own columns where nobody asks for them."""
    has_columns = by is not None and not is_period(by)
    if not isinstance(x, Fixes) or not is_of_fixes(x):
        return read_table(x, reading, folder, program, has_columns)
    check_names(reading)
    named = next((name for name, value in reading.items() if value is not None), None)
    if named is not None:
        refuse(f"{named} says how a table is read, and these fixes were read already: give it to read_fixes")
    return read_again(x, {}, folder, program, has_columns, by)


@says_ours
def read_report(
    path: str | os.PathLike[str], *, files: Iterable[str | os.PathLike[str]] = (), crs: Any = None, tz: str = "UTC",
    shift: tuple[int, int] = (0, 0), program: str | os.PathLike[str] | None = None,
    record: str | os.PathLike[str] | None = None,
) -> HomeRanges:
    """The home ranges of a report that the program, or tools/herd of it, made elsewhere.

    path: the report. One that is cut off, or whose lines are not those of a report, is refused (ReportError).
    files: the files that it was made from, for polygons below 100 per cent and for pictures with fixes. Files with
        other times of fixes, or another polygon of all, than the report are refused (ReportError).
    crs: the reference system of the coordinates in metres, such as 'EPSG:32633'; if left out, that of the record. Ranges far from
        where it is used are refused, as those of tracks that were shifted are without their shift.
    shift: how many metres were added to eastings and northings, as the line shift of split.txt has it; they are taken off
        in the answers. Without it and a record it is said, where that lies beside the report or its files.
    tz: the time zone of the times in the answers, where the seconds of the files are those since 1970 in UTC.
    program: as in home_range.
    record: split.txt of the files, from which it is known what was left out, the reference system and the shift. One of another
        report or other files is refused, and so are another crs and another shift beside it (FrameError).
    """
    if isinstance(files, (os.PathLike, Mapping, pandas.DataFrame)) or not is_several(files):
        such = repr(files) if isinstance(files, (str, os.PathLike)) else "'fox.csv'"
        refuse(f"files={shown(files)} are not several paths, such as [{such}]: leave files out where there are none")
    zone = zone_text(tz)
    check_grid(crs, zone, shift)
    report, paths = read_lines(check_file(path_of(path, "path")), rows_in), [check_file(path_of(file, "files")) for file in files]
    split = None if record is None else check_file(path_of(record, "record"))
    ranges = ranges_of(report, Path(path), paths, crs, zone, shift, split, program)
    if split is None and not any(shift):
        tell(shifts_said(report, paths, [Path(path), *paths]))
    return ranges


def shifts_said(report: Report, files: Sequence[Path], beside: Iterable[Path]) -> list[str]:
    """What is said of ranges that are read without their record, where it lies beside the report or its files and has a shift."""
    for path in dict.fromkeys(file.with_name("split.txt") for file in beside):
        try:
            own = read_record(path) if path.is_file() else None
            if own is not None:
                check_record(own, report, files)
        except HomeRangeError:  # it is that of others
            own = None
        if own is not None and any(own.shift):
            return [f"coordinates are shifted by {own.shift[0]} m east and {own.shift[1]} m north, as {path} has it, and lie so here: name it, as by "
                    f"record={str(path)!r}"]
    return []


def check_grid(crs: Any, tz: str, shift: Any) -> None:
    """Refuses what is no reference system, no time zone, or no two whole metres."""
    zone_of_time(tz)
    if crs is not None:
        crs_named(crs, "name that of the coordinates of the report, which are eastings and northings in metres")
    if not isinstance(shift, tuple) or len(shift) != 2 or None in map(whole_number, shift):
        refuse(f"shift={shown(shift)} are not two whole numbers, such as (1000000, 0)")


def ranges_of(report: Report, path: Path, files: Sequence[Path], crs: Any, tz: str, shift: tuple[int, int], split: Path | None,
              program: str | os.PathLike[str] | None) -> HomeRanges:
    """The home ranges of a report, of its file, of those that it was made from and of their record."""
    record = None if split is None else read_record(split)
    if record is not None:
        check_record(record, report, files)
        check_places(record, crs, shift)
        shift, crs = record.shift, record.system if crs is None else crs
    ranges = HomeRanges(report, tracks_of_files(report, files), crs=crs, tz=tz, named=program)
    ranges.shift, ranges.record, ranges.checksum = shift, record, checksum_of(path)
    ranges.files, ranges.split = [*files], split
    if crs is not None and record is None:
        check_area(ranges, crs)
    return ranges


def check_area(ranges: HomeRanges, crs: Any) -> None:
    """Refuses ranges without a record that lie far from where the named reference system is made for, as those of tracks that were
    shifted do."""
    west, south, east, north = ranges.box
    middle, system = ((west + east) / 2, (south + north) / 2), crs_named(crs)
    where = middle_outside(system, middle)
    if where is None:
        return
    turned = middle[0] + 2 * ranges.shift[0], middle[1] + 2 * ranges.shift[1]
    if any(ranges.shift) and middle_outside(system, turned) is None:
        refuse(f"shift={ranges.shift} puts the ranges {where}: a shift is what was added, so write shift={tuple(-side for side in ranges.shift)}")
    beside = next((split for split in (path.with_name("split.txt") for path in ranges.files) if split.is_file()), None)
    named = "'tracks/split.txt'" if beside is None else repr(str(beside))
    refuse(f"crs: the ranges lie {where}: were they shifted? name what was added, as the line shift of split.txt has it, as by "
           f"shift=(1000000, 0), or that file, as by record={named}", "crs")


def check_record(record: Record, report: Report, files: Iterable[Path]) -> None:
    """Refuses a record that is not that of a report, or not that of its files, where these are there."""
    if record.unit != report.unit:
        refuse(f"the report is in {report.unit}, and split.txt in {record.unit}: take the record of the tracks of this report", "text")
    fault = difference_from_record(record, {name: table.fixes for name, table in report.tables.items()}, is_part=True)
    if fault:
        refuse(fault, "text")
    sums = {*map(checksum_of, files)}
    others = (name for name in report.tables if name in record.tracks and record.tracks[name].checksum not in {None, *sums})
    odd = next(others, None)
    if sums and odd is not None:
        refuse(f"no file is the track of {odd} of which split.txt has the checksum: take the record of these files, or the files of this "
               "record", "text")


def check_places(record: Record, crs: Any, shift: tuple[int, int]) -> None:
    """Refuses a reference system and a shift that are not those of a record."""
    known = record.system or record.system_text
    if crs is not None and known is not None and text_of_crs(crs) not in (record.system_text, text_of_crs(known)):
        refuse(f"crs={crs!s:.60} is not {record.system_text}, which the coordinates are of, by split.txt: leave crs out", "crs")
    if any(shift) and shift != record.shift:
        refuse(f"shift={shift} is not {record.shift}, by which split.txt has coordinates shifted: leave shift out")


def check_ranges(ranges: Any) -> None:
    """Refuses what has no ranges."""
    if not isinstance(ranges, HomeRanges):
        refuse(f"a {type(ranges).__name__} has no ranges: home_range makes them")


def check_whole(ranges: HomeRanges, what: str) -> None:
    """Refuses ranges of groups, of which it is not known what was left out of each."""
    if ranges.groups:
        refuse(f"{what} is of whole ranges, and these are by groups: make those of one group alone, of its fixes")


@says_ours
def share_inside(ranges: HomeRanges, reserve: Any, level: int | Iterable[int] = 100) -> pandas.DataFrame:
    """How much of each animal's range lies in a reserve, at one level or at several below each other: a row for each animal with
    ``animal``, ``level``, ``hectares``, ``inside`` (hectares in the reserve) and ``share`` (0 to 1; NaN for a range without an area).

    reserve: a GeoDataFrame or a GeoSeries, whose shapes are taken together, in whatever reference system; or a shape of
        shapely in that of the ranges. A shape of another system goes straight in that one; one that reaches to where the system
        of the ranges has no places is taken as far as 100 km from the ranges. Points and lines are refused, and beside polygons
        left out as missing shapes are, which is said; so is a reserve that lies far from all ranges.
    """
    check_ranges(ranges)
    boundary, levels = boundary_of(reserve, ranges.crs, ranges.box), levels_of(level, "level")
    polygons = ranges.polygons(levels)
    inside = [shape.intersection(boundary).area / 10_000 for shape in polygons.geometry]
    whole = [shape.area / 10_000 for shape in polygons.geometry]
    known = [title for title in ("animal", "group", "level", "hectares") if title in polygons]
    share = [part / area if area else math.nan for part, area in zip(inside, whole)]
    return pandas.DataFrame(polygons[known]).assign(inside=inside, share=share)
