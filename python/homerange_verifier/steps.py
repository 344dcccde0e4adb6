"""The steps of a verification: what can be made again is made again and compared; what can't is named."""

from __future__ import annotations

import os
import re
import signal
import subprocess
from functools import cached_property
from itertools import combinations_with_replacement
from pathlib import Path
from shutil import copyfile, copytree
from typing import Callable, Sequence

from homerange.about import BESIDE, FORM, FORMER, TYPED, About, read_about, text_of
from homerange.errors import HomeRangeError
from homerange.record import Record, read_record, record_text
from homerange.zones import CODE

from . import beside
from .findings import Findings, having, listed
from .folder import checksum_of, is_signature, sums_fault, sums_of, unlisted
from .intake import (
    ABOUT, BOUNDARY, KNOWN, LAYERS, LOG, PAGE, PICTURES, PIECE, REPORT, SIGNATURES, SPLIT, SUMS, TABLES, TRACKS,
    Intake, is_plain_export, most_of)
from .layers import difference as layers_difference
from .lines import Counts, Fault, Range, Track, first_difference, overlaps_of, read_track, report_lines
from .older import form_of, read_older
from .records import OLDER, SPLIT as OPTIONS, TEXTS, fault_of as split_fault
from .releases import Release, releases

MOST_ANIMALS, GROUP = 64, 32
EXPORT = "export"  # the name under which it is split again, whatever the record calls it
RESULTS = (*TABLES, LAYERS, PAGE)
NOT_THERE = 3  # the status of a maker that lacks something of this machine
OUT_OF_MEMORY = 3  # that of the program
# What a call says last that has not the room which it needs.
SHORT = re.compile(rb"[A-Za-z_.]*MemoryError(: .*)?|split: not enough memory|split: again[^:]*: No space left on device(; .*)?"
                   rb"|\[Errno (12|28)\] .*")
NO_CLOCKS = "/usr/share/zoneinfo has no time zones"  # what homerange-split says of such a machine
LINE = 128  # more bytes than a line of a report can have
NAME = re.compile("[^\x00-\x1f\x7f,\"]{1,32}")  # of an animal, as the program takes it


class Verification:
    """A folder that was handed in, and what it is held to. All that is looked at are copies in a room."""

    def __init__(self, findings: Findings, folder: Path, export: Path | None, program: Path | None, room: Path) -> None:
        self.findings, self.room, self.export = findings, room, export
        self.given, self.made = room / "given", room / "made"
        released, owner = beside.program()
        self.program, self.is_named = program or released, program is not None
        self.whose = "the program that was named" if self.is_named else f"the release of this {owner}"
        self.sums: dict[str, str] = {}
        self.intake = Intake(folder, self.given)

    def run(self) -> None:
        """Takes the folder in, and takes all steps. What hinders several of them is said once; what is wrong with the folder as
        such ends the verification."""
        self.take_in()
        for step in self.steps():
            try:
                step()
            except (Fault, HomeRangeError, OSError, MemoryError) as fault:
                self.findings.stopped(fault, self.room)

    def steps(self) -> Sequence[Callable[[], None]]:
        return (self.record, self.tracks, self.split_again, self.program_of_record, self.run_again, self.recompute, self.results,
                self.others)

    def take_in(self) -> None:
        """Reads all files that are listed, and says whether they are those of their list."""
        if SUMS not in self.intake.names:
            raise Fault(f"there is no {SUMS} in the folder: it is none that evidence.py or ranges.sh wrote")
        self.intake.take(SUMS)
        self.sums = sums_of(self.given / SUMS)
        for name in self.intake.names:
            if name in self.sums or name in SIGNATURES:
                self.intake.take(name)
        odd = [name for name in unlisted(self.intake, self.sums) if name != self.laid_in]
        if odd:
            raise Fault(f"'{odd[0]}' is there and not in {SUMS}: nothing else was looked at. An export may lie in the folder by the "
                        "plain name that split.txt has, and else beside it")
        if self.laid_in and self.export is None:
            self.export = self.intake.folder / self.laid_in
        count = len(self.sums)
        self.findings.hold(sums_fault(self.intake, self.sums),
                           f"{SUMS} has the checksum of each of the {count} files of the folder, and no other")
        for name in SIGNATURES:
            if name in self.intake.names and not is_signature(self.given / name):
                self.findings.failed(f"{name} is no signature and no stamp of time")
            elif name in self.intake.names:
                self.findings.note(f"whose {name} is: docs/EVIDENCE.md says how to look")

    @cached_property
    def laid_in(self) -> str | None:
        """The export that lies in the folder: the file with the name and the checksum that the record has of it."""
        try:
            name = self.split and self.split.export
        except HomeRangeError:
            return None
        if name is None or name not in self.intake.names or not is_plain_export(name):
            return None
        checksum = self.intake.sums.get(name) or self.intake.take(name)
        return name if self.split and self.split.checksum == checksum else None

    @cached_property
    def is_of_this_form(self) -> bool:
        return form_of(self.given / ABOUT) == FORM

    @cached_property
    def is_false_form(self) -> bool:
        """Whether the folder says a form that no copy of the version writes that it names."""
        return self.release is not None and not self.is_older and form_of(self.given / ABOUT) not in (FORM, *FORMER)

    @cached_property
    def about(self) -> About:
        """The record of the run; of one of another form what steps need."""
        path = self.given / ABOUT
        return read_about(path) if self.is_of_this_form else read_older(path)

    @cached_property
    def split(self) -> Record | None:
        """The record of the tracks; None where there is none."""
        path = self.given / SPLIT
        return read_record(path) if path.is_file() else None

    @cached_property
    def files(self) -> list[str]:
        """The tracks of the run, in its order."""
        names = [*self.about.files]
        if not names or any(not name.startswith(f"{TRACKS}/") for name in names) or len({*names}) < len(names):
            raise Fault("the arguments in evidence.txt are not files of the folder's tracks, each once")
        if names != sorted(names, key=os.fsencode):
            raise Fault("the arguments in evidence.txt have the tracks in another order than that of their names")
        missing = [name for name in names if name not in self.intake.sums]
        if missing:
            raise Fault(f"evidence.txt names {missing[0]}, which is not there")
        return names

    @cached_property
    def levels(self) -> list[int]:
        return [int(level) for level in self.about.levels.split(",")]

    @cached_property
    def read(self) -> dict[str, Track]:
        """What the verifier's own reading finds in the tracks, by their names in the folder."""
        names = [name for name in self.sums if name.startswith(f"{TRACKS}/") and name != SPLIT]
        return {name: read_track(self.given / name) for name in names if name in self.intake.sums}

    @cached_property
    def ranges(self) -> list[Range]:
        """What another method computes of the tracks."""
        empty = [name for name in self.files if not self.read[name].points]
        if empty:
            raise Fault(f"{empty[0]} has no used fix, and the run was one of it")
        return [Range(self.read[name], self.levels) for name in self.files]

    @cached_property
    def overlaps(self) -> Counts:
        return overlaps_of(self.ranges)

    @cached_property
    def report_file(self) -> Path:
        """The report, once it is seen that these tracks can have one of its size."""
        path, animals, fixes = self.given / REPORT, len(self.files), sum(len(self.read[name].points) for name in self.files)
        few = fixes + animals * (animals + len(self.levels) + 2) + 1  # where each animal has one corner, and no unit is said
        most = few + fixes - animals + 1
        size, count = path.stat().st_size, 0 if path.stat().st_size > LINE * most else count_of_lines(path)
        if size > LINE * most:
            raise Fault(f"{REPORT} has {size} bytes, and a report of these tracks has at most {LINE * most}: it was not made again")
        if not few <= count <= most:
            raise Fault(f"{REPORT} has {count} lines, and a report of these tracks has from {few} to {most}: it was not made again")
        return path

    @cached_property
    def report(self) -> bytes:
        return self.report_file.read_bytes()

    @cached_property
    def release(self) -> Release | None:
        """The release whose program the record names; None where it names no released one."""
        return next((each for each in releases(beside.releases()) if each.checksum == self.about.checksum), None)

    @cached_property
    def is_older(self) -> bool:
        """Whether another version made the folder than this copy is of."""
        return self.release is not None and self.release.version != beside.version()

    def differs(self, text: str) -> None:
        """Says that something is not what is made again. Where another version made it, that may be why."""
        if self.release and self.is_older:
            self.findings.unseen(f"{text}: the folder was made by version {self.release.version}, and this copy is of version "
                                 f"{beside.version()}; use a copy of version {self.release.version}")
        else:
            self.findings.failed(text)

    def record(self) -> None:
        """Each field of the record of the run, made again of what else is known."""
        about = self.about
        if not self.is_of_this_form:
            say = self.findings.failed if self.is_false_form else self.findings.unseen
            say(f"{ABOUT} as a whole: {self.other_form()}")
            return
        fault = self.record_fault(about)
        if fault is None and text_of(about).encode("utf-8", "surrogateescape") != (self.given / ABOUT).read_bytes():
            fault = f"{ABOUT} is in another form than such records have"
        self.findings.hold(fault, f"{ABOUT} is a whole record of this run: its unit ({about.unit}), levels ({about.levels}), "
                           "arguments and number of runs agree with each other, with the report and with the record of the tracks")

    def record_fault(self, about: About) -> str | None:
        """How the record of the run says other things than are found elsewhere."""
        split = self.split
        if split and split.unit != about.unit:
            return f"the tracks are in {split.unit}, by split.txt, and the run was made in {about.unit}"
        if has_decimetres(self.given / REPORT) != (about.unit == "dm"):
            return f"the report is in another unit than {about.unit}, that of {ABOUT}"
        own = None if split is None else ("none", None) if split.export is None else (split.export, split.checksum)
        if own != about.export:
            return f"{ABOUT} names another export than split.txt"
        fault = split and split_fault(split, (self.given / SPLIT).read_bytes())
        if fault:
            return fault
        words = about.words
        if split and (any(words.shift) or words.crs is not None and split.system_text is not None):
            return f"{ABOUT} names another reference system or shift beside those of split.txt"
        if (BOUNDARY in self.sums) != (words.boundary is not None):
            return f"{ABOUT} names a boundary, and there is no {BOUNDARY}, or the other way round"
        release = self.release
        if release and about.program != release.program:
            return f"{ABOUT} calls the program '{about.program}', and it is {release.program}"
        for name, said, known in (("sources", about.sources, release and release.sources), ("logic", about.logic, release and release.logic)):
            if known and said not in (known, BESIDE):
                return f"{ABOUT} says other {name} than those of version {release.version if release else ''}"
        return None

    def tracks(self) -> None:
        """The files of the folder, those of the run, and those of the record."""
        there = {*self.read}
        if not self.split:
            unused = sorted(name for name, track in self.read.items() if not track.points)
            odd = [name for name, track in self.read.items() if not NAME.fullmatch(track.name)]
            fault = f"{odd[0]} has an animal whose name is none of 1 to 32 bytes without control characters" if odd else None
            fault = fault or (f"{ABOUT} names other files than there are" if there - {*unused} != {*self.files} else None)
            self.findings.hold(fault, f"the run was one of the {len(self.files)} files of tracks that have used fixes")
            self.findings.unseen("from what the tracks were made: they have no record")
            if unused:
                self.findings.unseen(f"what {having(unused)}: no fix is used, and no record says why")
            return
        made = self.split.tracks
        fault = None
        if {f"{TRACKS}/{name}.csv" for name in made} != there:
            fault = "the files of tracks are not those of split.txt"
        elif {f"{TRACKS}/{name}.csv" for name, own in made.items() if own.used} != {*self.files}:
            fault = "the run was not one of all tracks of split.txt that have used fixes"
        fault = fault or next(filter(None, map(self.track_fault, made)), None)
        are = "track is that" if len(made) == 1 else f"{len(made)} tracks are those"
        self.findings.hold(fault, f"the {are} of their record, and the run was one of them")

    def track_fault(self, name: str) -> str | None:
        """How a file of tracks is not the one of the record; None where it is."""
        path, made = f"{TRACKS}/{name}.csv", self.split.tracks[name] if self.split else None
        track = self.read[path]
        if made is None or made.checksum != self.intake.sums[path]:
            return f"{path} is not the file that split.txt says"
        used, records = len(track.points), len(track.points) + track.unused
        if (made.records, made.used) != (records, used):
            return f"{path} has {records} records of which {used} are used, and split.txt says {made.records} and {made.used}"
        own = track.name.encode("latin-1").decode("utf-8", "surrogateescape")
        return None if own == name else f"{path} has the animal {own}"

    def split_again(self) -> None:
        if self.split is not None and self.split.export is None:
            if self.export is not None:
                raise Fault(f"the tracks were made of a data frame, by split.txt, and not of {self.export.name}")
            self.findings.unseen("whether the tracks are those of the data frame that they were made of, which is not there")
            return
        if self.export is None:
            self.findings.unseen("whether the tracks are those of an export: name it behind the folder (in it by its plain name)")
            return
        if self.split is None:
            raise Fault("the tracks have no record by which they could be made again")
        if self.export.stat().st_size > most_of(EXPORT):
            raise Fault(f"{self.export.name} has more bytes than an export may have ({most_of(EXPORT)})")
        copyfile(self.export, self.room / EXPORT)
        if checksum_of(self.room / EXPORT) != self.split.checksum:
            raise Fault(f"{self.export.name} has not the checksum of the export in split.txt")
        odd = [name for name, _ in self.split.options if name not in OPTIONS]
        if odd:
            raise Fault(f"split.txt has the option {odd[0]}, which a split has not")
        self.name_export(self.export, self.split)
        splitter = beside.splitter(self.program if self.is_named else None)
        if splitter is None:
            self.findings.unseen(f"whether the tracks are those of the export: there is no homerange-split beside {self.whose}")
            return
        run = ran([str(splitter.resolve()), *beside.words_of_split(self.split), "--into", "again", "--", EXPORT], self.room)
        if run.returncode == 0:
            self.compare_tracks(self.split, self.room / "again")
            return
        said = last_line(run)
        if NO_CLOCKS in said:
            self.findings.unseen(f"whether the tracks are those of the export: {said}")
        else:
            self.differs_by_maker(f"the export cannot be split as split.txt says: {said}")

    def differs_by_maker(self, text: str) -> None:
        """Says that something is not what homerange-split makes again. Where another maker made the tracks, that may be why."""
        maker = self.split.tools[0].partition(",")[0] if self.split and self.split.tools else ""
        if OLDER.match(maker):
            self.findings.unseen(f"{text}: by the record the tracks were made by {maker}, which this copy has not")
        else:
            self.differs(text)

    def name_export(self, export: Path, split: Record) -> None:
        """Says what of the export is known by the record alone, and what of it no split looks at."""
        if export.name != split.export:
            self.findings.note(f"whether the export is called '{split.export}', as the records say: '{export.name}' was named")
        for name, skipped in split.options:
            if name in ("skip-lines", "header"):
                self.findings.note(f"what the first lines of the export say ({skipped}): they were skipped, and not looked at")

    def compare_tracks(self, split: Record, made: Path) -> None:
        """Whether tracks and record are those that were made again. What made them, and how the export is called, may differ."""
        again = read_record(made / "split.txt")
        for name in split.tracks:
            own = again.tracks.get(name)
            if own != split.tracks[name] or own is None or own.checksum != self.intake.sums.get(f"{TRACKS}/{name}.csv"):
                self.differs_by_maker(f"split again the export comes to another track of {name}")
                return
        wanted = record_text(again._replace(export=split.export, tools=split.tools)).encode("utf-8", "surrogateescape")
        if wanted != (self.given / SPLIT).read_bytes():
            self.differs_by_maker("split again the export comes to the same tracks and to another record than split.txt")
            return
        self.findings.held(f"split again with the options of the record the export '{self.export}' comes to the same tracks and the "
                           "same record, byte for byte but for its name and what made them")

    def program_of_record(self) -> None:
        """Which program the record names: the one that is here, or a released one."""
        wanted, own = self.about.checksum, checksum_of(self.program)
        if own != wanted and not self.release:
            self.findings.failed(f"the program of the record has the checksum {wanted}, and is neither {self.whose} nor a release of "
                                 "the list")
        elif own != wanted and self.release:
            self.findings.held(f"the program of the record is that of version {self.release.version}, by the list of releases; "
                               f"{self.whose} is another one")
        elif (said := self.said_by_program()) != self.about.program:
            self.findings.failed(f"{ABOUT} calls the program '{self.about.program}', and it says that it is '{said}'")
        else:
            self.findings.held(f"the program of the record is {self.whose}, {said}")

    def said_by_program(self) -> str:
        """What the program says that it is."""
        return ran([str(self.program.resolve()), "--version"], self.given).stdout.decode("utf-8", "replace").rstrip("\n")

    def run_again(self) -> None:
        by = " by this copy's program" if self.is_older else ""
        self.findings.hold(None if self.report == self.made_again() else f"run again{by} the program makes another report",
                           f"run again{by} the program makes the same report, byte for byte")

    def call(self, files: Sequence[str]) -> bytes:
        """What the program reports of these files."""
        words = ["--percent", self.about.levels, "--unit", self.about.unit, "--", *files]
        run = ran([str(self.program.resolve()), *words], self.given)
        if run.returncode == OUT_OF_MEMORY:
            raise MemoryError
        if run.returncode != 0:
            raise Fault(f"the program refuses the tracks: {last_line(run)}")
        return run.stdout

    def made_again(self) -> bytes:
        """The report of all files. Of more than a run takes each group has its own run, and each two groups one more, of
        which the overlaps are taken."""
        if len(self.files) <= MOST_ANIMALS:
            return self.call(self.files)
        groups = [self.files[first:first + GROUP] for first in range(0, len(self.files), GROUP)]
        tables: list[bytes] = []
        overlaps: dict[tuple[bytes, ...], bytes] = {}
        for one, other in combinations_with_replacement(range(len(groups)), 2):
            report = self.call(groups[one] if one == other else groups[one] + groups[other])
            behind = report.find(b"\noverlap,") + 1 or report.rfind(b"\nend,") + 1
            if one == other:
                tables.append(report[:behind].removeprefix(b"unit,dm\n") if one else report[:behind])
            overlaps.update((tuple(line.split(b",")[1:3]), line) for line in report[behind:].split(b"\n")[:-2])
        names = [self.read[name].name.encode("latin-1") for name in self.files]
        pairs = [overlaps.get((one, other), b"") + b"\n" for one in names for other in names if one != other]
        return b"".join([*tables, *pairs, b"end,%d\n" % len(names)])

    def recompute(self) -> None:
        fault, count = first_difference(self.report, report_lines(self.ranges, self.overlaps, self.about.unit))
        self.findings.hold(fault and f"the report is not what another method computes: {fault}",
                           f"each of the {count} lines of the report is what another method computes of the tracks")

    def results(self) -> None:
        """Tables, layers and page, made again of the tracks, their record, the report and the record of the run."""
        there = [name for name in RESULTS if name in self.sums]
        missing = [name for name in RESULTS if name not in self.sums]
        if not there and self.about.words.clock is None:
            self.findings.note("tables, layers and page: the folder has none, and its record says that none were made")
            return
        if missing:
            self.findings.unseen(f"{listed(missing)}: not there, and made where a page is")
        if not self.is_of_this_form:
            self.findings.unseen(f"{listed(there)}: {self.other_form()}")
        elif self.about.words.clock is None:
            self.findings.failed(f"{listed(there)} {'is' if len(there) == 1 else 'are'} there, and evidence.txt says that no page was made")
        elif there and self.make_results():
            self.compare_texts([name for name in there if name != LAYERS and (self.made / name).is_file()])
            if LAYERS in there and (self.made / PAGE).is_file():
                self.compare_layers()

    def make_results(self) -> bool:
        """Makes the results again, and says whether they could be made."""
        self.made.mkdir()
        for path in (self.report_file, self.given / ABOUT, *[self.given / BOUNDARY] * (BOUNDARY in self.sums)):
            os.link(path, self.made / path.name)
        copytree(self.given / TRACKS, self.made / TRACKS, copy_function=os.link)
        run = ran([*beside.MAKE, str(self.program.resolve())], self.made)
        has_tables = all((self.made / name).is_file() for name in TABLES)
        if run.returncode == NOT_THERE:
            self.findings.unseen(f"{'' if has_tables else 'tables, '}layers and page: {last_line(run)}")
        elif run.returncode != 0:
            self.differs(f"tables, layers and page cannot be made of this folder: {last_line(run)}")
        return run.returncode == 0 or run.returncode == NOT_THERE and has_tables

    def compare_texts(self, names: Sequence[str]) -> None:
        """Whether tables and page are the same bytes as those that were made again."""
        faults = {name: self.text_fault(name) for name in names}
        for fault in filter(None, faults.values()):
            self.differs(fault)
        same = [name for name, fault in faults.items() if not fault]
        if same:
            one = len(same) == 1
            self.findings.held(f"{listed(same)}: made again of tracks and records {'it is' if one else 'they are'} the same, byte for byte")

    def text_fault(self, name: str) -> str | None:
        """How a text is not the one that was made again: where they part."""
        own, wish = (path / name for path in (self.given, self.made))
        content, wanted = own.read_bytes(), wish.read_bytes()
        if content == wanted:
            return None
        lines, wishes = (text.decode("utf-8", "surrogateescape").split("\n") for text in (content, wanted))
        number = next((at for at, pair in enumerate(zip(lines, wishes)) if pair[0] != pair[1]), min(len(lines), len(wishes)))
        line, other = (each[number] if number < len(each) else "" for each in (lines, wishes))
        if line == other:  # nothing is behind the last line end, which only one of them has
            return f"{name} is another one than is made again: it has {'no' if len(lines) < len(wishes) else 'one more'} line end at its end"
        at = len(os.path.commonprefix([line, other]))
        said, wanted_text = (f"'{text[max(0, at - 20):at + 40]}'" if text else "nothing" for text in (line, other))
        return f"{name} is another one than is made again: line {number + 1} has {said}, and {wanted_text} is wanted"

    def compare_layers(self) -> None:
        if not (self.made / LAYERS).is_file():
            self.findings.unseen(f"{LAYERS}: to make it again geopandas is needed: apt-get install python3-geopandas")
            return
        text = self.about.words.crs or (self.split.system_text if self.split else None)
        code = CODE.fullmatch(text) if text else None
        fault, has_other_system = layers_difference(self.given / LAYERS, self.made / LAYERS, [code[2]] if code else [])
        if fault:
            self.differs(fault)
        elif has_other_system:
            self.findings.unseen(f"the definition of the reference system in {LAYERS}: '{text}' has no code, and writers have several "
                                 "forms of such ones; all else is as it is made again")
        else:
            self.findings.held(f"{LAYERS}: made again it has the same layers, schema, rows and shapes, spatial index, reference "
                               "system and looks")

    def other_form(self) -> str:
        form = form_of(self.given / ABOUT)
        if self.release and self.is_false_form:
            return f"it says form {form}, and version {self.release.version}, whose program it names, makes form {FORM}"
        by = f"version {self.release.version}" if self.release else "the version that made it"
        by = by if not self.release or self.is_older else f"{by} that is older than this one"
        return f"made in form {form}, and this copy knows form {FORM}; use a copy of {by}"

    def others(self) -> None:
        """What nobody can know of the folder, and what no step knows."""
        about, words = self.about, self.about.words
        system = self.split.crs_text if self.split else None
        has_code = system is not None and CODE.fullmatch(system) is not None
        typed = [name for name in ("crs", *TYPED, "day", "boundary", "clock") if getattr(words, name)]
        typed += [f"the option {name}" for name in TEXTS if self.split and name in dict(self.split.options)]
        typed += ["the option crs"] * (system is not None and not has_code)
        typed += ["the name of the export"] * (self.split is not None and self.split.export is not None)
        if typed:
            self.findings.note(f"whether what was typed in is right: {listed(typed, len(typed))}")
        if has_code:
            self.findings.note(f"whether the reference system '{system}' is called so: it is known by its code alone")
        self.findings.note(f"whether the run was on {about.made}, of the commit that {ABOUT} names ({about.commit})")
        if self.release is None:
            self.findings.note(f"whether sources and logic are those that {ABOUT} says: the program is no released one")
        if self.split and self.split.tools:
            self.findings.note(f"whether the tracks were made by what split.txt says: {'; '.join(self.split.tools)[:200]}")
        seen = [name for name in (*PICTURES, LOG) if name in self.sums]
        if seen:
            self.findings.note(f"what {listed(seen)} {'shows' if len(seen) == 1 else 'show'}: not looked at")
        self.name_files()

    def name_files(self) -> None:
        """Names the files that no step looks at."""
        left = self.intake.passed_over
        if left:
            self.findings.note(f"what {having(left)}, named as what a system leaves: passed over")
        known = {*KNOWN, *SIGNATURES, self.laid_in}
        unknown = sorted(name for name in self.sums if name not in known and not name.startswith(f"{TRACKS}/"))
        if unknown:
            self.findings.unseen(f"what {having(unknown)}: no step knows such a file")


def has_decimetres(report: Path) -> bool:
    with open(report, "rb") as file:
        return file.readline(LINE) == b"unit,dm\n"


def count_of_lines(path: Path) -> int:
    with open(path, "rb") as file:
        return sum(piece.count(b"\n") for piece in iter(lambda: file.read(PIECE), b""))


def ran(words: Sequence[str], folder: Path) -> subprocess.CompletedProcess[bytes]:
    """A call in a folder, once it has ended. One for which this machine has not the room is out of memory."""
    run = subprocess.run(words, cwd=folder, stdin=subprocess.DEVNULL, capture_output=True)
    if run.returncode == -signal.SIGKILL or run.returncode != 0 and SHORT.fullmatch(run.stderr.rstrip().split(b"\n")[-1]):
        raise MemoryError
    return run


def last_line(run: subprocess.CompletedProcess[bytes]) -> str:
    """What a call said last."""
    return run.stderr.decode("utf-8", "replace").strip().split("\n")[-1]
