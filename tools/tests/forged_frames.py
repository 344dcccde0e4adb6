#!/usr/bin/env python3
"""forged_frames.py PROGRAM FOLDER: whether tools/verify.py finds what was forged in the evidence of data frames.

FOLDER has what a package made of the tables `told` and `system` of frames.R, with PROGRAM. Each forgery changes one, with all
checksums made anew, and names what verify.py has to say; where it names nothing, nobody can know. Prints 'ok NAME' or
'failed NAME: ..' for each."""
import shutil
import sys
from pathlib import Path

from forging import Forgeries, Hand, try_all

forgery, of_system = Forgeries(), Forgeries()
AGAIN = "is another one than is made again: line"
ANIMALS, PAGE = f"animals.csv {AGAIN}", f"report.html {AGAIN} [0-9]+ has"
CANNOT = "tables, layers and page cannot be made of this folder: "
NO_TOOL = "split.txt has a line 'tool' that is none of what makes tracks"
EXPORT = "^export: .*\nexport sha256: .*\n"  # in the record of the run
EUROPE = "EPSG:3035 (ETRS89-extended / LAEA Europe)"


class Frame(Hand):
    """One who forges what a package made of a data frame."""

    honest, export = 3, None

    def __init__(self, program, room, folder):
        self.program, self.room, self.folder = program, room, room / "hand-in"
        self.outside = room / "outside"
        shutil.copytree(folder, self.folder)

    def record(self, old, new):
        """Changes a line of the record of the tracks, and the list of checksums with it."""
        self.sub("tracks/split.txt", old, new)
        self.seal_files()


def of_record(name, *wanted, old, new, forgeries=forgery):
    """Keeps a forgery of the record of the tracks."""
    forgeries(name, *wanted)(lambda hand: hand.record(old, new))


of_record("fewer fixes left out", f"{ANIMALS} 2 has 'Asta_1,360,.*', and 'Asta_1,359,.*' is wanted",
          f"{PAGE} .*205 fixes.*, and .*204 fixes",
          old="^left,Asta_1,51,dop", new="left,Asta_1,50,dop")
of_record("another reason", f"{ANIMALS} 1 has '.*left_outlier.*', and '.*left_zero.*' is wanted", PAGE,
          old="^left,Asta_1,1,outlier", new="left,Asta_1,1,zero")
of_record("a reason that is none", CANNOT, old="^left,Asta_1,1,outlier", new="left,Asta_1,1,seen by the authority")
of_record("another zone", f"{PAGE} .*33N.*, and .*34N.* is wanted",
          "ranges.gpkg has '.*33N' in row 4 of gpkg_spatial_ref_sys, col",
          old="^zone,33N", new="zone,34N")
of_record("no zone", f"{PAGE} .*, and .*reference system not known.* is wanted",
          "ranges.gpkg has too many rows in gpkg_spatial_ref",
          old="^zone,33N", new="zone,none")
of_record("another system than a zone", f"{PAGE} .*33N.*, and .*EPSG:3035",
          "ranges.gpkg has '.*' in row [0-9] of gpkg_spatial_ref_sys",
          old="^zone,33N", new=f"zone,none\noption,crs,{EUROPE}")
of_record("a line of older records", "split.txt has a line 'crs', which older records of data frames have",
          old="^zone,33N", new=f"zone,none\ncrs,{EUROPE}")
of_record("a shift", f"{PAGE} .*559,000.*, and .*-441,000",
          "ranges.gpkg has [0-9.]+ in row 1 of gpkg_contents, column 6; -[0-9.]+ is",
          old="^zone,33N", new="zone,33N\nshift,1000000,0")
of_record("the checksum of a track", "tracks/Cilla.csv is not the file that split.txt says",
          old="^(track,Cilla,[0-9]+,[0-9]+),.*", new=r"\1," + 64 * "0")
of_record("a count of used fixes", "Cilla.csv has 155 records of which 155 are used, and .* says 155 and 154",
          f"{CANNOT}the report has 155",
          old="^track,Cilla,155,155,", new="track,Cilla,155,154,")
of_record("a count of records", "Cilla.csv has 155 records of which 155 are used, and .* says 160 and 155",
          f"{ANIMALS} 3 has 'Cilla,360",
          old="^track,Cilla,155,155,", new="track,Cilla,160,155,")
of_record("another unit", "the tracks are in dm, by split.txt, and the run was made in m", old="^unit,m", new="unit,dm")
of_record("a second zone", "tracks/split.txt: line 5 is 'zone,33N', which does not fit there", old="^zone,33N",
          new="zone,34N\nzone,33N")
of_record("another option", f"{PAGE} .*max-dop 6.*, and .*max-dop 9.* is wanted", old="^option,max-dop,6",
          new="option,max-dop,9")
of_record("what was said", f"{PAGE} .*154 fixes have.*, and .*104 fixes have.* is wanted", old="^said,154 fixes",
          new="said,104 fixes")
of_record("an animal without a range is taken out", f"{PAGE} .*Without a range.*, and '<p class=\"note\"></p>' is wanted",
          old="^left,gone,.*\n", new="")
of_record("half an export", "tracks/split.txt has no line 'sha256': is it a record of split?", CANNOT,
          old="^sha256,.*\n", new="")
of_record("what makes no tracks", NO_TOOL, old="^tool,homerange-split .*",
          new=f"tool,homerange for Excel 1.0.0,{64 * '0'}")
of_record("what makes tracks says more", NO_TOOL, old="^(tool,.*)", new=r"\1 at the park")


@forgery("fixes left out of another animal, in the record and in animals.csv", f"{PAGE} .*205 fixes.*, and .*204 fixes.* is wanted")
def _(hand):
    hand.record("^left,Asta_1,51,dop", "left,Asta_1,50,dop")
    hand.record("^left,Cilla,51,dop", "left,Cilla,52,dop")
    hand.sub("animals.csv", "^Asta_1,360,1,1,51,", "Asta_1,359,1,1,50,")
    hand.sealed_sub("animals.csv", "^Cilla,360,0,0,51,", "Cilla,361,0,0,52,")


@forgery("a zone in the layers, and another system on the page", "split.txt has a zone and another reference system")
def _(hand):
    hand.record("^zone,33N", f"zone,33N\noption,crs,{EUROPE}")
    hand.sealed_sub("report.html", r"EPSG:32633 \(WGS 84 / UTM zone 33N\)", EUROPE, 0)


@forgery("nothing of an export in the record of the run", "evidence.txt names another export than split.txt")
def _(hand):
    hand.sealed_sub("evidence.txt", EXPORT, "")


@forgery("no export in either record", f"{PAGE} .*of the export.*, and .*of the data.* is wanted",
         "not looked at: whether the tracks are those of the data frame that they were made of")
def _(hand):
    hand.sealed_sub("evidence.txt", EXPORT, "export: none\n")
    hand.record("^export,.*\nsha256,.*\n", "")


@forgery("another export in both records", f"{PAGE} .*fixes.csv.*, and .*deer.csv.* is wanted",
         "not looked at: whether the tracks are those of an export: name it behind the folder")
def _(hand):
    hand.sealed_sub("evidence.txt", "^export: fixes.csv", "export: deer.csv")
    hand.record("^export,fixes.csv", "export,deer.csv")


@forgery("the record is taken away", "not looked at: from what the tracks were made: they have no record", ANIMALS, PAGE,
         "ranges.gpkg has too many rows in gpkg_spatial_ref_sys")
def _(hand):
    hand.path("tracks/split.txt").unlink()
    hand.sealed_sub("evidence.txt", EXPORT, "")


@forgery("a fix is moved, run again and sealed", f"summary.csv {AGAIN}", PAGE,
         "ranges.gpkg has .* in row [0-9]+ of ranges, column 2")
def _(hand):
    hand.sub("tracks/Cilla.csv", "^(Cilla,[0-9]+),[0-9]+", r"\1,561234")
    hand.sealed_run()


@forgery("two tracks change names, and all checksums", "tracks/Asta_1.csv has the animal Cilla")
def _(hand):
    for old, new in (("Asta_1", "x"), ("Cilla", "Asta_1"), ("x", "Cilla")):
        hand.path(f"tracks/{old}.csv").rename(hand.path(f"tracks/{new}.csv"))
    hand.sealed_run()


@forgery("a sentence of the page", f"{PAGE} .*9 marked.*, and .*3 marked.* is wanted")
def _(hand):
    hand.sealed_sub("report.html", "without coordinates, [0-9]+ marked", "without coordinates, 9 marked")


of_record("another code", f"{PAGE} .*EPSG:3035.*, and .*EPSG:3034.* is wanted",
          "ranges.gpkg has .* of gpkg_spatial_ref_sys, column 1",
          old="^option,crs,EPSG:3035", new="option,crs,EPSG:3034", forgeries=of_system)
of_record("no system", f"{PAGE} .*EPSG:3035.*, and .*not known.* is wanted",
          "ranges.gpkg has .* of gpkg_spatial_ref_sys, column 1",
          old="^option,crs,.*\n", new="", forgeries=of_system)
of_record("a zone", f"{PAGE} .*EPSG:3035.*, and .*33N.* is wanted", "ranges.gpkg has .* of gpkg_spatial_ref_sys, column 1",
          old="^zone,none\noption,animal,animal\noption,crs,.*", new="zone,33N\noption,animal,animal", forgeries=of_system)


@of_system("another name in the record and on the page",
           "not known: whether the reference system 'EPSG:3035 .seen by the authority.'")
def _(hand):
    hand.record("^option,crs,EPSG:3035 .*", "option,crs,EPSG:3035 (seen by the authority)")
    hand.record("^(said,.*; reference system: EPSG:3035) .*", r"\1 (seen by the authority)")
    hand.sealed_sub("report.html", r"EPSG:3035 \(ETRS89-extended / LAEA Europe\)", "EPSG:3035 (seen by the authority)", 0)


@of_system("a system beside that of the tracks",
           "evidence.txt names another reference system or shift beside those of split.txt")
def _(hand):
    hand.sealed_sub("evidence.txt", "^(day: .*)", rf"crs: {EUROPE}\n\1")


@of_system("a word for the difference on the page", f"{PAGE} .*nothing % here.*, and .*0.00 % here.* is wanted")
def _(hand):
    hand.sealed_sub("report.html", "on the ellipsoid by [-+0-9. to]+ % here", "on the ellipsoid by nothing % here")


if __name__ == "__main__":
    program, folder = (Path(word).resolve() for word in sys.argv[1:])
    try_all(lambda room: Frame(program, room, folder / "told"), forgery)
    try_all(lambda room: Frame(program, room, folder / "system"), of_system)
