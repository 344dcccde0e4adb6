#!/usr/bin/env python3
"""forgeries.py PROGRAM: whether tools/verify.py says of each forged folder what can be known of it.

A folder of evidence is made of an export of two animals, by PROGRAM. Each forgery changes it as one who hands it in could,
with all checksums made anew where that is said, and names what verify.py has to say did not hold; where it names nothing,
nobody can know, and verify.py has to say so. Prints 'ok NAME' or 'failed NAME: ..' for each."""
import os
import re
import shutil
import socket
import sys

from forging import SUM, TOOLS, Forgeries, Hand, checksum, try_export

HOMOGLYPH = "Vеsna"  # its second letter is Cyrillic
APPLE_DOUBLE = b"\0\5\x16\7"
forgery = Forgeries()


class Runner(Hand):
    """One who forges what evidence.py made."""

    def make(self):
        self.call(self.splitter, "--into", "tracks", "export.csv")
        self.call(sys.executable, TOOLS / "evidence.py", "hand-in", "tracks")


def move_fix(hand):
    hand.sub("tracks/Bor.csv", "^(Bor,[0-9]+),[0-9]+", r"\1,561234")


@forgery("01 a fix is moved", "tracks/Bor.csv was changed since", "Bor.csv is not the file", "makes another report",
         "line 2 is")
def _(hand):
    move_fix(hand)


@forgery("02 a fix is moved, run again and sealed", "another record|another track of Bor")
def _(hand):
    move_fix(hand)
    hand.sealed_run()


def mark_unused(hand):
    """A column use, which leaves one fix out."""
    lines = hand.path("tracks/Bor.csv").read_text().split("\n")
    marked = [lines[0] + ",use", *(f"{line},{int(at != 5)}" for at, line in enumerate(lines[1:-1])), ""]
    hand.path("tracks/Bor.csv").write_text("\n".join(marked))


@forgery("02b a fix is moved, run again and sealed, by what made tracks before the program did",
         "not looked at: split again the export comes to another track of Bor: by the record the tracks were made by split.py 1.0.0")
def _(hand):
    move_fix(hand)
    hand.sub("tracks/split.txt", "^tool,homerange-split .*", f"tool,split.py 1.0.0,{64 * '0'}")
    hand.sealed_run()


@forgery("03 a fix is marked as not used", "tracks/Bor.csv was changed since")
def _(hand):
    mark_unused(hand)


@forgery("04 a fix is marked as not used, run again and sealed", "another record|another track of Bor")
def _(hand):
    mark_unused(hand)
    hand.sealed_run()


@forgery("05 an animal is cut from the report", "report.txt was changed since",
         "report.txt has 72 lines, and a report of these tracks has from [0-9]* to [0-9]*: it was not made again")
def _(hand):
    hand.edit("report.txt", lambda text: b"\n".join(line for line in text.split(b"\n") if b"Vesna" not in line))


@forgery("06 an animal is dropped, and all made anew", "another record|another track")
def _(hand):
    hand.path("tracks/Vesna.csv").unlink()
    hand.sub("tracks/split.txt", "^track,Vesna,.*\n", "")
    hand.sealed_run()


@forgery("07 unit,dm above the report", "report.txt was changed since", "the report is in another unit")
def _(hand):
    hand.edit("report.txt", lambda text: b"unit,dm\n" + text)


@forgery("08 tracks in metres run in decimetres", "the tracks are in m, by split.txt, and the run was made in dm")
def _(hand):
    hand.sub("evidence.txt", "^unit: m", "unit: dm")
    hand.sealed_run("--percent", "50,95,100", "--unit", "dm")


@forgery("09 a level is cut from the report", "report.txt was changed since", "not what another method computes")
def _(hand):
    hand.sub("report.txt", "^percent,[A-Za-z]*,95,.*\n", "", 0)


def run_of_levels(hand, levels):
    hand.sub("evidence.txt", "^levels: .*", f"levels: {levels}")
    hand.sealed_run("--percent", levels, "--unit", "m")


@forgery("10 a true run of other levels")
def _(hand):
    run_of_levels(hand, "95,100")


forgery.sealed("11 an area by another program, sealed", "run again the program makes another report", "not what another method",
               file="report.txt", old="^(row,Bor,30,[0-9]+,[0-9]+),[0-9]+", new=r"\1,123456")
forgery.sealed("12 another date, sealed", file="evidence.txt", old="^made: 2", new="made: 1")
forgery.sealed("13 another commit, sealed", file="evidence.txt", old="^commit: .*", new="commit: " + 40 * "d")
forgery.sealed("14 the export is taken out of the record of the run, sealed",
               "evidence.txt names another export than split.txt",
               file="evidence.txt", old="^export.*\n", new="", count=0)


@forgery("15 a checksum is taken out, and its track edited", "'tracks/Bor.csv' is there and not in SHA256SUMS")
def _(hand):
    move_fix(hand)
    hand.sub("SHA256SUMS", "^.*tracks/Bor.csv\n", "")


@forgery("16 a checksum is made a comment, and its track edited", "line [0-9]* of SHA256SUMS is no checksum and name")
def _(hand):
    move_fix(hand)
    hand.sub("SHA256SUMS", "^(.*tracks/Bor.csv)", r"# \1")


@forgery("17 the export is edited afterwards", "export.csv has not the checksum of the export")
def _(hand):
    hand.export.write_text(hand.export.read_text().replace("5134", "5135", 1))


def anew(hand, export):
    """Hands in what an edited export comes to."""
    shutil.rmtree(hand.folder)
    shutil.rmtree(hand.room / "tracks")
    hand.hand_in(export)


@forgery("18 the export is edited before all")
def _(hand):
    anew(hand, re.sub("^(Bor,[^,]*),[0-9]+", r"\1,561234", hand.export.read_text(), count=1, flags=re.M))


@forgery("19 rows of the export are marked as outliers before all")
def _(hand):
    anew(hand, hand.export.read_text().replace(",true", ",false", 40))


forgery.sealed("20 the checksum of another program, sealed", "the program of the record has the checksum 0000",
               file="evidence.txt", old="^program sha256: .*", new="program sha256: " + 64 * "0")


def swapped(text):
    lines = text.split(b"\n")
    return b"\n".join([*lines[:10], lines[11], lines[10], *lines[12:]])


@forgery("21 two lines of the report are swapped", "report.txt was changed since", "run again the program makes another")
def _(hand):
    hand.edit("report.txt", swapped)


@forgery("22 two lines of the report are swapped, sealed", "run again the program makes another", "line 11 is")
def _(hand):
    hand.sealed_edit("report.txt", swapped)


@forgery("23 the animals of the report change places, sealed", "run again the program makes another", "another method")
def _(hand):
    lines = hand.path("report.txt").read_bytes().split(b"\n")
    at = next(place for place, line in enumerate(lines) if line.startswith(b"animal,Vesna"))
    end = next(place for place, line in enumerate(lines) if line.startswith(b"overlap,"))
    hand.path("report.txt").write_bytes(b"\n".join([*lines[at:end], *lines[:at], *lines[end:]]))
    hand.seal()


@forgery("24 the report is cut off, sealed", "run again the program makes another", "another method")
def _(hand):
    hand.sealed_edit("report.txt", lambda text: text[:-40])


forgery.sealed("25 an overlap is changed, sealed", "run again the program makes another", "another method",
               file="report.txt", old="^(overlap,Bor,Vesna),[0-9]+", new=r"\1,1")
forgery.sealed("26 a box is changed, sealed", "run again the program makes another", "another method",
               file="report.txt", old="^(box,Bor),[0-9]+", new=r"\1,1")
forgery.sealed("27 a corner is changed, sealed", "run again the program makes another", "another method",
               file="report.txt", old="^(corner,Bor,2),[0-9]+", new=r"\1,1")
forgery.sealed("28 a second is changed, sealed", "run again the program makes another", "another method",
               file="report.txt", old="^(row,Bor,2),[0-9]+", new=r"\1,1726800001")
forgery.sealed("29 another zone in the record, sealed", "another record than split.txt",
               file="tracks/split.txt", old="^zone,33N", new="zone,34N")


def shift(hand, column, by):
    """Adds to a column of all tracks."""
    for path in hand.path("tracks").glob("*.csv"):
        rows = [line.split(",") for line in path.read_text().split("\n")[:-1]]
        for row in rows[1:]:
            row[column] = str(int(row[column]) + by)
        path.write_text("".join(",".join(row) + "\n" for row in rows))


@forgery("30 all is 100 km elsewhere, run again and sealed", "another track|another record")
def _(hand):
    shift(hand, 2, 100_000)
    hand.sealed_run()


@forgery("31 all is half a year later, run again and sealed", "another track|another record")
def _(hand):
    shift(hand, 1, 15_000_000)
    hand.sealed_run()


@forgery("32 each fix is there twice, run again and sealed", "another track|another record")
def _(hand):
    for path in hand.path("tracks").glob("*.csv"):
        lines = path.read_text().split("\n")[:-1]
        path.write_text("".join(f"{line}\n" * (2 if at else 1) for at, line in enumerate(lines)))
    hand.sealed_run()


def exchange_files(hand):
    """Gives each track the name of the other's file."""
    hand.path("tracks/Bor.csv").rename(hand.path("tracks/x"))
    hand.path("tracks/Vesna.csv").rename(hand.path("tracks/Bor.csv"))
    hand.path("tracks/x").rename(hand.path("tracks/Vesna.csv"))


@forgery("33 the animals change names, run again and sealed", "another track|another record")
def _(hand):
    for path, other in (("Bor", "Vesna"), ("Vesna", "Bor")):
        hand.sub(f"tracks/{path}.csv", f"^{path},", f"{other},", 0)
    exchange_files(hand)
    hand.sealed_run()


@forgery("34 the files change names, run again and sealed", "another track|another record")
def _(hand):
    exchange_files(hand)
    hand.sealed_run()


@forgery("35 line ends of another system in the report",
         r"only its line ends are other ones \(report.txt\), as a mail gateway makes them: send the folder as a zip")
def _(hand):
    hand.edit("report.txt", lambda text: text.replace(b"\n", b"\r\n"))


@forgery("36 line ends of another system in the report, sealed", "run again the program makes another", "line 1 is")
def _(hand):
    hand.sealed_edit("report.txt", lambda text: text.replace(b"\n", b"\r\n"))


@forgery("37 line ends of another system in the tracks, run again and sealed", "another track|another record")
def _(hand):
    for name in ("Bor", "Vesna"):
        hand.edit(f"tracks/{name}.csv", lambda text: text.replace(b"\n", b"\r\n"))
    hand.sealed_run()


forgery.sealed("38 a byte 0 in the report, sealed", "run again the program makes another", "another method",
               file="report.txt", old="^row,Bor,3,", new="row,Bor,3\0,")
forgery.sealed("39 a letter that looks the same in the report, sealed", "run again the program makes another", "another method",
               file="report.txt", old="Vesna", new=HOMOGLYPH, count=0)


@forgery("40 a letter that looks the same everywhere, run again and sealed", "another track|another record|split.txt")
def _(hand):
    hand.sub("tracks/Vesna.csv", "Vesna", HOMOGLYPH, 0)
    hand.path("tracks/Vesna.csv").rename(hand.path(f"tracks/{HOMOGLYPH}.csv"))
    hand.sub("tracks/split.txt", "Vesna", HOMOGLYPH, 0)
    hand.sealed_run()


@forgery("41 a line behind the end, sealed", "run again the program makes another", "another method")
def _(hand):
    hand.sealed_edit("report.txt", lambda text: text + b"end,2\n")


@forgery("42 a form feed for a line end, sealed", "run again the program makes another", "another method")
def _(hand):
    hand.sealed_edit("report.txt", lambda text: text.replace(b"\n", b"\f", 1))


@forgery("43 no last line end, sealed", "run again the program makes another", "its last line has no end")
def _(hand):
    hand.sealed_edit("report.txt", lambda text: text[:-1])


@forgery("44 a track is missing", "tracks/Vesna.csv is in SHA256SUMS and not there")
def _(hand):
    hand.path("tracks/Vesna.csv").unlink()


@forgery("45 the report is missing", "report.txt is in SHA256SUMS and not there")
def _(hand):
    hand.path("report.txt").unlink()


@forgery("46 line ends of another system in the checksums", "SHA256SUMS has line ends of another system")
def _(hand):
    hand.edit("SHA256SUMS", lambda text: text.replace(b"\n", b"\r\n"))


@forgery("47 the checksums end behind the first", "is there and not in SHA256SUMS")
def _(hand):
    hand.edit("SHA256SUMS", lambda text: text.split(b"\n")[0] + b"\n")


forgery.sealed("48 what was left out is taken out of the record, sealed", "another record than split.txt",
               file="tracks/split.txt", old="^(said,6 outliers.*|left,.*)\n", new="", count=0)


@forgery("49 the record of the split is taken away and a fix moved, run again and sealed", "the tracks have no record")
def _(hand):
    hand.path("tracks/split.txt").unlink()
    hand.sub("evidence.txt", "^export.*\n", "", 0)
    move_fix(hand)
    hand.sealed_run()


@forgery("50 a true run of fewer levels, in another order")
def _(hand):
    run_of_levels(hand, "100,50")


forgery.sealed("51 the arguments stand twice in the record of the run, sealed", "is no field which stands there once",
               file="evidence.txt", old="^(arguments: .*)", new=r"\1\narguments: --percent 100 -- tracks/Bor.csv")


@forgery("52 an untrue remark in the record of the run, sealed", "is no field which stands there once")
def _(hand):
    hand.sealed_edit("evidence.txt", lambda text: text + b"checked: by the authority\n")


@forgery("53 another program, and the release named in a remark, sealed", "is no field")
def _(hand):
    release = SUM.search(hand.path("evidence.txt").read_text().split("program sha256")[1])[0]
    hand.sealed_sub("evidence.txt", "^program sha256: .*", "program sha256: " + 64 * "0" + f"\n# {release}  homerange")


forgery.sealed("54 tracks in decimetres run in metres", "the tracks are in dm, by split.txt, and the run was made in m",
               file="tracks/split.txt", old="^unit,m", new="unit,dm")


@forgery("55 another program made the report, and is named", "the program of the record has", "run again", "another method")
def _(hand):
    liar = hand.room / "liar"
    liar.write_text(f'#!/bin/sh\n"{hand.program}" "$@" | sed "s/^percent,Bor,100.*/percent,Bor,100,57,3,9/"\n')
    liar.chmod(0o755)
    hand.path("report.txt").write_bytes(hand.call(liar, "--", "tracks/Bor.csv", "tracks/Vesna.csv", folder=hand.folder))
    hand.sealed_sub("evidence.txt", "^program sha256: .*", f"program sha256: {checksum(liar)}")


@forgery("56 names from the root, and a track edited", "which is not a file in the folder")
def _(hand):
    hand.sub("SHA256SUMS", "  tracks/", f"  {hand.room}/tracks/", 0)
    move_fix(hand)


@forgery("57 an animal is invented, sealed", "run again the program makes another", "another method")
def _(hand):
    text = hand.path("report.txt").read_bytes()
    own = b"\n".join(line for line in text.split(b"\n") if b"Bor" in line and not line.startswith(b"overlap,"))
    hand.path("report.txt").write_bytes(own.replace(b"Bor", b"Zlata") + b"\n" + text.replace(b"end,2", b"end,7"))
    hand.seal()


@forgery("58 a file that is not listed is put beside the others", "'maps/ranges.png' is there and not in SHA256SUMS")
def _(hand):
    hand.path("maps").mkdir()
    hand.path("maps/ranges.png").write_bytes(b"x")


@forgery("59 a track is a link to a file elsewhere", "tracks/Bor.csv is no plain file, but a link")
def _(hand):
    hand.path("tracks/Bor.csv").rename(hand.room / "elsewhere.csv")
    hand.path("tracks/Bor.csv").symlink_to(hand.room / "elsewhere.csv")


def name_export(hand, name):
    """The export by another name, in both records."""
    hand.sub("tracks/split.txt", "^export,.*", f"export,{name}")
    hand.sealed_sub("evidence.txt", "^export: .*", f"export: {name}")


@forgery("60 the export is to be written elsewhere", "evidence.txt has the export /.*, which is none",
         "line 1 is 'export,/.*', which does not fit there")
def _(hand):
    name_export(hand, hand.outside)


@forgery("61 the export is to be written beside the room", "evidence.txt has the export ../x, which is none",
         "line 1 is 'export,../x', which does not fit there")
def _(hand):
    name_export(hand, "../x")


@forgery("62 the export has the name of a folder", "line 1 is 'export,..', which does not fit there")
def _(hand):
    name_export(hand, "..")


@forgery("63 the export has another name that is plain")
def _(hand):
    name_export(hand, "collars of 2024.csv")


@forgery("64 tracks are to be made elsewhere", "the option into, which a split has not")
def _(hand):
    hand.sealed_sub("tracks/split.txt", "^zone,33N", f"zone,33N\noption,into,{hand.outside}")


@forgery("65 an option stands twice", "the option tz, which a split has not, or has once")
def _(hand):
    hand.sealed_sub("tracks/split.txt", "^zone,33N", "zone,33N\noption,tz,UTC\noption,tz,UTC")


forgery.sealed("66 a zone that is none", "line 4 is 'zone,xxN', which does not fit there",
               file="tracks/split.txt", old="^zone,33N", new="zone,xxN")


@forgery("67 levels of 5,000 digits", "evidence.txt has the levels 9{80}, which is none")
def _(hand):
    hand.sub("evidence.txt", "^levels: .*", "levels: " + 5000 * "9")
    hand.sealed_sub("evidence.txt", "--percent 50,95,100", "--percent " + 5000 * "9")


OTHER_FORM = "evidence.txt has its fields in another order or form than such records have: "
NOTHING = ": nothing was looked at"
NO_FILE = f"is no plain file, but a link, a pipe or a device{NOTHING}"
forgery.sealed("68 another name of the program",
               "evidence.txt calls the program 'homerange 1.0.0, proved', and it is homerange 1",
               file="evidence.txt", old="^program: .*", new="program: homerange 1.0.0, proved")
forgery.sealed("69 other sources", "evidence.txt says other sources than those of version 1",
               file="evidence.txt", old="^sources: .*", new="sources: " + 64 * "5")
forgery.sealed("70 another logic", "evidence.txt says other logic than those of version 1",
               file="evidence.txt", old="^logic: .*", new="logic: " + 16 * "5")
forgery.sealed("71 a reason of ones own for sources that are not known",
               "evidence.txt has the sources not known, .*, which is none",
               file="evidence.txt", old="^sources: .*", new="sources: not known, since they are at the park")
forgery.sealed("72 more runs", OTHER_FORM + "runs", file="evidence.txt", old="^runs: 1", new="runs: 7")
forgery.sealed("73 an option that the program has not", OTHER_FORM + "arguments",
               file="evidence.txt", old="--unit m", new="--unit m --depth 9")
forgery.sealed("74 an option of the program stands twice", OTHER_FORM + "arguments",
               file="evidence.txt", old="--percent", new="--percent 100 --percent")
forgery.sealed("75 other levels in the arguments", OTHER_FORM + "arguments",
               file="evidence.txt", old="--percent 50,95,100", new="--percent 50,100")
forgery.sealed("76 a day of making that is none", "evidence.txt has the made Friday, which is none",
               file="evidence.txt", old="^made: .*", new="made: Friday")
forgery.sealed("77 a moment of making that no calendar has", "evidence.txt has arguments or a moment that are none",
               file="evidence.txt", old="^made: ....-..-..", new="made: 2026-02-31")
forgery.sealed("78 fields in another order", OTHER_FORM + "their order",
               file="evidence.txt", old="^(unit: .*\n)(levels: .*\n)", new=r"\2\1")
forgery.sealed("79 another form, whose number is no number", "evidence.txt does not begin with the number of its form",
               file="evidence.txt", old="^form: 2", new="form: one")
forgery.sealed("80 another form",
               "evidence.txt as a whole: it says form 3, and version 1.0.0, whose program it names, makes form 2",
               file="evidence.txt", old="^form: 2", new="form: 3")
forgery.sealed("81 what makes tracks says more", "split.txt has a line 'tool' that is none of what makes tracks",
               file="tracks/split.txt", old="^(tool,homerange-split .*)", new=r"\1 seen by the authority")
forgery.sealed("82 what makes no tracks", "split.txt has a line 'tool' that is none of what makes tracks",
               file="tracks/split.txt", old="^tool,.*\n", new="")
forgery.sealed("83 another version of what makes tracks",
               "not known: whether the tracks were made by what split.txt says: homerange-split 9.0",
               file="tracks/split.txt", old="^tool,homerange-split [0-9.]*", new="tool,homerange-split 9.0")
forgery.sealed("84 an option that a split has not", "the option depth, which a split has not",
               file="tracks/split.txt", old="^zone,33N", new="zone,33N\noption,depth,9")
forgery.sealed("85 lines of a record in another order", "split.txt is in another form than such records have",
               file="tracks/split.txt", old="^(unit,m\n)(zone,.*\n)", new=r"\2\1")
forgery.sealed("86 a line of a record of another kind", "line 3 is 'seen,by the authority', which does not fit there",
               file="tracks/split.txt", old="^unit,m", new="seen,by the authority\nunit,m")
forgery.sealed("87 a shift beside the record of the tracks",
               "names another reference system or shift beside those of split.txt",
               file="evidence.txt", old="^(export sha256: .*)", new=r"\1\nshift: 1000000,0")
forgery.sealed("88 a boundary that is not there", "names a boundary, and there is no boundary.csv",
               file="evidence.txt", old="^(export sha256: .*)", new=r"\1\nboundary: park")


@forgery("89 an empty folder", "'maps' is there and not in SHA256SUMS: nothing else was looked at")
def _(hand):
    hand.path("maps").mkdir()


@forgery("90 a link to a file elsewhere", f"build.log {NO_FILE}")
def _(hand):
    hand.path("build.log").symlink_to(hand.export)


@forgery("91 a pipe, for which a reader would wait", f"evidence.txt {NO_FILE}")
def _(hand):
    hand.path("evidence.txt").unlink()
    os.mkfifo(hand.path("evidence.txt"))


@forgery("92 a socket", f"report.html {NO_FILE}")
def _(hand):
    with socket.socket(socket.AF_UNIX) as end:
        end.bind(str(hand.path("report.html")))


@forgery("93 a device without an end", f"report.txt {NO_FILE}")
def _(hand):
    hand.path("report.txt").unlink()
    hand.path("report.txt").symlink_to("/dev/zero")


@forgery("94 the list of checksums is a link", f"SHA256SUMS {NO_FILE}")
def _(hand):
    hand.path("SHA256SUMS").rename(hand.room / "elsewhere")
    hand.path("SHA256SUMS").symlink_to(hand.room / "elsewhere")


@forgery("95 the tracks are a link to a folder elsewhere", f"tracks {NO_FILE}")
def _(hand):
    hand.path("tracks").rename(hand.room / "elsewhere")
    hand.path("tracks").symlink_to(hand.room / "elsewhere")


@forgery("96 a track past its size", f"tracks/Bor.csv has 268435457 bytes, and such a file may have 268435456{NOTHING}")
def _(hand):
    os.truncate(hand.path("tracks/Bor.csv"), 2 ** 28 + 1)


@forgery("97 a record past its size", f"evidence.txt has 33554433 bytes, and such a file may have 33554432{NOTHING}")
def _(hand):
    os.truncate(hand.path("evidence.txt"), 2 ** 25 + 1)


@forgery("98 a name with a line end", rf"tracks/a\\nb.csv is no plain name of a file{NOTHING}")
def _(hand):
    hand.path("tracks/a\nb.csv").write_text("")


@forgery("99 folders within folders", f"lies too deep{NOTHING}")
def _(hand):
    hand.path("maps/of/all/the/years/and/more").mkdir(parents=True)


@forgery("100 a signature that is none", "SHA256SUMS.sig is no signature and no stamp of time")
def _(hand):
    hand.path("SHA256SUMS.sig").write_text("Good signature of the authority\n")


@forgery("101 a stamp of time that is none", "SHA256SUMS.tsr is no signature and no stamp of time")
def _(hand):
    hand.path("SHA256SUMS.tsr").write_bytes(b"\x30\x05Friday")


@forgery("102 a listed file that no step knows", "not looked at: what 'seal.txt' has: no step knows such a file")
def _(hand):
    hand.path("seal.txt").write_text("seen by the authority\n")
    hand.seal()


@forgery("103 no list of checksums", "there is no SHA256SUMS in the folder")
def _(hand):
    hand.path("SHA256SUMS").unlink()


@forgery("104 what systems leave in folders that were looked at",
         "not known: what '.DS_Store', 'Thumbs.db', 'tracks/._Bor.csv' and 'tracks/desktop.ini' have, named as what a system leaves")
def _(hand):
    for name in (".DS_Store", "Thumbs.db", "tracks/._Bor.csv", "tracks/desktop.ini"):
        hand.path(name).write_bytes(APPLE_DOUBLE)


def lay_in(hand, name):
    """Lays the export into the folder by a name, where it is not named."""
    hand.export.rename(hand.path(name))
    hand.export = None


@forgery("105 the export lies in the folder")
def _(hand):
    lay_in(hand, "export.csv")


@forgery("106 the export lies in the folder and is listed")
def _(hand):
    lay_in(hand, "export.csv")
    hand.seal()


@forgery("107 an edited export lies in the folder", "'export.csv' is there and not in SHA256SUMS")
def _(hand):
    lay_in(hand, "export.csv")
    hand.sub("export.csv", "5134", "5135")


@forgery("108 the export is not there", "not looked at: whether the tracks are those of an export: name it behind the folder")
def _(hand):
    hand.export = None


@forgery("109 a table where none was made", "summary.csv is there, and evidence.txt says that no page was made",
         "not looked at: animals.csv, overlaps.csv, ranges.gpkg and report.html: not there, and made where a page is")
def _(hand):
    hand.path("summary.csv").write_text("animal,hectares\nBor,900\n")
    hand.seal()


if __name__ == "__main__":
    try_export(Runner, sys.argv[1], 4, forgery)
