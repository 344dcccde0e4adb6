#!/usr/bin/env python3
"""forged_files.py PROGRAM: whether tools/verify.py says of each forged folder what can be known of its names, its lists, its
sizes, and of the export that lies in it.

A folder is made of an export of two animals, by PROGRAM, as by forgeries.py, which has more. Prints 'ok NAME' or 'failed NAME: ..'
for each."""
import base64
import os
import sys
import unicodedata

from forgeries import APPLE_DOUBLE, Runner, lay_in, name_export
from forging import Forgeries, checksum, try_export

forgery = Forgeries()
NO_EXPORT = "not looked at: whether the tracks are those of an export: name it behind the folder"
UNKNOWN_FILE = "not looked at: what '{}' has: no step knows such a file"
UNLISTED = "'{}' is there and not in SHA256SUMS: nothing else was looked at. An export may lie in the folder by the plain name"
ONE_NAME = "'{}' and '{}' are one name on other systems: nothing was looked at"
NO_RUN = ": it was not made again"
NOTHING = ": nothing was looked at"


def called(hand, name):
    """The export lies in the folder by this name, which both records have."""
    name_export(hand, name)
    lay_in(hand, name)


def of_name(what, name, shown=None):
    """Keeps two forgeries of an export by a name that no export may have in the folder: listed, and not listed."""
    @forgery(f"export: {what}, listed", NO_EXPORT, UNKNOWN_FILE.format(shown or name))
    def _(hand):
        called(hand, name)
        hand.seal()

    @forgery(f"export: {what}", UNLISTED.format(shown or name))
    def _(hand):
        called(hand, name)


of_name("a page", "report-final.html")
of_name("what R runs", ".Rprofile")
of_name("what make runs", "Makefile")
of_name("a project of QGIS", "ranges.qgz")
of_name("a name that turns its direction", "export\u202elmth.csv", r"export\\u202elmth.csv")
of_name("a sign that is not seen", "export\u200b.csv", r"export\\u200b.csv")
of_name("a blank of another width", "export\u00a0.csv", r"export\\xa0.csv")
of_name("a sign that there is not", "export\u0378.csv", r"export\\u0378.csv")
of_name("a blank at its end", "export.csv ")
of_name("a point at its end", "export.csv.")
of_name("a point at its start", ".export.csv")
of_name("many blanks in it", "report.html      .csv")
of_name("no end of a table", "export")


@forgery("export: a name in capitals")
def _(hand):
    called(hand, "Collars of 2024.CSV")


@forgery("export: the name of a table that a page goes with", "summary.csv is there, and evidence.txt says that no page was made",
         NO_EXPORT, "not looked at: animals.csv, overlaps.csv, ranges.gpkg and report.html: not there")
def _(hand):
    called(hand, "summary.csv")
    hand.seal()


@forgery("export: another name than the records have", UNLISTED.format("collars.csv"))
def _(hand):
    lay_in(hand, "collars.csv")


@forgery("export: in a folder of its own", "'maps/export.csv' is there and not in SHA256SUMS")
def _(hand):
    hand.path("maps").mkdir()
    lay_in(hand, "maps/export.csv")


@forgery("export: a second copy", UNLISTED.format("report-final.html"))
def _(hand):
    hand.path("report-final.html").write_bytes(hand.export.read_bytes())
    lay_in(hand, "export.csv")


@forgery("export: a second copy, listed", UNKNOWN_FILE.format("copy.csv"))
def _(hand):
    hand.path("copy.csv").write_bytes(hand.export.read_bytes())
    lay_in(hand, "export.csv")
    hand.seal()


@forgery("export: a name with a colon, listed", "SHA256SUMS names 'export 12:30.csv', and other systems cannot have ':' in a name: hand")
def _(hand):
    called(hand, "export 12:30.csv")
    hand.seal()


@forgery("export: a name with a colon, beside the folder")
def _(hand):
    name_export(hand, "export 12:30.csv")


@forgery("export: another name beside the folder", "not known: whether the export is called 'Movebank.csv', as the records say: 'export.csv'")
def _(hand):
    name_export(hand, "Movebank.csv")


@forgery("export: its name is typed in", "not known: whether what was typed in is right: the name of the export$")
def _(hand):
    pass


@forgery("the name of a journal of the layers", "ranges.gpkg-journal lies beside ranges.gpkg, and can change what a reader finds in it" + NOTHING)
def _(hand):
    called(hand, "ranges.gpkg-journal")


for beside in ("ranges.gpkg-shm", "ranges.gpkg.aux.xml", "Ranges.GPKG-wal", "ranges.qml"):
    @forgery(f"beside the layers: {beside}", f"{beside} lies beside ranges.gpkg, and can change what a reader finds in it" + NOTHING)
    def _(hand, beside=beside):
        hand.path(beside).write_bytes(b"")
        hand.seal()


@forgery("names that differ in capitals", ONE_NAME.format("Report.txt", "report.txt"))
def _(hand):
    called(hand, "Report.txt")


@forgery("names of tracks that differ in capitals", ONE_NAME.format("tracks/Bor.csv", "tracks/bor.csv"))
def _(hand):
    hand.path("tracks/bor.csv").write_bytes(hand.path("tracks/Bor.csv").read_bytes())
    hand.seal()


@forgery("names that differ in how their letters are written", r"'B.*r.txt' and 'B.*r.txt' are one name on other systems")
def _(hand):
    for form in ("NFC", "NFD"):
        hand.path(unicodedata.normalize(form, "Bör.txt")).write_bytes(b"")
    hand.seal()


@forgery("what a Mac leaves, without its file", UNLISTED.format("._seal.html"))
def _(hand):
    hand.path("._seal.html").write_bytes(APPLE_DOUBLE)


@forgery("what a Mac leaves, by its name alone", UNLISTED.format("._report.txt"))
def _(hand):
    hand.path("._report.txt").write_text("<h1>Bor: 900 ha</h1>\n")


@forgery("what a Mac leaves, past its size", UNLISTED.format(".DS_Store"))
def _(hand):
    hand.path(".DS_Store").write_bytes(bytes(2 ** 16 + 1))


@forgery("what a Mac leaves of many files", "not known: what '._0.txt', .*'._5.txt', '._6.txt' and 3 more have, named as what a system leaves",
         "not looked at: what '0.txt', .*, '6.txt' and 3 more have: no step knows such a file")
def _(hand):
    for number in range(12):
        hand.path(f"{number}.txt").write_text("seen\n")
    hand.seal()
    for number in range(12):
        hand.path(f"._{number}.txt").write_bytes(APPLE_DOUBLE)


def without_record(hand):
    """Takes the record of the tracks away."""
    hand.path("tracks/split.txt").unlink()
    hand.sub("evidence.txt", "^export.*\n", "", 0)
    hand.export = None


def note(what, content, *wanted):
    """Keeps a forgery of a file among tracks without a record, none of whose fixes is used."""
    @forgery(f"tracks without a record: {what}", *wanted)
    def _(hand):
        without_record(hand)
        hand.path("tracks/NOTE.csv").write_bytes(content)
        hand.seal()


TITLES, NO_NAME = b"animal,second,easting,northing,use\n", "NOTE.csv has an animal whose name is none of 1 to 32 bytes without"
note("no fix of one is used", TITLES + b"approved,1,1,1,0\n", "not looked at: what 'tracks/NOTE.csv' has: no fix is used, and no record says why")
note("a name of 33 bytes", TITLES + 33 * b"x" + b",1,1,1,0\n", NO_NAME)
note("a name with a line end", TITLES + b'"seen\nby",1,1,1,0\n', NO_NAME)
note("no name", TITLES + b",1,1,1,0\n", NO_NAME)
note("fixes that are text", TITLES + b"a,seen,by,authority,0\n", "NOTE.csv is no file of the fixes of one animal")
note("a field of 200,000 letters", TITLES + 200_000 * b"x" + b",1,1,1,0\n", "NOTE.csv is no table: field larger than field limit")


@forgery("a report of more bytes than tracks can have", "report.txt has 1992294400 bytes, and a report of these tracks has at most [0-9]*" + NO_RUN)
def _(hand):
    os.truncate(hand.path("report.txt"), 1900 << 20)
    hand.seal_files()


@forgery("a report of line ends", "report.txt has 20000 lines, and a report of these tracks has from [0-9]* to [0-9]*" + NO_RUN)
def _(hand):
    hand.path("report.txt").write_bytes(20_000 * b"\n")
    hand.seal()


@forgery("many tracks, and a report without their overlaps", "report.txt has 147 lines, and a report of these tracks has from 93129 to",
         "not looked at: from what the tracks were made", NO_EXPORT)
def _(hand):
    without_record(hand)
    for number in range(300):
        hand.path(f"tracks/x{number:03}.csv").write_text(f"animal,second,easting,northing\nx{number:03},1,5,5\n")
    names = sorted(f"tracks/{path.name}" for path in hand.path("tracks").iterdir())
    hand.sub("evidence.txt", "^arguments: .*", f"arguments: --percent 50,95,100 --unit m -- {' '.join(names)}")
    hand.sub("evidence.txt", "^runs: .*", "runs: 55 of groups of 32 animals")
    hand.seal()


def of_list(name, *wanted, change):
    """Keeps a forgery of the list of checksums."""
    forgery(f"list: {name}", *wanted)(lambda hand: hand.edit("SHA256SUMS", change))


NO_LINE = "line [0-9]* of SHA256SUMS is no checksum and name"
NO_FILE = "SHA256SUMS names '.*', which is not a file in the folder"
of_list("a name of three million letters", "SHA256SUMS names 'x*.*x*/', which is not a file in the folder",
        change=lambda text: text + 64 * b"0" + b"  " + 3_000_000 * b"x" + b"/\n")
of_list("a checksum in capitals", NO_LINE, change=lambda text: text[:64].upper().replace(b"0", b"A") + text[64:])
of_list("the mark of bytes", NO_LINE, change=lambda text: text.replace(b"  ", b" *"))
of_list("a tab between", NO_LINE, change=lambda text: text.replace(b"  ", b"\t"))
of_list("another order of fields", NO_LINE, change=lambda text: b"SHA256 (report.txt) = " + text)
of_list("a byte order mark", NO_LINE, change=lambda text: b"\xef\xbb\xbf" + text)
of_list("an empty line", NO_LINE, change=lambda text: text + b"\n")
of_list("a short checksum", NO_LINE, change=lambda text: text[32:])
of_list("a line twice", "SHA256SUMS has evidence.txt twice", change=lambda text: text + text)
of_list("a name from here", NO_FILE, change=lambda text: text.replace(b"  rep", b"  ./rep"))
of_list("a name from above", NO_FILE, change=lambda text: text.replace(b"  rep", b"  ../hand-in/rep"))
of_list("a name of another system", NO_FILE, change=lambda text: text.replace(b"tracks/B", b"tracks\\B"))
of_list("itself", "SHA256SUMS was changed since SHA256SUMS was written", change=lambda text: text + 64 * b"0" + b"  SHA256SUMS\n")
of_list("a folder", "tracks is in SHA256SUMS and not there", change=lambda text: text + 64 * b"0" + b"  tracks\n")
of_list("no end of its last line", "the last line of SHA256SUMS has no end", change=lambda text: text[:-1])
of_list("nothing", "is there and not in SHA256SUMS", change=lambda text: b"")


@forgery("a signature that is listed", "not known: whose SHA256SUMS.sig is: docs/EVIDENCE.md says how to look")
def _(hand):
    text = base64.b64encode(b"SSHSIG of nobody").decode()
    hand.path("SHA256SUMS.sig").write_text(f"-----BEGIN SSH SIGNATURE-----\n{text}\n-----END SSH SIGNATURE-----\n")
    hand.seal()


def of_record(name, *wanted, old, new, count=1):
    """Keeps a forgery of the record of the tracks, whose own lines are not made anew."""
    @forgery(f"record: {name}", *wanted)
    def _(hand):
        hand.sub("tracks/split.txt", old, new, count)
        hand.seal_files()


forgery.sealed("tracks of the record change places", "split again the export comes to the same tracks and to another record than split.txt",
               file="tracks/split.txt", old="^(track,Bor,.*\n)(track,.*\n)", new=r"\2\1")
forgery.sealed("a coding that is no character set", "split: encoding: punycode is none of utf-8, ascii, ",
               file="tracks/split.txt", old="^zone,33N", new="zone,33N\noption,encoding,punycode")
forgery.sealed("a text in an option", "not known: whether what was typed in is right: the option na and the name of the export",
               "the export cannot be split as split.txt says", file="tracks/split.txt", old="^zone,33N", new="zone,33N\noption,na,33N")
forgery.sealed("lines of the export are skipped", "not known: what the first lines of the export say [(]1[)]: they were skipped",
               "the export cannot be split as split.txt says", file="tracks/split.txt", old="^zone,33N",
               new="zone,33N\noption,skip-lines,1")
forgery.sealed("a form with a sign", "evidence.txt does not begin with the number of its form", file="evidence.txt", old="^form: 2", new="form: +1")
forgery.sealed("a form of other digits", "evidence.txt does not begin with the number of its form", file="evidence.txt", old="^form: 2",
               new="form: １")
forgery.sealed("a blank behind the form", "evidence.txt does not begin with the number of its form", file="evidence.txt", old="^form: 2",
               new="form: 2 ")
of_record("a count with zeros", "split.txt is in another form than such records have", old="^(track,Bor),", new=r"\1,00")
of_record("line ends of another system", "does not fit there", old="\n", new="\r\n", count=0)
forgery.sealed("an empty line in a record", "does not fit there", file="tracks/split.txt", old="^zone", new="\nzone")
forgery.sealed("a zone of an unknown half", "does not fit there", file="tracks/split.txt", old="^zone,33N", new="zone,33Q")
forgery.sealed("the help of a split", "the option help, which a split has not", file="tracks/split.txt", old="^zone,33N",
               new="zone,33N\noption,help")
forgery.sealed("the speed is endless", "the export cannot be split as split.txt says", file="tracks/split.txt", old="^zone,33N",
               new="zone,33N\noption,max-speed,inf")
forgery.sealed("a zone of time that is a path", "the export cannot be split as split.txt says", file="tracks/split.txt", old="^zone,33N",
               new="zone,33N\noption,tz,../../etc/passwd")


@forgery("an empty folder among tracks", "'tracks/more' is there and not in SHA256SUMS")
def _(hand):
    hand.path("tracks/more").mkdir()


@forgery("a note among the tracks", "the files of tracks are not those of split.txt|no file of fixes|titles of a file")
def _(hand):
    hand.path("tracks/NOTE.csv").write_text("seen by the authority\n")
    hand.seal()


@forgery("a link to nothing", "maps is no plain file, but a link, a pipe or a device")
def _(hand):
    hand.path("maps").symlink_to("nothing")


@forgery("a pipe by the name of what a system leaves", ".DS_Store is no plain file, but a link, a pipe or a device")
def _(hand):
    os.mkfifo(hand.path(".DS_Store"))


@forgery("a name that moves what is shown", r"a\\x9b2Jb.txt is no plain name of a file")
def _(hand):
    hand.path("a\x9b2Jb.txt").write_text("")


@forgery("an export of too many columns", "split: export has 16390 columns, and a table may have 16384: is its separator another")
def _(hand):
    titles, rest = hand.export.read_text().split("\n", 1)
    hand.export.write_text("\n".join([",".join([titles, *(f"t{number}" for number in range(16_384))]), rest]))
    hand.sub("tracks/split.txt", "^sha256,.*", f"sha256,{checksum(hand.export)}")
    hand.sealed_sub("evidence.txt", "^export sha256: .*", f"export sha256: {checksum(hand.export)}")


if __name__ == "__main__":
    try_export(Runner, sys.argv[1], 4, forgery)
