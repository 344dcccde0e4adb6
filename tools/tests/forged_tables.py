#!/usr/bin/env python3
"""forged_tables.py PROGRAM: whether tools/verify.py finds what was forged in tables, layers, the page and what was typed in.

A folder is made by tools/ranges.sh of an export of two animals and a boundary, by PROGRAM. Each forgery changes it, with all
checksums made anew, and names what verify.py has to say; where it names nothing, nobody can know. forged_layers.py has more of
layers. Prints 'ok NAME' or 'failed NAME: ..' for each. Needs what ranges.sh needs."""
import sqlite3
import struct
import sys
from contextlib import closing

from forging import TOOLS, Forgeries, Hand, export_text, try_export

forgery = Forgeries()
AGAIN = "is another one than is made again: line"
PAGE = f"report.html {AGAIN} [0-9]+ has"
PARK = ('{"type": "FeatureCollection", "features": [{"type": "Feature", "properties": {}, "geometry": {"type": "Polygon", '
        '"coordinates": [[[15.79, 46.34], [15.82, 46.34], [15.82, 46.36], [15.79, 46.36], [15.79, 46.34]]]}}]}')
RESULTS = ("summary.csv", "animals.csv", "overlaps.csv", "ranges.gpkg", "report.html")


class Maker(Hand):
    """One who forges what ranges.sh made."""

    def make(self):
        (self.room / "park.geojson").write_text(PARK)
        self.call("sh", TOOLS / "ranges.sh", "--title", "Wolves", "--over", "park.geojson", "export.csv", "hand-in")


def of_page(name, old, new, count=1, said=""):
    """Keeps a forgery of the page: it is another one than is made again."""
    forgery.sealed(f"page: {name}", f"{PAGE} .*{said}", file="report.html", old=old, new=new, count=count)


forgery.sealed("an area in summary.csv", f"summary.csv {AGAIN} 3 has '.*1.25', and '.*' is wanted",
               file="summary.csv", old="^(Bor,.*,95,.*),[0-9.]+$", new=r"\1,1.25")
forgery.sealed("line ends of another system in summary.csv", rf"summary.csv {AGAIN} 1 has '.*hectares\\r', and '.*' is wanted",
               file="summary.csv", old="\n", new="\r\n", count=0)
forgery.sealed("a share in overlaps.csv", f"overlaps.csv {AGAIN} 2 has 'Bor,1.0,0.875', and 'Bor,1.0,0.[0-9]*' is wanted",
               file="overlaps.csv", old="^(Bor,1.0),.*", new=r"\1,0.875")
forgery.sealed("a row of animals.csv is taken out", f"animals.csv {AGAIN} 2 has 'Vesna,.*', and 'Bor,.*' is wanted",
               file="animals.csv", old="^Bor,.*\n", new="")
forgery.sealed("a row is added to animals.csv", f"animals.csv {AGAIN} 4 has 'Zlata,9', and nothing is wanted",
               file="animals.csv", old="^(Vesna,.*\n)", new=r"\1Zlata,9\n")


@forgery("a table is taken out, and stays listed", "overlaps.csv is in SHA256SUMS and not there")
def _(hand):
    hand.path("overlaps.csv").unlink()


@forgery("a table is not handed in", "not looked at: overlaps.csv: not there, and made where a page is")
def _(hand):
    hand.path("overlaps.csv").unlink()
    hand.seal()


@forgery("nothing that was made of the report is handed in",
         "not looked at: summary.csv, animals.csv, overlaps.csv, ranges.gpkg and report.html: not there, and made where a page")
def _(hand):
    for name in RESULTS:
        hand.path(name).unlink()
    hand.seal()


@forgery("a fix is moved, and the export not named", f"summary.csv {AGAIN} 4", PAGE)
def _(hand):
    hand.sub("tracks/Bor.csv", "^(Bor,[0-9]+),[0-9]+", r"\1,561234")
    hand.sealed_run()
    hand.export = None


@forgery("a corner in ranges.gpkg is moved by a millimetre",
         "ranges.gpkg has a shape of .* of ranges, column 2; a shape of .* is")
def _(hand):
    with closing(sqlite3.connect(hand.path("ranges.gpkg"))) as base:
        shape = bytearray(base.execute("SELECT geom FROM ranges WHERE fid = 1").fetchone()[0])
    at = hand.path("ranges.gpkg").read_bytes().index(shape)
    east, = struct.unpack_from("<d", shape, 69)
    struct.pack_into("<d", shape, 69, east + 0.001)
    hand.sealed_edit("ranges.gpkg", lambda content: content[:at] + bytes(shape) + content[at + len(shape):])


@forgery("a journal beside ranges.gpkg", "ranges.gpkg-wal lies beside ranges.gpkg")
def _(hand):
    hand.path("ranges.gpkg-wal").write_bytes(b"x")
    hand.seal()


@forgery("ranges.gpkg is no base", "ranges.gpkg is no GeoPackage")
def _(hand):
    hand.path("ranges.gpkg").write_text("Bor: 900 ha\n")
    hand.seal()


of_page("hectares in a cell", '(<td data-field="hectares_95">)[^<]+', r"\g<1>7.5",
        said='hectares_95">7.5</td>.*, and .*hectares_95">400</td>.* is wanted')
of_page("a sentence is added", "</ul>", "</ul><p>Seen by the authority.</p>", said="Seen by the authority")
of_page("a script", "</body>", "<script>document.title = 1</script></body>", said="<script>")
of_page("another style", "</style>", '[data-field="hectares_95"]::after { content: "9"; }</style>')
of_page("a class that hides a sentence", "<li>", '<li class="figures">')
of_page("a class that hides a cell", '<td data-field="hectares_95"', '<td class="figures" data-field="hectares_95"')
of_page("a class that hides a table", '<div class="scroll">', '<div class="figures">')
of_page("text in a drawing", '(<path class="rim")', r'<text x="99" y="99">7.5 ha</text>\1')
of_page("headings that stand above other columns", '<th scope="colgroup" colspan="3">MCP', '<th scope="colgroup" colspan="4">MCP')
of_page("a heading that is as high as two", '<th scope="col" rowspan="2">Days', '<th scope="col" rowspan="1">Days')
of_page("what is read aloud", 'aria-label="Map of the ranges"', 'aria-label="900 hectares"')
of_page("a language", '<html lang="en">', '<html lang="sl">')
of_page("a digit that nobody sees", '(<td data-field="hectares_95">)', r'\1<span class="figures">9</span>')
of_page("another way to write a sign", "Made on ", "Made&#32;on ")
of_page("a line of a drawing", '(<path class="l0 c0" d="M)', r"\g<1>9")
of_page("another title than was typed in", "Wolves", "Wolves of the park", 0)
of_page("another day than that of making", "Made on [^<]* with", "Made on 1 May 2026 with")


of_page("a byte order mark", "<!DOCTYPE html>", "\ufeff<!DOCTYPE html>", said="<!DOCTYPE")
of_page("line ends of another system", "\n", "\r\n", 0, said=r"\\r'")
of_page("no kind of document", "<!DOCTYPE html>\n", "")
of_page("an address that others begin with", "<title>", '<base href="https://park.example/"><title>')
of_page("a page that others come behind", "<title>", '<meta http-equiv="refresh" content="0;url=other.html"><title>')
of_page("a blank that breaks no line", "Made on ", "Made on\u00a0")
of_page("a sign that is not seen", "Wolves</bdi>", "Wol\u200bves</bdi>")
of_page("digits of another width", '(<td data-field="hectares_95">)[0-9]', r"\1４", said="４")
of_page("a quote of another kind", 'class="scroll"', "class='scroll'")
of_page("an attribute more", "<h1>", '<h1 title="900 ha">')
of_page("a remark behind its end", "</html>\n", "</html>\n<!-- seen -->\n", said="nothing is wanted")
of_page("a byte 0", "</html>", "\0</html>")
forgery.sealed("page: no line end at its end", "report.html is another one than is made again: it has no line end at its end",
               file="report.html", old="</html>\n", new="</html>")

for name in ("summary.csv", "animals.csv", "overlaps.csv"):
    forgery.sealed(f"a byte order mark of {name}", f"{name} {AGAIN} 1 has '.ufeff", file=name, old="\\A", new="\ufeff")
    forgery.sealed(f"no line end at the end of {name}", f"{name} is another one than is made again: it has no line end at its end",
                   file=name, old="\n\\Z", new="")
    forgery.sealed(f"an empty line behind {name}", f"{name} is another one than is made again: it has one more line end at its end",
                   file=name, old="\\Z", new="\n")
forgery.sealed("a quote in summary.csv", f"summary.csv {AGAIN} 2 has", file="summary.csv", old="^Bor,", new='"Bor",')
forgery.sealed("a zero in summary.csv", f"summary.csv {AGAIN} 2 has", file="summary.csv", old="^(Bor,.*)$", new=r"\g<1>0")


@forgery("the rows of summary.csv change places", f"summary.csv {AGAIN} 2 has 'Vesna,.*', and 'Bor,.*' is wanted")
def _(hand):
    hand.sealed_edit("summary.csv", lambda content: b"".join([(lines := content.splitlines(True))[0], *lines[:0:-1]]))



@forgery("a moment of making past which no clock goes", "a moment or a zone of dates in evidence.txt is none that can be shown")
def _(hand):
    hand.sub("evidence.txt", "^made: .*", "made: 9999-12-31T23:59:59Z")
    hand.sealed_sub("evidence.txt", "^clock: UTC", "clock: Asia/Tokyo")


forgery.sealed("a clock of this machine", "tz='localtime' is no time zone such as 'Europe/Ljubljana'",
               file="evidence.txt", old="^clock: UTC", new="clock: localtime")


@forgery("page: no text of UTF-8", PAGE)
def _(hand):
    hand.sealed_edit("report.html", lambda content: content.replace(b"Wolves", b"Wolves\xff"))


@forgery("the page of another run", f"report.html {AGAIN}")
def _(hand):
    other = hand.room / "other"
    other.mkdir()
    page = Maker(hand.program, other, export_text(9)).path("report.html").read_bytes()
    hand.path("report.html").write_bytes(page)
    hand.seal()


@forgery("another title in the record of the run and on the page",
         "not known: whether what was typed in is right: title, boundary, clock and the name of the export$")
def _(hand):
    hand.sub("evidence.txt", "^title: Wolves", "title: Wolves of the park")
    hand.sealed_sub("report.html", "Wolves", "Wolves of the park", 0)


forgery.sealed("another title in the record of the run alone", PAGE, file="evidence.txt", old="^title: .*",
               new="title: Wolves of the park")
forgery.sealed("another clock in the record of the run", PAGE, file="evidence.txt", old="^clock: UTC",
               new="clock: Pacific/Honolulu")
forgery.sealed("a clock that is none", "tables, layers and page cannot be made of this folder: .*Mars", file="evidence.txt",
               old="^clock: UTC", new="clock: Mars")
forgery.sealed("a clock that is a path", "tables, layers and page cannot be made of this folder: .*passwd", file="evidence.txt",
               old="^clock: UTC", new="clock: ../../../etc/passwd")
forgery.sealed("no clock", "report.html are there, and evidence.txt says that no page was made",
               file="evidence.txt", old="^clock: UTC\n", new="")
forgery.sealed("a corner of the boundary", PAGE, file="boundary.csv", old=r"^1,([0-9]+)\.", new=r"1,1\1.")
forgery.sealed("a boundary that is none", "tables, layers and page cannot be made of this folder: boundary.csv: line [0-9]+ is not ring,easting,northing",
               file="boundary.csv", old="^1,", new="one,")


@forgery("the boundary is not handed in", "evidence.txt names a boundary, and there is no boundary.csv")
def _(hand):
    hand.path("boundary.csv").unlink()
    hand.seal()


@forgery("a picture", "not known: what curves.png and ranges.png show: not looked at")
def _(hand):
    hand.sealed_edit("ranges.png", lambda content: content + b"x")


if __name__ == "__main__":
    try_export(Maker, sys.argv[1], 6, forgery)
