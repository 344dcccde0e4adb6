#!/usr/bin/env python3
"""run_rules.py PROGRAM: the rules of docs/TABLES.md that homerange-split alone has. Of each table stand here the options, the
lines that are said or the refusal, and the files of tracks, all written by hand."""
import csv
import subprocess
import sys
import tempfile
from pathlib import Path

sys.dont_write_bytecode = True
from cases import finish

TITLES = "animal,second,easting,northing"
FAR = "".join(f"v,{at},{500000 + 10 * at},{5000000 + 7 * at}\n" for at in range(9)) + "v,9,505000,5000000\nv,10,500010,5000003\n"
# Four animals in kilometres among five in metres, which begin 5,077 km north of them.
APART = "".join(f"{name},{at},{15 + at},{46 + at}\n" if name in "bcde" else f"{name},{at},{561000 + at * 1000 // 3},{5077000 + at * 1000 // 3}\n"
                for name in "abcdefghi" for at in range(4))
KILOMETRES = "".join(f"v,{at},{500 + at % 3},{5000 + at % 2}\n" for at in range(10))
OWN = f"{TITLES}\nv,0,1000,2000\nv,60,1030,2040\n"
OF_ZERO = f"{TITLES},dop\nv,0,1000,2000,0\nv,9,1001,2000,-1\nv,20,1002,2000,4.9\nv,30,1003,2000,5\nv,40,1004,2000,5.0\n"
MARK = b"\xEF\xBB\xBF"
LINES = ["coordinates are those of the table; zone: not known"]
GPX = """<gpx><trk><name>fox</name><trkseg><trkpt lat="46.356742" lon="15.805899"><time>2024-05-01T00:00:00Z</time></trkpt>
<trkpt lat="46.356842" lon="15.805999"><time>2024-05-01T01:00:00Z</time></trkpt></trkseg></trk></gpx>"""


def columns(titles, box, rest=""):
    return f"columns: {titles}; 1 animals, box {box} km{rest}"


# Places of six fixes: longitude and latitude, and easting and northing in zone 33 of UTM, in LAEA of Europe, in Krovak's system, and by
# Mercator's projection for maps of browsers, as PROJ has them.
PLACES = ("14.20000,46.30000", "14.25120,46.31210", "14.18330,46.28870", "14.23010,46.35540", "14.15260,46.33320", "14.21970,46.27110")
DEGREES = [tuple(float(part) for part in place.split(",")) for place in PLACES]
UTM = [(438390, 5127691), (442346, 5128997), (437091, 5126449), (440768, 5133824), (434779, 5131418), (439875, 5124465)]
LAEA = [(4644752, 2585464), (4648620, 2587030), (4643534, 2584139), (4646733, 2591739), (4640904, 2588941), (4646444, 2582345)]
KROVAK = [(-817057, -1458071), (-812959, -1457283), (-818508, -1459139), (-813905, -1452285), (-820164, -1453904), (-815996, -1461468)]
MERCATOR = [(1580737, 5828555), (1586436, 5830505), (1578878, 5826735), (1584087, 5837486), (1575460, 5833906), (1582930, 5823900)]


def told(places, degrees=PLACES):
    """A table of fixes at these places, beside longitude and latitude."""
    return beside_metres(places, "lon,lat", degrees)


def beside_metres(places, titles, degrees=PLACES):
    """A table of fixes at these places, beside longitude and latitude of these titles."""
    rows = (f"a,{second},{east},{north},{beside}\n" for second, ((east, north), beside) in enumerate(zip(places, degrees)))
    return f"id,second,x,y,{titles}\n{''.join(rows)}".encode()


def said_of_first(degrees, titles="lon,lat"):
    """What is said of the first fix by its longitude and latitude that are not read."""
    longitude, latitude = (float(part) for part in degrees.split(","))
    first, second = titles.split(",")
    return f"by column 5 '{first}' and column 6 '{second}', which are not read, the first fix is near {longitude:.1f} E {latitude:.1f} N"


def beside_degrees(places):
    """A table of fixes at these longitudes and latitudes, beside their own."""
    rows = (f"a,{second},{longitude},{latitude},{beside}\n" for second, ((longitude, latitude), beside) in enumerate(zip(places, PLACES)))
    return f"id,second,gx,gy,lon,lat\n{''.join(rows)}".encode()


def taken(places):
    """The track of these places."""
    return {"a": "".join(f"a,{second},{east},{north}\n" for second, (east, north) in enumerate(places))}


OWN_COLUMNS = columns("animal, second, easting, northing", "0.030 by 0.040", ", from second 0 to 60")

# Name, options, bytes of the table, and either the record and a part of the refusal, or the lines that are said but the last, and
# the tracks by their names.
REFUSED = [
    ("signs of thousands behind semicolons", [], b"id;date;x;y\na;2024-05-01;561,234;102,345\na;2024-05-02;561,300;102,400\n", 1, "x is '561,234', whose comma may stand before thousands"),
    ("signs of thousands behind commas", [], b"id,date,x,y\na,2024-05-01,561.234,5\na,2024-05-02,12,7\n", 1, "x is '561.234', whose point may stand before thousands"),
    ("a comma in a DOP between commas", ["--max-dop", "5"], f'{TITLES},dop\nv,0,1,2,"1,200"\n'.encode(), 1, "dop is '1,200' and not a number"),
    ("a first fix far away", ["--max-speed", "2"], f"{TITLES}\nv,0,90000,1000\nv,60,1000,1000\nv,120,1001,1000\nv,180,1002,1000\n".encode(), None,
     "--max-speed leaves out 3 of 4 fixes of v, more than half"),
    ("a DOP of nobody", ["--max-dop", "1"], OF_ZERO.replace("5.0", "1").encode(), None, "--max-dop leaves out"),
    ("a type without its column", ["--fix-type", "3D"], OWN.encode(), None, "--fix-type: no column has a usual title for it"),
    ("a time without its column", ["--since", "2024-05-01"], b"id,x,y\nv,1000,2000\n", None, "--since: no column has a usual title for the time"),
    ("coordinates in tenths of millimetres", [], f"{TITLES}\nv,0,5000000000,51000000000\nv,9,5000000001,51000000001\n".encode(), None, "more than 100,000 km"),
    ("a maker's table", [], b"device_id,UTC_datetime,Latitude,Longitude\n1,2024-09-20 00:00:20,46.3,15.8\n", None, "the columns are those of ornitela"),
    ("another encoding", ["--encoding", "cp1253"], OWN.encode(), None, "encoding: cp1253 is none of utf-8"),
    ("UTF-16 without a mark", ["--encoding", "utf-16"], OWN.encode("utf-16-le"), None, "it has no byte order mark"),
    ("bytes that are none of UTF-8", [], OWN.encode() + b"\xe9", None, "is no text in UTF-8: name its coding, such as --encoding latin-1"),
    ("the mark of UTF-16", [], OWN.encode("utf-16"), None, "begins with the mark of UTF-16: name that, by --encoding utf-16"),
    ("the mark of UTF-32", ["--encoding", "latin-1"], OWN.encode("utf-32"), None, "begins with the mark of UTF-32: name that, by --encoding utf-32"),
    ("the mark of UTF-8 beside another encoding", ["--encoding", "latin-1"], MARK + OWN.encode(), None, "begins with the mark of UTF-8: leave --encoding out"),
    ("two marks", [], 2 * MARK + OWN.encode(), None, "begins with two byte order marks: remove one"),
    ("two marks of UTF-16", ["--encoding", "utf-16"], b"\xFF\xFE" + OWN.encode("utf-16"), None, "begins with two byte order marks: remove one"),
    ("a workbook", [], b"PK\x03\x04 ", None, "is a workbook or an archive (zip), and no text: save the table as CSV, or unpack it first"),
    ("an older workbook", ["--encoding", "latin-1"], b"\xD0\xCF\x11\xE0", None, "is a workbook (xls), and no text: save the table as CSV"),
    ("a packed table", [], b"\x1F\x8B\x08", None, "is packed (gzip), and no text: unpack it first"),
    ("packed GPX", ["--from", "gpx"], b"\x1F\x8B\x08", None, "is packed (gzip), and no text: unpack it first"),
    ("a PDF", [], b"%PDF-1.7\n", None, "is a PDF, and no text: save the table as CSV"),
    ("GPX without its preset", [], GPX.encode(), None, "is XML, and no table with titles: GPX is read by --from gpx"),
    ("GPX without its preset, in UTF-16", ["--encoding", "utf-16"], f"\n<?XML version='1.0'?>{GPX}".encode("utf-16"), None, "GPX is read by --from gpx"),
    ("a page", [], b" <!DOCTYPE html>\n<html></html>\n", None, "is HTML or KML, and no table with titles: save the table as CSV"),
    ("GPX that is none of UTF-8", ["--from", "gpx"], GPX.replace("fox", "B\xE4r").encode("latin-1"), None,
     'is no text in utf-8: byte 17 is none of it; GPX names its encoding in its first line, as <?xml version="1.0" encoding="latin-1"?>'),
    ("a word for what is missing", [], b"id,date,x,y\na,2024-05-01,NULL,NULL\n", 1,
     "x is 'NULL' and not a number of up to 12 digits: if it stands for what is missing, name it, by --na=NULL"),
    ("a sign for what is missing", [], b"id,date,x,y\na,2024-05-01,1,#N/A\n", 1, ": if it stands for what is missing, name it, by --na='#N/A'"),
    ("a day of Europe", [], b"id,date,x,y\na,01.05.2024 00:30,1,2\n", 1,
     "date is '01.05.2024 00:30' and not a time such as 2024-05-01 00:30:04: name its form, as by --time-format '%d.%m.%Y %H:%M'"),
    ("a day of America", [], b"id,date,x,y\na,5/13/2024 1:30 pm,1,2\n", 1, ": name its form, as by --time-format '%m/%d/%Y %I:%M %p'"),
    ("a day or a month", [], b"id,date,x,y\na,05/03/2024,1,2\n", 1, ": name its form, as by --time-format '%m/%d/%Y' or '%d/%m/%Y'"),
    ("a time of another form", [], b"id,date,x,y\na,week 13,1,2\n", 1,
     "date is 'week 13' and not a time such as 2024-05-01 00:30:04: if it is one, name its form, by --time-format"),
    ("a comma in seconds", [], b"id;timestamp;x;y\na;1714523404,75;1,5;2\n", 1, "timestamp is '1714523404,75' and not a time such as 2024-05-01 00:30:04: write its decimals behind a point"),
    ("a comma in a time", [], b"id;date;x;y\na;2024-05-01 00:30:04,5;1,5;2\n", 1, "and not a time such as 2024-05-01 00:30:04: write its decimals behind a point"),
    ("two long names", [], f"{TITLES}\n{32 * 'v'}1,0,1,2\n{32 * 'v'}2,0,1,2\n{32 * 'v'}2,1,1,2\n".encode(), None,
     f"would both be named {32 * 'v'}: rename one, since a name in files has at most 32 bytes"),
    ("two names of one file", [], f"{TITLES}\na/b,0,1,2\na:b,0,1,2\na:b,1,1,2\n".encode(), None,
     "would both be named a_b: rename one, since a name in files has _ for signs that files cannot have"),
    ("a document type", ["--from", "gpx"], b"<!DOCTYPE gpx><gpx/>", None, "has a document type, which is not read"),
    ("a place that is none", ["--zone", "33N"], b"id,date,lon,lat\na,2024-05-01,15.8,46.3\na,2024-05-02,15.8,95\n", 2, "there is no place of longitude 15.8 and latitude 95"),
    ("a sensor of no fix", ["--sensor", "gps"], OWN.encode(), None, "--sensor: no fix is of gps"),
    ("seconds of a minute", [], f"{TITLES}\n{''.join(f'v,{at % 60},{1000 + at},2000' + chr(10) for at in range(61))}".encode(), None,
     "all 61 seconds of v are below 60: are they those of a minute?"),
    ("times under another title", [], b"id,x,y,when\na,1000,2000,2024-05-01\na,1030,2040,2024-05-02 10:00\n", None, "and when has times: name it, as by --time 'when'"),
    ("days with hours", [], b"id,timestamp,x,y\na,2024050112,1000,2000\na,2024050213,1030,2040\n", 1, "may be seconds since 1970 or a day with hours"),
    ("seconds before 1990", [], b"id,timestamp,x,y\na,599999999,1000,2000\n", 1, "is no second since 1970 (1990 to 2286)"),
    ("ten decimals", [], b"id,timestamp,x,y\na,2024-05-01 00:30:04.1234567890,1000,2000\n", 1, "has more than nine decimals"),
    ("a time among seconds", [], OWN.replace("v,60", "v,2024-05-01").encode(), 2, "which is a time among seconds"),
    ("two signs of one thing", ["--time-format", "%Y-%m-%d %y"], OWN.encode(), None, "time-format is '%Y-%m-%d %y', which is no form of a day"),
    ("a zone that is none", ["--tz", "Mars/Olympus"], OWN.encode(), None, "tz='Mars/Olympus' is no time zone"),
    ("a zone that is a path", ["--tz", "../../../etc/passwd"], OWN.encode(), None, "tz='../../../etc/passwd' is no time zone"),
    ("a zone that is a folder", ["--tz", "Europe"], OWN.encode(), None, "tz='Europe' is no time zone"),
    ("a header of no line", ["--header", "Acquisition"], OWN.encode(), None, "no line begins with 'Acquisition'"),
    ("an encoding beside GPX", ["--from", "gpx", "--encoding", "latin-1"], GPX.encode(), None, "--encoding is for texts with a line of titles"),
    ("an animal that is missing by --na", ["--na", "0"], b"id,date,x,y\n7,2024-05-01,1000,2000\n0,2024-05-01,1030,2040\n", 2, "id is '0', a word of --na, and so no animal: leave it out of --na, or --skip-unnamed leaves such records out"),
    ("a clock alone", [], b"id,time,x,y\na,10:30,1000,2000\n", 1, "time is '10:30', which is a clock without a day: name the column of the day too, as by --time DAY,CLOCK"),
    ("a second without all of its digits", [], b"id,time,x,y\na,1.7145216e+09,1000,2000\n", 1, "time is '1.7145216e+09', which is a number without all of its digits: write these"),
    ("sides that are none", [], b"id,date,lon,lat,bank\na,2024-05-01,0.5,51.5,W\na,2024-05-02,0.5,51.5,W\n", None, "if they lie there, write them with a minus and remove it, and else write its values otherwise"),
    ("half a time", ["--time", "day,hour"], b"id,day,hour,x,y\na,2024-05-01,,1000,2000\n", 1, "there is no day hour"),
    ("no time", [], b"id,timestamp,x,y\na,  ,1000,2000\n", 1, "there is no timestamp"),
    *((f"degrees with their side, {cell}", [], f"id,date,lon,lat\na,2024-05-01,{cell},46.1\n".encode(), 1,
       f"lon is '{cell}' and not a number of up to 12 digits: write degrees as numbers alone, with a minus before those in the south or the west")
      for cell in ("14.5E", "14.5 W", "14.5°", "14.5° E", "14.5°E", "-14.5o", "E14.51", "W 14.5", "o14.5°")),
    *((f"a time with a zone, {cell}", [], f"id,date,x,y\na,{cell},1000,2000\n".encode(), 1, f"date is '{cell}' and not a time such as 2024-05-01 00:30:04: name its form, as by --time-format {form}")
      for cell, form in (("2024-05-01 10:00 UTC", "'%Y-%m-%d %H:%M UTC'"), ("13.05.2024 10:00:00 GMT", "'%d.%m.%Y %H:%M:%S GMT'"),
                         ("2024-05-01 10:00:00 CEST", "'%Y-%m-%d %H:%M:%S CEST', and its zone, as by --tz Europe/Ljubljana"),
                         ("13 May 2024 10:00:00 GMT+0200", "'%d %b %Y %H:%M:%S GMT+0200', and its zone, as by --tz Europe/Ljubljana"))),
    ("a clock of digits behind a day", ["--time", "date,clock"], b"id,date,clock,x,y\na,2024-05-01,103000,1000,2000\n", 1,
     "date clock is '2024-05-01 103000' and not a time such as 2024-05-01 00:30:04: name its form, as by --time-format '%Y-%m-%d %H%M%S'"),
    ("a time whose day and month stand the other way round", ["--time-format", "%d/%m/%Y %H:%M"], b"id,date,x,y\na,05/11/2024 06:00,1000,2000\na,05/13/2024 06:00,1000,2000\n", 2,
     "date is '05/13/2024 06:00' and not a time of the form %d/%m/%Y %H:%M: if day and month stand the other way round in all, name that form alone"),
    *((f"titles of parts that stand otherwise in the form, {form}", ["--time", titles, "--time-format", form], f"id,{titles},x,y\na,{cells},1000,2000\n".encode(), None, f"column {number} '{title}' is read as {sign}, by its place")
      for titles, form, cells, number, title, sign in (
          ("year,day,month,hour", "%Y %m %d %H", "2024,1,5,6", 3, "day", "%m"), ("Jahr,Monat,Tag", "%Y %d %m", "2024,5,1", 3, "Monat", "%d"), ("date,min,hour", "%Y-%m-%d %H %M", "2024-05-01,3,6", 3, "min", "%H"))),
    ("seconds beside times of whole minutes", [], b"id,time,x,y,sec\na,2024-05-01 01:30,1000,2000,5\na,2024-05-01 01:30,1030,2040,40\n", None,
     "column 5 'sec' has seconds, which the minutes of the time have not: join them, as by --time 'time,sec' --time-format '%Y-%m-%d %H:%M %S', or remove it"),
    ("a time of another form than that which was named", ["--time-format", "%d.%m.%Y"], b"id,date,x,y\na,13.05.2024,1000,2000\na,2024-05-14 10:30,1000,2000\n", 2,
     "date is '2024-05-14 10:30' and not a time of the form %d.%m.%Y: name its form too, behind a |, as '%Y-%m-%d %H:%M'"),
    ("a time of a zone that others have not", ["--time-format", "%d.%m.%Y %H:%M"], b"id,date,x,y\na,13.05.2024 10:30,1000,2000\na,14.05.2024 10:30 CEST,1000,2000\n", 2,
     "date is '14.05.2024 10:30 CEST' and not a time of the form %d.%m.%Y %H:%M: name its form too, behind a |, as '%d.%m.%Y %H:%M CEST', and its zone, as by --tz Europe/Ljubljana"),
    ("metres with the letter of their side", [], b"id,date,x,y\na,2024-05-01,501033E,5002000N\n", 1, "x is '501033E' and not a number of up to 12 digits: write numbers alone, without the letters of their sides"),
    *((f"a blank before an offset, {cell}", [], f"id,date,x,y\na,{cell},1000,2000\n".encode(), 1,
       f"date is '{cell}' and not a time such as 2024-05-01 00:30:04: write its offset right behind the clock, without a blank") for cell in ("2023-06-20 00:00:51 +0000", "2023-06-20T00:00 +02:00", "2023-06-20 00:00:51.5 -03")),
    *((f"a clock of another form, {cell}", [], f"id,date,x,y\na,{cell},1000,2000\n".encode(), 1, f"name its form, as by --time-format '{form}'") for cell, form in (
        ("2023-06-20_00:00:26", "%Y-%m-%d_%H:%M:%S"), ("2023-06-20 00.00.26", "%Y-%m-%d %H.%M.%S"), ("2023-06-20 00h05", "%Y-%m-%d %Hh%M"))),
    ("a time without the seconds of the form", ["--time-format", "%d/%m/%Y %H:%M:%S"], b"id,date,x,y\na,01/05/2024 10:30,1000,2000\n", 1,
     "name its form too, behind a |, as '%d/%m/%Y %H:%M'; or, if day and month stand the other way round in all, name that form alone"),
    *((f"degrees with minutes, {cell}", [], f"id,date,lon,lat\na,2024-05-01,{cell},46.1\n".encode(), 1, "write degrees with decimals, as 14.5 for 14 degrees and 30 minutes")
      for cell in ("14\u00b030'20\u2033", "14\u00b030.5'", "14 30.020", "E 14\u00b030'", "14:30:20", "14\u00b030\u2032 W", "-14\u00ba 30' 20.5\u2033")),
    *((f"no degrees with minutes, {cell}", [], f"id,date,lon,lat\na,2024-05-01,{cell},46.1\n".encode(), 1, f"lon is '{cell}' and not a number of up to 12 digits") for cell in ("501 033", "14;5", "about 14")),
    ("digits that have lost a zero", ["--time", "date,time", "--time-format", "%Y-%m-%d %H%M"], b"id,date,time,x,y\na,2024-05-01,130,1000,2000\n", 1, "not a time of the form %Y-%m-%d %H%M"),
    ("a day without its zero", ["--time-format", "%d%m%y"], b"id,date,x,y\na,10524,1000,2000\n", 1, "not a time of the form %d%m%y"),
    ("classes as numbers with decimals", [], b"id,date,x,y,argos-lc\na,2024-05-01,1000,2000,3.0\na,2024-05-02,1030,2040,b\n", None, "fixes are of Argos"),
    ("a form with Z beside another zone", ["--time-format", "%Y-%m-%dT%H:%M:%SZ", "--tz", "Europe/Ljubljana"], b"id,date,x,y\na,2024-05-01T00:30:04Z,1000,2000\n", None,
     "time-format is '%Y-%m-%dT%H:%M:%SZ', which says UTC, and tz is 'Europe/Ljubljana': leave one of them out"),
    ("a form with a zone that is not named", ["--time-format", "%Y-%m-%d %H:%M CET"], b"id,date,x,y\na,2024-05-01 00:30 CET,1000,2000\n", None, "which may have a zone of time, and no form has one: name it, as by --tz"),
    *((f"a form that says a clock, {form}", ["--time-format", form, *options], b"id,date,x,y\na,1,1000,2000\n", None, f"time-format is '{form}', which {says}")
      for form, options, says in (
          ("%a %d %Y %m %H:%M:%S GMT+0200", [], "may have a zone of time"), ("%Y-%m-%d %H:%M (MESZ)", [], "may have a zone of time"),
          ("%Y-%m-%d %H:%M UTC+2", [], "may have a zone of time"), ("%H:%M+2 %d.%m.%Y", [], "may have a zone of time"), ("%Y-%m-%d %H:%M UTC+2", ["--tz", "Etc/GMT-3"], "says another clock than tz='Etc/GMT-3'"),
          ("%Y-%m-%d %H:%M UTC", ["--tz", "Europe/Vienna"], "says UTC, and tz is 'Europe/Vienna'"))),
    *((f"a half of the day that stands for itself, {form}", ["--time-format", form], b"id,date,x,y\na,2024-05-01 10:30 PM,1000,2000\n", None,
       f"time-format is '{form}', in which a half of the day stands for itself: write %I for the hour and %p for the half")
      for form in ("%Y-%m-%d %H:%M PM", "%Y-%m-%d %H:%M:%S am", "%Y-%m-%d %H:%M p.m.")),
    *((f"times of UTC under {title}", ["--tz", "Europe/Vienna", "--time", title], f"id,{title},x,y\na,2024-05-01 10:30+02:00,1000,2000\na,2024-05-01T10:30Z,1000,2000\n".encode(), None,
       f"column 2 '{title}' says another clock than that of UTC, and the time of record 2 ends as those of UTC do: rename the column, or write the times of that clock "
       "without a zone, and name its zone, as by --tz Europe/Ljubljana") for title in ("local_time", "time (CET)", "timestamp_local", "Ortszeit")),
    ("a form with an offset", ["--time-format", "%d.%m.%Y|%Y-%m-%d %H:%M+02:00"], b"id,date,x,y\na,2024-05-01 00:30+02:00,1000,2000\n", None, "time-format is '%Y-%m-%d %H:%M+02:00', which may have a zone"),
    ("a zone under a title of another language", [], b"id,date,x,y,huso\na,2024-05-01,500000,5000000,30\na,2024-05-02,500030,5000040,31\n", None, "column 5 'huso' has several values"),
    ("classes of another title, behind LC", [], b"id,date,x,y,Quality\na,2024-05-01,1000,2000,LC3\na,2024-05-02,1030,2040,lcb\n", None, "column 5 'Quality' may have Argos classes"),
    ("no fix of a class", ["--argos-class", "9"], b"id,date,x,y,argos-lc\na,2024-05-01,1000,2000,3\na,2024-05-02,1030,2040,B\na,2024-05-02,,,B\n", None, "no fix is left; left out by reason: coordinates 1, class 2"),
    ("a sensor of no fix among others", ["--sensor", "vhf,GPS"], b"id,date,x,y,sensor-type\na,2024-05-01,1000,2000,gps\na,2024-05-02,1030,2040,Argos\n", None, "--sensor: no fix is of vhf"),
    ("classes of another title", [], b"id,date,x,y,Quality\na,2024-05-01,1000,2000,3\na,2024-05-02,1030,2040,B\n", None, "column 5 'Quality' may have Argos classes"),
    ("a name that has lost digits", [], b"id,date,x,y\nb,2024-05-01,1000,2000\n3.00434E+14,2024-05-01,1000,2000\n3.00434E+14,2024-05-02,1030,2040\n", 2, "is a number that has lost digits"),
    *((f"zones of metres that change, as {title}", [], f"id,date,x,y,{title}\na,2024-05-01,500000,5000000,{one}\na,2024-05-02,500030,5000040,{two}\n".encode(), None,
       f"column 5 '{title}' has several values: if they are zones of the coordinates") for title, one, two in (
           ("Zone UTM", "33N", "34N"), ("Zona UTM", "33", "34"), ("Huso UTM", "30 N", "31 N"), ("Fuso UTM", "23K", "24K"), ("zone_utm", "UTM33", "UTM34"),
           ("UTM zone no", "zone 3", "zone 4"), ("gridZone", "WGS 84 / UTM zone 33N", "WGS 84 / UTM zone 34N"), ("UTM.band", "T", "U"),
           ("CRS (code)", "EPSG:32633", "EPSG:32634"), ("fuseau.utm", "031", "032"))),
    *((f"offsets of times under {title}", [], f"id,time,x,y,{title}\na,2024-05-01 01:00,1000,2000,{cell}\na,2024-05-01 02:00,1030,2040,{cell}\n".encode(), None,
       f"column 5 '{title}' says of which zone times are") for title, cell in (
           ("UTC offset (h)", "2"), ("UTC_offset_h", "-3"), ("utc_offset_hours", "+5.5"), ("GMT offset (h)", "+02:00"), ("TZ (h)", "2"), ("tijdzone", "+02:00"), ("strefa czasowa", "+2"), ("Časové pásmo", "SELČ"), ("časové pásmo", "+02:00"), ("časovna cona", "2"), ("vremenska zona", "CET"), ("часовой пояс", "+3"), ("aikavyöhyke", "+2"),
           ("tidszon", "+1"), ("tidssone", "+1"), ("tidszone", "+1"), ("időzóna", "CET"), ("saat dilimi", "+3"), ("fuso orario", "CET"), ("huso horario", "-5"), ("fuseau horaire", "+1"), ("time offset", "2"), ("UTC.offset..h.", "2.0"),
           ("utcOffset", "2"), ("utc_offset_min", "120"), ("offset to UTC (s)", "7200"), ("tz_name", "Europe/Vienna"), ("time.zone.code", "CET"), ("GMT", "+2"),
           ("fuso orario", "UTC+1"), ("UTC diff", "+0200"))),
    *((f"hours beside days as {cell}", [], f"id,date,x,y,{title}\na,2024-05-01,1000,2000,{cell}\na,2024-05-01,1030,2040,{other}\n".encode(), None,
       f"column 5 '{title}' has hours, which the days of the time have not: write them as clocks, such as 00:30, and join them, as by --time 'date,{title}', or remove it")
      for title, cell, other in (("hour", "0.5", "1.5"), ("hora", "0030", "0130"), ("hour", "00h30", "01h30"), ("Hour (UTC)", "1.25", "2.50"))),
    *((f"clocks of digits beside days, {title}", [], f"id,date,x,y,{title}\na,2024-05-01,1000,2000,{one}\na,2024-05-01,1030,2040,{other}\n".encode(), None,
       f"column 5 '{title}' has hours, which the days of the time have not: write them as clocks, such as 00:30, and join them, as by --time 'date,{title}', or remove it")
      for title, one, other in (("clock", "103000", "113000"), ("gps_time", "0930", "2359"), ("UTC.time", "93000", "230500"), ("local_time", "930", "1015"))),
    ("metres beside degrees of the same title", [], b"id,date,x,y,X,Y\na,2024-05-01,561000,5134000,,\na,2024-05-02,561030,5134040,,\na,2024-05-03,,,561000,5134000\n", None,
     "column 6 'Y' has coordinates of records that have none"),
    ("coordinates in two pairs of columns", [], b"id,date,x,y,lon,lat\na,2024-05-01,561000,5134000,,\na,2024-05-02,561030,5134040,,\na,2024-05-03,,,15.8,46.3\n", None,
     "column 5 'lon' has coordinates of records that have none in the columns that are read: make a table of each, or remove it"),
    ("an animal in another column", [], b"animal,id,time,easting,northing\nfox,,2024-05-01,1000,2000\nfox,,2024-05-02,1030,2040\n,hen,2024-05-02,1030,2040\n", 3,
     "there is no animal, and --skip-unnamed leaves such records out; and id has one, which is taken there by --animal 'animal,id'"),
    ("two columns of animals", [], b"animal,id,date,x,y\nfox,1,2024-05-01,1000,2000\nfox,2,2024-05-02,1030,2040\n", None,
     "name one, as by --animal animal, or both, where one has the animals that the other has not, as by --animal animal,id"),
    ("zones of metres that change", [], b"id,date,x,y,UTMzone\na,2024-05-01,500000,5000000,33N\na,2024-05-02,500030,5000040,34N\n", None, "column 5 'UTMzone' has several values"),
    ("a letter of a side beside degrees", [], b"id,date,lon,lat,V5\na,2024-05-01,0.5,51.5,S\na,2024-05-02,0.5,51.5,S\n", None, "column 5 'V5' has S or W beside degrees above 0"),
    ("a letter of a side under its title", [], b"id,date,lon,lat,note,lat_dir\na,2024-05-01,0.5,51.5,1,S\na,2024-05-02,0.5,51.5,2,S\n", None, "column 6 'lat_dir' has S or W beside degrees above 0"),
    ("letters of two sides", [], b"id,date,lon,lat,note,half\na,2024-05-01,0.5,51.5,1,E\na,2024-05-02,0.5,51.5,2,W\n", None, "column 6 'half' has S or W beside degrees above 0"),
    *((f"letters of sides under {title}, {cell}", [], f"id,date,lon,lat,note,{title}\na,2024-05-01,0.5,51.5,3,{cell}\na,2024-05-02,0.5,51.5,4,{cell}\n".encode(), None, f"column 6 '{title}' has S or W beside degrees above 0")
      for titles, cell in (("North/South N/S NS latdir lat_dir NSIndicator ns_ind lat_ref GPSLatitudeRef LatitudeRef Nord/Süd", "S"), ("East/West E/W EW londir lon_dir EWIndicator ew_ind lon_ref GPSLongitudeRef LongitudeRef est/ouest", "W"))
      for title in titles.split()),
    *((f"classes of Argos under {title}, {one} and {other}", [], f"id,date,x,y,{title}\na,2024-05-01,1000,2000,{one}\na,2024-05-02,1030,2040,{other}\n".encode(), None,
       f"column 5 '{title}' may have Argos classes: name it, as by --argos {title}, or rename or remove it") for title in ("lc", "LC", "class") for one, other in (("3", "B"), ("3", "2"), ("A", "Z"), ("0", ""))),
    *((f"hours beside days under {title}", [], f"id,date,x,y,{title}\na,2024-05-01,1000,2000,7\na,2024-05-02,1030,2040,23\n".encode(), None, f"column 5 '{title}' has hours, which the days of the time have not")
      for title in ("time [h]", "Time (h)", "time_h", "time..h.", "Čas (h)", "cas [h]", "heure (h)", "tijd (u)", "Zeit [Std]", "czas (h)", "tid (h)", "tempo (hours)")),
    *((f"an hour that stays, and minutes, beside days under {title}", [], f"id,{title},hour,minute,second,x,y\na,2024-05-01,10,30,5,1000,2000\na,2024-05-02,10,31,7,1030,2040\n".encode(), None,
       f"column 3 'hour' has hours, which the days of the time have not: join them, as by --time '{title},hour,minute,second' --time-format '%Y-%m-%d %H %M %S', or remove it") for title in ("date", "time", "timestamp")),
    ("days of a year, a month and a word that is one for a tag too", [], b"id,Jahr,Monat,Tag,Stunde,x,y\na,2024,5,1,7,1000,2000\na,2024,5,1,8,1030,2040\n", None,
     ": join them, as by --time 'Jahr,Monat,Tag,Stunde' --time-format '%Y %m %d %H', or leave them out"),
    *((f"parts of times in another language, {titles}", [], f"id,{titles},x,y\na,2024,5,1,1000,2000\na,2024,5,2,1030,2040\n".encode(), None, f": join them, as by --time '{titles}' --time-format '%Y %m %d', or leave them out")
      for titles in ("rok,měsíc,den", "leto,mesec,dan", "év,hónap,nap", "any,mes,dia", "år,måned,dag", "yıl,ay,gün")),
    ("a day named as the time under a word that is another one too", ["--time", "rok,mesic,den"], b"id,rok,mesic,den,x,y\na,2024,5,1,1000,2000\n", 1, ": name its form, as by --time-format '%Y %m %d'"),
    ("a hemisphere beside degrees", [], b"id,date,lon,lat,E/W\na,2024-05-01,0.5,51.5,E\na,2024-05-02,0.5,51.5,W\n", None, "column 5 'E/W' has S or W beside degrees above 0"),
    *((f"a side in words beside degrees, {one}", [], f"id,date,lon,lat,side\na,2024-05-01,15.8,46.3,{one}\na,2024-05-02,15.8,46.3,{other}\n".encode(), None,
       "column 5 'side' has S or W beside degrees above 0, and is not read: if they lie there, write them with a minus and remove it, and else write its values otherwise")
      for one, other in (("south", "north"), ("S.", "N."), ("SOUTH", "S"), ("Sud", "Nord"), ("Southern hemisphere", "northern hemisphere"), ("süd", "Norden"), ("sur", "sur"),
                         ("West", "East"), ("w.", "E"), ("Ouest", "Est"), ("oeste", "leste"), ("západní", "východní"), ("ZAPADNI", "vychodni"), ("batı", "doğu"), ("güney", "kuzey"), ("южное полушарие", "северное полушарие"), ("南纬", "北纬"), ("nyugati", "keleti"), ("west longitude", "west longitude"), ("O", "E"))),
    *((f"days beside {title} as {one}", [], f"id,date,x,y,{title}\na,2024-05-01,1000,2000,{one}\na,2024-05-01,1030,2040,{other}\n".encode(), None,
       f"column 5 '{title}' has days with clocks, and the times that are read are days alone: name it as the time, as by --time '{title}', or remove it")
      for title, one, other in (("gps_time", "2024-05-01 10:30:00", "2024-05-01 09:00:00"), ("Acquisition", "2024-05-01T10:30Z", "2024-05-01T00:00Z"), ("stamp", "1/5/24 3:30 PM", "1/5/24 12:00 AM"),
                                ("fix", "01.05.2024 10:30", "01.05.2024 9:00"), ("UTC.Datum", "20240501 10:30:00", "20240501 11:30:00"))),
    *((f"fixes that lie otherwise, {name}", options, told(places), None,
       "column 3 'x' and column 4 'y' are read as metres, and fixes lie otherwise by column 5 'lon' and column 6 'lat': name these, by --lon and --lat, or write metres of one "
       "zone or system, or remove those that are not theirs") for name, options, places in (
           ("Mercator", [], MERCATOR), ("feet", [], [(round(east / 0.3048), round(north / 0.3048)) for east, north in UTM]), ("the other way round", [], [(north, east) for east, north in UTM]),
           ("rows", [], [(row, row) for row in range(6)]), ("kilometres", ["--unit", "dm"], [(east / 1000, north / 1000) for east, north in UTM]),
           ("two zones", [], [(east - 462000 * (place % 2), north) for place, (east, north) in enumerate(UTM)]))),
    *((f"fixes that lie otherwise by {titles}", [], beside_metres(MERCATOR, titles), None,
       f"fixes lie otherwise by column 5 '{titles.split(',')[0]}' and column 6 '{titles.split(',')[1]}': name these, by --lon and --lat")
      for titles in ("decimalLongitude,decimalLatitude", "lon_dd,lat_dd", "gps_lon,gps_lat", "Länge,Breite", "GPS Longitude [°],GPS Latitude [°]", "location.long,location.lat", "Longitude (°E),Latitude (°N)", "lon_E,lat_N", "East longitude,North latitude")),
    ("halves of the day", [], b"id,time,x,y,half\na,2024-05-01 01:00,1000,2000,AM\na,2024-05-01 01:30,1030,2040,pm\n", None, "column 5 'half' has halves of the day"),
    *((f"halves of the day as {one!r} and {other!r} under {title}", [], f"id,time,x,y,{title}\na,2024-05-01 01:00,1000,2000,{one}\na,2024-05-01 01:30,1030,2040,{other}\n".encode(), None,
       f"column 5 '{title}' has halves of the day, and is not read: write them AM and PM and join it to the time") for title, one, other in (
           ("half", "AM ", " pm"), ("half", "a. m.", "p. m."), ("h", "a.\u00a0m.", "p.\u202fm."), ("note", "vorm.", "nachm."), ("x5", "Vormittag", "NACHMITTAG"), ("pul dne", "dop.", "odp."), ("dan", "dopoldne", "popoldne"),
           ("napszak", "délelőtt", "DÉLUTÁN"), ("ampm", "0", "1"), ("AM/PM", "A", "P"), ("A/P", "A", "P"), ("ap", "a", "p"), ("is_pm", "0", "1"), ("isPM", "false", "true"), ("ispm", "n", "y"), ("x6", "上午", "下午"), ("x7", "午前", "午後"), ("x8", "de.", "du."),
           ("x9", "fm", "em"), ("x9", "f.m.", "e.m."), ("moment", "matin", "soir"), ("moment", "matin", "après-midi"), ("moment", "MATIN", "APRES-MIDI"), ("am.pm", "morning", "evening"), ("AmPm", "1", "1"))),
    *((f"clocks of 12 hours beside days, {one}", [], f"id,date,x,y,c\na,2024-05-01,1000,2000,{one}\na,2024-05-01,1030,2040,{other}\n".encode(), None,
       "column 5 'c' has hours, which the days of the time have not: join them, as by --time 'date,c', or remove it") for one, other in (
           ("03:00 nachm.", "04:00 nachm."), ("3:00 AM", "3:30 pm"), ("3 PM", "4 PM"), ("3pm", "11am"), ("10:30 ", "11:00 "), ("03:00:00 a. m.", "04:00:00 p. m."), ("03:00 dop.", "03:00 odp."), ("03:00 delelott", "03:00 délután"), ("上午3:00", "下午 4:00"), ("午後3:00", "午前 4:00:10"), ("3:00 du matin", "4:00 du soir"))),
    *((f"a half of the day behind a time, {cell}", words, f"id,date,x,y\na,{cell},1000,2000\n".encode(), 1, f"date is '{cell}' and not a time {what}") for words, cell, what in (
        ([], "2024-05-01 03:00 nachm.", "such as 2024-05-01 00:30:04: write its half of the day as PM at its end, and name its form, as by --time-format '%Y-%m-%d %I:%M %p'"),
        ([], "01.05.2024 03:00:10 vorm.", "such as 2024-05-01 00:30:04: write its half of the day as AM at its end, and name its form, as by --time-format '%d.%m.%Y %I:%M:%S %p'"),
        ([], "2024-05-01 03:00 AM ", "such as 2024-05-01 00:30:04: write its half of the day as AM at its end, and name its form, as by --time-format '%Y-%m-%d %I:%M %p'"),
        ([], "5/13/2024 1:30 p. m.", "such as 2024-05-01 00:30:04: write its half of the day as PM at its end, and name its form, as by --time-format '%m/%d/%Y %I:%M %p'"),
        (["--time-format", "%Y-%m-%d %I:%M %p"], "2024-05-01 03:00 odp.", "of the form %Y-%m-%d %I:%M %p: write its half of the day as PM at its end"))),
    ("a clock of 12 hours alone", [], b"id,time,x,y\na,3:00 nachm.,1000,2000\n", 1, "which is a clock without a day: name the column of the day too"),
    ("a clock beside days", [], b"id,date,x,y,Uhrzeit\na,2024-05-01,1000,2000,10:30\na,2024-05-01,1030,2040,9:15\n", None, "column 5 'Uhrzeit' has hours, which the days of the time have not: join them, as by --time 'date,Uhrzeit', or remove it"),
    ("hours beside days", [], b"id,date,x,y,hora\na,2024-05-01,1000,2000,7\na,2024-05-01,1030,2040,23\n", None, "column 5 'hora' has hours, which the days of the time have not: join them, as by --time 'date,hora' --time-format '%Y-%m-%d %H', or remove it"),
    *((f"hours beside days under {title}", [], f"id,date,x,y,{title}\na,2024-05-01,1000,2000,7\na,2024-05-01,1030,2040,23\n".encode(), None,
       f"column 5 '{title}' has hours, which the days of the time have not: join them, as by --time 'date,{title}' --time-format '%Y-%m-%d %H', or remove it")
      for title in ("uur", "Hodina", "godzina", "ura", "час", "klo", "óra", "saat", "Time (h)", "time_h", "heures", "HODINY (0-23)")),
    ("an offset of times that begins as UTC", [], b"id,time,x,y,utc_offset\na,2024-03-31 00:00,1000,2000,Z\na,2024-03-31 00:30,1030,2040,+00:00\na,2024-03-31 01:30,1060,2040,+01:00\n", None,
     "column 5 'utc_offset' says of which zone times are"),
    ("an offset of times", [], b"id,time,x,y,utc_offset\na,2024-05-01 01:00,1000,2000,+2\na,2024-05-01 02:00,1030,2040,+2\n", None, "column 5 'utc_offset' says of which zone times are"),
    ("degrees with one that is none", [], b"id,date,x,y\na,2024-05-01,15.8,46.3\na,2024-05-02,15.9,46.4\na,2024-05-03,15.9,95.0\n", None, "most of x and y lie within 360 by 90"),
    ("a latitude of no place", [], b"id,date,lon,lat\na,2024-05-01,15.8,46.3\na,2024-05-02,-9999,-9999\n", 2, "a word for what is missing is named by --na, such as --na -9999"),
    ("a longitude of no place", [], b"id,date,lon,lat\na,2024-05-01,15.8,46.3\na,2024-05-02,-9999,46.2\n", 2, "a word for what is missing is named by --na, such as --na -9999"),
    ("seconds without dates, from a day on", ["--since", "2024-05-01"], OWN.encode(), None, "the seconds of second end with 60, so they begin at a start of their own and have no dates: leave out --since 2024-05-01"),
    ("seconds without dates, to a day", ["--until", "2024-05-01"], OWN.encode(), None, "the seconds of second end with 60, so they begin at a start of their own and have no dates: leave out --until 2024-05-01"),
    ("metres as degrees", [], b"id,date,lon,lat\na,2024-05-01,561000,5134000\n", 1,
     "there is no place of longitude 561000 and latitude 1000000 or more: coordinates in metres are named by --easting and --northing, and a word for what is missing by --na"),
    ("a latitude of metres", [], b"id,date,lon,lat\na,2024-05-01,15.8,5134000\n", 1, "latitude 1000000 or more: a word for what is missing is named by --na"),
    ("longitude and latitude the other way", [], b"id,date,lon,lat\na,2024-05-01,46.3,115.8\n", 1, "are their columns to be named the other way, by --lon and --lat?"),
    ("several zones without degrees", [], b"individual-local-identifier,timestamp,utm-easting,utm-northing,utm-zone\na,2024-05-01,500000,5000000,33N\na,2024-05-02,500030,5000040,34N\n", None,
     "fixes lie in several zones (33N 1, 34N 1): make a table of each"),
    ("a zone far from the degrees", [], b"individual-local-identifier,timestamp,utm-easting,utm-northing,utm-zone,location-long,location-lat\na,2024-05-01,500000,4200000,33S,15,37.9\n", 1,
     "its UTM coordinates in 33S lie more than 1 km from its longitude and latitude"),
    ("tracks of which one has no name", ["--from", "gpx"], GPX.replace("</trk>", "</trk><trk><trkseg><trkpt lat='1' lon='2'/></trkseg></trk>").encode(), None, "track 2 has no name"),
    ("waypoints alone", ["--from", "gpx"], b"<gpx><wpt lat='1' lon='2'/></gpx>", None, "has no track point"),
    ("a long cell", [], b"id,date,x,y\na,2024-05-01," + 900 * b"z" + b",1\n", 1, f"x is '{'z' * 57}... and not a number"),
    ("a long line", [], ",".join(f"title_{at:02}_of_a_table" for at in range(40)).encode() + b"\n", None, " .. "),
    ("more columns than a table may have", [], b"id,date,x,y" + 16381 * b",z" + b"\n", None, "has 16385 columns, and a table may have 16384"),
    ("an hour that was passed over", ["--tz", "Europe/Ljubljana"], b"id,timestamp,x,y\na,2024-03-31 02:30,1000,2000\n", 1,
     "timestamp: the clocks of Europe/Ljubljana passed over that time"),
    *((f"a system under {title} that nobody named, {cell}", [], f"id,date,x,y,{title}\na,2024-05-01,561000,5134000,{cell}\na,2024-05-02,561030,5134040,{cell}\n".encode(), None,
       f"column 5 '{title}' says of which {what} coordinates are, and is not read: name it, as by {option}, or remove it") for title, cell, what, option in (
           ("epsg", "32633", "zone", "--zone 33N"), ("SRID", "32733", "zone", "--zone 33S"), ("crs", "EPSG:25833", "zone", "--zone 33N"), ("CRS", "urn:ogc:def:crs:EPSG::32633", "zone", "--zone 33N"),
           ("epsg_code", "26917", "zone", "--zone 17N"), ("crs", "WGS 84 / UTM zone 33N", "zone", "--zone 33N"), ("zone", "33T", "zone", "--zone 33N"), ("zone", "33 K", "zone", "--zone 33S"),
           ("zone", "33N", "zone", "--zone 33N"), ("Zona", "UTM 21S", "zone", "--zone 21S"), ("coordinate_system", "EPSG:31287", "system", "--crs EPSG:31287"), ("srid", "27700", "system", "--crs EPSG:27700"),
           ("epsg", "4087", "system", "--crs EPSG:4087"), ("epsg", "4839", "system", "--crs EPSG:4839"))),
    *((f"a system that is not the named one, {cell}", words, f"id,date,x,y,crs\na,2024-05-01,561000,5134000,{cell}\na,2024-05-02,561030,5134040,{cell}\n".encode(), None,
       "column 5 'crs' says another reference system of coordinates than is named: name that one, or remove it where it is not theirs") for words, cell in (
           (["--zone", "33N"], "EPSG:32634"), (["--zone", "33N"], "EPSG:32733"), (["--zone", "33N"], "EPSG:31287"), (["--crs", "EPSG:31287"], "31256"), (["--crs", "EPSG:31287"], "32633"))),
    *((f"metres that are said to be {what}, {cell}", words, f"id,date,x,y,crs\na,2024-05-01,561000,5134000,{cell}\na,2024-05-02,561030,5134040,{cell}\n".encode(), None, f"column 5 'crs' says that coordinates are {what}")
      for words in ([], ["--zone", "33N"], ["--crs", "EPSG:31287"])
      for what, cell in (("of a projection of Mercator", "EPSG:3857"), ("of a projection of Mercator", "900913"), ("longitude and latitude", "EPSG:4326"), ("longitude and latitude", "4258"))),
    *((f"a system of option --crs, {cell}", ["--crs", cell], OWN.encode(), None, f"--crs: {cell} {what}") for cell, what in (
        ("EPSG:4326", "has longitude and latitude"), ("4258", "has longitude and latitude"), ("EPSG:3857", "is a projection of Mercator"), ("urn:ogc:def:crs:EPSG::3395", "is a projection of Mercator"))),
    *((f"metres that are said to be in another unit, {cell}, under {title}", [], f"id,date,x,y,{title}\na,2024-05-01,561000,5134000,{cell}\na,2024-05-02,561030,5134040,{cell}\n".encode(), None,
       f"column 5 '{title}' says that coordinates are in another unit than metres, in which they are read: write metres and remove it, or remove it where it is not theirs") for title, cell in (
           ("unit", "ft"), ("units", "feet"), ("Units", "US survey foot"), ("coord_unit", "km"), ("coordUnits", "dm"), ("Einheit", "Kilometer"), ("unidad", "pies"), ("unité", "kilomètres"), ("UNITÉ", "km"), ("xy units", "yards"),
           ("map_units", "us-ft"), ("unit", "decimetres"), ("unit", "cm "))),
    *((f"a unit of coordinates, {cell}, under {title}", words, f"id,date,{pair},{title}\na,2024-05-01,{one},{cell}\na,2024-05-02,{two},{other}\n".encode(), None, f"column 5 '{title}' {what}")
      for words, pair, one, two, title, cell, other, what in (
          ([], "x,y", "561000,5134000", "561030,5134040", "unit", "m", "ft", "has several units: write all coordinates in metres, or in degrees with decimals, and remove it"),
          ([], "x,y", "561000,5134000", "561030,5134040", "units", "degrees", "degrees", "says that coordinates are in degrees, and they are read as metres: name them by --lon and --lat"),
          ([], "x,y", "561000,5134000", "561030,5134040", "coordinate units", "gon", "gon", "says that coordinates are in degrees, and they are read as metres"),
          ([], "lon,lat", "15.8,46.3", "15.9,46.4", "unit", "gon", "gon", "says that coordinates are in another unit than degrees, in which they are read: write degrees with decimals and remove it"),
          ([], "lon,lat", "1.5,0.8", "1.4,0.8", "coord_unit", "radians", "radians", "says that coordinates are in another unit than degrees"))),
    *((f"a summer time that UTC has not, {cell}, under {title}", words, f"id,time,x,y,{title}\na,2024-01-01 01:00,1000,2000,{other}\na,2024-07-01 02:00,1030,2040,{cell}\n".encode(), None,
       f"column 5 '{title}' says that times are by the clock of a summer (record 2), and they are read as those of UTC: name their zone, as by --tz Europe/Ljubljana, or write the offset behind each time, and remove it")
      for words, title, cell, other in (
          ([], "DST", "1", "0"), ([], "dst_flag", "yes", "no"), ([], "summer_time", "TRUE", "FALSE"), ([], "isdst", "1.0", "0.0"), (["--tz", "UTC"], "isDST", "Y", "N"), ([], "Sommerzeit", "ja", "nein"), ([], "heure d'été", "oui", "non"),
          ([], "horario_verano", "si", "no"), ([], "daylight saving", "1", "0"), ([], "CEST", "yes", "no"), ([], "ora legale", "si", "no"), ([], "Letni cas", "1", "0"), ([], "letní čas", "ano", "ne"), ([], "Daylight Saving Time", "x", ""), ([], "dst", "DST", "ST"))),
    *((f"a summer time that the clock has not: {what}", ["--tz", "Europe/Ljubljana"], f"id,time,x,y,dst\na,{one}\na,{two}\n".encode(), None,
       f"column 5 'dst' says otherwise than the clock of Europe/Ljubljana which times are of the summer (record {record}): write the offset behind each time, as in 2024-05-01 00:30+02:00, or name their own zone, by --tz, and remove it")
      for what, one, two, record in (
          ("none in July", "2024-01-01 01:00,1000,2000,0", "2024-07-01 02:00,1030,2040,0", 2), ("one in January", "2024-01-01 01:00,1000,2000,1", "2024-07-01 02:00,1030,2040,1", 1),
          ("the second of an hour that comes twice", "2024-10-27 01:30,1000,2000,1", "2024-10-27 02:30,1030,2040,0", 2), ("the first day", "2024-03-31 00:30,1000,2000,0", "2024-03-31 03:30,1030,2040,0", 2),
          ("the last hour", "2024-10-27 01:59,1000,2000,0", "2024-10-27 03:30,1030,2040,0", 1))),
    *((f"minutes of degrees under {title}", ["--lon", "lon_deg", "--lat", "lat_deg"], f"id,time,lon_deg,lat_deg,{title}\na,2024-05-01,15,46,{one}\na,2024-05-02,15,46.0,{two}\n".encode(), None,
       f"column 5 '{title}' has minutes or seconds of degrees, which the whole degrees that are read have not: write degrees with decimals, as degrees + minutes / 60 + seconds / 3600") for title, one, two in (
           ("lat_min", "30.5", "31.25"), ("LatMin", "30", "31"), ("lon minutes", "5", "7"), ("latitude (minutes)", "30", "30"), ("lonmin", "30.512", "31.1"), ("Lat Sec", "5", "7.5"), ("longitud minutos", "5", "7"))),
    ("a first moment behind the last", ["--since", "2024-06-01", "--until", "2024-05-01"], b"id,date,x,y\na,2024-05-01,1000,2000\n", None,
     "since is '2024-06-01', which is later than until, '2024-05-01': no fix is of both"),
    ("a date in the columns of its parts", [], b"id,Year,Month,Day,Hour,Min,x,y\na,2024,5,1,7,30,1000,2000\na,2024,5,1,8,0,1030,2040\n", None,
     "no column has a usual title for the time, and columns have its parts: join them, as by --time 'Year,Month,Day,Hour,Min' --time-format '%Y %m %d %H %M', or leave them out"),
    ("a date by the day of its year", [], b"id,yr,julday,x,y\na,24,121,1000,2000\na,24,122,1030,2040\n", None, ": join them, as by --time 'yr,julday' --time-format '%y %j', or leave them out"),
    ("hours and minutes beside days of another form", ["--time-format", "%d.%m.%Y|%d/%m/%Y"], b"id,date,h,hour,minute,x,y\na,01.05.2024,1,7,30,1000,2000\na,01/05/2024,1,8,0,1030,2040\n", None,
     "column 4 'hour' has hours, which the days of the time have not: join them, as by --time 'date,hour,minute' --time-format '%d.%m.%Y %H %M|%d/%m/%Y %H %M', or remove it"),
    ("hours and halves of the day beside days", [], b"id,date,hour,ampm,min,x,y\na,2024-05-01,3,AM,30,1000,2000\na,2024-05-01,4,PM,5,1030,2040\n", None,
     "column 3 'hour' has hours, which the days of the time have not: join them, as by --time 'date,hour,min,ampm' --time-format '%Y-%m-%d %I %M %p', or remove it"),
    ("a date in the columns of its parts, with halves of the day", [], b"id,year,month,day,hour,half,x,y\na,2024,5,1,3,AM,1000,2000\na,2024,5,1,4,PM,1030,2040\n", None,
     ": join them, as by --time 'year,month,day,hour,half' --time-format '%Y %m %d %I %p', or leave them out"),
    ("minutes beside hours", ["--time", "date,hour", "--time-format", "%Y-%m-%d %H"], b"id,date,hour,minute,x,y\na,2024-05-01,7,30,1000,2000\na,2024-05-01,8,0,1030,2040\n", None,
     "column 4 'minute' has minutes, which the hours of the time have not: join them, as by --time 'date,hour,minute' --time-format '%Y-%m-%d %H %M', or remove it"),
    ("seconds beside minutes", ["--time-format", "%Y-%m-%d %H:%M"], b"id,date,sec,x,y\na,2024-05-01 07:30,30,1000,2000\na,2024-05-01 07:30,5,1030,2040\n", None,
     "column 3 'sec' has seconds, which the minutes of the time have not: join them, as by --time 'date,sec' --time-format '%Y-%m-%d %H:%M %S', or remove it"),
    *((f"columns of the time without their form, {titles}", ["--time", titles], f"id,{titles},x,y\na,{cells},1000,2000\n".encode(), 1, f": name its form, as by --time-format '{form}'") for titles, cells, form in (
        ("date,hour", "2024-05-01,7", "%Y-%m-%d %H"), ("Jahr,Monat,Tag", "2024,5,1", "%Y %m %d"), ("year,doy,clock", "2024,121,7:30", "%Y %j %H:%M"), ("date,hhmm", "01.05.2024,0730", "%d.%m.%Y %H%M"))),
    ("a day without signs between", [], b"id,date,x,y\na,20240501,1000,2000\n", 1, "which looks like a date without hyphens: name its form, as by --time-format '%Y%m%d'"),
    ("a moment without signs between", [], b"id,date,x,y\na,20240501073000,1000,2000\n", 1, ": name its form, as by --time-format '%Y%m%d%H%M%S'"),
    ("a year of two digits", [], b"id,date,x,y\na,0024-05-01,1000,2000\n", 1, ": if its year was written with two digits, write all four"),
    *((f"a number written otherwise, {cell}", [], f'id,date,x,y\na,2024-05-01,"{cell}",2000\n'.encode(), 1, f"x is '{cell}' and not a number of up to 12 digits: {what}") for cell, what in (
        ("1000,5", "write its decimals behind a point, and nothing before thousands"), ("1,000,000", "write its decimals behind a point"), ("1.5e5", "write all of its digits"), ("+1000", "write it without +"))),
    ("accelerations beside degrees", [], b"id,date,Longitude,Latitude,x,y\na,2024-05-01,15.8,46.3,0.02,-0.98\na,2024-05-02,15.9,46.4,0.12,-0.91\n", None,
     "all of x and y lie within 180 by 90, as longitude and latitude do, and there are Longitude and Latitude: name these by --lon Longitude --lat Latitude; or, if x and y are metres, add 1000 to all"),
    ("degrees times 10,000,000", [], b"id,date,lon,lat\na,2024-05-01,158000000,463000000\n", 1, "degrees that were multiplied, as by 10,000,000, are divided first"),
    ("animals of two continents", [], b"id,date,lon,lat\na,2024-05-01,15.8,46.3\na,2024-05-02,15.81,46.31\nb,2024-05-01,-105.8,46.3\n", 3,
     "off the grid, which goes from 0 to 16777216 metres: if the fix is right, make a table of each place, and else leave it out"),
    ("animals of two zones far apart", [], b"id,date,lon,lat\na,2024-05-01,15.8,46.3\na,2024-05-02,15.81,46.31\nb,2024-05-01,30,46.3\n", None,
     " % too great on this grid: take a zone or a reference system of the place, or make a table of each place where animals live far apart"),
    ("a sensor of no fix, and those of fixes", ["--sensor", "argos"], b"id,date,x,y,sensor-type\na,2024-05-01,1000,2000,gps\na,2024-05-02,1030,2040,gps\na,2024-05-02,1030,2040,vhf\n", None,
     "--sensor: no fix is of argos: they are of gps 2, vhf 1"),
    ("a sensor without its column", ["--sensor", "gps"], b"id,date,x,y\na,2024-05-01,1000,2000\n", None, "--sensor: no fix is of gps: no column has a usual title for the sensor: name it sensor-type, or leave --sensor out"),
    *((f"degrees that are others, {name}", ["--lon", "gx", "--lat", "gy"], beside_degrees(degrees), None,
       "column 3 'gx' and column 4 'gy' are read as longitude and latitude, and are, with axes swapped or without their signs, column 5 'lon' and column 6 'lat': name these, by --lon and --lat, "
       "or remove those that are wrong") for name, degrees in (
           ("swapped", [(latitude, longitude) for longitude, latitude in DEGREES]), ("without signs", [(-longitude, latitude) for longitude, latitude in DEGREES]),
           ("swapped and without signs", [(latitude, -longitude) for longitude, latitude in DEGREES]))),
    *((f"metres of another zone than the named one, {zone}", ["--zone", zone], told(UTM), None,
       "column 3 'x' and column 4 'y' are read as metres of the zone that was named, and fixes lie more than 10 km away by column 5 'lon' and column 6 'lat': name the zone of the metres, or name these, "
       "by --lon and --lat, or remove those that are not theirs") for zone in ("34N", "32N", "33S")),
    *((f"times of UTC under local_time, which end with {end}", ["--tz", "Europe/Vienna", "--time", "local_time"], f"id,local_time,x,y\na,2024-05-01 10:30{end},1000,2000\n".encode(), None,
       "column 2 'local_time' says another clock than that of UTC, and the time of record 1 ends as those of UTC do") for end in ("+00:00", "+0000", "+00", "-00:00", "Z")),
    *((f"a time that has lost a zero, {cell}", ["--time-format", form, "--time", names], f"id,{names},x,y\na,{cell},1000,2000\n".encode(), 1,
       "its time may have lost a zero at its end, as a spreadsheet takes 7.30 for the number 7.3: write all digits of minutes, months and days of the year")
      for form, names, cell in (("%Y-%m-%d %H.%M", "date,time", "2024-05-01,7.3"), ("%Y.%j", "date", "2024.1"), ("%Y.%j", "date", "2024.01"), ("%d.%m %Y", "day,year", "3.1,2024"), ("%d.%m.%Y %H.%M", "date,time", "1.5.2024,12.3"))),
    ("UTM coordinates of another row", [], b"timestamp,location-long,location-lat,individual-local-identifier,utm-easting,utm-northing,utm-zone\n"
     b"2024-05-01,14.2,46.3,a,438390,5127691,33N\n2024-05-02,14.2512,46.3121,a,437091,5126449,33N\n2024-05-03,14.1833,46.2887,a,442346,5128997,33N\n", 2,
     "its UTM coordinates in 33N lie more than 1 km from its longitude and latitude"),
    *((f"fixes that do not count, by {title} of {one} and {other}", [], f"id,date,x,y,{title}\na,2024-05-01,1000,2000,{one}\na,2024-05-02,1030,2040,{other}\na,2024-05-03,1040,2040,{one}\n".encode(), None,
       f"column 5 '{title}' may say which fixes count, and is not read: leave out the records that do not, and remove it, or write its values otherwise")
      for title, one, other in (("exclude", "0", "1"), ("keep", "TRUE", "FALSE"), ("case_", "True", "False"), ("used", "1", "0"), ("presence", "1.0", "0.0"), ("delete?", "no", "yes"), ("status", "ok", "invalid"),
                                ("QC", "pass", "FAIL"), ("GPS Fix Attempt", "Resolved QFP", "Failed"), ("comments", "fine", "outlier"), ("Kvalita", "dobrá", "chyba"), ("flag", "0", "1"), ("bad_fix", "F", "T"))),
    *((f"times under {title} by the clock of {zone}", ["--tz", zone, "--time", title], f"id,{title},x,y\na,2024-01-01 10:30,1000,2000\na,2024-06-01 10:30,1030,2040\n".encode(), None,
       f"column 2 '{title}' says a clock that is {own}, and that of {zone} is {clock} at the time of record {record}: name its zone, as by --tz {wanted}, or rename it")
      for title, zone, own, clock, record, wanted in (
          ("time (UTC+1)", "Europe/Ljubljana", "1 h ahead of UTC", "2 h ahead of UTC", 2, "Etc/GMT-1"), ("Time_UTC-3", "America/New_York", "3 h behind UTC", "5 h behind UTC", 1, "Etc/GMT+3"),
          ("date_time (GMT+1)", "Asia/Tokyo", "1 h ahead of UTC", "9 h ahead of UTC", 1, "Etc/GMT-1"), ("time (UTC+02:00)", "Asia/Kolkata", "2 h ahead of UTC", "5 h 30 min ahead of UTC", 1, "Etc/GMT-2"))),
    ("times of an offset that no zone of Etc has", ["--tz", "Europe/London", "--time", "time (UTC+5:30)"], b"id,time (UTC+5:30),x,y\na,2024-01-01 10:30,1000,2000\n", None,
     "says a clock that is 5 h 30 min ahead of UTC, and that of Europe/London is that of UTC at the time of record 1: name its zone, by --tz, or rename it"),
    ("a form with an offset that is not that of the zone", ["--tz", "Europe/Vienna", "--time-format", "%Y-%m-%d %H:%M +0100"], b"id,time,x,y\na,2024-01-01 10:30 +0100,1000,2000\na,2024-06-01 10:30 +0100,1000,2000\n", None,
     "time-format says a clock that is 1 h ahead of UTC, and that of Europe/Vienna is 2 h ahead of UTC at the time of record 2: name its zone, as by --tz Etc/GMT-1, or rename it"),
    *((f"a number of a zone that is not the named one, under {title}", ["--zone", "34N"], f"id,date,x,y,{title}\na,2024-05-01,501000,5002000,{cell}\na,2024-05-02,501030,5002040,{cell}\n".encode(), None,
       f"column 5 '{title}' says another reference system of coordinates than is named") for title, cell in (("Huso", "33"), ("UTM_Huso", "33.0"), ("huso_utm", "30"), ("Fuseau", "3"))),
    ("the columns of a maker, with units in their titles", [], "CollarID,UTC_Date,UTC_Time,Latitude[\u00b0],Longitude[\u00b0]\n7,2024-05-01,00:30:00,46.3,14.2\n".encode(), None,
     "the columns are those of vectronic: read them by --from vectronic"),
    *((f"times of UTC that are not read and are others, {titles}", options, f"id,time,x,y,{titles}\na,{first},1000,2000,{other}\na,{second},1030,2040,{last}\n".encode(), None, said)
      for titles, options, first, second, other, last, said in (
          ("time_utc", [], "2024-05-01 10:00", "2024-05-01 12:30", "2024-05-01 08:00", "2024-05-01 10:30",
           "column 5 'time_utc' says UTC, and its times are 2 h before those that are read: name it, as by --time 'time_utc', or name the zone of the others, as by --tz Europe/Ljubljana"),
          ("UTC_datetime", [], "2024-05-01 10:00", "2024-05-01 12:30", "2024-05-01T08:00:07Z", "2024-05-01T10:30:41Z", "column 5 'UTC_datetime' says UTC, and its times are 2 h before"),
          ("gmt_time", [], "2024-05-01 10:00:09", "2024-05-01 12:30:00", "2024-05-01 14:00:09", "2024-05-01 16:30:00", "column 5 'gmt_time' says UTC, and its times are 4 h behind those"),
          ("utc", [], "2024-05-01 10:00:09", "2024-05-01 12:30:17", "2024-05-01 04:15:09", "2024-05-01 06:45:17", "column 5 'utc' says UTC, and its times are 5 h 45 min before"),
          ("utc_time", [], "2024-05-01 10:00:09", "2024-05-01 12:30:17", "2024-05-01 10:00:09+02:00", "2024-05-01 12:30:17+02:00", "column 5 'utc_time' says UTC, and its times are 2 h before"),
          ("time_utc", [], "2024-01-01 10:00:09", "2024-05-01 12:30:17", "2024-01-01 10:00:09", "2024-05-01 11:30:17", "column 5 'time_utc' says UTC, and its times are 1 h before"),
          ("time_utc", [], "2024-05-01T10:00:09Z", "2024-05-01T12:30:17Z", "2024-05-01 08:00:09", "2024-05-01 10:30:17", "name it, as by --time 'time_utc', or remove those that are wrong"),
          ("time_utc", ["--tz", "Europe/Ljubljana"], "2024-05-01 10:00:09", "2024-05-01 12:30:17", "2024-05-01 07:00:09", "2024-05-01 09:30:17", "column 5 'time_utc' says UTC, and its times are 1 h before"),
          ("time_utc", ["--time-format", "%d/%m/%Y %H:%M"], "01/05/2024 10:00", "01/05/2024 12:30", "01/05/2024 08:00", "01/05/2024 10:30", "column 5 'time_utc' says UTC, and its times are 2 h before"),
          ("utc_time", [], "2024-05-01 10:00", "2024-05-01 12:30", "01.05.2024 08:00:07", "01.05.2024 10:30:41", "column 5 'utc_time' says UTC, and its times are 2 h before"),
          ("utc_time", [], "2024-05-01 10:00", "2024-05-01 16:30", "5/1/2024 8:00:07 AM", "5/1/2024 2:30:41 PM", "column 5 'utc_time' says UTC, and its times are 2 h before"),
          ("utc_time", [], "2024-05-01 10:00", "2024-05-01 12:30", "01/05/2024 08:00", "01/05/2024 10:30", "column 5 'utc_time' says UTC, and its times are 2 h before"),
          ("utc_time", [], "2024-05-01 01:00:09", "2024-05-01 12:30:17", "23:00:09", "10:30:17",
           "column 5 'utc_time' says UTC, and its times are 2 h before those that are read: name the zone of the others, as by --tz Europe/Ljubljana"),
          ("epoch", [], "2024-05-01 10:00", "2024-05-01 12:30", "1714550400", "1714559400",
           "column 5 'epoch' counts from 1970 in UTC, and its times are 2 h before those that are read: name it, as by --time 'epoch', or name the zone of the others"),
          ("unix_time", [], "2024-05-01 10:00", "2024-05-01 12:30", "1714550400123", "1714559400456",
           "column 5 'unix_time' counts from 1970 in UTC, and its times are 2 h before those that are read: name the zone of the others, as by --tz Europe/Ljubljana"),
          ("UTC_Date,UTC_Time", [], "2024-05-01 10:00", "2024-05-01 12:30", "2024-05-01,08:00:07", "2024-05-01,10:30:41",
           "column 5 'UTC_Date' and column 6 'UTC_Time' say UTC, and their times are 2 h before those that are read: name them, as by --time 'UTC_Date,UTC_Time', or name the zone of the others"))),
    *((f"times of a local clock that are not read and are others, {titles} by {zone}", ["--tz", zone], f"id,timestamp,x,y,{titles}\na,2024-01-01 10:00:09,1000,2000,{other}\na,2024-05-01 12:30:17,1030,2040,{last}\n".encode(), None, said)
      for titles, zone, other, last, said in (
          ("study-local-timestamp", "Europe/Ljubljana", "2024-01-01 11:00:09", "2024-05-01 14:30:17",
           "column 5 'study-local-timestamp' has other times than those that are read by the clock of Europe/Ljubljana: leave --tz out if 'timestamp' is of UTC, or name this column, "
           "as by --time 'study-local-timestamp'"),
          ("study-local-timestamp", "Europe/London", "2024-01-01 10:00:09", "2024-05-01 13:30:17", "column 5 'study-local-timestamp' has other times than those that are read by the clock of Europe/London"),
          ("LMT_Date,LMT_Time", "Europe/Ljubljana", "2024-01-01,11:00:09", "2024-05-01,14:30:17",
           "column 5 'LMT_Date' and column 6 'LMT_Time' have other times than those that are read by the clock of Europe/Ljubljana: leave --tz out if 'timestamp' is of UTC, or name these columns, "
           "as by --time 'LMT_Date,LMT_Time'"))),
    *((f"parts of other days, {title} {cells}", [], f"id,date,x,y,{title}\n{''.join(f'a,{day},{1000 + at},2000,{cell}{chr(10)}' for at, (day, cell) in enumerate(zip(days, cells)))}".encode(), None, said)
      for title, days, cells, said in (
          ("month", ("2024-01-05", "2024-02-05", "2024-05-05"), ("5", "5", "5"),
           "column 5 'month' says 5 of record 1, whose time is read as of 2024-01-05: are day and month of the time the other way round? name its form, by --time-format, or remove the column"),
          ("Monat", ("2024-05-05", "2024-02-05", "2024-03-05"), ("5.0", "05", "5"), "column 5 'Monat' says 5 of record 2, whose time is read as of 2024-02-05: are day and month"),
          ("doy", ("2024-05-01", "2024-05-02"), ("200", "201"), "column 5 'doy' says 200 of record 1, whose time is read as of 2024-05-01: name its form, by --time-format, or remove the column"),
          ("day_of_year", ("2024-05-01", "2024-05-02"), ("NA", "201"), "column 5 'day_of_year' says 201 of record 2, whose time is read as of 2024-05-02: name its form"),
          ("year", ("2024-05-01", "2024-05-02"), ("2019", "2019"), "column 5 'year' says 2019 of record 1, whose time is read as of 2024-05-01: name its form"),
          ("Jahr", ("2024-05-01", "2024-05-02"), ("2019", "2019"), "column 5 'Jahr' says 2019 of record 1, whose time is read as of 2024-05-01: name its form"))),
    *((f"signs in an order that is hardly meant, {form}", ["--time-format", form], b"id,date,x,y\na,01.05.2024 10:30,1000,2000\n", None, f"time-format {says}") for form, says in (
        ("%d.%M.%Y %H:%m", "is '%d.%M.%Y %H:%m', which has the minute before the hour: %m is the month, and %M the minute"),
        ("%d/%m/%Y %H:%M|%m/%d/%Y %H:%M", "has '%d/%m/%Y %H:%M' and '%m/%d/%Y %H:%M', by which many texts are two days: name one of them"))),
    *((f"times beside an offset that is not that of the zone, {title} of {cell}", ["--tz", "Europe/Ljubljana"], f"id,time,x,y,{title}\na,2024-06-01 10:30,1000,2000,{cell}\na,2024-06-02 10:30,1030,2040,{cell}\n".encode(), None,
       f"column 5 '{title}' says a clock that is {said}, and that of Europe/Ljubljana is 2 h ahead of UTC at the time of record 1: name its zone, as by --tz {zone}, or remove it") for title, cell, said, zone in (
           ("utc_offset", "1", "1 h ahead of UTC", "Etc/GMT-1"), ("tz", "+01:00", "1 h ahead of UTC", "Etc/GMT-1"), ("timezone", "UTC-7", "7 h behind UTC", "Etc/GMT+7"), ("UTC offset (h)", "-3", "3 h behind UTC", "Etc/GMT+3"))),
]
READ = [
    *((f"a system that is the named one, {cell}", ["--zone", "33N"], f"id,date,x,y,crs\na,2024-05-01,501000,5002000,{cell}\na,2024-05-02,501030,5002040,{cell}\n".encode(),
       ["coordinates are those of the table; zone: 33N", columns("id, date, x, y", "0.030 by 0.040", " near 15.0 E 45.2 N, from 2024-05-01 to 2024-05-02"), "not read: crs"],
       {"a": "a,1714521600,501000,5002000\na,1714608000,501030,5002040\n"}) for cell in ("EPSG:32633", "25833", "33T", "WGS84")),
    *((f"the system of option --crs under {title}", ["--crs", "EPSG:31287"], f"id,date,x,y,{title}\na,2024-05-01,1000,2000,{cell}\na,2024-05-02,1030,2040,{cell}\n".encode(),
       ["coordinates are those of the table; reference system: EPSG:31287", columns("id, date, x, y", "0.030 by 0.040", ", from 2024-05-01 to 2024-05-02"), f"not read: {title}"], {"a": "a,1714521600,1000,2000\na,1714608000,1030,2040\n"})
      for title, cell in (("crs", "EPSG:31287"), ("epsg", "31287"), ("system", "12345"), ("crs", "MGI / Austria Lambert"), ("zone", "3"))),
    ("degrees beside the system of other coordinates", [], b"id,date,lon,lat,epsg\na,2024-05-01,15.8,46.356742,3857\na,2024-05-02,15.8,46.356742,3857\n",
     ["longitude and latitude are projected into zone 33N; fixes by zone: 33N 2", "coordinates are rounded to whole metres, which moves a fix by at most 0.48 m",
      columns("id, date, lon, lat", "0.000 by 0.000", " near 15.8 E 46.4 N, from 2024-05-01 to 2024-05-02"), "not read: epsg"], {"a": "a,1714521600,561546,5133996\na,1714608000,561546,5133996\n"}),
    ("times of which some have an offset", [], b"id,time,x,y\na,2024-05-01 02:00+02:00,1000,2000\na,2024-05-01 01:00,1010,2000\na,2024-05-01T02:00Z,1030,2040\na,2024-05-01 03:00,1030,2040\n",
     ["2 times have no offset, which others have, and are read in UTC: records 2, 4", *LINES, columns("id, time, x, y", "0.030 by 0.040", ", from 2024-05-01 to 2024-05-01")],
     {"a": "a,1714521600,1000,2000\na,1714525200,1010,2000\na,1714528800,1030,2040\na,1714532400,1030,2040\n"}),
    ("times of which some have an offset, and a zone", ["--tz", "Europe/Ljubljana"], b"id,time,x,y\na,1714521600,1000,2000\na,2024-05-01 03:00,1030,2040\n",
     ["times are read as ISO text, in Europe/Ljubljana", "1 times have no offset, which others have, and are read in Europe/Ljubljana: records 2", *LINES,
      columns("id, time, x, y", "0.030 by 0.040", ", from 2024-05-01 to 2024-05-01")], {"a": "a,1714521600,1000,2000\na,1714525200,1030,2040\n"}),
    ("GPX with waypoints and a route", ["--from", "gpx"], GPX.replace("<gpx>", "<gpx><wpt lat='1' lon='2'/><rte><rtept lat='1' lon='2'/><rtept lat='1' lon='2'/></rte>").encode(),
     ["points of no track, as waypoints and those of routes: 3, not read", "longitude and latitude are projected into zone 33N; fixes by zone: 33N 2", "coordinates are rounded to whole metres, which moves a fix by at most 0.36 m",
      columns("animal, time, lon, lat", "0.008 by 0.011", " near 15.8 E 46.4 N, from 2024-05-01 to 2024-05-01")], {"fox": "fox,1714521600,562000,5134001\nfox,1714525200,562008,5134012\n"}),
    ("minutes that stay", ["--time", "date,hour", "--time-format", "%Y-%m-%d %H"], b"id,date,hour,minute,x,y\na,2024-05-01,7,0,1000,2000\na,2024-05-01,8,0,1030,2040\n",
     ["times are read as %Y-%m-%d %H, in UTC", *LINES, columns("id, date, hour, x, y", "0.030 by 0.040", ", from 2024-05-01 to 2024-05-01"), "not read: minute"],
     {"a": "a,1714546800,1000,2000\na,1714550400,1030,2040\n"}),
    ("hours joined to days as they are told to be", ["--time", "date,hora", "--time-format", "%Y-%m-%d %H"], b"id,date,x,y,hora\na,2024-05-01,1000,2000,7\na,2024-05-01,1030,2040,23\n",
     ["times are read as %Y-%m-%d %H, in UTC", *LINES, columns("id, date, hora, x, y", "0.030 by 0.040", ", from 2024-05-01 to 2024-05-01")], {"a": "a,1714546800,1000,2000\na,1714604400,1030,2040\n"}),
    ("a form with Z in UTC", ["--time-format", "%Y-%m-%dT%H:%MZ", "--tz", "UTC"], b"id,date,x,y\na,2024-05-01T00:30Z,1000,2000\na,2024-05-01T01:30Z,1030,2040\n",
     ["times are read as %Y-%m-%dT%H:%MZ, in UTC", *LINES, columns("id, date, x, y", "0.030 by 0.040", ", from 2024-05-01 to 2024-05-01")], {"a": "a,1714523400,1000,2000\na,1714527000,1030,2040\n"}),
    ("a form with a zone that is named", ["--time-format", "%Y-%m-%d %H:%M CET", "--tz", "Etc/GMT-1"], b"id,date,x,y\na,2024-05-01 00:30 CET,1000,2000\na,2024-05-01 01:30 CET,1030,2040\n",
     ["times are read as %Y-%m-%d %H:%M CET, in Etc/GMT-1", *LINES, columns("id, date, x, y", "0.030 by 0.040", ", from 2024-05-01 to 2024-05-01")], {"a": "a,1714519800,1000,2000\na,1714523400,1030,2040\n"}),
    ("Argos classes as they are written", ["--argos-class", "lc3, B"],
     b"id,date,x,y,argos-lc\na,2024-05-01,1000,2000,LC3\na,2024-05-02,1010,2000,3.0\na,2024-05-03,1020,2000,3 \na,2024-05-04,1030,2040,b\na,2024-05-05,5,5,LC 2\na,2024-05-06,5,5,A\n",
     ["2 fixes are of other Argos classes than lc3, B: left out", *LINES, columns("id, date, x, y", "0.030 by 0.040", ", from 2024-05-01 to 2024-05-04")],
     {"a": "a,1714521600,1000,2000\na,1714608000,1010,2000\na,1714694400,1020,2000\na,1714780800,1030,2040\n"}),
    ("a sensor in great letters, by its number and with a blank", [], b"id,date,x,y,sensor-type\na,2024-05-01,1000,2000,GPS\na,2024-05-02,1010,2000,gps \na,2024-05-03,1030,2040,653\n",
     [*LINES, columns("id, date, x, y", "0.030 by 0.040", ", from 2024-05-01 to 2024-05-03")],
     {"a": "a,1714521600,1000,2000\na,1714608000,1010,2000\na,1714694400,1030,2040\n"}),
    ("a type in great letters", ["--fix-type", "3d"], b"id,date,x,y,fix-type\na,2024-05-01,1000,2000,3D\na,2024-05-02,1010,2000,3d\na,2024-05-03,1030,2040,2D\na,2024-05-04,1030,2040,3D \n",
     ["1 fixes are of other fix types than 3d: left out", *LINES, columns("id, date, x, y", "0.030 by 0.040", ", from 2024-05-01 to 2024-05-04")],
     {"a": "a,1714521600,1000,2000\na,1714608000,1010,2000\na,1714780800,1030,2040\n"}),
    ("a word that is missing", ["--na", "-9999"], f"{TITLES}\nv,0,1000,2000\nv,30,-9999,-9999\nv,60,1030,2040\n".encode(),
     ["1 records have no coordinates: left out", *LINES, OWN_COLUMNS], {"v": "v,0,1000,2000\nv,60,1030,2040\n"}),
    ("a number that is missing, written with zeros", ["--na", "-9999"], f"{TITLES}\nv,0,1000,2000\nv,30,-9999.0,-9999.000\nv,60,1030,2040\n".encode(),
     ["1 records have no coordinates: left out", *LINES, OWN_COLUMNS], {"v": "v,0,1000,2000\nv,60,1030,2040\n"}),
    ("a word for what is missing that no field is", ["--na", "none,-9999"], f"{TITLES},note\nv,0,1000,2000,none\nv,30,-9999,-9999,\nv,60,1030,2040,\n".encode(),
     ["--na: no field of the columns that are read is 'none'", "1 records have no coordinates: left out", *LINES, OWN_COLUMNS, "not read: note"],
     {"v": "v,0,1000,2000\nv,60,1030,2040\n"}),
    ("a word that is missing, and an empty one", ["--na", "-9999,"], f"{TITLES}\nv,0,1000,2000\nv,30,-9999,\nv,60,1030,2040\n".encode(),
     ["1 records have no coordinates: left out", *LINES, OWN_COLUMNS], {"v": "v,0,1000,2000\nv,60,1030,2040\n"}),
    ("decimal commas between tabs", [], b"id\tdate\tx\ty\na\t2024-05-01\t1000,5\t2000,25\na\t2024-05-02\t1030,5\t2040,25\n",
     [*LINES, "coordinates are rounded to whole metres, which moves a fix by at most 0.56 m",
      columns("id, date, x, y", "0.030 by 0.040", ", from 2024-05-01 to 2024-05-02")], {"a": "a,1714521600,1001,2000\na,1714608000,1031,2040\n"}),
    ("a DOP of 0 or less", ["--max-dop", "5"], OF_ZERO.encode(),
     ["2 fixes have no DOP: left out", *LINES, columns("animal, second, easting, northing", "0.002 by 0.000", ", from second 20 to 40")],
     {"v": "v,20,1002,2000\nv,30,1003,2000\nv,40,1004,2000\n"}),
    ("a fix far from the others", [], f"{TITLES}\n{FAR}".encode(),
     [*LINES, "1 of 11 fixes of v lie 4,920 m from the others: records 10: are they hers?", columns("animal, second, easting, northing", "5.000 by 0.056", ", from second 0 to 10")],
     {"v": FAR}),
    ("kilometres", [], f"{TITLES}\n{KILOMETRES}".encode(),
     [*LINES, "all 10 fixes lie within 2 by 1 m: are they in metres?", columns("animal, second, easting, northing", "0.002 by 0.001", ", from second 0 to 9")], {"v": KILOMETRES}),
    ("titles that are not read", [], b"id,date,temperature,x,y,note\na,2024-05-01,9,1000,2000,x\na,2024-05-03,9,1030,2040,y\n",
     [*LINES, columns("id, date, x, y", "0.030 by 0.040", ", from 2024-05-01 to 2024-05-03"), "not read: temperature, note"], {"a": "a,1714521600,1000,2000\na,1714694400,1030,2040\n"}),
    *((f"no side of degrees, {title} {one}", [], f"id,date,lon,lat,{title}\na,2024-05-01,15.805899,46.356742,{one}\na,2024-05-02,15.805999,46.356842,{other}\n".encode(),
       ["longitude and latitude are projected into zone 33N; fixes by zone: 33N 2", "coordinates are rounded to whole metres, which moves a fix by at most 0.36 m",
        columns("id, date, lon, lat", "0.008 by 0.011", " near 15.8 E 46.4 N, from 2024-05-01 to 2024-05-02"), f"not read: {title}"],
       {"a": "a,1714521600,562000,5134001\na,1714608000,562008,5134012\n"})
      for title, one, other in (("site", "South", "North"), ("population", "South", "South"), ("Aspect", "south", "South"), ("side", "South", "West"), ("hemisphere", "North", "N."),
                                ("side", "O", "O"), ("side", "Ost", "east"), ("note", "South meadow", "South meadow"))),
    *((f"a time beside days that is no fix's, {title} {one}", [], f"id,date,x,y,{title}\na,2024-05-01,1000,2000,{one}\na,2024-05-02,1030,2040,{other}\n".encode(),
       [*LINES, columns("id, date, x, y", "0.030 by 0.040", ", from 2024-05-01 to 2024-05-02"), f"not read: {title}"], {"a": "a,1714521600,1000,2000\na,1714608000,1030,2040\n"})
      for title, one, other in (("deploy_on_timestamp", "2024-04-01 10:30:00", "2024-04-02 10:30:00"), ("sunrise", "2024-05-01 05:48", "2024-05-02 05:46"), ("gps_time", "2024-05-01 00:00:00", "2024-05-02 00:00:00"),
                                ("day2", "5/1/2024 12:00:00 AM", "5/2/2024 12:00:00 AM"), ("gps_time", "2024-05-01 10:30:00", "2024-05-01 10:30:00"), ("note", "2024-05-01 10:30", "none"))),
    *((f"longitude and latitude beside metres, {name}", [], told(places, degrees), [*([] if "NA" in degrees[0] else [said_of_first(degrees[0])]), *LINES, columns("id, second, x, y", box, ", from second 0 to 5"), "not read: lon, lat"], taken(places))
      for name, places, degrees, box in (
          ("UTM", UTM, PLACES, "7.567 by 9.359"), ("LAEA", LAEA, PLACES, "7.716 by 9.394"), ("Krovak, without its signs", [(east + 1000000, north + 2000000) for east, north in KROVAK], PLACES, "7.205 by 9.183"), ("without decimals", UTM, ["14,46"] * 6, "7.567 by 9.359"),
          ("of one place", UTM, PLACES[:1] * 6, "7.567 by 9.359"), ("missing", UTM, ["NA,NA"] * 6, "7.567 by 9.359"),
          ("of few decimals", [(438390 + east, 5127691 + east) for east in range(0, 60, 10)], ["14.20,46.30", "14.20,46.30", "14.21,46.30", "14.20,46.30", "14.21,46.30", "14.20,46.30"], "0.050 by 0.050"))),
    ("days with hours by their form", ["--time-format", "%Y%m%d%H"], b"id,timestamp,x,y\na,2024050112,1000,2000\na,2024050213,1030,2040\n",
     ["times are read as %Y%m%d%H, in UTC", *LINES, columns("id, timestamp, x, y", "0.030 by 0.040", ", from 2024-05-01 to 2024-05-02")],
     {"a": "a,1714564800,1000,2000\na,1714654800,1030,2040\n"}),
    ("seconds since 1970 with decimals", [], b"id,timestamp,x,y\na,1714523404.75,1000,2000\na,1714523561,1030,2040\n",
     [*LINES, "1 times have parts of a second: taken by whole seconds, also by filters", columns("id, timestamp, x, y", "0.030 by 0.040", ", from 2024-05-01 to 2024-05-01")],
     {"a": "a,1714523404,1000,2000\na,1714523561,1030,2040\n"}),
    ("animals in two units", [], f"{TITLES}\n{APART}".encode(),
     [*LINES, "b, c, d and 1 more lie 5,077 km from the other animals: are all in one unit and system?", "columns: animal, second, easting, northing; 9 animals, box 561.985 by 5077.954 km, from second 0 to 3"],
     {name: "".join(f"{line}\n" for line in APART.splitlines() if line[0] == name) for name in "abcdefghi"}),
    ("a title as packed files begin", [], OWN.replace("animal", "PK,animal").replace("v,", "1,v,").encode(), [*LINES, OWN_COLUMNS, "not read: PK"],
     {"v": "v,0,1000,2000\nv,60,1030,2040\n"}),
    ("the mark of UTF-8", ["--encoding", "utf8"], MARK + OWN.encode(), [*LINES, OWN_COLUMNS], {"v": "v,0,1000,2000\nv,60,1030,2040\n"}),
    ("the mark of UTF-16, named", ["--encoding", "utf-16"], OWN.encode("utf-16"), [*LINES, OWN_COLUMNS], {"v": "v,0,1000,2000\nv,60,1030,2040\n"}),
    ("units in a word, and metres", ["--easting", "milestone", "--northing", "y (m)"], OWN.replace("easting,northing", "milestone,y (m)").encode(),
     ["column 3 'milestone' is read as eastings in metres", *LINES, columns("animal, second, milestone, y (m)", "0.030 by 0.040", ", from second 0 to 60")], {"v": "v,0,1000,2000\nv,60,1030,2040\n"}),
    ("a local title with its zone", ["--time", "local", "--tz", "Etc/GMT-2"], b"id,local,x,y\na,2024-05-01,1000,2000\na,2024-05-02,1030,2040\n",
     ["times are read as ISO text, in Etc/GMT-2", *LINES, columns("id, local, x, y", "0.030 by 0.040", ", from 2024-05-01 to 2024-05-02")],
     {"a": "a,1714514400,1000,2000\na,1714600800,1030,2040\n"}),
    ("a title of UTC with a name of UTC", ["--time", "UTC date", "--tz", "Etc/UTC"], b"id,UTC date,x,y\na,2024-05-01,1000,2000\na,2024-05-02,1030,2040\n",
     ["times are read as ISO text, in Etc/UTC", *LINES, columns("id, UTC date, x, y", "0.030 by 0.040", ", from 2024-05-01 to 2024-05-02")],
     {"a": "a,1714521600,1000,2000\na,1714608000,1030,2040\n"}),
    ("a title of no offset", ["--time", "UTC+0"], b"id,UTC+0,x,y\na,2024-05-01,1000,2000\na,2024-05-02,1030,2040\n",
     [*LINES, columns("id, UTC+0, x, y", "0.030 by 0.040", ", from 2024-05-01 to 2024-05-02")], {"a": "a,1714521600,1000,2000\na,1714608000,1030,2040\n"}),
    ("a named animal", ["--name", "fox"], b"date,x,y\n2024-05-01,1000,2000\n2024-05-02,1030,2040\n",
     ["no column has a usual title for the animal: all fixes are of one, named fox", *LINES, columns("date, x, y", "0.030 by 0.040", ", from 2024-05-01 to 2024-05-02")],
     {"fox": "fox,1714521600,1000,2000\nfox,1714608000,1030,2040\n"}),
    ("standard input", ["-"], OWN.encode(), [*LINES, OWN_COLUMNS], {"v": "v,0,1000,2000\nv,60,1030,2040\n"}),
    ("latin-1", ["--encoding", "latin-1"], OWN.replace("v,", "é,").encode("latin-1"), [*LINES, OWN_COLUMNS], {"é": "é,0,1000,2000\né,60,1030,2040\n"}),
    ("lines before the titles", ["--skip-lines", "2"], b"made by x\r\n\r\n" + OWN.encode(), [*LINES, OWN_COLUMNS], {"v": "v,0,1000,2000\nv,60,1030,2040\n"}),
    ("a track without a name", ["--from", "gpx", "--name", "dog"], GPX.replace("<name>fox</name>", "").encode(),
     ["no column has a usual title for the animal: all fixes are of one, named dog", "longitude and latitude are projected into zone 33N; fixes by zone: 33N 2",
      "coordinates are rounded to whole metres, which moves a fix by at most 0.36 m",
      columns("time, lon, lat", "0.008 by 0.011", " near 15.8 E 46.4 N, from 2024-05-01 to 2024-05-01")], {"dog": "dog,1714521600,562000,5134001\ndog,1714525200,562008,5134012\n"}),
    ("digits side by side", ["--time-format", "%d%m%y"], b"id,date,x,y\na,010524,1000,2000\na,020524,1030,2040\n",
     ["times are read as %d%m%y, in UTC", *LINES, columns("id, date, x, y", "0.030 by 0.040", ", from 2024-05-01 to 2024-05-02")], {"a": "a,1714521600,1000,2000\na,1714608000,1030,2040\n"}),
    ("a zone that stays and is named, and letters that are no sides", ["--zone", "33N"], b"id,date,x,y,zone,group\na,2024-05-01,501000,5002000,33N,A\na,2024-05-02,501030,5002040,33N,B\n",
     ["coordinates are those of the table; zone: 33N", columns("id, date, x, y", "0.030 by 0.040", " near 15.0 E 45.2 N, from 2024-05-01 to 2024-05-02"), "not read: zone, group"], {"a": "a,1714521600,501000,5002000\na,1714608000,501030,5002040\n"}),
    ("west with a minus", [], b"id,date,lon,lat,E/W\na,2024-05-01,-0.5,51.5,W\na,2024-05-02,-0.5,51.5,W\n",
     ["longitude and latitude are projected into zone 30N; fixes by zone: 30N 2", "coordinates are rounded to whole metres, which moves a fix by at most 0.61 m",
      columns("id, date, lon, lat", "0.000 by 0.000", " near 0.5 W 51.5 N, from 2024-05-01 to 2024-05-02"), "not read: E/W"],
     {"a": "a,1714521600,673520,5708393\na,1714608000,673520,5708393\n"}),
    ("animals in two columns", ["--animal", "animal,id"], b"animal,id,date,x,y\nfox,,2024-05-01,1000,2000\nfox,,2024-05-02,1030,2040\n,hen,2024-05-02,1030,2040\n,hen,2024-05-03,1030,2040\n",
     [*LINES, "columns: animal, id, date, x, y; 2 animals, box 0.030 by 0.040 km, from 2024-05-01 to 2024-05-03"],
     {"fox": "fox,1714521600,1000,2000\nfox,1714608000,1030,2040\n", "hen": "hen,1714608000,1030,2040\nhen,1714694400,1030,2040\n"}),
    *((f"a name with a sign that is not seen, U+{sign}", [], f"{TITLES}\nfox,0,1000,2000\nfox,60,1030,2040\n{name},0,1000,2000\n{name},60,1030,2040\n".encode(),
       [f"animals 'fox' and '{name}' differ in the form of letters alone: are they one?", *LINES, "columns: animal, second, easting, northing; 2 animals, box 0.030 by 0.040 km, from second 0 to 60"],
       {"fox": "fox,0,1000,2000\nfox,60,1030,2040\n", name: f"{name},0,1000,2000\n{name},60,1030,2040\n"})
      for sign in "200B FEFF 00AD 2060 200C 200D 200E 200F 202A 202E 2066 2069 061C 180E FE0F 034F 3164 E0041".split() for name in [f"fo{chr(int(sign, 16))}x"]),
    *((f"a name that libraries write for what is missing, {name!r}", [], f"{TITLES}\n{name},0,1000,2000\n{name},60,1030,2040\n".encode(),
       [f"animal '{name}' has 2 records: are they of no animal?", *LINES, OWN_COLUMNS, *([f"animal '{name}' is named {file}"] if file != name else [])],
       {file: f"{file},0,1000,2000\n{file},60,1030,2040\n"})
      for name, file in (("<NA>", "_NA_"), ("NaT", "NaT"), ("nan", "nan"), ("(null)", "(null)"), ("#N/A", "#N_A"), ("n.a.", "n.a_"), ("NA_character_", "NA_character_"),
                         ("\u00a0", "\u00a0"), ("\u3000\u2009", "\u3000\u2009"), ("\u200b", "\u200b"), ("--", "--"), ("?", "_"), ("undefined", "undefined"))),
    ("columns that say nothing of zones, offsets and hours", [], b"id,date,x,y,zone name,utm_x,hour_utc,UTC note,time zone,light hours,study-timezone\n"
     b"a,2024-05-01 01:00,1000,2000,forest,500123.5,1,x,UTC,9,Europe/Vienna\na,2024-05-02 23:00,1030,2040,meadow,500153.5,23,y,Z,10,Europe/Vienna\n",
     [*LINES, columns("id, date, x, y", "0.030 by 0.040", ", from 2024-05-01 to 2024-05-02"), "not read: zone name, utm_x, hour_utc, UTC note, time zone, light hours, study-timezone"],
     {"a": "a,1714525200,1000,2000\na,1714690800,1030,2040\n"}),
    ("columns that say nothing of the unit of coordinates", [], b"id,time,x,y,unit,alt_unit,speed unit,management unit,UnitID,coord_units,depth units,unit name,units\n"
     b"a,2024-05-01,1000,2000,m,ft,km/h,MI,12,metres,dm,ft hill,km/h\na,2024-05-02,1030,2040,m,ft,km/h,MI,12,metres,dm,ft hill,km/h\n",
     [*LINES, columns("id, time, x, y", "0.030 by 0.040", ", from 2024-05-01 to 2024-05-02"), "not read: unit, alt_unit, speed unit, management unit, UnitID, coord_units, depth units, unit name, units"],
     {"a": "a,1714521600,1000,2000\na,1714608000,1030,2040\n"}),
    ("a summer time that is that of the clock", ["--tz", "Europe/Ljubljana"], b"id,time,x,y,dst\na,2024-03-31 01:30,1000,2000,0\na,2024-03-31 03:30,1030,2040,1\na,2024-07-01 02:00,1030,2040,1\na,2024-10-27 01:30,1030,2040,1\na,2024-10-27 03:30,1030,2040,0\n",
     ["times are read as ISO text, in Europe/Ljubljana", *LINES, columns("id, time, x, y", "0.030 by 0.040", ", from 2024-03-31 to 2024-10-27"), "not read: dst"],
     {"a": "a,1711845000,1000,2000\na,1711848600,1030,2040\na,1719792000,1030,2040\na,1729985400,1030,2040\na,1729996200,1030,2040\n"}),
    ("columns that say nothing of a summer time", [], b"id,time,x,y,dst,summer,DST_km,summer time\n"
     b"a,2024-05-01T00:00Z,1000,2000,1,yes,1,12:00\na,2024-05-02T00:00+02:00,1030,2040,1,no,7,13:00\n",
     [*LINES, columns("id, time, x, y", "0.030 by 0.040", ", from 2024-05-01 to 2024-05-01"), "not read: dst, summer, DST_km, summer time"],
     {"a": "a,1714521600,1000,2000\na,1714600800,1030,2040\n"}),
    *((f"fixes of before a deployment, by {title}", [], f"id,time,x,y,{title}\na,2024-05-01,1000,2000,{yes}\na,2024-05-02,1030,2040,{no}\na,2024-05-03,,,{yes}\n".encode(),
       [f"1 fixes are of before the deployment, by {title}: are they the animal's?", "1 records have no coordinates: left out", *LINES, columns("id, time, x, y", "0.030 by 0.040", ", from 2024-05-01 to 2024-05-02"), f"not read: {title}"],
       {"a": "a,1714521600,1000,2000\na,1714608000,1030,2040\n"})
      for title, yes, no in (("Predeployment Data", "Yes", "No"), ("Predeployment.Data", "yes", ""), ("pre-deployment", "TRUE", "FALSE"), ("PreDeployment", "1", "0"))),
    *((f"no fix of before a deployment, {cell}", [], f"id,time,x,y,Predeployment Data\na,2024-05-01,1000,2000,{cell}\na,2024-05-02,1030,2040,{cell}\n".encode(),
       [*LINES, columns("id, time, x, y", "0.030 by 0.040", ", from 2024-05-01 to 2024-05-02"), "not read: Predeployment Data"], {"a": "a,1714521600,1000,2000\na,1714608000,1030,2040\n"})
      for cell in ("No", "", "none", "n/a")),
    ("columns that say nothing of minutes of degrees", ["--zone", "33N"], b"id,time,lon,lat,lat_min,lat_max,minutes,sec\na,2024-05-01,15.5,46,45.5,46.5,3,4\na,2024-05-02,15.5,46,45.5,46.5,8,9\n",
     ["longitude and latitude are projected into zone 33N; fixes by zone: 33N 2", "coordinates are rounded to whole metres, which moves a fix by at most 0.14 m",
      columns("id, time, lon, lat", "0.000 by 0.000", " near 15.5 E 46.0 N, from 2024-05-01 to 2024-05-02"), "not read: lat_min, lat_max, minutes, sec"],
     {"a": "a,1714521600,538716,5094169\na,1714608000,538716,5094169\n"}),
    ("hours and halves of the day that are joined", ["--time", "date,hour,min,ampm", "--time-format", "%Y-%m-%d %I %M %p"], b"id,date,hour,ampm,min,x,y\na,2024-05-01,3,AM,30,1000,2000\na,2024-05-01,4,PM,5,1030,2040\n",
     ["times are read as %Y-%m-%d %I %M %p, in UTC", *LINES, columns("id, date, hour, min, ampm, x, y", "0.030 by 0.040", ", from 2024-05-01 to 2024-05-01")], {"a": "a,1714534200,1000,2000\na,1714579500,1030,2040\n"}),
    *((f"halves of the day that clocks say too, {title}", [], f"id,time,x,y,{title}\na,2024-05-01 00:30,1000,2000,{one}\na,2024-05-01 12:30,1030,2040,{other}\na,2024-05-01 23:30,,,\n".encode(),
       ["1 records have no coordinates: left out", *LINES, columns("id, time, x, y", "0.030 by 0.040", ", from 2024-05-01 to 2024-05-01"), f"not read: {title}"],
       {"a": "a,1714523400,1000,2000\na,1714566600,1030,2040\n"}) for title, one, other in (("half", "AM", "pm"), ("AM/PM", "A", "P"), ("x5", "vorm.", "nachm."), ("is_pm", "0", "1"), ("isPM", "false", "TRUE"), ("is_am", "1", "0"), ("isAM", "yes", "no"))),
    ("halves of the day that clocks of a zone say too", ["--tz", "Pacific/Auckland"], b"id,time,x,y,half\na,2024-05-01 11:59,1000,2000,AM\na,2024-05-01 12:00,1030,2040,PM\n",
     ["times are read as ISO text, in Pacific/Auckland", *LINES, columns("id, time, x, y", "0.030 by 0.040", ", from 2024-05-01 to 2024-05-01"), "not read: half"],
     {"a": "a,1714521540,1000,2000\na,1714521600,1030,2040\n"}),
    *((f"degrees beside metres that are not those of fixes, {titles}", [], beside_metres(MERCATOR, titles),
       [*LINES, columns("id, second, x, y", "10.976 by 13.586", ", from second 0 to 5"), f"not read: {titles.replace(',', ', ')}"], taken(MERCATOR))
      for titles in ("release_lon,release_lat", "Capture longitude,Capture latitude", "nest_lon,nest_lat", "lon_a,lat_b", "Länge,Höhe", "lon_w,lat_n")),
    *((f"words and letters that are no sides, {title}", ["--zone", "33N"], f"id,time,lon,lat,note,{title}\na,2024-05-01,15.5,46,3,{one}\na,2024-05-02,15.5,46,4,{other}\n".encode(),
       ["longitude and latitude are projected into zone 33N; fixes by zone: 33N 2", "coordinates are rounded to whole metres, which moves a fix by at most 0.14 m",
        columns("id, time, lon, lat", "0.000 by 0.000", " near 15.5 E 46.0 N, from 2024-05-01 to 2024-05-02"), f"not read: note, {title}"],
       {"a": "a,1714521600,538716,5094169\na,1714608000,538716,5094169\n"})
      for title, one, other in (("wind", "South", "North"), ("wind direction", "West", "East"), ("wind_dir", "S", "N"), ("weather", "West", "West"), ("flight direction", "South", "South"), ("heading", "W", "E"), ("Windrichtung", "Süd", "Nord"),
                                ("vento", "E", "W"), ("muerto", "S", "N"), ("vivo", "S", "N"), ("Sim/Não", "N", "S"), ("capturado", "S", "S"), ("travel direction", "South", "North"))),
    *((f"classes that are none of Argos, {title} {one}", [], f"id,date,x,y,{title}\na,2024-05-01,1000,2000,{one}\na,2024-05-02,1030,2040,{other}\n".encode(),
       [*LINES, columns("id, date, x, y", "0.030 by 0.040", ", from 2024-05-01 to 2024-05-02"), f"not read: {title}"], {"a": "a,1714521600,1000,2000\na,1714608000,1030,2040\n"})
      for title, one, other in (("lc", "forest", "meadow"), ("lc", "311", "112"), ("class", "Aves", "Aves"), ("class", "3", "forest"), ("Class", "5", "4"), ("land_class", "3", "2"), ("habitat class", "A", "B"), ("lc", "NA", ""))),
    *((f"a column that is no part of a time, {title}", [], f"id,date,x,y,{title}\na,2024-05-01 10:30:05,1000,2000,{one}\na,2024-05-02 10:31:07,1030,2040,{other}\n".encode(),
       [*LINES, columns("id, date, x, y", "0.030 by 0.040", ", from 2024-05-01 to 2024-05-02"), f"not read: {title}"], {"a": "a,1714559405,1000,2000\na,1714645867,1030,2040\n"})
      for title, one, other in (("den", "3", "4"), ("nap", "1", "2"), ("any", "1", "0"), ("perc", "15", "40"), ("uri", "5", "6"), ("tag", "7", "8"), ("ay", "1", "2"), ("time [h]", "7", "8"))),
    *((f"days beside a column that is no part of a time, {title}", [], f"id,date,x,y,{title}\na,2024-05-01,1000,2000,{one}\na,2024-05-02,1030,2040,{other}\n".encode(),
       [*LINES, columns("id, date, x, y", "0.030 by 0.040", ", from 2024-05-01 to 2024-05-02"), f"not read: {title}"], {"a": "a,1714521600,1000,2000\na,1714608000,1030,2040\n"})
      for title, one, other in (("den", "3", "4"), ("uri", "5", "6"), ("uri", "12", "14"), ("time lag (h)", "5", "6"), ("elapsed time (h)", "5", "6"), ("nap", "1", "2"))),
    ("a share beside hours", ["--time", "date,hour", "--time-format", "%Y-%m-%d %H"], b"id,date,hour,perc,x,y\na,2024-05-01,7,15,1000,2000\na,2024-05-01,8,40,1030,2040\n",
     ["times are read as %Y-%m-%d %H, in UTC", *LINES, columns("id, date, hour, x, y", "0.030 by 0.040", ", from 2024-05-01 to 2024-05-01"), "not read: perc"],
     {"a": "a,1714546800,1000,2000\na,1714550400,1030,2040\n"}),
    ("a year, a month and a den, beside no time", [], b"id,year,month,den,x,y\na,2024,5,1,1000,2000\na,2024,5,2,1030,2040\n",
     ["no column has a usual title for the time: fixes are in the order of rows, as seconds 0, 1, 2, ..", *LINES, "columns: id, x, y; 1 animals, box 0.030 by 0.040 km", "not read: year, month, den"],
     {"a": "a,0,1000,2000\na,1,1030,2040\n"}),
    *((f"a moment beside its parts, {title}", [], f"id,{title},year,month,day,hour,minute,second,x,y\na,2024-05-01 10:30:05,2024,5,1,10,30,5,1000,2000\na,2024-05-02 10:31:07,2024,5,2,10,31,7,1030,2040\n".encode(),
       [*LINES, columns(f"id, {title}, x, y", "0.030 by 0.040", ", from 2024-05-01 to 2024-05-02"), "not read: year, month, day, hour, minute, second"], {"a": "a,1714559405,1000,2000\na,1714645867,1030,2040\n"})
      for title in ("time", "date", "timestamp")),
    *((f"the animal under {title}", [], f"{title},date,x,y\na,2024-05-01,1000,2000\na,2024-05-02,1030,2040\n".encode(),
       [*LINES, columns(f"{title}, date, x, y", "0.030 by 0.040", ", from 2024-05-01 to 2024-05-02")], {"a": "a,1714521600,1000,2000\na,1714608000,1030,2040\n"})
      for title in ("AnimalID", "animalID", "animalid", "Animal_ID", "animal.id", "ANIMAL ID")),
    *((f"longitude and latitude beside metres, {titles}", [], beside_metres(UTM, titles),
       [said_of_first(PLACES[0], titles), *LINES, columns("id, second, x, y", "7.567 by 9.359", ", from second 0 to 5"), f"not read: {titles.replace(',', ', ')}"], taken(UTM))
      for titles in ("Longitude (°E),Latitude (°N)", "lon_e,lat_n")),
    *((f"degrees beside metres of other things than fixes, {titles}", [], beside_metres(MERCATOR, titles),
       [*LINES, columns("id, second, x, y", "10.976 by 13.586", ", from second 0 to 5"), f"not read: {titles.replace(',', ', ')}"], taken(MERCATOR))
      for word in ("pred", "predicted", "lag", "lead", "era5", "water", "partner", "neighbour", "nearest", "mate", "dam", "road", "grid", "cell", "pixel", "raster", "weather", "centroid") for titles in [f"{word}_lon,{word}_lat"]),
    *((f"letters that are no sides, {title}", ["--zone", "33N"], f"id,time,lon,lat,note,{title}\na,2024-05-01,15.5,46,3,{one}\na,2024-05-02,15.5,46,4,{other}\n".encode(),
       ["longitude and latitude are projected into zone 33N; fixes by zone: 33N 2", "coordinates are rounded to whole metres, which moves a fix by at most 0.14 m",
        columns("id, time, lon, lat", "0.000 by 0.000", " near 15.5 E 46.0 N, from 2024-05-01 to 2024-05-02"), f"not read: note, {title}"],
       {"a": "a,1714521600,538716,5094169\na,1714608000,538716,5094169\n"})
      for title, one, other in (("Geschlecht", "W", "W"), ("sex", "W", "W"), ("treatment", "S", "S"), ("observer", "S", "S"), ("wind_dir", "W", "W"), ("study", "S", "N"), ("team", "S", "S"))),
    ("columns that say nothing of halves of the day", [], b"id,time,x,y,country,band,daypart,nest,amp,pm25\n"
     b"a,2024-05-01,1000,2000,DE,FM,morning,12a,1,3\na,2024-05-02,1030,2040,DE,FM,evening,7p,2,4\n",
     [*LINES, columns("id, time, x, y", "0.030 by 0.040", ", from 2024-05-01 to 2024-05-02"), "not read: country, band, daypart, nest, amp, pm25"],
     {"a": "a,1714521600,1000,2000\na,1714608000,1030,2040\n"}),
    *((f"digits that say nothing of hours beside days, {title}", [], f"id,date,x,y,{title}\na,2024-05-01,1000,2000,{one}\na,2024-05-02,1030,2040,{other}\n".encode(),
       [*LINES, columns("id, date, x, y", "0.030 by 0.040", ", from 2024-05-01 to 2024-05-02"), f"not read: {title}"], {"a": "a,1714521600,1000,2000\na,1714608000,1030,2040\n"})
      for title, one, other in (("time_to_fix", "45", "120"), ("time to fix", "130", "245"), ("time_interval", "0930", "1015"), ("collar", "1030", "1115"), ("gps_time", "1030", "9999"), ("release_time", "0930", "1015"))),
    ("seconds that say nothing beside times with seconds", [], b"id,time,x,y,sec\na,2024-05-01 01:30:05,1000,2000,5\na,2024-05-01 01:30:40,1030,2040,41\n",
     [*LINES, columns("id, time, x, y", "0.030 by 0.040", ", from 2024-05-01 to 2024-05-01"), "not read: sec"], {"a": "a,1714527005,1000,2000\na,1714527040,1030,2040\n"}),
    ("parts that are joined by their form", ["--time", "Tag,Monat,Jahr,Stunde", "--time-format", "%d %b %y %H"], b"id,Tag,Monat,Jahr,Stunde,x,y\na,1,May,24,6,1000,2000\n",
     ["times are read as %d %b %y %H, in UTC", *LINES, columns("id, Tag, Monat, Jahr, Stunde, x, y", "0.000 by 0.000", ", from 2024-05-01 to 2024-05-01")], {"a": "a,1714543200,1000,2000\n"}),
    *((f"times of UTC under local_time beside {zone}", ["--tz", zone, "--time", "local_time"], b"id,local_time,x,y\na,2024-05-01T00:00:00Z,1000,2000\na,2024-05-02T00:00:00Z,1030,2040\n",
       [*said, *LINES, columns("id, local_time, x, y", "0.030 by 0.040", ", from 2024-05-01 to 2024-05-02")], {"a": "a,1714521600,1000,2000\na,1714608000,1030,2040\n"})
      for zone, said in (("UTC", []), ("Etc/UTC", ["times are read as ISO text, by their own offsets from UTC; days and hours are those of Etc/UTC"]))),
    ("a form that says UTC beside a name of it", ["--time-format", "%Y-%m-%d %H:%MZ", "--tz", "Etc/UTC"], b"id,date,x,y\na,2024-05-01 00:00Z,1000,2000\na,2024-05-02 00:00Z,1030,2040\n",
     ["times are read as %Y-%m-%d %H:%MZ, in Etc/UTC", *LINES, columns("id, date, x, y", "0.030 by 0.040", ", from 2024-05-01 to 2024-05-02")], {"a": "a,1714521600,1000,2000\na,1714608000,1030,2040\n"}),
    ("degrees of Argos with three decimals", ["--argos-class", "3", "--zone", "33N"], f"id,second,lon,lat,argos-lc\n{''.join(f'v,{at},15.5,46,3' + chr(10) for at in range(20))}".encode(),
     ["longitude and latitude are projected into zone 33N; fixes by zone: 33N 20", "coordinates are rounded to whole metres, which moves a fix by at most 0.14 m",
      columns("id, second, lon, lat", "0.000 by 0.000", " near 15.5 E 46.0 N, from second 0 to 19")], {"v": "".join(f"v,{at},538716,5094169\n" for at in range(20))}),
    ("columns that say nothing of hours beside days", [], b"id,date,x,y,HR (bpm),x_std,hour\na,2024-05-01,1000,2000,80,1.5,12\na,2024-05-02,1030,2040,95,2.5,12\n",
     [*LINES, columns("id, date, x, y", "0.030 by 0.040", ", from 2024-05-01 to 2024-05-02"), "not read: HR (bpm), x_std, hour"],
     {"a": "a,1714521600,1000,2000\na,1714608000,1030,2040\n"}),
    *((f"words of titles that are not known, {titles}", options, f"id,{titles}\na,2024-05-01,1000,2000\na,2024-05-02,1030,2040\n".encode(),
       [*said, *LINES, columns(f"id, {titles.replace(',', ', ')}", "0.030 by 0.040", ", from 2024-05-01 to 2024-05-02")], {"a": "a,1714521600,1000,2000\na,1714608000,1030,2040\n"})
      for titles, options, said in (
          ("wann,ost,nord", ["--time", "wann", "--easting", "ost", "--northing", "nord"], ["column 2 'wann' is read as times of UTC"]),
          ("date,kolumna,druga", ["--easting", "kolumna", "--northing", "druga"], ["column 3 'kolumna' is read as eastings in metres", "column 4 'druga' is read as northings in metres"]),
          ("date,x_corrected,UTM_N", ["--easting", "x_corrected", "--northing", "UTM_N"], []),
          *((f"{time},x,y", ["--time", time], []) for time in ("GPSTime", "Date et heure", "time_stamp", "Fecha y hora", "data e ora", "Datum und Uhrzeit", "Dato og tid", "Datum en tijd", "Dátum és idő", "дата и время", "Datum a čas", "DateUTC")),
          *((f"date,{one},{two}", ["--easting", one, "--northing", two], []) for one, two in (
              ("UTMX", "UTMY"), ("UTM_X", "UTM_Y"), ("xcoord", "ycoord"), ("x_coord", "y_coord"), ("coord. x", "coord. y"), ("X_UTM33", "Y_UTM33"), ("easting_m", "northing_m"), ("coordx", "coordy"), ("POSX", "POSY"))),
          *((f"date,{one},{two}", ["--easting", one, "--northing", two], [f"column 3 '{one}' is read as eastings in metres", f"column 4 '{two}' is read as northings in metres"]) for one, two in (
              ("x_se", "y_se"), ("a_x", "a_y"), ("from_x", "from_y"), ("ax", "ay"), ("step x", "step y"), ("xnews", "ynews"))),
          ("time of fix,GPS Easting (m),GPS Northing (m)", ["--time", "time of fix", "--easting", "GPS Easting (m)", "--northing", "GPS Northing (m)"], []))),
    *((f"words of titles of degrees that are known, {one}", ["--lon", one, "--lat", two, "--zone", "33N"], f"id,date,{one},{two}\na,2024-05-01,15.5,46\n".encode(),
       ["longitude and latitude are projected into zone 33N; fixes by zone: 33N 1", "coordinates are rounded to whole metres, which moves a fix by at most 0.14 m",
        columns(f"id, date, {one}, {two}", "0.000 by 0.000", " near 15.5 E 46.0 N, from 2024-05-01 to 2024-05-01")], {"a": "a,1714521600,538716,5094169\n"})
      for one, two in (("Zeměpisná délka", "Zeměpisná šířka"), ("geographische Länge", "geographische Breite"), ("longitudine geografica", "latitudine geografica"), ("location-long", "location-lat"), ("gpslon", "gpslat"), ("declong", "declat"))),
    ("words of titles of degrees that are not known", ["--lon", "aa", "--lat", "bb", "--zone", "33N"], b"id,date,aa,bb\na,2024-05-01,15.5,46\n",
     ["column 3 'aa' is read as longitudes: degrees, those in the west below 0", "column 4 'bb' is read as latitudes: degrees, those in the south below 0",
      "longitude and latitude are projected into zone 33N; fixes by zone: 33N 1", "coordinates are rounded to whole metres, which moves a fix by at most 0.14 m",
      columns("id, date, aa, bb", "0.000 by 0.000", " near 15.5 E 46.0 N, from 2024-05-01 to 2024-05-01")], {"a": "a,1714521600,538716,5094169\n"}),
    *((f"metres that were rounded, to {step} m", options, f"{TITLES}\n{''.join(f'v,{at},{561000 + step * (at % 7)},{5134000 + step * (at // 7)}' + chr(10) for at in range(20))}".encode(),
       [*said, *LINES, columns("animal, second, easting, northing", f"{step * 6 / 1000:.3f} by {step * 2 / 1000:.3f}", ", from second 0 to 19")],
       {"v": "".join(f"v,{at},{(561000 + step * (at % 7)) * scale},{(5134000 + step * (at // 7)) * scale}\n" for at in range(20))})
      for step, options, scale, said in ((100, [], 1, ["all eastings and northings are multiples of 100 m: were they rounded?"]), (1000, ["--unit", "dm"], 10, ["all eastings and northings are multiples of 1000 m: were they rounded?"]),
                                         (50, [], 1, []))),
    ("names in letters that look the same", [], f"{TITLES}\nVesna,0,1000,2000\nVesna,60,1030,2040\nV\u0435sna,0,1000,2000\nV\u0435sna,60,1030,2040\n\u041c\u0438\u0448\u0430,0,1000,2000\n\u041c\u0438\u0448\u0430,60,1030,2040\n".encode(),
     ["animals 'Vesna' and 'V\u0435sna' differ in letters of other scripts that look the same alone: are they one?", *LINES,
      "columns: animal, second, easting, northing; 3 animals, box 0.030 by 0.040 km, from second 0 to 60"],
     {"Vesna": "Vesna,0,1000,2000\nVesna,60,1030,2040\n", "V\u0435sna": "V\u0435sna,0,1000,2000\nV\u0435sna,60,1030,2040\n",
      "\u041c\u0438\u0448\u0430": "\u041c\u0438\u0448\u0430,0,1000,2000\n\u041c\u0438\u0448\u0430,60,1030,2040\n"}),
    ("degrees that were rounded", ["--zone", "33N"], f"id,second,lon,lat\n{''.join(f'v,{at},15.5,46' + chr(10) for at in range(20))}".encode(),
     ["longitudes and latitudes have at most one decimal, and so steps of 11 km: were they rounded?", "longitude and latitude are projected into zone 33N; fixes by zone: 33N 20",
      "coordinates are rounded to whole metres, which moves a fix by at most 0.14 m", columns("id, second, lon, lat", "0.000 by 0.000", " near 15.5 E 46.0 N, from second 0 to 19")],
     {"v": "".join(f"v,{at},538716,5094169\n" for at in range(20))}),
    ("fixes that lie years apart", [], b"id,time,x,y\na,2004-09-15 10:00,1000,2000\na,2004-09-16 10:00,1010,2000\na,2024-05-01 10:00,1030,2040\nb,2020-05-01 10:00,1030,2040\nb,2024-05-01 10:00,1030,2040\n",
     [*LINES, "the first 2 of 3 fixes of a are 7167 days before the others: are their dates right?", "columns: id, time, x, y; 2 animals, box 0.030 by 0.040 km, from 2004-09-15 to 2024-05-01"],
     {"a": "a,1095242400,1000,2000\na,1095328800,1010,2000\na,1714557600,1030,2040\n", "b": "b,1588327200,1030,2040\nb,1714557600,1030,2040\n"}),
    ("a name that databases write for none", [], f"{TITLES}\n\\N,0,1000,2000\n\\N,60,1030,2040\nv,60,1030,2040\nv,90,1030,2040\n".encode(),
     ["animal '\\N' has 2 records: are they of no animal?", *LINES, "columns: animal, second, easting, northing; 2 animals, box 0.030 by 0.040 km, from second 0 to 90", "animal '\\N' is named _N"],
     {"_N": "_N,0,1000,2000\n_N,60,1030,2040\n", "v": "v,60,1030,2040\nv,90,1030,2040\n"}),
    ("a name that may be none", [], f"{TITLES}\nNA,0,1000,2000\nNA,60,1030,2040\nNA,90,1030,2040\nv,60,1030,2040\n".encode(),
     ["animal 'NA' has 3 records: are they of no animal?", *LINES, "columns: animal, second, easting, northing; 2 animals, box 0.030 by 0.040 km, from second 0 to 90"],
     {"NA": "NA,0,1000,2000\nNA,60,1030,2040\nNA,90,1030,2040\n", "v": "v,60,1030,2040\n"}),
    ("names that differ in zeros", [], f"{TITLES}\n007,0,1000,2000\n007,60,1030,2040\n7,0,1000,2000\n7,60,1030,2040\n".encode(),
     ["animals '007' and '7' differ in zeros alone: are they one?", *LINES, "columns: animal, second, easting, northing; 2 animals, box 0.030 by 0.040 km, from second 0 to 60"],
     {"007": "007,0,1000,2000\n007,60,1030,2040\n", "7": "7,0,1000,2000\n7,60,1030,2040\n"}),
    ("GPX", ["--from", "gpx"], GPX.encode(),
     ["longitude and latitude are projected into zone 33N; fixes by zone: 33N 2", "coordinates are rounded to whole metres, which moves a fix by at most 0.36 m",
      columns("animal, time, lon, lat", "0.008 by 0.011", " near 15.8 E 46.4 N, from 2024-05-01 to 2024-05-01")], {"fox": "fox,1714521600,562000,5134001\nfox,1714525200,562008,5134012\n"}),
    ("metres of the zone that was named, beside degrees", ["--zone", "33N"], told(UTM),
     ["coordinates are those of the table; zone: 33N", "columns: id, second, x, y; 1 animals, box 7.567 by 9.359 km near 14.2 E 46.3 N, from second 0 to 5", "not read: lon, lat"], taken(UTM)),
    ("times with all digits behind their points", ["--time-format", "%d.%m %Y %H.%M", "--time", "day,year,time"], b"id,day,year,time,x,y\na,3.1,2024,7.30,1000,2000\na,3.10,2024,7.03,1030,2040\n",
     ["times are read as %d.%m %Y %H.%M, in UTC", *LINES, columns("id, day, year, time, x, y", "0.030 by 0.040", ", from 2024-01-03 to 2024-10-03")], {"a": "a,1704267000,1000,2000\na,1727938980,1030,2040\n"}),
    ("times of UTC under local_time, of a clock that is that of UTC", ["--tz", "Europe/London", "--time", "local_time"],
     b"id,local_time,x,y\na,2024-01-01 10:30+00:00,1000,2000\na,2024-01-01 11:30+00:00,1030,2040\n",
     ["times are read as ISO text, by their own offsets from UTC; days and hours are those of Europe/London", *LINES, columns("id, local_time, x, y", "0.030 by 0.040", ", from 2024-01-01 to 2024-01-01")], {"a": "a,1704105000,1000,2000\na,1704108600,1030,2040\n"}),
    *((f"one axis in kilometres, {name}", [], f"id,second,x,y\n{''.join(f'a,{second},{x},{y}{chr(10)}' for second, x, y in fixes)}".encode(),
       [*LINES, "coordinates of one axis lie within 1,000 m of 0, and those of the other beyond 100,000 m: are the first in kilometres?", columns("id, second, x, y", box, ", from second 0 to 60")],
       {"a": "".join(f"a,{second},{x},{y}\n" for second, x, y in fixes)}) for name, fixes, box in (
           ("eastings", [(0, 501, 5002000), (60, 502, 5003000)], "0.001 by 1.000"), ("northings", [(0, 401000, 5), (60, 401300, 7)], "0.300 by 0.002"))),
    ("northings that no map has", [], b"id,second,x,y\na,0,5010000,52001000\na,60,5010300,52001400\n",
     [*LINES, "coordinates are shifted by 0 m east and -52000000 m north", "northings lie more than 20,100 km from 0, where no map has any: are they in metres?", columns("id, second, x, y", "0.300 by 0.400", ", from second 0 to 60")],
     {"a": "a,0,5010000,1000\na,60,5010300,1400\n"}),
    *((f"{what} that were rounded", [], f"{TITLES}\n{''.join(fixes)}".encode(),
       [f"all {what} are multiples of 100 m: were they rounded?", *LINES, f"columns: animal, second, easting, northing; {len(tracks)} animals, box {box} km, from second 0 to 19"], tracks)
      for what, fixes, tracks, box in (
          ("northings", [f"v,{at},{561003 + 7 * at},{5134000 + 100 * (at % 7)}\n" for at in range(20)],
           {"v": "".join(f"v,{at},{561003 + 7 * at},{5134000 + 100 * (at % 7)}\n" for at in range(20))}, "0.133 by 0.600"),
          ("eastings and northings of 'w'", [f"v,{at},{561003 + 7 * at},{5134007 + 10 * at}\nw,{at},{561000 + 100 * (at % 4)},{5134000 + 100 * (at % 7)}\n" for at in range(20)],
           {"v": "".join(f"v,{at},{561003 + 7 * at},{5134007 + 10 * at}\n" for at in range(20)),
            "w": "".join(f"w,{at},{561000 + 100 * (at % 4)},{5134000 + 100 * (at % 7)}\n" for at in range(20))}, "0.300 by 0.600"))),
    *((f"names that differ in signs, {name}", [], f"{TITLES}\nA-1,0,1000,2000\nA-1,60,1030,2040\n{name},0,1000,2000\n{name},60,1031,2040\n".encode(),
       [f"animals 'A-1' and '{name}' differ in the signs between words alone: are they one?", *LINES, "columns: animal, second, easting, northing; 2 animals, box 0.031 by 0.040 km, from second 0 to 60"],
       {"A-1": "A-1,0,1000,2000\nA-1,60,1030,2040\n", name: f"{name},0,1000,2000\n{name},60,1031,2040\n"}) for name in ("A\u20131", "A_1", "A.1", "a\u22121")),
    *((f"columns that do not choose, {title} of {one} and {other}", [], f"id,second,x,y,{title}\na,0,1000,2000,{one}\na,60,1030,2040,{other}\n".encode(),
       [*LINES, columns("id, second, x, y", "0.030 by 0.040", ", from second 0 to 60"), f"not read: {title}"], {"a": "a,0,1000,2000\na,60,1030,2040\n"})
      for title, one, other in (("status", "0", "1"), ("exclude", "0", "0"), ("used", "4", "5"), ("comments", "rain", "snow"), ("quality", "3D", "2D"), ("case", "7", "8"), ("status", "invalid", "invalid"),
                                ("behaviour", "drop", "walk"), ("sex", "f", "f"), ("night_flag", "0", "1"), ("calf_presence", "0", "1"), ("Nsat_used", "0", "1"))),
    ("a choice of fixes that none has without coordinates", [], b"id,second,x,y,GPS Fix Attempt\na,0,1000,2000,Resolved\na,60,1030,2040,Resolved\na,90,,,Failed\n",
     ["1 records have no coordinates: left out", *LINES, columns("id, second, x, y", "0.030 by 0.040", ", from second 0 to 60"), "not read: GPS Fix Attempt"], {"a": "a,0,1000,2000\na,60,1030,2040\n"}),
    ("times under an abbreviation of a clock that is otherwise in summer", ["--tz", "Europe/Ljubljana", "--time", "time (CET)"], b"id,time (CET),x,y\na,2024-01-01 10:30,1000,2000\na,2024-06-01 10:30,1030,2040\n",
     ["column 2 'time (CET)' says a clock that is 1 h ahead of UTC, and that of Europe/Ljubljana is 2 h ahead of UTC at the time of record 2: is it that one in all seasons?",
      "times are read as ISO text, in Europe/Ljubljana", *LINES, columns("id, time (CET), x, y", "0.030 by 0.040", ", from 2024-01-01 to 2024-06-01")], {"a": "a,1704101400,1000,2000\na,1717230600,1030,2040\n"}),
    ("times under the clock of the zone", ["--tz", "Europe/Ljubljana", "--time", "time (UTC+2)"], b"id,time (UTC+2),x,y\na,2024-05-01 10:30,1000,2000\na,2024-06-01 10:30,1030,2040\n",
     ["times are read as ISO text, in Europe/Ljubljana", *LINES, columns("id, time (UTC+2), x, y", "0.030 by 0.040", ", from 2024-05-01 to 2024-06-01")], {"a": "a,1714552200,1000,2000\na,1717230600,1030,2040\n"}),
    ("a number of the zone that was named", ["--zone", "33N"], b"id,date,x,y,huso\na,2024-05-01,501000,5002000,33\na,2024-05-02,501030,5002040,33\n",
     ["coordinates are those of the table; zone: 33N", columns("id, date, x, y", "0.030 by 0.040", " near 15.0 E 45.2 N, from 2024-05-01 to 2024-05-02"), "not read: huso"],
     {"a": "a,1714521600,501000,5002000\na,1714608000,501030,5002040\n"}),
    *((f"degrees beside others, {titles}", ["--lon", "gx", "--lat", "gy", "--zone", "33N"], f"id,second,gx,gy,{titles}\na,0,15.5,46,15.5,46\na,60,15.5,46,{other}\n".encode(),
       ["column 3 'gx' is read as longitudes: degrees, those in the west below 0", "column 4 'gy' is read as latitudes: degrees, those in the south below 0",
        *said, "longitude and latitude are projected into zone 33N; fixes by zone: 33N 2", "coordinates are rounded to whole metres, which moves a fix by at most 0.14 m",
        columns("id, second, gx, gy", "0.000 by 0.000", " near 15.5 E 46.0 N, from second 0 to 60"), f"not read: {titles.replace(',', ', ')}"], {"a": "a,0,538716,5094169\na,60,538716,5094169\n"})
      for titles, other, said in (
          ("lon,lat", "15.52,46", ["1 fixes lie more than 1 km from column 5 'lon' and column 6 'lat', which are not read: are these theirs?"]), ("lon,lat", "15.505,46.004", []), ("lon,lat", "NA,NA", []),
          ("release_lon,release_lat", "16,47", []), ("lon_smooth,lat_smooth", "15.6,46", []))),
    *((f"columns of other times beside those that are read, {titles} {cells}", options, f"id,{own},x,y,{titles}\na,{first},1000,2000,{cells[0]}\na,{second},1030,2040,{cells[1]}\n".encode(),
       [*([f"times are read as ISO text, {'by their own offsets from UTC; days and hours are those of' if first.endswith('Z') else 'in'} {options[1]}"] if options else []), *said, *LINES, columns(f"id, {own}, x, y", "0.030 by 0.040", f", from {first[:10]} to {second[:10]}"), f"not read: {titles.replace(',', ', ')}"],
       {"a": f"a,{moments[0]},1000,2000\na,{moments[1]},1030,2040\n"})
      for titles, own, options, first, second, moments, cells, said in (
          # The same times, and such as are not apart as clocks are.
          ("time_utc", "time", [], "2024-05-01 10:00:09", "2024-05-01 12:30:17", (1714557609, 1714566617), ("2024-05-01T10:00:09Z", "2024-05-01T12:30:17Z"), []),
          ("epoch", "time", [], "2024-05-01 10:00:09", "2024-05-01 12:30:17", (1714557609, 1714566617), ("1714557609", "1714566617"), []),
          ("unix_ms", "time", [], "2024-05-01 10:00:09", "2024-05-01 12:30:17", (1714557609, 1714566617), ("1714557609250", "1714566617999"), []),
          ("UTC_Date,UTC_Time", "time", [], "2024-05-01 10:00:09", "2024-05-01 12:30:17", (1714557609, 1714566617), ("2024-05-01,10:00:09", "2024-05-01,12:30:17"), []),
          ("UTC_Date", "time", [], "2024-05-01 10:00:00", "2024-05-01 12:30:00", (1714557600, 1714566600), ("2024-05-01", "2024-05-01"), []),
          ("time_utc", "time", [], "2024-05-01 10:00:09", "2024-05-01 12:30:17", (1714557609, 1714566617), ("2024-05-01 08:00:10", "2024-05-01 10:31:17"), []),
          ("time_utc", "time", [], "2024-05-01 10:00:09", "2024-05-01 12:30:17", (1714557609, 1714566617), ("2024-05-01 10:00:09", "2024-05-01 10:30:17"), []),
          ("time_utc", "time", [], "2024-05-01 10:00:09", "2024-05-01 12:30:17", (1714557609, 1714566617), ("2024-04-30 19:00:09", "2024-04-30 21:30:17"), []),
          ("time_utc", "time", ["--tz", "Europe/Ljubljana"], "2024-05-01 10:00:09", "2024-05-01 12:30:17", (1714550409, 1714559417), ("2024-05-01 08:00:09", "2024-05-01 10:30:17"), []),
          ("received_utc,utc_sunrise", "time", [], "2024-05-01 10:00:09", "2024-05-01 12:30:17", (1714557609, 1714566617), ("2024-05-01 11:00:09,2024-05-01 04:00:09", "2024-05-01 13:30:17,2024-05-01 06:30:17"), []),
          ("utc_time,gmt_time,utc", "time", [], "2024-05-01 10:00:09", "2024-05-01 12:30:17", (1714557609, 1714566617),
           ("01.05.2024 10:00:09,5/1/2024 10:00:09 AM,10:00:09", "01.05.2024 12:30:17,5/1/2024 12:30:17 PM,12:30:17"), []),
          ("utc_time", "time", [], "2024-05-01 10:00:09", "2024-05-01 12:30:17", (1714557609, 1714566617), ("0:00:35", "0:01:10"), []),
          # Local times beside those of UTC, and the same beside those of a zone.
          ("study-local-timestamp", "timestamp", [], "2024-01-01 10:00:09", "2024-05-01 12:30:17", (1704103209, 1714566617), ("2024-01-01 11:00:09", "2024-05-01 14:30:17"), []),
          ("local_time", "timestamp", ["--tz", "Europe/Ljubljana"], "2024-01-01 10:00:09", "2024-05-01 12:30:17", (1704099609, 1714559417), ("2024-01-01 10:00:09", "2024-05-01 12:30:17"), []),
          ("local_time", "timestamp", ["--tz", "Europe/London"], "2024-01-01 10:00:09", "2024-02-01 12:30:17", (1704103209, 1706790617), ("2024-01-01 10:00:09", "2024-02-01 13:30:17"), []),
          ("study-local-timestamp", "timestamp", ["--tz", "Europe/Ljubljana"], "2024-01-01 10:00:09Z", "2024-05-01 12:30:17Z", (1704103209, 1714566617), ("2024-01-01 05:00:09", "2024-05-01 08:30:17"), []),
          # Ends of deployments.
          ("deploy-on-timestamp", "timestamp", [], "2024-05-01 10:00:09", "2024-05-01 12:30:17", (1714557609, 1714566617), ("2024-05-01 12:00:00.000", "2024-05-01 12:00:00.000"),
           ["1 of 2 fixes lie before the times in column 5 'deploy-on-timestamp': are they hers?"]),
          ("deploy_off_date", "timestamp", [], "2024-05-01 10:00:09", "2024-05-02 12:30:17", (1714557609, 1714653017), ("2024-04-30", "2024-05-01"),
           ["2 of 2 fixes lie after the times in column 5 'deploy_off_date': are they hers?"]),
          ("deploy_on_date,deploy_off_date,deploy_off_person", "timestamp", [], "2024-05-01 10:00:09", "2024-05-01 12:30:17", (1714557609, 1714566617), ("2024-05-01,2024-05-01,Ana", "2024-05-01,NA,Ana"), []),
          ("deploy_on_time,deploy_off_time", "timestamp", [], "2024-05-01 10:00:09", "2024-05-01 12:30:17", (1714557609, 1714566617), ("14:00,8:00", "14:00,8:00"), []),
          ("deploy_on_date", "timestamp", [], "2024-05-01 10:00:09", "2024-05-01 12:30:17", (1714557609, 1714566617), ("01/05/2024 12:00", "01/05/2024 12:00"),
           ["1 of 2 fixes lie before the times in column 5 'deploy_on_date': are they hers?"]),
          ("deploy_on_timestamp", "timestamp", ["--tz", "Europe/Ljubljana"], "2024-05-01 10:00:09", "2024-05-01 12:30:17", (1714550409, 1714559417), ("2024-05-01 10:00:00", "2024-05-01T10:30:00Z"), []),
          # Parts of the same days, of days beside them, and of something else.
          ("year,month,yday", "date", [], "2024-05-01", "2024-06-01", (1714521600, 1717200000), ("2024,5,122", "2024,6,153"), []),
          ("year,month,yday", "date", [], "2024-01-01", "2024-06-01", (1704067200, 1717200000), ("2023,12,365", "23,5,152"), []),
          ("year", "date", [], "2024-01-01", "2024-06-01", (1704067200, 1717200000), ("1", "2"), []),
          ("month,yday", "date", [], "2024-05-01", "2024-06-01", (1714521600, 1717200000), ("5,200", "1,153"), []),
          ("mm,birth_year,julian", "date", [], "2024-05-01", "2024-06-01", (1714521600, 1717200000), ("1,2019,2460431", "2,2019,2460462"), []),
          ("month,year", "date", [], "2024-05-01", "2024-06-01", (1714521600, 1717200000), ("0,124", "1,124"), []),
          ("month", "date", [], "2024-05-01", "2024-06-01", (1714521600, 1717200000), ("May", "1"), []))),
    *((f"times beside offsets that are those of the zone, {title} of {cell}", ["--tz", "Europe/Ljubljana"], f"id,time,x,y,{title}\na,2024-06-01 10:30,1000,2000,{cell}\na,2024-06-02 10:30,1030,2040,{other}\n".encode(),
       ["times are read as ISO text, in Europe/Ljubljana", *LINES, columns("id, time, x, y", "0.030 by 0.040", ", from 2024-06-01 to 2024-06-02"), f"not read: {title}"], {"a": "a,1717230600,1000,2000\na,1717317000,1030,2040\n"})
      for title, cell, other in (("utc_offset", "2", "2"), ("tz", "+02:00", "+02:00"), ("timezone", "CEST", "CEST"), ("utc_offset", "1", "2"), ("utc_offset", "120", "120"))),
    ("fixes without the name of their device", ["--animal", "name,tag", "--time", "time"],
     b"name,tag,time,x,y\n,7,2024-06-01 10:30,1000,2000\n,7,2024-06-02 10:30,1000,2000\nAsta,7,2024-06-02 10:30,1030,2040\nAsta,7,2024-06-03 10:30,1030,2040\n,8,2024-06-01 10:30,1000,2000\n,8,2024-06-02 10:30,1000,2000\n",
     ["2 fixes have no name and are named '7', which is 'Asta' in others: are they hers?", *LINES, "columns: name, tag, time, x, y; 3 animals, box 0.030 by 0.040 km, from 2024-06-01 to 2024-06-03"],
     {"7": "7,1717237800,1000,2000\n7,1717324200,1000,2000\n", "Asta": "Asta,1717324200,1030,2040\nAsta,1717410600,1030,2040\n", "8": "8,1717237800,1000,2000\n8,1717324200,1000,2000\n"}),
]


def run(program, words, table, folder):
    """What the program does with a table."""
    path = folder / "table"
    path.write_bytes(table)
    export = [] if words[-1:] == ["-"] else ["--", str(path)]
    return subprocess.run([program, *words, *export], capture_output=True, cwd=folder, input=table)


def refusal_fault(case, program, folder):
    """How a table is not refused as it is wanted."""
    _, words, table, record, text = case
    found = run(program, words, table, folder)
    lines = found.stderr.decode().splitlines()
    start = "split: " if record is None else f"split: record {record}: "
    is_refused = found.returncode in (1, 2) and len(lines) == 1 and lines[0].startswith(start) and text in lines[0] and not (folder / "tracks").exists()
    return None if is_refused else f"status {found.returncode}: {lines}"


def reading_fault(case, program, folder):
    """How a table is not read as it is wanted."""
    _, words, table, wanted, tracks = case
    found = run(program, words, table, folder)
    lines = found.stderr.decode().splitlines()
    if found.returncode or lines[:-1] != [f"split: {line}" for line in wanted]:
        return f"status {found.returncode}: {lines}"
    made = {path.stem: path.read_text("utf-8") for path in (folder / "tracks").glob("*.csv")}
    return None if made == {name: f"{TITLES}\n{text}" for name, text in tracks.items()} else f"makes {made}"


def machine_fault(program, folder):
    """How --machine does not say a refusal as a record of CSV."""
    table = f"{TITLES}\nv,0,1,\"2,5\"\n".encode()
    found = run(program, ["--machine"], table, folder)
    path = str(folder / "table")
    wanted = [["number", path, "1", "northing is '2,5' and not a number of up to 12 digits: write its decimals behind a point, and nothing before thousands"]]
    if found.returncode != 1 or list(csv.reader(found.stderr.decode().splitlines())) != wanted:
        return f"status {found.returncode}: {found.stderr!r}"
    found = subprocess.run([program, "--machine", "--nothing"], capture_output=True, cwd=folder)
    lines = list(csv.reader(found.stderr.decode().splitlines()))
    is_told = found.returncode == 2 and len(lines) == 1 and lines[0][:3] == ["option", "", ""] and "--nothing" in lines[0][3]
    return None if is_told else f"status {found.returncode}: {found.stderr!r}"


def faults(program):
    """Each case with how the program does not do what it wants; None where it does."""
    with tempfile.TemporaryDirectory() as name:
        yield "a record of CSV", machine_fault(program, Path(name))
    for case, fault_of in [*((case, refusal_fault) for case in REFUSED), *((case, reading_fault) for case in READ)]:
        with tempfile.TemporaryDirectory() as name:
            yield case[0], fault_of(case, program, Path(name))


def main():
    finish(list(faults(str(Path(sys.argv[1]).resolve()))))


if __name__ == "__main__":
    main()
