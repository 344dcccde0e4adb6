#!/usr/bin/env python3
"""run_titles.py PROGRAM: the lines of titles that homerange-split refuses, some beside options, with the line that it says. Another
reader of the same rules in Python, which went when the program took its place, said them, but for rules that it did not have; those
of titles that say a clock, a side or a multiple, and of such that seem to, were written by hand."""
import subprocess
import sys
import tempfile
from pathlib import Path

sys.dont_write_bytecode = True
from cases import finish

UTM = "individual-local-identifier,timestamp,utm-easting,utm-northing,utm-zone"
NO_COORDINATES = ("there are no columns of usual titles for easting and northing, or longitude and latitude: name them, as by --easting X and "
                  "--northing Y, or --lon X and --lat Y; the table has ")
OF_NO_ZONE = ", and without --tz times are those of UTC"
UTC = f"{OF_NO_ZONE}: name their zone, as by --tz "
OFFSET = ": name a zone of that offset, by --tz"
METRES = ", and coordinates are in metres: write metres, and rename the column"
DEGREES = ", and longitude and latitude are in degrees: write degrees with decimals, and rename the column"
UNKNOWN_METRES = ", which is not known as metres: if its numbers are in metres, rename the column, and else write metres"
UNKNOWN_DEGREES = ", which is not known as degrees: if its numbers are in degrees with decimals, rename the column, and else write these"
NO_MARKS = " (a fix is not used where 'visible' is false, or 'manually-marked-outlier' is true)"
EXAMPLE = "Europe/Ljubljana"
NO_RECORD = "there is no record below the titles"
# The options, the titles, and the line.
REFUSED = [
    ([], "Id,ID,date,x,y", "column 1 'Id' and column 2 'ID' both fit id: rename one"),
    ([], "id,date,x,y,x", "column 3 'x' and column 5 'x' both fit x: rename one"),
    ([], "individual.local.identifier,timestamp,utm_easting,utm easting,utm-northing,utm-zone",
     "column 3 'utm_easting' and column 4 'utm easting' both fit utm-easting: rename one"),
    (["--animal", "tag"], "tag,date,x,y,tag", "column 1 'tag' and column 5 'tag' both fit the animal: rename one"),
    ([], "id,date,x,y,visible,Visible", "column 5 'visible' and column 6 'Visible' both fit visible: rename one"),
    ([], "id,date,x,y,Use,use", "column 5 'Use' and column 6 'use' both fit use: rename one"),
    ([], "id,date,x,y,argos-lc,Argos.LC", "column 5 'argos-lc' and column 6 'Argos.LC' both fit argos-lc: rename one"),
    ([], "id,Date,x,y,date", "column 2 'Date' and column 5 'date' both fit date: rename one"),
    (["--max-dop", "5"], "id,date,x,y,gps-dop,GPS DOP", "column 5 'gps-dop' and column 6 'GPS DOP' both fit gps-dop: rename one"),
    (["--max-dop", "5", "--dop", "GPS DOP"], "id,date,x,y,gps-dop,GPS DOP", NO_RECORD),
    (["--time", "date"], "id,Date,x,y,date", NO_RECORD),
    (["--time", "day,clock"], "id,day,clock,x,y, clock", "column 3 'clock' and column 6 'clock' both fit the time: rename one"),
    (["--easting", "a", "--northing", "b"], "id,date,a,b,b", "column 4 'b' and column 5 'b' both fit the northing: rename one"),
    ([], "animal,second,easting,northing,Visible,VISIBLE", "column 5 'Visible' and column 6 'VISIBLE' both fit visible: rename one"),
    ([], "animal,second,easting,northing,use,use", "column 5 'use' and column 6 'use' both fit use: rename one"),
    ([], f"{UTM},Location.Lat,location_lat", "column 6 'Location.Lat' and column 7 'location_lat' both fit location-lat: rename one"),
    ([], "id,Date,DATE,time,time,x,y", "column 2 'Date' and column 3 'DATE' both fit date: rename one"),
    ([], "id,date,x,y,sensor-type,sensor-type", "column 5 'sensor-type' and column 6 'sensor-type' both fit sensor-type: rename one"),
    ([], f"{UTM},UTM Zone,utm-zone", "column 5 'utm-zone' and column 7 'utm-zone' both fit utm-zone: rename one"),
    ([], "id,date,x,y,argos lc,argos:lc", "column 5 'argos lc' and column 6 'argos:lc' both fit argos-lc: rename one"),
    ([], "id,date,timestamp,x,y", "column 3 'timestamp' and column 2 'date' both fit the time: name one, as by --time timestamp"),
    ([], "id,date, Time ,x,y", "column 2 'date' and column 3 'Time' both fit the time: name one, as by --time date, or both, as by --time date,Time"),
    ([], "id,TIME,DATE,lon,lat", "column 3 'DATE' and column 2 'TIME' both fit the time: name one, as by --time DATE, or both, as by --time DATE,TIME"),
    ([], "id,Date Time,time,lon,lat", "column 3 'time' and column 2 'Date Time' both fit the time: name one, as by --time time"),
    ([], "id,date,x,y,easting,northing", "column 5 'easting' and column 3 'x' both fit the easting: name one, as by --easting easting"),
    ([], "id,time,lon,lat,Longi tude,longitude,latitude",
     "column 6 'longitude' and column 3 'lon' both fit the longitude: name one, as by --lon longitude"),
    ([], "id,time,lon,latitude,lat,long", "column 3 'lon' and column 6 'long' both fit the longitude: name one, as by --lon lon"),
    ([], "animal,second,timestamp,easting,northing",
     "column 3 'timestamp' and column 2 'second' both fit the time: name one, as by --time timestamp"),
    ([], "animal,Second,easting,northing,date", "column 2 'Second' and column 5 'date' both fit the time: name one, as by --time Second"),
    ([], "individual-local-identifier,timestamp,second,utm-easting,utm-northing,utm-zone",
     "column 2 'timestamp' and column 3 'second' both fit the time: name one, as by --time timestamp"),
    ([], "id,SECOND,x_,y_,t_", "column 2 'SECOND' and column 5 't_' both fit the time: name one, as by --time SECOND"),
    ([], "animal,Date Time,second,easting,northing", "column 3 'second' and column 2 'Date Time' both fit the time: name one, as by --time second"),
    ([], "id,second,time,x,y", "column 2 'second' and column 3 'time' both fit the time: name one, as by --time second"),
    ([], "animal,second,minute,easting,northing", "column 2 'second' and column 3 'minute' both fit the time: name one, as by --time second"),
    ([], "id,HOUR,Second,x,y", "column 3 'Second' and column 2 'HOUR' both fit the time: name one, as by --time Second"),
    ([], "id,date,x,y,lc", NO_RECORD),
    ([], f"{UTM}, Argos Loc Class",
     "column 6 'Argos Loc Class' may have Argos classes: name it, as by --argos 'Argos Loc Class', or rename or remove it"),
    ([], "animal,second,easting,northing,CLASS", NO_RECORD),
    ([], "id,date,x,y,class,Loc Class", "column 6 'Loc Class' may have Argos classes: name it, as by --argos 'Loc Class', or rename or remove it"),
    (["--argos-class", "3"], "id,date,x,y,class", "column 5 'class' may have Argos classes: name it, as by --argos class, or rename or remove it"),
    ([], "id,time,year,month,day,hour,minute,second,x,y", NO_RECORD),
    ([], "id,timestamp,hour,minute,second,x,y", NO_RECORD),
    ([], "id,date,time,hour,minute,second,x,y",
     "column 2 'date' and column 3 'time' both fit the time: name one, as by --time date, or both, as by --time date,time"),
    ([], "id,hour,minute,second,x,y", "column 4 'second' and column 2 'hour' both fit the time: name one, as by --time second"),
    ([], "id,date,x,y,class,argos-lc", "column 6 'argos-lc' and column 5 'class' both fit the Argos class: name one, as by --argos argos-lc"),
    ([], "id,date,x,y,location-class,argos-lc",
     "column 6 'argos-lc' and column 5 'location-class' both fit the Argos class: name one, as by --argos argos-lc"),
    ([], "id,date,x,y,locationClass",
     "column 5 'locationClass' may have Argos classes: name it, as by --argos locationClass, or rename or remove it"),
    ([], "id,date,x,y,Loc Class", "column 5 'Loc Class' may have Argos classes: name it, as by --argos 'Loc Class', or rename or remove it"),
    ([], "id,date,x,y,argos_location_class",
     "column 5 'argos_location_class' may have Argos classes: name it, as by --argos argos_location_class, or rename or remove it"),
    ([], "id,date,x,y,is_outlier", f"column 5 'is_outlier' may have marks, but is not read: rename or remove it{NO_MARKS}"),
    ([], "id,date,x,y,Outliers", f"column 5 'Outliers' may have marks, but is not read: rename or remove it{NO_MARKS}"),
    ([], "id,date,x,y,isValid", f"column 5 'isValid' may have marks, but is not read: rename or remove it{NO_MARKS}"),
    ([], "id,date,x,y,outlier", f"column 5 'outlier' may have marks, but is not read: rename or remove it{NO_MARKS}"),
    ([], "animal,second,easting,northing,Event_Visible,visible",
     f"column 5 'Event_Visible' may have marks, but is not read: rename or remove it{NO_MARKS}"),
    ([], f"{UTM},manually-marked-outlier, valid ", f"column 7 'valid' may have marks, but is not read: rename or remove it{NO_MARKS}"),
    ([], "animal,second,easting,northing,utm-zone", "column 5 'utm-zone' is read beside utm-easting and utm-northing alone: rename or remove it"),
    ([], "id,date,x,y,UTM zone", "column 5 'UTM zone' is read beside utm-easting and utm-northing alone: rename or remove it"),
    ([], "individual-local-identifier,timestamp,location-long,location-lat,utm.zone",
     "column 5 'utm.zone' is read beside utm-easting and utm-northing alone: rename or remove it"),
    ([], "animal,second,Ost,Nord", f"{NO_COORDINATES}'animal', 'second', 'Ost', 'Nord'"),
    ([], "id,date,lat,x", f"{NO_COORDINATES}'id', 'date', 'lat', 'x'"),
    ([], "id|timestamp|lon|lat", f"{NO_COORDINATES}'id|timestamp|lon|lat', which is one title: fields stand between commas, semicolons or tabs"),
    ([], "id date x y", f"{NO_COORDINATES}'id date x y', which is one title: fields stand between commas, semicolons or tabs"),
    ([], "id\tlon\tlat\tnote, free", f"{NO_COORDINATES}'id\\x09lon\\x09lat\\x09note', 'free': tabs stand between fields only where the line of titles has no comma and no semicolon"),
    ([], " id ", f"{NO_COORDINATES}'id'"),
    ([], "sep=;", "the first line says what stands between fields, and has no titles: leave it out, by --skip-lines 1"),
    (["--lon", "lon", "--lat", "lat"], "sep=,", "the first line says what stands between fields, and has no titles: leave it out, by --skip-lines 1"),
    ([], "aaaaaaaaaaaaaaaaaaaaaaaaaaaaaaaaaaaaaaaaaaaaaaaaaaaaaaaaaaaaa,éééééééééééééééééééééééééééééééééééééééééééééééééééééééééééé,xxxxxxxxxxxxxxxxxxxxxxxxxxxxxxxxxxxxxxxxxxxxxxxxxxxxxxxx€€€€€",
     f"{NO_COORDINATES}'aaaaaaaaaaaaaaaaaaaaaaaaaaaaaaaaaaaaaaaaaaaaaaaaaaaaaaaaa..., 'éééééééééééééééééééééééééééééééééééééééééééééééééééééééééééé', 'xxxxxxxxxxxxxxxxxxxxxxxxxxxxxxxxxxxxxxxxxxxxxxxxxxxxxxxx€..."),
    ([], ",".join(f"c{at}" for at in range(45)), NO_COORDINATES + ", ".join(f"'c{at}'" for at in range(40))),
    (["--animal", "Animal"], "id,date,x,y", "--animal: there is no column 'Animal'; the table has 'id', 'date', 'x', 'y'"),
    (["--animal", "id", "--time", "a b|c|"], "id,date,x,y", "--time: there is no column 'a b or c or '; the table has 'id', 'date', 'x', 'y'"),
    (["--time", "date", "--easting", "Ost", "--northing", "y"], "id,date,x,y",
     "--easting: there is no column 'Ost'; the table has 'id', 'date', 'x', 'y'"),
    (["--easting", "easting", "--northing", "none", "--lon", "lon"], "animal,second,easting,northing,lon,lat",
     "--northing: there is no column 'none'; the table has 'animal', 'second', 'easting', 'northing', 'lon', 'lat'"),
    (["--lon", "länge", "--lat", "y"], "id,date,x,y", "--lon: there is no column 'länge'; the table has 'id', 'date', 'x', 'y'"),
    (["--lon", "x", "--lat", "Y"], "id,date,x,y", "--lat: there is no column 'Y'; the table has 'id', 'date', 'x', 'y'"),
    (["--dop", "gps dop", "--max-dop", "5"], "id,date,x,y,hdop",
     "--dop: there is no column 'gps dop'; the table has 'id', 'date', 'x', 'y', 'hdop'"),
    (["--fix", "f", "--fix-type", "3D"], "id,date,x,y", "--fix: there is no column 'f'; the table has 'id', 'date', 'x', 'y'"),
    (["--dop", "nope"], "id,date,x,y", "--dop: there is no column 'nope'; the table has 'id', 'date', 'x', 'y'"),
    (["--fix", "nope"], "id,date,x,y", "--fix: there is no column 'nope'; the table has 'id', 'date', 'x', 'y'"),
    (["--argos", "lc"], "id,date,x,y", "--argos: there is no column 'lc'; the table has 'id', 'date', 'x', 'y'"),
    (["--easting", "northing", "--northing", " northing"], "animal,second,easting,northing", "easting and northing are one column"),
    (["--easting", "easting"], "animal,second,easting,northing", "easting and northing: name both, or none"),
    (["--lat", "easting"], "animal,second,easting,northing", "lon and lat: name both, or none"),
    (["--lon", "a", "--lat", "a"], "a,b", "lon and lat are one column"),
    (["--easting", "easting", "--northing", "northing", "--lon", "lon", "--lat", "lat"], "animal,second,easting,northing,lon,lat",
     "easting and northing, or lon and lat: name one pair of the two"),
    (["--argos-class", "3"], "id,date,x,y",
     "--argos-class: no column has a usual title for it (argos-lc, argos-class, loc. quality, location-quality, location-class): name it, as by --argos COLUMN"),
    (["--argos-class", "3"], "id,date,x,y,lc", "column 5 'lc' may have Argos classes: name it, as by --argos lc, or rename or remove it"),
    (["--max-dop", "5"], "id,date,x,y",
     "--max-dop: no column has a usual title for it (gps-dop, dop, gps-hdop, hdop, pdop): name it, as by --dop COLUMN"),
    (["--fix-type", "3D"], "id,date,x,y,dop",
     "--fix-type: no column has a usual title for it (gps-fix-type, fix-type, fixtype, fix-status, fixstatus, type-of-fix): name it, as by --fix COLUMN"),
    (["--max-dop", "5", "--fix-type", "3D"], "id,date,x,y",
     "--max-dop: no column has a usual title for it (gps-dop, dop, gps-hdop, hdop, pdop): name it, as by --dop COLUMN"),
    (["--max-dop", "5"], "id,date,x,y,hdop,GPS DOP", "column 6 'GPS DOP' and column 5 'hdop' both fit the DOP: name one, as by --dop 'GPS DOP'"),
    (["--fix-type", "3D"], "id,date,x,y,fix-status,fix-type",
     "column 6 'fix-type' and column 5 'fix-status' both fit the fix type: name one, as by --fix fix-type"),
    (["--max-dop", "5"], "id,date,x,y,Dop,DOP", "column 5 'Dop' and column 6 'DOP' both fit dop: rename one"),
    (["--easting", "Easting (km)", "--northing", "Northing (km)"], "id,date,Easting (km),Northing (km)", f"column 3 'Easting (km)' says km{METRES}"),
    (["--easting", "x_m", "--northing", "y[FT]"], "id,date,x_m,y[FT]", f"column 4 'y[FT]' says FT{METRES}"),
    (["--easting", "x.miles", "--northing", "y/m"], "id,date,x.miles,y/m", f"column 3 'x.miles' says miles{METRES}"),
    (["--lon", "lon rad", "--lat", "lat"], "id,date,lon rad,lat", f"column 3 'lon rad' says rad{DEGREES}"),
    (["--lon", "lon", "--lat", "lat_E7"], "id,date,lon,lat_E7", f"column 4 'lat_E7' says E7{DEGREES}"),
    (["--time", "time (UTC+2)"], "id,time (UTC+2),lon,lat", f"column 2 'time (UTC+2)' says UTC+2{UTC}Etc/GMT-2"),
    (["--time", "date_gmt-05:30"], "id,date_gmt-05:30,lon,lat", f"column 2 'date_gmt-05:30' says gmt-05:30{OF_NO_ZONE}{OFFSET}"),
    (["--easting", "x (decimeter)", "--northing", "y"], "id,date,x (decimeter),y", f"column 3 'x (decimeter)' says decimeter{METRES}"),
    *((["--easting", f"x ({word})", "--northing", "y"], f"id,date,x ({word}),y", f"column 3 'x ({word})' says {word}{METRES}") for word in (
        "ftus inches hm dam kilomètres kilómetros Dezimeter millimetre Hectometres kilometers nmi").split()),
    (["--easting", "eastingDecimeters", "--northing", "y"], "id,date,eastingDecimeters,y", f"column 3 'eastingDecimeters' says Decimeters{METRES}"),
    (["--easting", "x..decimetres.", "--northing", "y"], "id,date,x..decimetres.,y", f"column 3 'x..decimetres.' says decimetres{METRES}"),
    (["--easting", "x", "--northing", "y [smoots]"], "id,date,x,y [smoots]", f"column 4 'y [smoots]' says smoots{UNKNOWN_METRES}"),
    (["--lon", "lon", "--lat", "lat (grads)"], "id,date,lon,lat (grads)", f"column 4 'lat (grads)' says grads{DEGREES}"),
    (["--lon", "lonArcmin", "--lat", "lat"], "id,date,lonArcmin,lat", f"column 3 'lonArcmin' says Arcmin{DEGREES}"),
    (["--lon", "lonE7", "--lat", "latE7"], "id,date,lonE7,latE7", f"column 3 'lonE7' says E7{DEGREES}"),
    (["--lon", "lon (1e-7)", "--lat", "lat"], "id,date,lon (1e-7),lat", f"column 3 'lon (1e-7)' says e-7{DEGREES}"),
    (["--lon", "lon (ms)", "--lat", "lat"], "id,date,lon (ms),lat", f"column 3 'lon (ms)' says ms{UNKNOWN_DEGREES}"),
    (["--lon", "lon", "--lat", "lat (Zaunkoenig)"], "id,date,lon,lat (Zaunkoenig)", f"column 4 'lat (Zaunkoenig)' says Zaunkoenig{UNKNOWN_DEGREES}"),
    *((["--easting", title, "--northing", "b"], f"id,date,{title},b", f"column 3 '{title}' says {word}{METRES}") for title, word in (
        ("xkm", "km"), ("Ykm", "km"), ("xdm", "dm"), ("eastkm", "km"), ("eastingcm", "cm"), ("x (километры)", "километры"), ("x (KILOMETRY)", "KILOMETRY"),
        ("x (kilo\u0301metros)", "kilo\u0301metros"), ("x (км)", "км"), ("x (千米)", "千米"))),
    *((["--lon", title, "--lat", "b"], f"id,date,{title},b", f"column 3 '{title}' says {word}{DEGREES}") for title, word in (
        ("lonrad", "rad"), ("Longitudegon", "gon"), ("lon (radiány)", "radiány"), ("lon (Grad)", "Grad"))),
    *((["--easting", f"x {word}", "--northing", "y"], f"id,date,x {word},y", NO_RECORD) for word in (
        "(m)", "[metres]", "(UTM)", "(UTM 33N)", "{EPSG:2154}", "(Mètres)", "(raw)", "perimeter", "milestone", "()", "(°)", "(м)", "(metry)", "(метры)", "(METRIÄ)", "(米)", "(公尺)", "(JTSK)", "(S-JTSK)",
        "(Krovák)", "(krovak)", "(grid)", "(Amersfoort)", "(fix)", "(nest)", "(východ)", "nightkm", "maxkm")),
    *((["--lon", f"lon {word}", "--lat", "lat"], f"id,date,lon {word},lat", NO_RECORD) for word in (
        "(deg)", "[°]", "(WGS84)", "(decimal degrees)", "(E)", "graduate", "E12", "e_7", "(best)", "(Ost)", "(Greenwich)", "(décimal)", "(graden)",
        "(Dezimalgrad)", "(度)")),
    *((["--lon", title, "--lat", "b"], f"id,date,{title},b", NO_RECORD) for title in (
        "Länge (Dezimalgrad)", "Lengte (graden)", "Délka (stupně)", "De\u0301lka (stupne\u030c)", "Долгота (градусы)", "pituus (astetta)", "经度 (度)", "conrad", "Länge (Grad)", "Längdgrad [grad]")),
    ([], "id,date,easting,northing,Easting,Northing", "column 3 'easting' and column 5 'Easting' both fit the easting: name one, as by --easting easting"),
    ([], "id,date,x,y,X,Y", NO_RECORD),
    ([], "id,date,easting,northing,Easting", NO_RECORD),
    ([], "id,date,longitude,latitude,Longitude,Latitude", "column 3 'longitude' and column 5 'Longitude' both fit the longitude: name one, as by --lon longitude"),
    (["--lon", "longitude", "--lat", "latitude"], "id,date,longitude,latitude,Longitude,Latitude", NO_RECORD),
    ([], "id,date,x,y,X", NO_RECORD),
    *(([], f"id,date,x,y,{title}", f"column 5 '{title}' may have marks, but is not read: rename or remove it{NO_MARKS}") for title in (
        "Outlier (y/n)", "outlier?", "outlier_flag", "flagOutlier", "visible (Movebank)", "isInvalid", "is.valid.fix", "outlier1", "Ausreißer", "Gültig", "gultig", "UNGÜLTIG", "avvikare", "uitbijter", "Válido", "va\u0301lido", "neplatné",
        "выброс", "Aykırı değer")),
    *(([], f"id,date,x,y,{title}", NO_RECORD) for title in (
        "argos:valid-location-algorithm", "outlier comments", "validity", "visibility", "invalidated", "visible satellites", "satsVisible", "validierung", "gültigkeit")),
    ([], "id,date,x,y,use,outlier_flag", NO_RECORD),
    (["--time", "UTC -11"], "id,UTC -11,lon,lat", f"column 2 'UTC -11' says UTC -11{UTC}Etc/GMT+11"),
    (["--time", "day,Local.time"], "id,day,Local.time,lon,lat", f"column 3 'Local.time' says Local{UTC}Europe/Ljubljana"),
    (["--from", "vectronic", "--time", "LMT_Date,LMT_Time", "--time-format", "%d.%m.%Y %H:%M:%S"], "AnimalID,CollarID,LMT_Date,LMT_Time,Longitude,Latitude",
     f"column 3 'LMT_Date' says LMT{UTC}Europe/Ljubljana"),
    (["--from", "ornitela", "--tz", "Europe/Vienna"], "device_id,UTC_datetime,Longitude,Latitude",
     "column 2 'UTC_datetime' says UTC, and --tz is Europe/Vienna: leave --tz out, or rename the column"),
    (["--from", "lotek", "--tz", "Etc/GMT-2"], "Device ID,Date & Time [GMT],Longitude,Latitude",
     "column 2 'Date & Time [GMT]' says GMT, and --tz is Etc/GMT-2: leave --tz out, or rename the column"),
    (["--name", "fox"], "id,date,x,y", "column 1 'id' is that of the animal, and --name is for tables without one: leave --name out, or rename the column"),
    (["--name", "fox", "--animal", "Tier"], "Tier,date,x,y",
     "column 1 'Tier' is that of the animal, and --name is for tables without one: leave --name out, or rename the column"),
    (["--easting", "utm-northing", "--northing", "utm-easting"], UTM,
     "column 5 'utm-zone' is read beside utm-easting and utm-northing alone: rename or remove it"),
]
# Signs that look like a hyphen, and blanks that do not break.
MINUSES = ("\u2212", "\u2010", "\u2011", "\u2012", "\u2013", "\u2014", "\u2015", "\ufe63", "\uff0d")
BLANKS = ("\u00a0", "\u202f", "\u2009", "\ufeff", "\u3000")
# Titles of times that say another clock than that of UTC, by which word, and which zone is asked for.
CLOCKS = [
    *((f"time ({word})", word, EXAMPLE) for word in (
        "local localtime localdate LMT CET CEST MEZ MESZ EST EDT CST CDT MST MDT PST PDT HST AKST AKDT ADT NST NDT BRT CLT BST EET EEST MSK WAT "
        "SAST HKT SGT JST KST AWST ACST ACDT AEST AEDT NZST NZDT").split()),
    ("eet", "eet", EXAMPLE),
    ("Bst_Time", "Bst", EXAMPLE),
    ("date.msk", "msk", EXAMPLE),
    ("AKST or AKDT", "AKST", EXAMPLE),
    ("time UTC or SAST", "SAST", EXAMPLE),
    ("time (Europe/Vienna)", "Europe/Vienna", "Europe/Vienna"),
    ("timestamp Africa/Nairobi", "Africa/Nairobi", "Africa/Nairobi"),
    ("America/Argentina/Buenos_Aires", "America/Argentina/Buenos_Aires", "America/Argentina/Buenos_Aires"),
    ("time_America/Port-au-Prince", "America/Port-au-Prince", "America/Port-au-Prince"),
    ("America/Port_of_Spain_time", "America/Port_of_Spain", "America/Port_of_Spain"),
    ("Africa/Dar_es_Salaam.time", "Africa/Dar_es_Salaam", "Africa/Dar_es_Salaam"),
    ("date-Europe/Vienna-2024", "Europe/Vienna", "Europe/Vienna"),
    ("[US/Eastern]", "US/Eastern", "US/Eastern"),
    ("Etc/GMT-3", "Etc/GMT-3", "Etc/GMT-3"),
    ("time {Etc/GMT+11}", "Etc/GMT+11", "Etc/GMT+11"),
    ("time (europe/vienna)", "europe/vienna", EXAMPLE),
    ("local time (Europe/Vienna)", "Europe/Vienna", "Europe/Vienna"),
    ("UTC Asia/Tokyo", "Asia/Tokyo", "Asia/Tokyo"),
    ("time (+3)", "+3", "Etc/GMT-3"),
    ("time +02:00", "+02:00", "Etc/GMT-2"),
    ("time +10", "+10", "Etc/GMT-10"),
    ("time_+3", "+3", "Etc/GMT-3"),
    ("time+02:00", "+02:00", "Etc/GMT-2"),
    ("cas SELC", "SELC", EXAMPLE),
    ("mi\u0301stni\u0301 c\u030cas", "mi\u0301stni\u0301", EXAMPLE),
    ("当地时间", "当地时间", EXAMPLE),
    ("time (+2h)", "+2", "Etc/GMT-2"),
    ("time (GMT + 2)", "GMT + 2", "Etc/GMT-2"),
    ("time_utc_plus_2", "utc_plus_2", "Etc/GMT-2"),
    ("UTC plus 2", "UTC plus 2", "Etc/GMT-2"),
    ("UTC + 2", "UTC + 2", "Etc/GMT-2"),
    ("utc_minus_3", "utc_minus_3", "Etc/GMT+3"),
    ("UTC minus 10", "UTC minus 10", "Etc/GMT+10"),
    ("time +5.5", "+5.5", None),
    ("time (UTC+5.75)", "UTC+5.75", None),
    ("time (UTC+5:30)", "UTC+5:30", None),
    ("time UTC plus 5.30", "UTC plus 5.30", None),
    ("time..UTC.2.", "UTC.2", None),
    ("time..GMT.03.00.", "GMT.03.00", None),
    ("time_utc_5", "utc_5", None),
    ("LocalTimestamp", "Local", EXAMPLE),
    ("timeLocal", "Local", EXAMPLE),
    ("Lokalzeit", "Lokalzeit", EXAMPLE),
    ("heure locale", "locale", EXAMPLE),
    ("ora.locale", "locale", EXAMPLE),
    ("time (LT)", "LT", EXAMPLE),
    ("timeCET", "CET", EXAMPLE),
    ("time [-5]", "-5", "Etc/GMT+5"),
    ("time -05:00", "-05:00", "Etc/GMT+5"),
    ("time (-0300)", "-0300", "Etc/GMT+3"),
    ("time ( +1:00 )", "+1:00", "Etc/GMT-1"),
    ("time {+1200; NZ}", "+1200", "Etc/GMT-12"),
    ("time (UTC)+2", "+2", "Etc/GMT-2"),
    ("time UTC (+2)", "+2", "Etc/GMT-2"),
    ("time (UTC+02:00)", "UTC+02:00", "Etc/GMT-2"),
    ("GMT-0800", "GMT-0800", "Etc/GMT+8"),
    ("CET (+01)", "+01", "Etc/GMT-1"),
    ("time (+14)", "+14", "Etc/GMT-14"),
    ("time (-13)", "-13", None),
    ("time +9:30", "+9:30", None),
    *((f"time (UTC{sign}3)", f"UTC{sign}3", "Etc/GMT+3") for sign in MINUSES),
    *((f"time UTC {sign}03:00", f"UTC {sign}03:00", "Etc/GMT+3") for sign in MINUSES),
    *((f"time ({sign}3)", f"{sign}3", "Etc/GMT+3") for sign in MINUSES),
    *((f"time (UTC{blank}-3)", f"UTC{blank}-3", "Etc/GMT+3") for blank in BLANKS),
    *((f"time{blank}-05:00{blank}", "-05:00", "Etc/GMT+5") for blank in BLANKS),
    ("time (UTC \u2212 3)", "UTC \u2212 3", "Etc/GMT+3"),
    ("utc_\u2013_10", "utc_\u2013_10", "Etc/GMT+10"),
    ("time \uff08UTC\uff0d3\uff09", "UTC\uff0d3", "Etc/GMT+3"),
    ("时间\uff08UTC\uff0b8\uff09", "UTC\uff0b8", "Etc/GMT-8"),
    ("time\uff08CET\uff09", "CET", EXAMPLE),
    ("time\u3000CET", "CET", EXAMPLE),
    ("时间\uff1aEurope/Vienna", "Europe/Vienna", "Europe/Vienna"),
    ("time (GMT\u22125:30)", "GMT\u22125:30", None),
    ("local +0530", "local", EXAMPLE),
    ("time [-03:30]", "-03:30", None),
    *((title, title.split()[at], EXAMPLE) for title, at in (
        ("místní čas", 0), ("MÍSTNÍ ČAS", 0), ("mistni cas", 0), ("čas lokální", 1), ("lokalni čas", 0), ("Krajevni čas", 0), ("miestny čas", 0), ("lokalno vrijeme", 0), ("paikallinen aika", 0),
        ("Paikallisaika", 0), ("plaatselijke tijd", 0), ("lokale tijd", 0), ("lokaltid", 0), ("lokal tid", 0), ("Lokal tidspunkt", 0), ("местное время", 0), ("Местное время", 0), ("МЕСТНОЕ ВРЕМЯ", 0),
        ("czas lokalny", 1), ("czas miejscowy", 1), ("hora local", 1), ("horário local", 1), ("ora locale", 1), ("helyi idő", 0), ("ora locală", 1), ("čas SEČ", 1), ("Время МСК", 1))),
]
# Titles of times that say the clock of UTC, and by which word.
OF_UTC = [
    ("time (Etc/UTC)", "Etc/UTC"), ("Etc/GMT", "Etc/GMT"), ("time etc/gmt+0", "etc/gmt+0"), ("time [Etc/Zulu]", "Etc/Zulu"), ("time (+0)", "+0"),
    ("time +00:00", "+00:00"), ("time -00:00", "-00:00"), ("time (-0)", "-0"), ("time {+0000}", "+0000"), ("UTC (+0)", "UTC"), ("UTC+0", "UTC"),
    ("time (Z)", "Z"), ("time UTC - 2024", "UTC"), ("utc plus", "utc"), ("timeUTC", "UTC"), ("time_utc_24", "utc"), ("time..UTC.0.", "UTC"),
    ("Sommerzeit (UTC)", "UTC"), ("Mountain time (UTC)", "UTC"), ("time UTC (Eisenstadt)", "UTC"), ("time (Zulu)", "Zulu"), ("Universal time", "Universal"),
    ("Greenwich Mean Time", "Greenwich"), ("Weltzeit", "Weltzeit"), ("světový čas", "světový"), ("SVĚTOVÝ ČAS", "SVĚTOVÝ"), ("univerzalni čas", "univerzalni"), ("yleisaika", "yleisaika"),
    ("wereldtijd", "wereldtijd"), ("Universell tid", "Universell"), ("verdenstid", "verdenstid"), ("världstid", "världstid"), ("всемирное время", "всемирное"), ("время по Гринвичу", "Гринвичу"),
    ("时间\uff08UTC\uff09", "UTC"), ("time\uff08Z\uff09", "Z"), ("time (Etc/GMT\u22120)", "Etc/GMT"), ("time (UTC\u22120)", "UTC"),
    ("czas uniwersalny", "uniwersalny"), ("tempo universale", "universale"), ("temps universel", "universel"), ("egyetemes idő", "egyetemes"), ("letní čas (UTC)", "UTC"), ("czas GMT", "GMT"),
]
# Titles of times that say no clock.
NO_CLOCKS = [
    "time \u2212 2", "date\u20132024", "time\u20142", "日期\uff08时间\uff09", "time\uff08GPS\uff09", "date 2024\u201305\u201301",
    "x+1", "time-2", "fix-1", "date_2024-05-01", "+3", "time+2", "time -2", "time -0530", "time - 05:00", "time + 2",
    "date 2024 -05-01", "time +02:00:00", "time (+15)", "time +2:60", "time (+123)", "time (-9999)", "time +2hours", "time (+2-3)", "time +5.3", "time (+5.)",
    "time_z", "z", "cat", "time cat", "EAT", "Ist", "ist_zeit", "Art", "pet_time", "cot", "time west", "wet time", "Ast", "Pkt.Zeit", "best time", "time/Asia",
    "Date (EU/US)", "date/time", "Asia/2024", "Asia", "Eurasia/Vienna", "time (raw)", "time (GPS)", "time [sensor]", "time..raw.", "GPS Fix Time", "start time",
    "time (s)", "time (sec)", "sec", "time sec", "time (uur)", "čas (hodina)", "DATE ET HEURE", "date et heure", "et_time", "ct_time", "时间", "日期 (时间)", "time (fix)", "Date (YYYYMMDD)", "Datum (TTMMJJJJ)", "Time (hhmm)", "timestamp (ISO)", "time (posixct)", "standardized time", "time standard",
    "summer", "winter_date", "vienna_fix", "Date...Time.", "time.", "date (d)", "central_fix", "čas", "ČAS", "datum a čas", "Datum in ura", "aika", "päivämäärä ja kello", "datum en tijd", "Dato og klokkeslett",
    "tidpunkt", "время", "Дата и время", "data i godzina", "data e hora", "data e ora", "dátum és idő", "Date et heure", "letni_datum", "nyári dátum", "zimowy_fix",
]
# Titles of times that say a clock, by which word, another zone that is named, and the zone of the remedy.
OTHER_CLOCKS = [
    ("time (UTC\u22123)", "UTC\u22123", "Etc/GMT-3", "Etc/GMT+3"), ("time (UTC \u20133)", "UTC \u20133", "UTC", "Etc/GMT+3"), ("Etc/GMT\u22123", "Etc/GMT\u22123", "UTC", EXAMPLE),
    ("time (UTC+2)", "UTC+2", "Etc/GMT+2", "Etc/GMT-2"), ("time (+3)", "+3", "UTC", "Etc/GMT-3"), ("time -05:00", "-05:00", "Etc/GMT+6", "Etc/GMT+5"),
    ("time (Europe/Vienna)", "Europe/Vienna", "America/New_York", "Europe/Vienna"), ("time (CET)", "CET", "Etc/UTC", EXAMPLE),
    ("time (Asia/Tokyo)", "Asia/Tokyo", "UTC", "Asia/Tokyo"), ("time +5.5", "+5.5", "GMT", None), ("utc_plus_2", "utc_plus_2", "Etc/GMT+5", "Etc/GMT-2"),
    ("time (UTC + 2)", "UTC + 2", "Etc/GMT+5", "Etc/GMT-2"), ("time (UTC + 2)", "UTC + 2", "Etc/GMT+2", "Etc/GMT-2"),
    ("time..UTC.2.", "UTC.2", "Etc/GMT-3", None), ("time (UTC+5:30)", "UTC+5:30", "Etc/GMT-5", None), ("time (CEST)", "CEST", "UTC", EXAMPLE),
]
# Titles of times that say the clock of a season or of a place, and by which word.
PLACES = [
    ("Sommerzeit", "Sommerzeit"), ("Winterzeit", "Winterzeit"), ("summer time", "summer"), ("time (winter)", "winter"), ("Zeit_Sommer", "Sommer"),
    ("daylight time", "daylight"), ("standard time", "standard"), ("StandardTime", "Standard"), ("heure d'été", "été"), ("Heure d'hiver", "hiver"),
    ("hora de verano", "verano"), ("hora Chile", "Chile"), ("time Argentina", "Argentina"), ("time ET", "ET"), ("TIME_PT", "PT"), ("北京时间", "北京时间"), ("Letni\u0301 c\u030cas", "Letni\u0301"), ("Pacific time", "Pacific"), ("Mountain time", "Mountain"), ("time (Central)", "Central"), ("Central", "Central"),
    ("Eastern", "Eastern"), ("timestamp_eastern", "eastern"), ("Alaska time", "Alaska"), ("Atlantic Date", "Atlantic"), ("Vienna time", "Vienna"),
    ("time\uff08Vienna\uff09", "Vienna"), ("time\uff08Eisenstadt\uff09", "Eisenstadt"), ("时间\uff08Eisenstadt)", "Eisenstadt"),
    ("time (Vienna)", "Vienna"), ("time..Vienna.", "Vienna"), ("Berlin", "Berlin"), ("Uhrzeit Wien", "Wien"), ("time (Los Angeles)", "Angeles"),
    ("Fecha (Santiago)", "Santiago"), ("time (Eisenstadt)", "Eisenstadt"), ("time (Österreich)", "Österreich"), ("time..Eisenstadt.", "Eisenstadt"),
    ("time [ Kaffeklubben ]", "Kaffeklubben"), ("(Eisenstadt)", "Eisenstadt"), ("time (IST)", "IST"), ("time (EAT)", "EAT"), ("date (solar)", "solar"),
    *((title, title.split()[at]) for title, at in (
        ("letní čas", 0), ("LETNÍ ČAS", 0), ("zimní čas", 0), ("letný čas", 0), ("poletni čas", 0), ("zimski čas", 0), ("ljetno vrijeme", 0), ("kesäaika", 0), ("KESÄAIKA", 0), ("talviaika", 0), ("zomertijd", 0),
        ("Wintertijd", 0), ("sommertid", 0), ("Vintertid", 0), ("normaltid", 0), ("sommartid", 0), ("летнее время", 0), ("Зимнее время", 0), ("московское время", 0), ("czas letni", 1), ("czas zimowy", 1),
        ("horário de verão", 2), ("HORÁRIO DE VERÃO", 2), ("hora de inverno", 2), ("ora solare", 1), ("ora estiva", 1), ("nyári idő", 0), ("téli idő", 0), ("středoevropský čas", 0),
        ("srednjeevropski čas", 0), ("Suomen aika", 0), ("ora di Roma", 2))),
    ("HEURE D'ÉTÉ", "ÉTÉ"),
]
# Such titles, whose clock may be that of UTC.
OF_LANDS = [("hora oficial", "oficial"), ("Official time", "Official"), ("ora legale", "legale"), ("heure légale", "légale"), ("civil time", "civil")]
# Titles of longitudes that say the west, and of latitudes that say the south, and by which word.
LONGITUDES = [
    ("经度\uff08W\uff09", "W"), ("Longitude\uff0fW", "W"), ("Longitude\u3000W", "W"), ("lon\uff1aWest", "West"), ("lon\uff08West\uff09GPS", "West"), ("Longitude\ufeffW", "W"),
    ("Longitude West", "West"), ("longitude_W", "W"), ("Lon (W)", "W"), ("Long W", "W"), ("degrees west", "west"), ("Westing", "Westing"), ("lon_w", "w"),
    ("Lon (°W)", "W"), ("W", "W"), ("°W", "W"), ("W Longitude", "W"), ("Long. W.", "W"), ("Lon..W.", "W"), ("lonWest", "West"), ("lon_w_dd", "w"),
    ("Longitude (Western hemisphere)", "Western"), ("degrees west of Greenwich", "west"), ("Longitud Oeste", "Oeste"), ("longitude ouest", "ouest"),
    ("Longitudine (ovest)", "ovest"), ("Länge westlich", "westlich"), ("Longitude (O)", "O"), ("Longitud O", "O"), ("Longitude W (Garmin)", "W"),
    ("Longitude West [deg]", "West"), ("West", "West"), ("lon (positive W)", "W"), ("longitude (west of Greenwich)", "west"), ("lon west WGS84", "west"), ("Lon W GPS", "W"), ("západní délka", "západní"), ("ZÁPADNÍ DÉLKA", "ZÁPADNÍ"), ("zapadni delka", "zapadni"),
    ("za\u0301padni\u0301 de\u0301lka", "za\u0301padni\u0301"), ("západní zeměpisná délka", "západní"), ("długość zachodnia", "zachodnia"), ("batı boylamı", "batı"), ("BATI", "BATI"),
    ("nyugati hosszúság", "nyugati"), ("läntinen pituus", "läntinen"), ("lantinen", "lantinen"), ("западная долгота", "западная"), ("ΔΥΤΙΚΟ ΜΗΚΟΣ", "ΔΥΤΙΚΟ"), ("västlig longitud", "västlig"),
    ("zahodna dolžina", "zahodna"), ("westerlengte", "westerlengte"), ("西经", "西经"), ("经度(西经)", "西经"), ("southing", "southing"),
]
LATITUDES = [
    ("纬度\uff08S\uff09", "S"), ("纬度\uff08南纬\uff09", "南纬"),
    ("Latitude South", "South"), ("lat_S", "S"), ("lat_s", "s"), ("Lat (°S)", "S"), ("Lat (deg S)", "S"), ("Southing", "Southing"), ("S", "S"),
    ("South latitude", "South"), ("Breite (südlich)", "südlich"), ("Breite Süd", "Süd"), ("latitud sur", "sur"), ("Latitude Sul", "Sul"), ("latitude sud", "sud"),
    ("Lat..S.", "S"), ("latSouth", "South"), ("Lat S dd", "S"), ("southern latitude", "southern"), ("lat (sued)", "sued"), ("южная широта", "южная"), ("ЮЖНАЯ ШИРОТА", "ЮЖНАЯ"), ("güney enlemi", "güney"), ("déli szélesség", "déli"),
    ("eteläinen leveys", "eteläinen"), ("jižní šířka", "jižní"), ("južna širina", "južna"), ("szerokość południowa", "południowa"), ("sørlig bredde", "sørlig"), ("νότιο πλάτος", "νότιο"), ("南纬", "南纬"),
]
# Titles of eastings that say the west or the south, and of northings.
EASTINGS = [("Westing", "Westing"), ("westings (m)", "westings"), ("x_west", "west"), ("X (West)", "West"), ("Easting (West)", "West"), ("x ouest", "ouest"), ("Southing", "Southing")]
NORTHINGS = [("Southing", "Southing"), ("y (south)", "south"), ("coord_y_south_m", "south"), ("Y süd", "süd"), ("westing", "westing"), ("south_northing", "south"), ("y (south grid)", "south")]
# Titles of two coordinates that say no such side.
NO_SIDES = [
    ("lon", "lon_wgs84", "lat_wgs84"), ("lon", "lon_s", "lat_s"), ("lon", "lon_W", "lat_W"), ("lon", "Lon (E/W)", "Lat (N/S)"), ("lon", "lon_deg", "lat_deg"),
    ("lon", "Longitude (East or West)", "Latitude (North or South)"), ("lon", "lon (west negative)", "lat (minus = south)"), ("lon", "lon s.d.", "lat s.d."),
    ("lon", "lon West Papua", "lat South Georgia"), ("lon", "Länge (O)", "Breite (N)"), ("lon", "lon_s1", "lat_s1"), ("lon", "longitude WGS", "latitude WGS"),
    ("easting", "x_swiss", "y_swiss"), ("easting", "X South Africa", "Y South Africa"), ("easting", "x_W", "y_S"), ("easting", "x_s", "y_s"),
    ("easting", "Easting (UTM 36 South)", "Northing (UTM 36 South)"), ("easting", "x_lambert_sud", "y_lambert_sud"), ("easting", "x_west_coast", "y_south_coast"),
    ("lon", "východní délka", "severní šířka"), ("lon", "délka (východ/západ)", "šířka (sever/jih)"), ("lon", "东经", "北纬"),
    ("easting", "Easting/Westing", "Northing/Southing"), ("easting", "x west camera", "y sur carte"),
]
# Titles of longitudes that say the latitude, of latitudes that say the longitude, and of eastings and northings likewise.
OF_NORTH = [
    ("Latitude", "Latitude"), ("lat", "lat"), ("gps.lat", "lat"), ("Breite", "Breite"), ("GEO_BREITENGRAD", "BREITENGRAD"), ("geogr. Breite (°)", "Breite"),
    ("zeměpisná šířka", "šířka"), ("Šířka", "Šířka"), ("Широта", "Широта"), ("szerokość geogr.", "szerokość"), ("latitud (grados)", "latitud"), ("Northing", "Northing"), ("zemepisna sirka", "sirka"), ("szerokosc", "szerokosc"), ("s\u030ci\u0301r\u030cka", "s\u030ci\u0301r\u030cka"),
    ("UTM_N", "N"), ("N_utm", "N"), ("utmN", "N"), ("纬度", "纬度"), ("GPS纬度", "GPS纬度"), ("enlem", "enlem"), ("ΠΛΑΤΟΣ", "ΠΛΑΤΟΣ"),
    ("Hochwert", "Hochwert"), ("utm_northing_m", "northing"), ("north", "north"), ("N", "N"), ("Nord", "Nord"),
]
OF_EAST = [
    ("Longitude", "Longitude"), ("lon", "lon"), ("long_wgs84", "long"), ("Länge", "Länge"), ("GPS LONGITUDE", "LONGITUDE"), ("dolžina", "dolžina"),
    ("Долгота", "Долгота"), ("Rechtswert", "Rechtswert"), ("Easting", "Easting"), ("UTM33N_Easting", "Easting"), ("E", "E"), ("est", "est"),
    ("DELKA", "DELKA"), ("dlugosc geogr.", "dlugosc"), ("UTM_E", "E"), ("E_utm", "E"), ("经度", "经度"), ("経度", "経度"), ("boylam", "boylam"), ("ilguma", "ilguma"),
]
# Titles of two coordinates that say no other axis.
NO_AXES = [
    ("lon", "lon_lat", "lat_lon"), ("lon", "x", "y"), ("lon", "long (N/S: lat)", "lat (E/W: lon)"), ("easting", "y", "x"), ("easting", "X", "Y"), ("easting", "Y (PL-2000)", "X (PL-2000)"),
    ("easting", "latlong_x", "latlong_y"), ("easting", "x_utm33n", "y_utm33n"), ("easting", "x UTM 33 North", "y UTM 33 North"), ("easting", "E_north_grid", "N_east_grid"),
    ("lon", "lateral_x", "longest_y"), ("easting", "Rechtswert", "Hochwert"), ("easting", "E", "N"), ("easting", "Ost", "Nord"),
    ("easting", "UTM_E", "UTM_N"), ("easting", "oest", "nord"), ("easting", "x_utm_n", "y_utm_e"), ("lon", "经度", "纬度"), ("lon", "Délka", "Šířka"), ("easting", "E_UTM33N", "N_UTM33N"),
]
# Titles of coordinates in metres, and in degrees, that say a multiple or a part of their unit, and how.
MULTIPLES = [
    ("E_100m", "100m"), ("x (10 m)", "10 m"), ("x1000", "x1000"), ("easting (x 100)", "x 100"), ("northing [100 m]", "100 m"), ("in 100 m", "100 m"),
    ("X_10cm", "cm"), ("x (1000)", "1000"), ("x*100", "*100"), ("x × 10", "× 10"), ("easting/1000", "/1000"), ("x (m/10)", "/10"), ("x (1/10 m)", "10 m"),
    ("x (0.1 m)", "0.1 m"), ("x 1.000 m", "1.000 m"), ("x 10^3", "10^3"), ("x 1e3", "1e3"), ("x (10³)", "10³"), ("x 10**-2", "10**-2"), ("y x10", "x10"),
    ("easting (hundreds of m)", "hundreds"), ("x..10.m.", "10.m"), ("easting..x.100.", "x.100"), ("x 10 metres", "10 metres"), ("x_10_m", "10_m"), ("x X10", "X10"),
]
MULTIPLES_OF_DEGREES = [
    ("lat x10^7", "10^7"), ("lon*1e6", "e6"), ("lon*1000", "*1000"), ("lon (1000 deg)", "1000 deg"), ("lon (100°)", "100°"), ("lon_x_1000", "x_1000"),
    ("lon (millionths)", "millionths"), ("lon·100", "·100"), ("lon 10⁷", "10⁷"),
]
# Titles of coordinates in metres that say none.
NO_MULTIPLES = [
    "x1", "x2", "x_utm33", "X_3857", "utm_x_100", "x_25833", "coord.x1", "x_utm10_m", "Easting UTM10 (m)", "UTM zone 10 m", "x_1000", "x10", "E_25m", "x (1 m)",
    "x 2.10 m", "x 01/10/2024", "x 1.0 m", "x_10_mean", "10th x",
]
# Options and titles of times that are taken, with or without them.
TAKEN = [
    *(([], title) for title in NO_CLOCKS),
    *((options, title) for title, _ in OF_UTC for options in ([], ["--tz", "UTC"], ["--tz", "Etc/GMT"])),
    *((["--tz", zone if "/" in word else "Africa/Nairobi"], title) for title, word, zone in CLOCKS if zone and word != "europe/vienna"),
    *((["--tz", "Africa/Nairobi"], title) for title, _, zone in CLOCKS if zone is None),
    *((["--tz", zone], title) for title, _ in [*PLACES, *OF_LANDS] for zone in ("Europe/Vienna", "America/New_York")),
    *((["--tz", "UTC"], title) for title, _ in OF_LANDS),
    (["--tz", "Etc/GMT-2"], "time (UTC+2)"), (["--tz", "UTC"], "local time"), (["--tz", "UTC"], "heure locale"), (["--tz", "Etc/GMT-2"], "utc_plus_2"), (["--tz", "Etc/GMT+2"], "time..UTC.2."),
    (["--tz", "Etc/GMT-2"], "time..UTC.2."), (["--tz", "Etc/GMT+11"], "time {Etc/GMT+11}"),
    *((["--tz", "Etc/GMT+3"], f"time (UTC{sign}3)") for sign in MINUSES),
]


def of_clocks():
    """The refusals of titles that say a clock, and the line that is said of a table without records where its titles are taken."""
    for title, word, zone in CLOCKS:
        yield ["--time", title], title, f"column 2 '{title}' says {word}{UTC + zone if zone else OF_NO_ZONE + OFFSET}"
    for title, word in OF_UTC:
        yield (["--time", title, "--tz", "Africa/Nairobi"], title,
               f"column 2 '{title}' says {word}, and --tz is Africa/Nairobi: leave --tz out, or rename the column")
    for title, word, zone, own in OTHER_CLOCKS:
        yield (["--time", title, "--tz", zone], title,
               f"column 2 '{title}' says {word}, and --tz is {zone}{f': name its own zone, as by --tz {own}' if own else OFFSET}, or rename the column")
    for title, word in [*PLACES, *OF_LANDS]:
        yield ["--time", title], title, f"column 2 '{title}' says {word}{UTC}{EXAMPLE}, or rename the column"
    for title, word in PLACES:
        yield (["--time", title, "--tz", "UTC"], title,
               f"column 2 '{title}' says {word}, and --tz is UTC: name its own zone, as by --tz {EXAMPLE}, or rename the column")
    for options, title in TAKEN:
        yield ["--time", title, *options], title, NO_RECORD


def named(first, one, other):
    """The options that name two columns of coordinates, of which the first is of this option, and the titles of a table with them."""
    second = {"lon": "lat", "easting": "northing"}[first]
    return [f"--{first}", one, f"--{second}", other], f"id,date,{one},{other}"


def of_sides():
    """The refusals of titles of coordinates that say another side, and pairs of titles that are taken."""
    for first, name, is_second, cases in (("lon", "longitudes", False, LONGITUDES), ("lon", "latitudes", True, LATITUDES),
                                          ("easting", "eastings", False, EASTINGS), ("easting", "northings", True, NORTHINGS)):
        for title, word in cases:
            side = f"column {3 + is_second} '{title}' says {word}, and {name} are counted to the {'north' if is_second else 'east'}"
            yield (*named(first, *(("a", title) if is_second else (title, "b"))),
                   f"{side}: turn the signs of its numbers, unless they are counted so already, and rename the column")
    for first, one, other in NO_SIDES:
        yield *named(first, one, other), NO_RECORD


def of_axes():
    """The refusals of titles of coordinates that say the other one of the two, and pairs of titles that are taken."""
    for first, name, is_second, cases in (("lon", "longitude", False, OF_NORTH), ("lon", "latitude", True, OF_EAST),
                                          ("easting", "easting", False, OF_NORTH), ("easting", "northing", True, OF_EAST)):
        for title, word in cases:
            yield (*named(first, *(("a", title) if is_second else (title, "b"))),
                   f"column {3 + is_second} '{title}' says {word}, and is named as the {name}: name the two columns the other way round, or rename this one")
    for first, one, other in NO_AXES:
        yield *named(first, one, other), NO_RECORD


def of_multiples():
    """The refusals of titles of coordinates that say a multiple of their unit, and titles that are taken."""
    for title, said in MULTIPLES:
        yield *named("easting", title, "b"), f"column 3 '{title}' says {said}{METRES}"
    for title, said in MULTIPLES_OF_DEGREES:
        yield *named("lon", title, "b"), f"column 3 '{title}' says {said}{DEGREES}"
    for title in NO_MULTIPLES:
        yield *named("easting", title, "b"), NO_RECORD


def fault(program, options, titles, line):
    """How the program does not refuse a table of these titles, which has no record, with this line."""
    with tempfile.TemporaryDirectory() as name:
        (Path(name) / "table.csv").write_text(f"{titles}\n", encoding="utf-8")
        found = subprocess.run([program, *options, "table.csv"], capture_output=True, cwd=name, text=True)
        is_refused = found.returncode in (1, 2) and found.stderr == f"split: {line}\n" and not (Path(name) / "tracks").exists()
    return None if is_refused else f"status {found.returncode}: {found.stderr!r}"


def faults(program):
    """Each case with how the program does not do what it wants; None where it does."""
    clocks = ((options, f"id,{title},lon,lat", line) for options, title, line in of_clocks())
    for options, titles, line in (*REFUSED, *of_sides(), *of_axes(), *of_multiples(), *clocks):
        yield f"titles {' '.join([*options, titles])}", fault(program, options, titles, line)


def main():
    finish(list(faults(str(Path(sys.argv[1]).resolve()))))


if __name__ == "__main__":
    main()
