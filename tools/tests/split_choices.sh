# Exports in which something has to be chosen or left out, and the record of a split. The functions are those of split.sh.
# shellcheck shell=sh disable=SC2154

is_split_here 'awkward exports' || return 0

first=$(stamp '2024-05-01 00:30:00')

# Fixes of several sensors make no range without being asked for.
sensors() {
    printf '%s\n' "$head_line,sensor-type" 'a,2024-05-01 00:30:00,1,2,33N,,gps' 'a,2024-05-01 00:40:00,3,4,33N,,gps' \
        'a,2024-05-01 00:50:00,90,4,33N,,argos-doppler-shift' 'b,2024-05-01 00:50:00,90,4,33N,false,' \
        'c,2024-05-01 00:50:00,90,4,33N,,argos-doppler-shift'
}
sensors | split_to 1
says 'fixes are of several sensors (argos-doppler-shift 2, gps 2): name those to take, such as --sensor argos-doppler-shift'
sensors | split_to 0 --sensor gps
printf '%s\n' animal,second,easting,northing "a,$first,1,2" "a,$((first + 600)),3,4" | makes a.csv
says '3 records of other sensors: left out'
says "no fix of 'c' is left: no file"
sensors | split_to 1 --sensor=gps,argos-doppler-shift,none --mark
says 'fixes are of Argos, most of whose classes are off by kilometres: name the classes to take, such as --argos-class 3,2,1'
sensors | split_to 0 --sensor=gps,argos-doppler-shift,none --mark --argos-class none
printf '%s\n' animal,second,easting,northing,use "b,$((first + 1200)),90,4,0" | makes b.csv
sensors | split_to 1 --sensor gsm,gps
says '--sensor: no fix is of gsm'

# Outliers that an algorithm found, or that were marked when the data came.
split_to 0 <<END
$head_line,algorithm-marked-outlier,import-marked-outlier
a,2024-05-01 00:30:00,1,2,33N,,,false
a,2024-05-01 00:40:00,3,4,33N,True,true,
a,2024-05-01 00:50:00,5,6,33N,,False,TRUE
END
printf '%s\n' animal,second,easting,northing "a,$first,1,2" | makes a.csv
says '2 outliers: left out'

# Rows of no animal.
unnamed() {
    printf '%s\n' "$head_line" 'a,2024-05-01 00:30:00,1,2,33N,' ',2024-05-01 00:40:00,3,4,33N,' ',,,,,'
}
unnamed | split_to 1
says 'record 2: there is no individual-local-identifier, and --skip-unnamed leaves such records out'
unnamed | split_to 0 --skip-unnamed
says '1 records have no animal: left out'
says '1 records have no coordinates: left out'
printf '%s\n' animal,second,easting,northing "a,$first,1,2" | makes a.csv

# Times as pandas and R write them: an offset of nothing, and midnight as a date alone.
split_to 0 <<END
$head_line
a,2024-05-01,1,2,33N,
a,2024-05-01 00:30:00+00:00,3,4,33N,
a,2024-05-01T00:30:00.5+00,5,6,33N,
END
printf '%s\n' animal,second,easting,northing "a,$((first - 1800)),1,2" "a,$first,3,4" "a,$first,5,6" | makes a.csv

# UTM coordinates without a zone: it is that of the longitude, or has to be named.
zoneless=individual-local-identifier,timestamp,utm-easting,utm-northing
printf '%s\n' "$zoneless,location-long,location-lat" 'a,2024-05-01 00:30:00,780000,5134000,17.9,46.3' \
    'b,2024-05-01 00:30:00,230000,5134000,18.1,46.3' 'a,,,,,' | split_to 1
says 'fixes lie in several zones (33N 1, 34N 1): name the zone of all, such as --zone 33N'
printf '%s\n' "$zoneless" 'a,2024-05-01 00:30:00,780000,5134000' | split_to 1
says 'record 1: there is no utm-zone: name that of its coordinates, such as --zone 33N'
printf '%s\n' "$zoneless" 'a,2024-05-01 00:30:00,780000,5134000' | split_to 0 --zone 33N
printf '%s\n' animal,second,easting,northing "a,$first,780000,5134000" | makes a.csv

# Numbers with points before thousands, as some write them where fields stand between semicolons.
semicolons=$(echo "$head_line" | tr , ';')
printf '%s\n' "$semicolons" 'a;2024-05-01 00:30:00;562.000;134.001;37N;' | split_to 1
says "record 1: utm-easting is '562.000', whose point may stand before thousands: export without it"
printf '%s\n' "$semicolons" 'a;2024-05-01 00:30:00;562000.4;5134001.000;37N;' | split_to 0
printf '%s\n' animal,second,easting,northing "a,$first,562000,5134001" | makes a.csv

# The fault that is told is that of the first record that has one.
printf '%s\n' "$head_line" 'a,2024-05-01 00:30:00,1,2,33N,maybe' 'a,2024-05-01 00:30:00,x,2,33N,' | split_to 1
says "record 1: visible is 'maybe' and not true or false"
printf '%s\n' "$head_line" 'a,never,1,2,33N,' ',2024-05-01 00:30:00,1,2,33N,' | split_to 1
says "record 1: timestamp is 'never' and not a time such as 2024-05-01 00:30:04"

# No text: a byte 0, another coding, no file.
printf '%s\na,2024-05-01 00:30:00,5620\00000,2,33N,\n' "$head_line" | split_to 1
says 'export.csv is no text: it has a byte 0'
printf '%s\nJ\344ger,2024-05-01 00:30:00,1,2,33N,\n' "$head_line" | split_to 1
says 'export.csv is no text in UTF-8'
echo "$head_line" | split_to 2 --unit km
says '--unit: km is neither m nor dm'
echo "$head_line" | split_to 2 --bogus
says '--bogus'

# The record of a split: the export and its checksum, the unit, the zone, the options, what was said, what was left out,
# the tracks and their checksums, and by what it was made.
printf '%s\n' "$head_line" 'a/b,2024-05-01 00:30:00,500001,2,33N,' 'a/b,2024-05-01 00:40:00,,,,' |
    split_to 0 --unit dm --na '\N' --tz UTC
makes split.txt <<END
export,export.csv
sha256,$(sha256sum <"$work/export.csv" | cut -c -64)
unit,dm
zone,33N
option,na,\\\\N
option,tz,UTC
said,--na: no field of the columns that are read is '\\N'
said,1 records have no coordinates: left out
said,UTM coordinates are those of the export; zone: 33N 1
said,columns: individual-local-identifier, timestamp, utm-easting, utm-northing; 1 animals, box 0.000 by 0.000 km near 15.0 E 0.0 N, from 2024-05-01 to 2024-05-01
said,animal 'a/b' is named a_b
left,a_b,1,coordinates
track,a_b,1,1,$(printf 'animal,second,easting,northing\na_b,1714523400,5000010,20\n' | sha256sum | cut -c -64)
tool,$("$splitter" --version)
END

# What became of each record, and a reference system, which the record of tracks keeps.
printf '%s\n' animal,timestamp,x,y,visible 'a/b,2024-05-01 00:30:00.25,3,4,' 'a/b,2024-05-01 00:10:00,1,2,false' 'c,2024-05-01 00:40:00,,,' \
    'a/b,2024-05-01 00:20:00,5,6,' | split_to 0 --records --crs 'EPSG:3035 (LAEA)'
makes records.txt <<END
record,file,second,nanosecond,reason
1,a_b,1714523400,250000000,
2,a_b,,,outlier
3,c,,,coordinates
4,a_b,1714522800,0,
END
holds 'the record has the reference system' grep -qx 'option,crs,EPSG:3035 (LAEA)' "$work/split/tracks/split.txt"
printf '%s\n' animal,timestamp,x,y 'a,2024-05-01 00:30:00,3,4' | split_to 0
holds 'what became of records is written only where that is asked' [ ! -e "$work/split/tracks/records.txt" ]

# What was read from a pipe has its own checksum; names of files are UTF-8 in whatever locale; a folder without a name.
rm -rf "$work/piped" "$work/plain"
printf '%s\n' "$head_line" 'J\303\244ger,2024-05-01 00:30:00,500001,2,33N,' | xargs -0 printf >"$work/export.csv"
LC_ALL=C "$splitter" --into "$work/piped" /dev/stdin <"$work/export.csv" 2>"$work/errors"
holds 'the checksum of what was read from a pipe' \
    grep -qx "sha256,$(sha256sum <"$work/export.csv" | cut -c -64)" "$work/piped/split.txt"
holds 'a name in UTF-8 in a locale without it' [ -f "$work/piped/Jäger.csv" ]
holds 'a folder without a name is refused' is_refused "$splitter" --into '' "$work/export.csv"
holds 'a folder that cannot be made is refused in a line' [ "$("$splitter" --into /dev/null/x "$work/export.csv" 2>&1)" = \
    'split: /dev/null/x: Not a directory' ]
