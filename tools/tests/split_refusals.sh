# Exports that are refused. The functions are those of split.sh.
# shellcheck shell=sh disable=SC2154

is_split_here 'awkward exports' || return 0

# An export of one record behind the titles, which is refused with this message.
refuses() {
    message=$1
    shift
    printf '%s\n' "$@" | split_to 1
    says "$message"
}
refuses 'record 1: there is no timestamp' "$head_line" 'a,,1,2,33N,'
refuses "record 1: timestamp is '01.05.2024 00:30' and not a time such as 2024-05-01 00:30:04" "$head_line" 'a,01.05.2024 00:30,1,2,33N,'
refuses "record 1: timestamp is '2024-05-01 00:30:00 CEST' and not" "$head_line" 'a,2024-05-01 00:30:00 CEST,1,2,33N,'
refuses "record 1: timestamp is '2024-02-30 00:30:00', which is no time" "$head_line" 'a,2024-02-30 00:30:00,1,2,33N,'
refuses "record 1: timestamp is '1969-12-31 23:59:59', which is no time since 1970" "$head_line" \
    'a,1969-12-31 23:59:59,1,2,33N,'
refuses "record 1: timestamp is '2024-05-01 24:00:00', which is no time" "$head_line" 'a,2024-05-01 24:00:00,1,2,33N,'
refuses "record 1: utm-easting is '1234567890123' and not a number of up to 12 digits" "$head_line" \
    'a,2024-05-01 00:30:00,1234567890123,2,33N,'
refuses "record 2: utm-easting is '1 000' and not a number" "$head_line" 'a,,,,,' 'a,2024-05-01 00:30:00,1 000,2,33N,'
refuses "record 1: visible is 'FALSCH' and not true or false" "$head_line" 'a,2024-05-01 00:30:00,1,2,33N,FALSCH'
refuses 'record 1: 5 fields where 6 are wanted' "$head_line" 'a,2024-05-01 00:30:00,1,2,33N'
refuses 'there are no columns of usual titles for easting and northing, or longitude and latitude' 'animal,second,x' 'a,1,2'
refuses 'fixes lie in several zones (33N 2, 32N 1): make a table of each' "$head_line" 'a,2024-05-01 00:30:00,1,2,33N,' \
    'a,2024-05-01 00:30:00,1,2,33N,' 'b,2024-05-01 00:30:00,1,2,32N,'
refuses 'fixes lie in several zones (33N 1, 33S 1): make a table of each' "$head_line" 'a,2024-05-01 00:30:00,1,2,33N,' \
    'a,2024-05-01 00:30:00,1,2,33S,'
refuses 'record 1: -52.00 east and 2000.00 north is off the grid' "$head_line" 'a,2024-05-01 00:30:00,-52.3,2000,33N,'
refuses "animals 'a/b' and 'a_b' would both be named a_b" "$head_line" 'a/b,2024-05-01 00:30:00,1,2,33N,' \
    'a_b,2024-05-01 00:30:00,1,2,33N,' 'a_b,2024-05-01 00:30:00,1,2,33N,'
refuses 'record 1: a quote has no end' "$head_line" 'a,2024-05-01 00:30:00,1,2,33N,"tall' 'b,2024-05-01 00:30:00,1,2,33N,'
refuses 'no fix is left' "$head_line" 'a,2024-05-01 00:30:00,,,33N,'
printf '%s\n' 'time,x,y' '2024-05-01,1,2' | split_to 2 --name ''
says '--name: a name without control characters is wanted'
# Its number is written out, which R would write as 1e+05.
{
    echo 'id,time,x,y'
    yes 'a,2024-05-01,562000,5134000' | head -n 99999
    echo 'a,?,562000,5134000'
} | split_to 1
says "record 100000: time is '?' and not a time"
refuses 'export.csv is XML, and no table with titles: GPX is read by --from gpx' "<?xml version='1.0'?>$(printf '<trkpt>%.0s' 1 2 3 4 5 6 7 8 9)"
