# Times out of order, and longitude and latitude alone. The functions are those of split.sh.
# shellcheck shell=sh disable=SC2154

is_split_here 'awkward exports' || return 0

# Times: not in order, twice the same, within one second; the hour that comes twice at the end of summer time.
split_to 0 <<END
$head_line
boar,2024-10-27 02:30:00,3,1,33N,
boar,2024-10-27 02:00:00.900,2,1,33N,
boar,2024-10-27 02:00:00.100,1,1,33N,
boar,2024-10-27 02:30:00,4,1,33N,
END
second=$(stamp '2024-10-27 02:00:00')
makes boar.csv <<END
animal,second,easting,northing
boar,$second,1,1
boar,$second,2,1
boar,$((second + 1800)),3,1
boar,$((second + 1800)),4,1
END
says '2 records of boar come before an earlier one: sorted by time'
says '2 records of boar have the second of the one before: kept'

# Longitude and latitude alone. The metres are those that examples/export.csv has beside them.
split_to 0 <<END
$degrees
vixen,2024-05-01 00:00:10,15.805899,46.356742
vixen,2024-05-01 01:30:02,15.807277,46.358710
END
makes vixen.csv <<END
animal,second,easting,northing
vixen,$(stamp '2024-05-01 00:00:10'),562000,5134001
vixen,$(stamp '2024-05-01 01:30:02'),562104,5134221
END
says 'longitude and latitude are projected into zone 33N; fixes by zone: 33N 2'
printf '%s\n' "$degrees" 'a,2024-05-01 00:30:00,15,1' 'a,2024-05-01 00:30:00,15,-1' | split_to 1
says 'fixes lie on both sides of the equator (33N 1, 33S 1): name the zone of all, such as --zone 33S'
# On the middle meridian of a zone eastings are 500000, and the equator is 10000000 north in a southern one.
printf '%s\n' "$degrees" 'a,2024-05-01 00:30:00,15,0' | split_to 0 --zone 33S
printf '%s\n' animal,second,easting,northing "a,$(stamp '2024-05-01 00:30:00'),500000,10000000" | makes a.csv

# A place with longitude and latitude 0 is a fix that failed.
printf '%s\n' "$degrees" 'a,2024-05-01 00:30:00,3,0' 'a,2024-05-01 00:40:00,0,0' 'a,2024-05-01 00:50:00,,' | split_to 0
says '1 records have longitude and latitude 0: left out'
says '1 records have no coordinates: left out'
printf '%s\n' animal,second,easting,northing "a,$(stamp '2024-05-01 00:30:00'),500000,0" | makes a.csv
printf '%s\n' "$degrees" 'a,2024-05-01 00:30:00,15,46' 'a,2024-05-01 00:40:00,15,95' | split_to 1
says 'record 2: there is no place of longitude'
