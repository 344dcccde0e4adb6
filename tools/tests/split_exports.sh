# The awkward exports. The functions are those of split.sh.
# shellcheck shell=sh disable=SC2154

is_split_here 'awkward exports' || return 0

# Outliers, of both columns, failed fixes, and metres that lie halfway.
split_to 0 <<END
$head_line,manually-marked-outlier
vixen,2024-05-01 00:00:10.000,562000.31,5134000.74,33N,true,
vixen,2024-05-01 00:30:04.900,561974.50,5133991.49,33N,TRUE,false
vixen,2024-05-01 00:40:00.000,648210.00,5201133.00,33N,false,
vixen,2024-05-01 00:50:00.000,562100.00,5134100.00,33N,true,true
vixen,2024-05-01 01:00:07.000,,,,true,
vixen,2024-05-01 01:30:02.000,NA,NA,NA,true,NA
END
makes vixen.csv <<END
animal,second,easting,northing
vixen,$(stamp '2024-05-01 00:00:10'),562000,5134001
vixen,$(stamp '2024-05-01 00:30:04'),561975,5133991
END
says '2 outliers: left out'
says '2 records have no coordinates: left out'

# The same with outliers marked, in decimetres.
split_to 0 --mark --unit dm <<END
$head_line
vixen,2024-05-01 00:00:10,562000.31,5134000.74,33N,true
vixen,2024-05-01 00:40:00,648210.00,5201133.00,33N,false
vixen,2024-05-01 00:41:00,0.5,5201133.00,12N,false
END
makes vixen.csv <<END
animal,second,easting,northing,use
vixen,$(stamp '2024-05-01 00:00:10'),5620003,51340007,1
vixen,$(stamp '2024-05-01 00:40:00'),6482100,52011330,0
END
says '1 outliers off the grid: left out'

# Excel: a byte order mark, semicolons, decimal commas, CRLF, no seconds, empty lines; columns as R renames them.
{
    printf '\357\273\277'
    printf '%s\r\n' 'individual.local.identifier;timestamp;utm.easting;utm.northing;utm.zone' \
        '"Jäger ""Q""";2024-05-01 00:30;562000,31;5134000,74;33N' '' '"Jäger ""Q""";2024-05-01 01:00;562001;5134002,5;33N'
} | split_to 0
makes 'Jäger _Q_.csv' <<END
animal,second,easting,northing
Jäger _Q_,$(stamp '2024-05-01 00:30:00'),562000,5134001
Jäger _Q_,$(stamp '2024-05-01 01:00:00'),562001,5134003
END

# Titles with blanks beside them, a title twice, a name with an end of a line, which is refused, and one with a quote.
printf '%s\r\n' 'individual-local-identifier, timestamp,utm-easting,utm-northing,utm-zone,visible ,visible' \
    '"a' 'b",2024-05-01 00:00:00,1,2,33N,true,false' '"c 5""",2024-05-01 00:00:00,1,2,33N,true,false' | split_to 1
says "column 6 'visible' and column 7 'visible' both fit visible: rename one"
printf '%s\r\n' 'individual-local-identifier, timestamp,utm-easting,utm-northing,utm-zone,visible ' \
    '"a' 'b",2024-05-01 00:00:00,1,2,33N,true' | split_to 1
says "record 1: the name of animal 'a\x0d\x0ab' has an end of a line: is a quote missing?"
printf '%s\r\n' 'individual-local-identifier, timestamp,utm-easting,utm-northing,utm-zone,visible ' \
    '"c 5""",2024-05-01 00:00:00,1,2,33N,true' '"c 5""",2024-05-01 00:00:00,1,2,33N,false' | split_to 0
printf '%s\n' animal,second,easting,northing "c 5_,$(stamp '2024-05-01 00:00:00'),1,2" | makes 'c 5_.csv'

# Names: slash, comma, quote, apostrophe, NA, export, 34 bytes; T..Z; more than 32 bits of seconds.
split_to 0 <<END
$head_line
a/b\\c,2024-05-01T00:00:00Z,1,2,33N,
"d,""e",2024-05-01T00:00:00Z,1,2,33N,
o'hara,2024-05-01T00:00:00.250Z,1,2,33N,
NA,2024-05-01T00:00:00Z,1,2,33N,
export,2086-05-01T00:00:00Z,1,2,33N,
ääääääääääääääääa,2024-05-01T00:00:00Z,1,2,33N,
xääääääääääääääää,2024-05-01T00:00:00Z,1,2,33N,
fox,2024-05-01T00:00:00Z,1,2,33N,
fox,2024-05-01T00:00:00Z,1,2,33N,
END
for name in a_b_c d__e "o'hara" NA ääääääääääääääää xäääääääääääääää; do
    printf '%s\n' animal,second,easting,northing "$name,$(stamp '2024-05-01 00:00:00'),1,2" | makes "$name.csv"
done
printf '%s\n' animal,second,easting,northing "export,$(stamp '2086-05-01 00:00:00'),1,2" | makes export.csv
says "animal 'a/b\\c' is named a_b_c"
says "animal 'ääääääääääääääääa' is named ääääääääääääääää"

# Lines that end in CR alone, or each in another way; lines that are blank, also the first.
printf '%s\r' "$head_line" 'a,2024-05-01 00:30:00,1,2,33N,' | split_to 0
printf '%s\n\na,2024-05-01 00:30:00,1,2,33N,\r\n\r\nb,2024-05-01 00:30:00,1,2,33N,\rb,2024-05-01 00:30:00,1,2,33N,' \
    "$head_line" | split_to 0
says '3 fixes of 2 animals are in tracks, in m'
printf '\n%s\n' "$head_line" 'a,2024-05-01 00:30:00,1,2,33N,' | split_to 0
says '1 fixes of 1 animals are in tracks, in m'

# An inch sign inside a field without quotes is refused, since where the field ends is not sure.
printf '%s\n' "$head_line,note" 'a,2024-05-01 00:30:00,1,2,33N,,5" long' | split_to 1
says 'a quote stands inside a field'

# Titles in capitals and quotes, a column without a title, a note of two lines and one with an inch sign.
split_to 0 <<END
"INDIVIDUAL_LOCAL_IDENTIFIER","Timestamp",,utm easting,UTM-northing,utm.zone,note
a,2024-05-01 00:30:00,x,1,2,33N,"two
lines, ""quoted"""
a,2024-05-01 00:31:00,,1,2,33N,"5"" long"
END
says '2 fixes of 1 animals are in tracks, in m'

# Numbers in quotes, in tables with one record less than are read at once, and than are read in two times.
for count in 999 1999; do
    { echo "$head_line" && seq "$count" | sed 's/.*/"a",2024-05-01 00:30:00,"&","2000.5",33N,/'; } | split_to 0
    says "$count fixes of 1 animals are in tracks, in m"
done

# A control character in a name, a name between blanks, and one that looks like a word of R or a number.
printf '%s\n' "$head_line" "a$(printf '\001')b,2024-05-01 00:30:00,1,2,33N," ' x ,2024-05-01 00:30:00,1,2,33N,' \
    'TRUE,2024-05-01 00:30:00,1,2,33N,' '1e5,2024-05-01 00:30:00,1,2,33N,' '007,2024-05-01 00:30:00,1,2,33N,' \
    'fox,2024-05-01 00:30:00,1,2,33N,' 'fox,2024-05-01 00:30:00,1,2,33N,' | split_to 0
for name in a_b _x_ TRUE 1e5 007; do
    printf '%s\n' animal,second,easting,northing "$name,$(stamp '2024-05-01 00:30:00'),1,2" | makes "$name.csv"
done

# Metres just below and at a half, and with many decimals, in metres and in decimetres.
halves() {
    printf '%s\n' "$head_line" 'a,2024-05-01 00:30:00,10.4999999999,2000.5,33N,' 'a,2024-05-01 00:30:00,-0.5,10.45,33N,' \
        'a,2024-05-01 00:30:00,0000012.3456789012345678901234567890,16777216.49,33N,'
}
halves | split_to 0
second=$(stamp '2024-05-01 00:30:00')
printf '%s\n' animal,second,easting,northing "a,$second,10,2001" "a,$second,0,10" "a,$second,12,16777216" | makes a.csv
halves | sed '/16777216/d; s/-0.5,/-0.04,/' | split_to 0 --unit dm
printf '%s\n' animal,second,easting,northing "a,$second,105,20005" "a,$second,0,105" | makes a.csv
printf '%s\n' "$head_line" 'a,2024-05-01 00:30:00,1,16777216.5,33N,' | split_to 1
says 'record 1: 1.00 east and 16777217.00 north is off the grid, which goes from 0 to 16777216 metres'
