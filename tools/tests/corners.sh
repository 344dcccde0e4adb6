# Tests the corners of percent polygons. Ten fixes lie about (10, 10), their mean: two there, four 2 away, and four at
# the corners of a square.
# shellcheck shell=sh disable=SC2154

places='10,10 12,10 8,10 10,12 10,8 14,14 6,6 14,6 6,14 10,10'
rm -rf corners
mkdir corners
{
    echo animal,second,easting,northing
    for place in $places; do echo "old boar,7,$place"; done
} >corners/boar.csv

# Whether these arguments, one text, print these corners.
has_corners() {
    # shellcheck disable=SC2086
    "$tools/corners.py" $1 >corners/found
    shift
    i=0
    for place; do
        i=$((i + 1))
        echo "corner,old boar,$i,$place"
    done | cmp corners/found -
}

# Whether the corners of a file at a level are those of a monotone chain around the fixes that exact fractions keep.
are_exact() {
    "$tools/corners.py" "$@" | PYTHONDONTWRITEBYTECODE=1 PYTHONPATH="$top/python/tests" python3 -c '
import csv, sys
from exact import hull, nearest
points = [(int(row["easting"]), int(row["northing"])) for row in csv.DictReader(open(sys.argv[2]))]
found = [tuple(map(int, line.split(",")[3:])) for line in sys.stdin]
sys.exit(found != hull(nearest(points, int(sys.argv[1]))))' "$@"
}

holds 'of fixes as near the earlier' has_corners '50 corners/boar.csv' 8,10 12,10 10,12
holds 'six of ten' has_corners '60 corners/boar.csv' 8,10 10,8 12,10 10,12
holds 'nine of ten' has_corners '90 corners/boar.csv' 6,6 14,6 14,14 10,12 8,10
holds 'rounded up to ten' has_corners '91 --unit dm corners/boar.csv' 6,6 14,6 14,14 6,14
holds 'one fix' has_corners '--unit dm 10 corners/boar.csv' 10,10

# A fix that is not used does not move the mean; quotes, a byte order mark and line ends of Windows.
{
    printf '\357\273\277animal,second,easting,northing,use\r\n'
    printf '"old boar",7,900,900,0\r\n'
    for place in $places; do printf '"old boar",7,%s,1\r\n' "$place"; done
} >corners/used.csv
holds 'used fixes alone' has_corners '50 corners/used.csv' 8,10 12,10 10,12

for level in 1 50 95 100; do
    holds "corners of the otter at $level" are_exact $level "$top/examples/otter.csv"
done

# What is refused prints no corner.
refuses_corners() {
    wanted=$1
    status=$2
    shift 2
    "$@" >corners/out 2>corners/errors
    ended=$?
    holds "refused: $wanted" [ "$ended" -eq "$status" ]
    holds "said: $wanted" grep -qF -- "$wanted" corners/errors
    holds "no corner: $wanted" [ ! -s corners/out ]
}
for change in 's/^percent,old boar,50,5,3,8/&1/' 's/^percent,old boar,50,5,3/&1/' 's/^percent,old boar,50,5/&1/'; do
    printf '#!/bin/sh\n"%s" "$@" | sed "%s"\n' "$HOMERANGE" "$change" >corners/changing
    chmod +x corners/changing
    refuses_corners "come to 'percent,old boar,50,5,3,8', and the report says" 1 \
        env HOMERANGE=corners/changing "$tools/corners.py" 50 corners/boar.csv
    holds 'in one line' [ "$(wc -l <corners/errors)" -eq 1 ]
done
refuses_corners 'level 1 is not a whole number from 1 to 100' 2 "$tools/corners.py" 101 corners/boar.csv
refuses_corners 'corners/none.csv: No such file' 1 "$tools/corners.py" 50 corners/none.csv
refuses_corners 'invalid int value' 2 "$tools/corners.py" half corners/boar.csv
refuses_corners 'there is no program corners/none' 1 env HOMERANGE=corners/none "$tools/corners.py" 50 corners/boar.csv
