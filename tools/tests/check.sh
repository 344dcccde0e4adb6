# Tests the checks of a report by other methods, on reports that are right and on such that were changed.
# shellcheck shell=sh disable=SC2154,SC2016

rm -rf check
mkdir check
cd check || exit 1

# Fixes on the edges of a square, at its corners, inside and outside.
printf '%s\n' animal,second,easting,northing a,0,0,0 a,1,200,0 a,2,200,200 a,3,0,200 >a.csv
printf '%s\n' animal,second,easting,northing b,0,100,0 b,1,200,200 b,2,100,100 b,3,201,100 >b.csv
"$HOMERANGE" a.csv b.csv >direct
holds 'three of four fixes lie in the square' grep -qx overlap,b,a,3,4 direct
holds 'edges are checked' "$tools/check.py" direct a.csv b.csv

# A record that is left out; a fix alone, twice the same and three in a line are below.
head -n 61 "$top/examples/fox.csv" | sed '1s/$/,use/; 2,$s/$/,1/; 9s/1$/0/' >fox.csv
head -n 101 "$top/examples/badger.csv" >badger.csv
cp "$top/examples/otter.csv" .
"$HOMERANGE" --unit dm --percent 95,50 fox.csv otter.csv >decimetres
"$tools/check.py" decimetres fox.csv otter.csv >said
holds 'a report in decimetres is checked' [ $? -eq 0 ]
holds 'unit and levels are said' grep -qx 'in decimetres, at the levels 95,50' said
"$HOMERANGE" --percent 1,50,95,99,100 fox.csv badger.csv otter.csv >direct
holds 'a report is checked' "$tools/check.py" --unit m --percent 1,50,95,99,100 direct fox.csv badger.csv otter.csv
holds 'a file that is not there' is_refused "$tools/check.py" direct fox.csv none.csv

# Whether check.py refuses the report once sed has changed it so, and says which line is wrong first.
finds() {
    sed "$1" direct >changed
    cmp -s direct changed && holds "a change by $1" false
    "$tools/check.py" changed fox.csv badger.csv otter.csv >said
    holds "a report changed by $1" [ $? -eq 1 ]
    holds "a report changed by $1: the line" grep -q -- "$2" said
}
finds 's/^row,fox,7,/row,fox,7,1/' "^line 9 is 'row,fox,7,1"
finds 's/^overlap,fox,otter,/&1/' "is 'overlap,fox,otter,1"
finds '/^corner,otter,3,/d' "; 'corner,otter,3,"
finds 's/^percent,fox,99,59/&0/' "is 'percent,fox,99,590,"
finds '$d' "is not there; 'end,3' is wanted"
finds '$s/$/\nend,3/' "is 'end,3'; nothing is wanted"
finds '5s/^/unit,dm\n/' "^line 5 is 'unit,dm'"

# What only what was asked for can show: a unit that was put before all lines, and a level that no animal has.
{
    echo unit,dm
    cat direct
} >marked
"$tools/check.py" marked fox.csv badger.csv otter.csv >said
holds 'a unit is said' grep -qx 'in decimetres, at the levels 1,50,95,99,100' said
holds 'a unit that was not asked for' is_refused "$tools/check.py" --unit m marked fox.csv badger.csv otter.csv
grep -v '^percent,[a-z]*,95,' direct >fewer
"$tools/check.py" fewer fox.csv badger.csv otter.csv >said
holds 'levels are said' grep -qx 'in metres, at the levels 1,50,99,100' said
holds 'a level that is missing' \
    is_refused "$tools/check.py" --percent 1,50,95,99,100 fewer fox.csv badger.csv otter.csv

# What cannot be checked is refused in one line, by both.
: >nothing
printf 'a,b\n1,2\n' >titles.csv
printf 'animal,second,easting,northing\nfox,1,2,x\n' >number.csv
printf 'animal,second,easting,northing\nfox,1,2,3\nhare,1,2,3\n' >two.csv
refuses_check() {
    wanted=$1
    shift
    "$@" >said 2>errors
    ended=$?
    holds "refused: $*" [ "$ended" -eq "$wanted" ]
    holds "refused in one line: $*" [ "$(wc -l <errors)" -eq 1 ]
    holds "nothing is said of lines: $*" [ ! -s said ]
}
refuses_all() {
    refuses_check 1 "$@" nothing fox.csv
    for file in nothing titles.csv number.csv two.csv none.csv .; do
        refuses_check 1 "$@" direct "$file"
    done
    refuses_check 1 "$@" . fox.csv
    refuses_check 1 "$@" direct fox.csv fox.csv
    refuses_check 2 "$@" --percent 0 direct fox.csv
    refuses_check 2 "$@" --percent 95,abc direct fox.csv
    refuses_check 2 "$@" --unit ft direct fox.csv
}
refuses_all python3 "$tools/check.py"
if is_here Rscript 'refusals of check.R'; then
    refuses_all "$tools/check.R"
fi

if is_here Rscript 'check.R'; then
    "$tools/check.R" direct fox.csv badger.csv otter.csv >said
    count=$(wc -l <direct)
    holds 'a report is checked by R' cmp said - <<END
in metres, at the levels 1,50,95,99,100
$count of $count lines agree; the report has $count
END
    holds 'R: edges are checked' sh -c "'$HOMERANGE' a.csv b.csv >edges && '$tools/check.R' edges a.csv b.csv"
    holds 'decimetres are checked by R' "$tools/check.R" --unit dm --percent 95,50 decimetres fox.csv otter.csv
    holds 'R: a unit that was not asked for' is_refused "$tools/check.R" --unit m marked fox.csv
    holds 'R: a level that is missing' is_refused "$tools/check.R" --percent 1,50,95,99,100 fewer fox.csv
    # Each kind of line, an animal that was invented, and what stands behind the end.
    for change in 's/^row,fox,7,/row,fox,70,/' 's/^row,fox,7,\([0-9]*\)/&1/' 's/^\(row,fox,7,[0-9]*,\)[0-9]*/\19/' \
        's/^row,fox,7,.*/&0/' '/^row,fox,7,/d' 's/^\(percent,fox,99,\)59/\158/' '5s/^/unit,dm\n/' 's/^box,fox,/&1/' \
        's/^corner,otter,2,/&1/' 's/^overlap,fox,otter,/&1/' 's/^animal,fox/animal,dog/' 's/^end,3/end,7/' '$s/$/\nend,3/' \
        's/$/\r/'; do
        sed "$change" direct >changed
        cmp -s direct changed && holds "a change by $change" false
        holds "R: a report changed by $change" is_refused "$tools/check.R" changed fox.csv badger.csv otter.csv
    done
    printf '%s\n' 'cat("all lines agree", fill = TRUE)' 'quit(status = 0)' >.Rprofile
    holds 'R: what a folder has R do first is not done' is_refused "$tools/check.R" changed fox.csv badger.csv otter.csv
    rm .Rprofile
    holds 'R: a call by which it would be done' is_refused Rscript "$tools/check.R" direct fox.csv badger.csv otter.csv
    printf %s "$(cat direct)" >unended
    holds 'R: no last line end' is_refused "$tools/check.R" unended fox.csv badger.csv otter.csv
    printf '%s\n' animal,second,easting,northing w,0,0,0 w,1,130000000,0 w,2,0,130000000 >wide.csv
    "$HOMERANGE" --unit dm wide.csv >wide
    "$tools/check.R" wide wide.csv 2>errors
    holds 'R: numbers that are not exact are said' [ $? -eq 3 ]
    holds 'wide numbers are checked' "$tools/check.py" wide wide.csv
    for fixes in 'a,0,5,5' 'a,0,5,5 a,1,5,5' 'a,0,5,5 a,1,6,6 a,2,8,8 a,3,7,7'; do
        # shellcheck disable=SC2086
        printf '%s\n' animal,second,easting,northing $fixes >few.csv
        "$HOMERANGE" few.csv >direct
        holds "R: $fixes" "$tools/check.R" direct few.csv
        holds "$fixes" "$tools/check.py" direct few.csv
    done
fi

# What is no report or no file is refused in one line.
: >empty
printf 'J\344ger\n' >latin
printf '%s\n' animal,time,x,y a,0,0,0 >titles.csv
one_line() {
    ! "$tools/check.py" "$@" >said 2>errors && [ "$(wc -l <errors)" -eq 1 ] && ! grep -q Traceback errors
}
for report in empty latin direct; do
    holds "no report or no track: $report" one_line "$report" titles.csv
    holds "no levels: $report" one_line --percent 0 "$report" fox.csv
done
holds 'an empty report' one_line empty fox.csv
holds 'no levels that are numbers' one_line --percent 95,abc direct fox.csv

# Names with separators of lines that are none of CSV, and line ends of another system.
printf 'animal,second,easting,northing\na\342\200\250b\302\205,0,5,5\n' >separated.csv
"$HOMERANGE" separated.csv >separated
holds 'separators of lines in a name' "$tools/check.py" separated separated.csv
sed 's/$/\r/' separated >returns
holds 'line ends of another system in a report' is_refused "$tools/check.py" returns separated.csv
cd "$work" || exit 1
