# Runs the program for real. Reports are worked out by hand, or recomputed by check.py, which goes another way.
# shellcheck shell=sh disable=SC2154,SC2034

# Runs the program with these arguments; what it wrote, what it told and its status are in written, told and ended.
run() {
    "$HOMERANGE" "$@" >written 2>told
    ended=$?
}

# Whether the run ended with this status and told one line that has this text, or nothing where there is none.
told() {
    test "$ended" -eq "$1" || return
    if [ -z "$2" ]; then test ! -s told && return; fi
    test "$(wc -l <told)" -eq 1 && grep -q '^homerange: ' told && grep -qF -- "$2" told
}

# A run with these arguments, behind a status and a text, is refused: nothing is written, and the line has the text.
refuses() {
    status=$1 text=$2
    shift 2
    run "$@"
    holds "status $status: $text" told "$status" "$text"
    holds "status $status: $text: nothing is written" [ ! -s written ]
}

# A run with these arguments, behind a name, writes what is on standard input.
reports() {
    cat >wanted
    name=$1
    shift
    run "$@"
    holds "$name" told 0 ''
    holds "$name: the report" cmp wanted written
}

rm -rf program
mkdir program
cd program || exit 1

# A square of 10 metres and its middle, and a line through it, worked out by hand.
printf '%s\n' animal,second,easting,northing A,0,0,0 A,60,10,0 A,120,10,10 A,180,0,10 A,240,5,5 >a.csv
printf '%s\n' animal,second,easting,northing B,0,5,5 B,60,10,5 B,120,20,5 >b.csv
square='box,A,0,0,10,10
row,A,1,0,1,0
row,A,2,60,2,0
row,A,3,120,3,100
row,A,4,180,4,200
row,A,5,240,4,200
corner,A,1,0,0
corner,A,2,10,0
corner,A,3,10,10
corner,A,4,0,10'
# The report of the square alone.
alone="animal,A,fixes,5
$square
percent,A,50,3,3,50
percent,A,95,5,4,200
percent,A,100,5,4,200
end,1"

echo "$alone" | reports 'one file' a.csv
echo "$alone" | reports 'a file behind --' -- a.csv
cat <<END | reports 'two files and one level' --percent 100 --workers 8 --block 1 --depth 1 b.csv a.csv
animal,B,fixes,3
box,B,5,5,20,5
row,B,1,0,1,0
row,B,2,60,2,0
row,B,3,120,2,0
corner,B,1,5,5
corner,B,2,20,5
percent,B,100,3,2,0
animal,A,fixes,5
$square
percent,A,100,5,4,200
overlap,B,A,2,3
overlap,A,B,1,5
end,2
END
printf '%s\n' animal,second,easting,northing,use A,0,0,0,1 A,5,7,9,0 A,9,134217728,0,1 >use.csv
cat <<END | reports 'decimetres, and fixes that are left out' --unit dm --percent 7,100 use.csv
unit,dm
animal,A,fixes,2
box,A,0,0,134217728,0
row,A,1,0,1,0
row,A,2,9,2,0
corner,A,1,0,0
corner,A,2,134217728,0
percent,A,7,1,1,0
percent,A,100,2,2,0
end,1
END

# Standard input, a pipe, and what spreadsheets write.
"$HOMERANGE" <a.csv >written 2>told
ended=$?
holds 'standard input' told 0 ''
echo "$alone" >wanted
holds 'standard input: the report' cmp wanted written
mkfifo pipe
cat a.csv >pipe &
echo "$alone" | reports 'a pipe that has a name' pipe
# Two of them with more than a pipe holds, each with a writer of its own.
mkfifo second
for name in C D; do
    awk -v name=$name 'BEGIN { print "animal,second,easting,northing"; for (i = 0; i < 9999; i++) print name "," i ",5,5" }' \
        >$name.csv
done
cat D.csv >second &
cat C.csv >pipe &
run pipe second
holds 'two pipes' told 0 ''
PYTHONDONTWRITEBYTECODE=1 "$tools/tests/by_definition.py" C.csv D.csv >wanted
holds 'two pipes: the report' cmp wanted written
{
    printf '\357\273\277'
    sed 's/^\([^,]*\),/"\1",/; s/$/\r/' a.csv
} >quoted.csv
echo "$alone" | reports 'a byte order mark, quotes and CR LF' quoted.csv
