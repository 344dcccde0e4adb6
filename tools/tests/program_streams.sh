# Where the report goes to. The functions are those of program.sh.
# shellcheck shell=sh disable=SC2154,SC2034

cd "$work/program" || exit 1

# The status of a run is kept in a file where a pipe would lose it.
status_of() {
    "$@" 2>told
    echo $? >status
}

for words in a.csv --help --version; do
    "$HOMERANGE" $words >/dev/full 2>told
    ended=$?
    holds "$words: a full disk" told 4 'standard output: No space left on device'
    "$HOMERANGE" $words >&- 2>told
    ended=$?
    holds "$words: no standard output" told 4 'standard output: Bad file descriptor'
done

# Who reads a part of a report that no pipe holds, and goes, has seen enough: no line is told.
awk 'BEGIN { print "animal,second,easting,northing"; for (i = 0; i < 9999; i++) print "B," i ",5,5" }' >still.csv
status_of "$HOMERANGE" still.csv | head -n 1 >written
ended=$(cat status)
holds 'a pipe that closes' told 4 ''
holds 'a pipe that closes: what was read' grep -qx animal,B,fixes,9999 written

# A pipe that is read to its end, the null device, and a terminal, which ends lines with CR LF and gets the line of a
# refusal too.
echo "$alone" >wanted
status_of "$HOMERANGE" a.csv | cat >written
ended=$(cat status)
holds 'a pipe' told 0 ''
holds 'a pipe: the report' cmp wanted written
"$HOMERANGE" a.csv >/dev/null 2>told
ended=$?
holds 'the null device' told 0 ''
if is_here script 'a terminal'; then
    script -qec "'$HOMERANGE' a.csv" /dev/null </dev/null >typed
    holds 'a terminal' [ $? -eq 0 ]
    tr -d '\r' <typed >written
    holds 'a terminal: the report, and nothing else' cmp wanted written
fi

# No standard input.
"$HOMERANGE" <&- >written 2>told
ended=$?
holds 'no standard input' told 1 'standard input: '
holds 'no standard input: nothing is written' [ ! -s written ]
