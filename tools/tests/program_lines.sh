# The line of a refusal is one write, so that those of many runs at once come out whole on one standard error.
# shellcheck shell=sh disable=SC2154

rm -rf "$work/lines"
mkdir "$work/lines"
cd "$work/lines" || exit 1

# Whether a run of this program with these words writes its line at once.
writes_once() {
    python3 "$tools/tests/one_write.py" "$@"
}

# The same of a path with a line end and with characters that a line does not show, and of one of 100,000 bytes.
writes_odd_path_once() {
    writes_once "$HOMERANGE" "$(printf 'none\n\033[31m\302\205\342\200\256.csv')"
}
writes_long_path_once() {
    writes_once "$HOMERANGE" "$(seq -s / 20000 | cut -c -100000)"
}

printf '%s\n' animal,second,easting,northing fox,0,1,1 >fox.csv
printf '%s\n' animal,second,easting,northing fox,0,1,east >bad.csv
for words in none.csv 'bad.csv fox.csv' 'fox.csv ./fox.csv' '--block 0' '--percent 50,,x fox.csv' --bogus; do
    # shellcheck disable=SC2086
    holds "one write: $words" writes_once "$HOMERANGE" $words
done
holds 'one write: an odd path' writes_odd_path_once
holds 'one write: a long path' writes_long_path_once
printf '#!/bin/sh\nexec "%s" "$@" >/dev/full\n' "$HOMERANGE" >full
chmod +x full
holds 'one write: a full disk' writes_once ./full fox.csv
printf '#!/bin/sh\nulimit -v 40000 && exec "%s" "$@"\n' "$HOMERANGE" >little
chmod +x little
awk 'BEGIN { print "animal,second,easting,northing"; for (i = 0; i < 1048576; i++) print "fox," i ",0,0" }' >long.csv
holds 'one write: memory runs out' writes_once ./little long.csv

# Runs over 400 paths that are not there, eight at once.
seq -f 'tracks of the year before last/deer %g of 400, which nobody has ever followed.csv' 400 >paths
sed 's/^/homerange: /; s/$/: No such file or directory/' paths | sort >wanted
side_by_side() {
    xargs -P 8 -d '\n' -n 1 "$HOMERANGE" <paths
}

side_by_side >written 2>>told
holds '400 runs at once: each has a status' [ $? -eq 123 ]
holds '400 runs at once: nothing is written' [ ! -s written ]
sort told >sorted
holds '400 runs at once: lines in a file' cmp wanted sorted
{ side_by_side 2>&1 >/dev/null || :; } | cat >told
sort told >sorted
holds '400 runs at once: lines through a pipe' cmp wanted sorted

# The line of each step of a herd that fails, behind that of its run: of the first bad track of the step's groups.
wanted_lines() {
    while read -r one other; do
        if [ "$one" = "$other" ]; then set -- "$one"; else set -- "$one" "$other"; fi
        bad=$(cd herd/groups && cat "$@" | grep -m 1 -F -f "$work/lines/bad") || continue
        echo "homerange: $bad: record 3: northing is not a whole number: no point, sign, space or exponent"
        echo "step.sh: the run of groups $one and $other failed"
    done <herd/steps
}

# Eight groups, of which five have a bad track; the herd is called three times, and each of its 30 steps that fail does so
# in each call.
python3 "$top/examples/simulate.py" tracks 256 2
for number in 003 040 069 070 130 255; do
    echo "deer00$number,9999999,552000,north" >>"tracks/deer00$number.csv"
    echo "$work/lines/tracks/deer00$number.csv" >>bad
done
: >told
for call in first second third; do
    JOBS=4 "$tools/herd/run.sh" tracks herd >written 2>>told
    holds "a herd with bad tracks: the status of the $call call" [ $? -eq 1 ]
    wanted_lines >>unsorted
done
holds 'a herd with bad tracks has no report' [ ! -e herd/report.txt ]
sort unsorted >wanted
sort told >sorted
holds 'a herd with bad tracks: its lines' cmp wanted sorted
holds 'a herd with bad tracks: how many' [ "$(wc -l <wanted)" -eq 180 ]
cd "$work" || exit 1
