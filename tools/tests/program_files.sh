# Files of which there is no report, and as many files as a run takes. The functions are those of program.sh.
# shellcheck shell=sh disable=SC2154,SC2034

cd "$work/program" || exit 1

# A file of these lines, behind a text that the refusal has to have.
bad_file() {
    text=$1
    shift
    printf '%s\n' "$@" >bad.csv
    refuses 1 "bad.csv: $text" a.csv bad.csv
}
header=animal,second,easting,northing

: >bad.csv
refuses 1 'bad.csv: empty where animal,second,easting,northing is wanted' bad.csv
bad_file 'the first line is not animal,second,easting,northing' Animal,second,easting,northing
bad_file 'no record after the header' "$header"
bad_file 'record 1: 3 fields where 4 are wanted' "$header" A,240,5
bad_file 'record 1: animal is not a name of 1 to 32 bytes' "$header" ,0,0,0
bad_file 'record 2: animal is another than in record 1' "$header" B,0,0,0 C,0,0,0
bad_file 'record 1: easting is not a whole number' "$header" B,0,1e+05,0
bad_file 'record 1: northing is past its limit of 16777216 metres' "$header" B,0,0,16777217
bad_file 'record 1: second is past its limit of 1099511627776' "$header" B,1099511627777,0,0
bad_file 'record 3: second is less than in the record before' "$header" B,60,0,0 B,60,0,0 B,59,0,0
bad_file 'record 1: use is neither 0 nor 1' "$header,use" B,0,0,0,2
bad_file 'no record after the header, or none that is used' "$header,use" B,0,0,0,0
awk -v header="$header" 'BEGIN { print header; for (i = 0; i <= 1048576; i++) print "B," i ",0,0" }' >bad.csv
refuses 1 'bad.csv: more than 1048576' bad.csv
sed -i '$d' bad.csv
run bad.csv
holds 'as many records as a file may have' told 0 ''
holds 'as many records as a file may have: the last row' grep -qx row,B,1048576,1048575,1,0 written
# Half the memory that this takes.
# shellcheck disable=SC3045
(ulimit -v 40000 && exec "$HOMERANGE" bad.csv) >written 2>told
ended=$?
holds 'memory runs out' told 3 'out of memory'
holds 'memory runs out: nothing is written' [ ! -s written ]
rm bad.csv written

cp a.csv copy.csv
cp a.csv closed.csv
mkdir folder
refuses 1 'a.csv and copy.csv have the same animal, A' a.csv b.csv copy.csv
refuses 1 'none.csv: No such file or directory' a.csv none.csv
refuses 1 'folder: Is a directory' folder a.csv
# All files are opened before the first is read.
echo "$header,used" >bad.csv
refuses 1 'none.csv: No such file or directory' bad.csv none.csv
refuses 1 'bad.csv: the first line is not animal,second,easting,northing' bad.csv a.csv
rm bad.csv
refuses 1 ': No such file or directory' ''
# Root may read each file, so root tries it as nobody, with a copy of the program that nobody can reach.
chmod 000 closed.csv
if [ "$(id -u)" -eq 0 ]; then
    chmod 755 "$work" .
    cp "$HOMERANGE" ./copied
    setpriv --reuid=65534 --regid=65534 --clear-groups ./copied closed.csv >written 2>told
    ended=$?
else
    run closed.csv
fi
holds 'a file that may not be read' told 1 'closed.csv: Permission denied'

# Nine files and 64, each of whose lines check.py recomputes; 65 are refused before any is opened.
python3 "$top/examples/simulate.py" tracks 65 20 >/dev/null
for count in 9 64; do
    # shellcheck disable=SC2046
    set -- $(printf '%s\n' tracks/*.csv | head -n $count)
    run "$@"
    holds "$count files" told 0 ''
    holds "$count files: the last line" [ "$(tail -n 1 written)" = "end,$count" ]
    holds "$count files: each line" python3 "$tools/check.py" written "$@"
done
refuses 2 'more than 64 files' tracks/*.csv
rm -r tracks
