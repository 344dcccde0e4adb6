# Tests that what other tests expect is by the definitions: numbers in the tests of crates, the program's stored run,
# reports of pages and of the package for R, and those that the hostile runs are held to. The program takes no part.
# shellcheck shell=sh disable=SC2154

rm -rf definitions
mkdir definitions
cd definitions || exit 1
export PYTHONDONTWRITEBYTECODE=1

# Whether the report of these words, behind a file, is that file.
is_by_definition() {
    kept=$1
    shift
    "$tools/tests/by_definition.py" "$@" >made && cmp made "$kept"
}

holds 'numbers in the tests of crates' python3 "$tools/tests/crate_numbers.py" "$top/crates"
holds "the program's stored run" is_by_definition "$top/crates/homerange/stdout" "$top/crates/homerange/stdin"

set --
for name in fox badger otter; do
    head -n 61 "$top/examples/$name.csv" >"$name.csv"
    set -- "$@" "$name.csv"
done
holds "the report in the package for R" is_by_definition "$top/r/inst/extdata/report.txt" "$@"

# README shows the first lines that are neither rows nor corners.
sed -n 's/^    \(animal\|box\|percent\),/\1,/p' "$top/README.md" >shown
holds 'README shows a report' [ "$(wc -l <shown)" -ge 5 ]
"$tools/tests/by_definition.py" "$top/examples/fox.csv" "$top/examples/badger.csv" "$top/examples/otter.csv" |
    grep -v -e '^row' -e '^corner' | head -n "$(wc -l <shown)" >made
holds "README's report" cmp made shown

python3 "$top/hostile/tracks.py" . >kept
while read -r name words; do
    # shellcheck disable=SC2086
    holds "the kept report '$name'" is_by_definition "$top/hostile/reports/$name.txt" $words
done <kept
holds 'each kept report is made again' \
    [ "$(cut -d ' ' -f 1 kept | sort)" = "$(cd "$top/hostile/reports" && printf '%s\n' *.txt | sed 's/[.]txt$//' | sort)" ]
cd "$work" || exit 1
