# Tests what the benches say of lines that differ, and that the scripts of bench/field print lines of homerange's report
# of the examples. Nothing is timed.
# shellcheck shell=sh disable=SC2154

rm -rf bench
mkdir bench
cd bench || exit 1
holds 'what the benches say of differences' \
    env PYTHONDONTWRITEBYTECODE=1 PYTHONPATH="$top/bench" python3 "$tools/tests/bench.py"
cp "$top/examples/fox.csv" "$top/examples/otter.csv" "$top/examples/badger.csv" .
"$HOMERANGE" fox.csv >fox
"$HOMERANGE" fox.csv otter.csv badger.csv >all

# Whether this command loads what scripts use; where it fails, says what is skipped.
loads() {
    is_here "$1" "bench/field's scripts" || return 1
    "$@" >/dev/null 2>&1 || {
        skip "bench/field's scripts: no $3"
        return 1
    }
}

# Whether a script run so prints these lines of a report.
prints() {
    grep "^$1," "$2" >wanted
    shift 2
    PYTHONDONTWRITEBYTECODE=1 "$@" >printed && cmp printed wanted
}

# Tests scripts that this interpreter runs: of tables, percent polygons and overlaps.
test_scripts() {
    for script in "$top/bench/field/$2"_*; do
        case $script in
            *_overlaps.*) holds "${script##*/}" prints overlap all "$1" "$script" fox.csv otter.csv badger.csv ;;
            *_percents.*) holds "${script##*/}" prints percent fox "$1" "$script" fox.csv ;;
            *) holds "${script##*/}" prints row fox "$1" "$script" fox.csv ;;
        esac
    done
}

! is_here Rscript "bench/field's scripts" || test_scripts Rscript chull
! loads Rscript -e 'library(sf)' || test_scripts Rscript sf
! loads /usr/bin/python3 -c 'import scipy' || test_scripts /usr/bin/python3 scipy
! loads /usr/bin/python3 -c 'import shapely' || test_scripts /usr/bin/python3 shapely
