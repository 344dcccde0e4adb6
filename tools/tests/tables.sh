# All tables of tools/tests/tables by homerange-split and by the packages for Python and R, which read data frames. What is
# wanted is in tables/README.md.
# shellcheck shell=sh disable=SC2154

suite=$tools/tests/tables

# Whether a runner finds all tables as they are wanted.
hold_tables() {
    name=$1
    shift
    holds "tables by $name" env PYTHONDONTWRITEBYTECODE=1 "$@"
}

is_tables_by_r() {
    is_here Rscript 'tables by the package for R' || return 1
    Rscript -e 'library(sf)' >/dev/null 2>&1 || {
        skip 'tables by the package for R: no sf in R'
        return 1
    }
}

rm -rf "$work/tables"
holds 'the tables are there' env PYTHONDONTWRITEBYTECODE=1 python3 "$suite/unpack.py" "$work/tables"
holds 'at least 200 tables' [ "$(find "$work/tables" -mindepth 1 -maxdepth 1 | wc -l)" -ge 200 ]
if is_split_here 'tables by homerange-split'; then
    hold_tables homerange-split python3 "$suite/run_program.py" "$splitter"
fi
if python3 -c 'import pandas, pyproj' 2>errors; then
    hold_tables 'the Python package' python3 "$suite/run_python.py" "$work/tables"
else
    skip "tables by the Python package: $(tail -n 1 errors)"
fi
if is_tables_by_r && is_split_here 'tables by the package for R'; then
    hold_tables 'the package for R' Rscript "$suite/run_r.R" "$work/tables"
fi
