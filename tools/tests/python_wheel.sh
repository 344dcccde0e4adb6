# Tests the Python package as it is installed: a wheel is built without a network, has the released programs, and serves in
# a new environment that has pandas and nothing of this clone.
# shellcheck shell=sh disable=SC2154

# Runs a command in a folder that is not the clone, with the environment's commands first and no program named.
installed() {
    (cd wheel/away && env -u HOMERANGE -u PYTHONPATH PATH="$work/wheel/env/bin:/usr/bin:/bin" "$@")
}
# Whether what is left in the folder of the package is what was there.
is_clean() {
    find "$top/python" -name __pycache__ -prune -o -type f -print | LC_ALL=C sort | cmp - wheel/files
}

if ! python3 -c 'import build, ensurepip, setuptools, venv, wheel, pandas' 2>errors; then
    skip "the wheel: $(tail -n 1 errors)"
else
    rm -rf wheel
    mkdir -p wheel/away wheel/bare
    find "$top/python" -name __pycache__ -prune -o -type f -print | LC_ALL=C sort >wheel/files
    holds 'a wheel is built' env PIP_NO_INDEX=1 python3 -m build --no-isolation --outdir wheel/dist "$top/python"
    holds 'it is of the machines of the program' [ -f wheel/dist/homerange-1.0.0-py3-none-manylinux_2_34_x86_64.whl ]
    holds 'nothing is left beside the package' is_clean
    if is_here objdump 'the C library that the release needs'; then
        for file in $programs; do
            needed=$(objdump -T "$top/release/$file" | grep -o 'GLIBC_[0-9.]*' | sort -V | tail -n 1)
            later=$(printf '%s\n' GLIBC_2.34 "$needed" | sort -V | tail -n 1)
            holds "$file of the release needs no later C library" [ "${needed:+$later}" = GLIBC_2.34 ]
        done
    fi
    cp -r "$top/python" wheel/bare/
    python3 -m build --no-isolation --wheel --outdir wheel/dist wheel/bare/python >wheel/said 2>&1
    holds 'a wheel without a program is for all machines' [ -f wheel/dist/homerange-1.0.0-py3-none-any.whl ]
    holds 'that it has none is said' grep -q 'there is no release/homerange: this build has no program' wheel/said

    python3 -m venv --system-site-packages wheel/env
    holds 'the wheel is installed' env PIP_NO_INDEX=1 wheel/env/bin/pip install wheel/dist/*manylinux*.whl
    package=$(installed python -c 'import homerange; print(homerange.__path__[0])')
    holds 'it has SOURCES of the release' cmp "$package/release/SOURCES" "$top/release/SOURCES"
    for called in $programs; do
        for file in "$called" "RELEASES${called#homerange}"; do
            holds "it has $file of the release" cmp "$package/release/$file" "$top/release/$file"
        done
        holds "its $called can be run" [ -x "$package/release/$called" ]
        holds "it has the checksum of $called" \
            grep -qx "$(sha256sum <"$top/release/$called" | cut -d ' ' -f 1)  release/$called" "$package/release/SHA256SUMS"
    done
    holds 'it finds homerange-split' [ "$(installed python -c '
from homerange.program import find_split_program
print(find_split_program())')" = "$package/release/homerange-split" ]
    cp "$top"/examples/*.csv wheel/away
    holds 'ranges are those of a monotone chain' installed python -c '
import sys, pandas, homerange
sys.path.insert(0, sys.argv[1])
from exact import area2, hull
fixes = pandas.read_csv("fox.csv")
ranges = homerange.home_range(fixes)
points = list(zip(fixes["easting"], fixes["northing"]))
assert ranges.hectares("fox") == area2(hull(points)) / 20000
assert ranges.program.path == f"{homerange.__path__[0]}/release/homerange" and ranges.program.version.startswith("homerange 1.")
assert len(homerange.read_fixes("export.csv")) == 8' "$top/python/tests"

    # Each command, beside what the scripts of the clone or the program itself make.
    "$top/release/homerange-split" --into wheel/tracks "$top/examples/export.csv" 2>wheel/said
    holds 'homerange-split' installed homerange-split --into tracks "$top/examples/export.csv"
    holds 'it splits as the released program does' diff -r wheel/tracks wheel/away/tracks
    installed homerange-split --nonsense 2>wheel/own
    holds 'it has the status of the program' [ $? -eq 2 ]
    "$top/release/homerange-split" --nonsense 2>wheel/said
    holds 'and its words' cmp wheel/said wheel/own
    "$tools/corners.py" 95 "$top/examples/fox.csv" >wheel/corners
    installed homerange-corners 95 fox.csv >wheel/own
    holds 'homerange-corners' cmp wheel/corners wheel/own
    "$HOMERANGE" wheel/tracks/*.csv >wheel/direct
    holds 'homerange-herd' installed homerange-herd run tracks herd
    holds 'its report is that of one run' cmp wheel/direct wheel/away/herd/report.txt
    holds 'a number of jobs that is none is refused' [ "$(installed env JOBS=x homerange-herd run tracks herd 2>&1)" = \
        'homerange-herd: JOBS=x is not a number from 1' ]
    holds 'homerange-herd goes on' installed homerange-herd run tracks herd
    holds 'homerange-check' installed sh -c 'homerange-check herd/report.txt tracks/*.csv'
    holds 'homerange-evidence' installed homerange-evidence hand-in tracks
    holds 'homerange-verify' installed homerange-verify hand-in "$top/examples/export.csv"
    if python3 -c 'import geopandas, matplotlib' 2>errors; then
        holds 'homerange-ranges' installed homerange-ranges "$top/examples/export.csv" plan
        holds 'what it makes is verified' installed homerange-verify plan "$top/examples/export.csv"
    else
        skip "homerange-ranges: $(tail -n 1 errors)"
    fi

    holds 'version of homerange-split' [ "$(installed homerange-split --version)" = "$("$top/release/homerange-split" --version)" ]
    for command in ranges corners herd evidence verify check; do
        holds "version of homerange-$command" [ "$(installed homerange-$command --version)" = 'homerange for Python 1.0.0' ]
    done

    printf x >>"$package/release/homerange-split"
    installed python -c 'from homerange.program import find_split_program; find_split_program()' 2>wheel/said
    holds 'a homerange-split that was changed is refused' [ $? -eq 1 ]
    holds 'that is said' grep -q 'homerange-split is not the program that this package was built with' wheel/said
    printf x >>"$package/release/homerange"
    installed homerange-corners 95 fox.csv >wheel/own 2>wheel/said
    holds 'a program that was changed does not run' [ $? -eq 1 ]
    holds 'that is said' grep -q 'is not the program that this package was built with: install the package again' wheel/said
    python3 -m venv --system-site-packages --clear wheel/env
    holds 'the folder is installed' env PIP_NO_INDEX=1 wheel/env/bin/pip install "$top/python"
    for file in $programs; do
        holds "it has $file" cmp "$package/release/$file" "$top/release/$file"
    done
fi
