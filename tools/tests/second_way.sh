# Holds tables, page and layers of honest folders to what a second way computes of the same tracks and records.
# shellcheck shell=sh disable=SC2154

second_way() {
    PYTHONDONTWRITEBYTECODE=1 python3 "$tools/tests/second_way.py" "$@"
}

# Whether a second way finds what this command changed in a folder.
finds() {
    wanted=$1
    shift
    rm -rf honest/changed
    cp -r honest/grid honest/changed
    (cd honest/changed && "$@")
    second_way honest/changed >found
    holds "a second way finds: $wanted" grep -q "^failed honest/changed: .*$wanted" found
}

if ! is_split_here 'a second way to tables, page and layers'; then
    :
elif python3 -c 'import geopandas, matplotlib, pyproj' 2>errors; then
    rm -rf honest
    mkdir honest
    holds 'honest evidence of data frames' env PYTHONDONTWRITEBYTECODE=1 python3 "$tools/tests/honest.py" honest
    make=$tools/ranges.sh
    holds 'of longitude and latitude, by another clock' "$make" --clock Pacific/Honolulu honest/degrees.csv honest/degrees
    holds 'of one animal, in decimetres' "$make" --unit dm --percent 100 honest/one.csv honest/one
    holds 'of odd names, at eight levels, with all that can be typed in' "$make" --percent 1,20,35,50,75,90,95,100 \
        --title 'Boar & "vixen" \x41' --study="--wood's" --species 'Sus, <i>Vulpes' --by Ana --reference '7 & \8' --purpose permit \
        --over honest/wood.geojson honest/names.csv honest/names
    holds 'of a grid without a zone, with marked outliers' "$make" --mark --percent 95,50 honest/grid.csv honest/grid
    for folder in honest/*/; do
        holds "a second way to ${folder%/}" second_way "$folder"
    done
    finds 'summary.csv: line 3 is' sed -i '3s/[0-9]$/&1/' summary.csv
    finds 'animals.csv: line 2 is' sed -i '2s/,40,/,41,/' animals.csv
    finds 'overlaps.csv: line 3 is' sed -i '3s/,1.0/,0.9/' overlaps.csv
    finds 'report.html: it has .* as hectares_95 of b; ' sed -i '/<tr data-animal="b"/s/hectares_95">/&1/' report.html
    finds 'report.html: the animal 2 has another colour' sed -i 's/<b class="c1">/<b class="c2">/' report.html
    finds 'report.html: its dates are of CET' sed -i 's/data-zone="UTC"/data-zone="CET"/' report.html
    finds 'split.txt: split.txt has another shift than it says' sed -i 's/^shift,1000000/shift,1000001/' tracks/split.txt
    finds 'ranges.gpkg: its polygon of b at 50 % has ' python3 -c 'import sqlite3
base = sqlite3.connect("ranges.gpkg")
for name, in base.execute("SELECT name FROM sqlite_master WHERE type = '\''trigger'\''").fetchall():
    base.execute(f"DROP TRIGGER {name}")
base.execute("UPDATE ranges SET hectares = 1 WHERE animal = '\''b'\'' AND level = 50")
base.commit()'
else
    skip "a second way to tables, page and layers: $(tail -n 1 errors)"
fi
