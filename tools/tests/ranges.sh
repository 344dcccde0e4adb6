# Tests the way from an export to what a plan needs. What is wanted is worked out by hand, or by a monotone chain around
# the export's own fixes; layers are read by geopandas.
# shellcheck shell=sh disable=SC2154

# Whether what was made of an export is right.
are_ranges() {
    PYTHONDONTWRITEBYTECODE=1 PYTHONPATH="$top/python/tests" python3 "$tools/tests/ranges.py" "$@"
}

# Whether all of a folder holds that was made of an export.
verify_ranges() {
    PYTHONDONTWRITEBYTECODE=1 python3 "$tools/verify.py" "$@" --program "$HOMERANGE" >verified
}

# Whether this command is refused with this status, in a line that has this text, and leave nothing.
refuses_ranges() {
    status=$1
    wanted=$2
    shift 2
    "$@" >out 2>errors
    ended=$?
    holds "refused: $wanted" [ "$ended" -eq "$status" ]
    holds "said: $wanted" grep -qF -- "$wanted" errors
    holds "nothing is left: $wanted" [ ! -e plan/none ]
    holds "nothing half is left: $wanted" [ ! -e plan/none.part ]
}

if ! is_split_here 'ranges of an export'; then
    :
elif python3 -c 'import geopandas, matplotlib, pandas' 2>errors; then
    rm -rf plan
    mkdir plan
    ln -s "$splitter" plan
    make=$tools/ranges.sh

    # Rounded by hand from examples/export.csv; one fix of the vixen has no coordinates.
    holds 'ranges of an export' "$make" "$top/examples/export.csv" plan/first
    holds 'its files' [ "$(LC_ALL=C ls plan/first)" = "SHA256SUMS
animals.csv
curves.png
evidence.txt
overlaps.csv
ranges.gpkg
ranges.png
report.html
report.txt
summary.csv
tracks" ]
    script -qec "'$make' '$top/examples/export.csv' plan/shown" /dev/null >shown 2>&1
    holds 'on a terminal it says what it is at' grep -q 'drawing pictures' shown
    "$make" "$top/examples/export.csv" plan/silent 2>silent
    holds 'elsewhere it does not' is_refused grep -q 'drawing pictures' silent
    rm -r plan/shown plan/silent
    holds 'its checksums hold in the folder' sh -c 'cd plan/first && sha256sum -c --strict SHA256SUMS'
    holds 'no file names the half folder' is_refused grep -rF first.part plan/first
    holds 'it is verified' verify_ranges plan/first "$top/examples/export.csv"
    holds 'all of it was looked at' grep -qx 'verify.py: 9 held, 0 did not, 0 not looked at' verified
    for part in 'summary.csv, animals.csv, overlaps.csv and report.html: made again of tracks and records they are the same' \
        'ranges.gpkg: made again it has the same layers, schema, rows and shapes'; do
        holds "it is said: $part" grep -qF "held: $part" verified
    done
    holds 'it is said what nobody knows' grep -qx 'not known: whether what was typed in is right: clock and the name of the export' verified
    "$HOMERANGE" plan/first/tracks/*.csv >direct
    holds 'its report is that of homerange' cmp direct plan/first/report.txt
    cat >plan/fixes <<END
vixen,562000,5134001
vixen,561975,5133992
vixen,562104,5134220
vixen,561881,5134105
old boar,562700,5133550
old boar,562777,5133676
old boar,562552,5133703
old boar,562633,5133444
END
    holds 'its numbers' are_ranges plan/first 32633 1 50,95,100 plan/fixes
    printf '%s\n' 'fixes_of,old boar,vixen' 'old boar,1.0,0.0' 'vixen,0.0,1.0' >wanted
    holds 'its overlaps' cmp wanted plan/first/overlaps.csv
    # By hand of the rows, as 1 - 4539 / 40548 for what the last fix of the vixen added.
    cat >wanted <<END
animal,records,left_coordinates,used,first,last,days,median_hours,longest_hours,hectares_50,hectares_95,\
hectares_100,within_95_fix,within_95_time,last_tenth,last_quarter
old boar,4,0,4,2024-05-01T00:00:02Z,2024-05-01T01:30:09Z,0.0626,0.5008,0.5017,0.0,2.8184,2.8184,4,\
2024-05-01T01:30:09Z,0.4602,0.4602
vixen,5,1,4,2024-05-01T00:00:10Z,2024-05-01T02:00:05Z,0.0833,0.5008,0.9994,0.0,2.0274,2.0274,4,\
2024-05-01T02:00:05Z,0.8881,0.8881
END
    holds 'its animals' cmp wanted plan/first/animals.csv

    # What is typed in, a boundary, and the zone of dates: the fixes of the boar begin at 2 in the morning of summer time.
    cat >plan/wood.geojson <<'END'
{"type": "FeatureCollection", "features": [{"type": "Feature", "properties": {}, "geometry": {"type": "Polygon",
"coordinates": [[[15.80, 46.35], [15.82, 46.35], [15.82, 46.36], [15.80, 46.36], [15.80, 46.35]]]}}]}
END
    holds 'ranges with a page of ones own' "$make" --title 'Boar & "vixen"' --study="--wood's" --species 'Sus scrofa, <i>Vulpes' \
        --by Ana --reference '7 & 8' --purpose permit --over plan/wood.geojson --clock Pacific/Honolulu "$top/examples/export.csv" plan/page
    holds 'the page has what was typed in' python3 -c '
import pathlib, sys
sys.path.insert(0, sys.argv[1])
from pages import Page
page = Page(pathlib.Path("plan/page/report.html"))
assert page.all("h1") == ["Boar & \"vixen\""]
for text in ("Study: --wood'"'"'s", "Species: Sus scrofa, <i>Vulpes", "By: Ana", "Reference: 7 & 8", "Purpose: permit", "wood"):
    assert text in page.text, text
assert page.animals["old boar"]["first"] == "30 Apr 2024"
assert page.fields["period"] == "30 Apr 2024 (dates of Pacific/Honolulu)"
assert page.animals["vixen"]["left_coordinates"] == "1"
assert ("class", "boundary") in page.attributes' "$top/python/tests"
    holds 'the page is verified' verify_ranges plan/page "$top/examples/export.csv"
    holds 'what was typed in is named' \
        grep -qx 'not known: whether what was typed in is right: title, study, species, by, reference, purpose, boundary, clock and the name of the export' verified
    holds 'the page has the checksum of its report' grep -qF "$(sha256sum <plan/page/report.txt | cut -c 1-64)" plan/page/report.html
    holds 'the page has the checksum of the export' \
        grep -qF "$(sha256sum <"$top/examples/export.csv" | cut -c 1-64)" plan/page/report.html

    # Another zone, from longitude and latitude; decimetres; other levels; marked outliers; the southern half.
    holds 'ranges in another zone' "$make" --zone 34N --percent=100 "$top/examples/export.csv" plan/zone
    sed 1d -s plan/zone/tracks/*.csv | cut -d, -f1,3,4 >plan/fixes
    holds 'numbers in another zone' are_ranges plan/zone 32634 1 100 plan/fixes
    holds 'another zone is verified' verify_ranges plan/zone "$top/examples/export.csv"
    cat >plan/export.csv <<END
individual-local-identifier,timestamp,utm-easting,utm-northing,utm-zone,visible
NA,2024-05-01 00:00:00,562000.04,8134000.05,23S,true
NA,2024-05-01 01:00:00,562100.00,8134000.00,23S,true
NA,2024-05-01 02:00:00,562100.00,8134100.00,23S,true
NA,2024-05-01 03:00:00,662100.00,8134100.00,23S,false
NA,2024-05-01 04:00:00,562000.00,8134100.00,23S,true
END
    holds 'ranges in decimetres' "$make" --percent 75,100 --mark --unit dm plan/export.csv plan/south/
    printf 'NA,%s\n' 5620000,81340001 5621000,81340000 5621000,81341000 5620000,81341000 >plan/fixes
    holds 'numbers in decimetres' are_ranges plan/south 32723 10 75,100 plan/fixes
    holds 'marks stay' grep -qx 'NA,[0-9]*,6621000,81341000,0' plan/south/tracks/NA.csv
    holds 'decimetres and marks are verified' verify_ranges plan/south plan/export.csv

    # More animals than a run takes.
    awk 'BEGIN {
        print "individual-local-identifier,timestamp,utm-easting,utm-northing,utm-zone"
        for (i = 0; i < 70; i++) for (j = 0; j < 5; j++) printf "deer %02d,2024-05-01 0%d:00:00,%d,%d,33N\n", i, j,
            500000 + 37 * i + (j * j * 71 + i * 13) % 97, 5100000 + (j * 53 + i * i * 29) % 89
    }' >plan/export.csv
    holds 'ranges of 70 animals' "$make" --percent 80 plan/export.csv plan/herd
    sed 1d plan/export.csv | cut -d, -f1,3,4 >plan/fixes
    holds 'numbers of 70 animals' are_ranges plan/herd 32633 1 80 plan/fixes
    holds 'checksums of 70 animals' sh -c 'cd plan/herd && sha256sum -c SHA256SUMS'
    holds 'a checksum of each file' [ "$(wc -l <plan/herd/SHA256SUMS)" -eq $(($(find plan/herd -type f | wc -l) - 1)) ]
    holds '70 animals are verified' verify_ranges plan/herd plan/export.csv

    # A name that begins with a point is an animal like others.
    printf '%s\n' animal,second,easting,northing .hidden,0,562000,5134000 .hidden,1,562100,5134000 \
        .hidden,2,562100,5134100 boar,0,562000,5134000 boar,1,562200,5134000 boar,2,562200,5134100 >plan/export.csv
    holds 'ranges of a name with a point' "$make" --percent 100 plan/export.csv plan/points
    holds 'both are in the report' grep -qx end,2 plan/points/report.txt
    holds 'both are in the table' [ "$(cut -d, -f1,8 plan/points/summary.csv)" = "animal,hectares
_hidden,0.5
boar,1.0" ]

    # Names that a spreadsheet would compute.
    for name in '=1+1' -7 @sum "'tis" boar; do
        printf '%s\n' "$name,0,562000,5134000" "$name,1,562100,5134000" "$name,2,562100,5134100" "$name,3,562000,5134050"
    done | sed '1i animal,second,easting,northing' >plan/export.csv
    holds 'ranges of formulas' "$make" --zone 33N --percent 75,100 plan/export.csv plan/formulas
    printf '%s\n' animal "''tis" "'-7" "'=1+1" "'@sum" boar >wanted
    cut -d, -f1 plan/formulas/animals.csv >made
    holds 'they are none in tables' cmp wanted made
    sed 1d plan/export.csv | cut -d, -f1,3,4 >plan/fixes
    holds 'read again they are these names' are_ranges plan/formulas 32633 1 75,100 plan/fixes
    holds 'formulas are verified' verify_ranges plan/formulas plan/export.csv

    # A local grid comes back where it was.
    printf '%s\n' id,date,x,y a,2024-05-01,-300,-400 a,2024-05-02,-200,-400 a,2024-05-03,-200,-300.2 >plan/export.csv
    holds 'ranges of a local grid' "$make" --percent 100 plan/export.csv plan/local
    holds 'the record has the shift' grep -qx shift,1000000,1000000 plan/local/tracks/split.txt
    holds 'its corners are where they were' python3 -c 'import geopandas
corners = geopandas.read_file("plan/local/ranges.gpkg", layer="ranges").geometry[0].exterior.coords
assert {*corners} == {(-300, -400), (-200, -400), (-200, -300)}, [*corners]'
    holds 'a local grid is verified' verify_ranges plan/local plan/export.csv

    # An export of a collar, and its filter.
    {
        echo 'No,CollarID,UTC_Date,UTC_Time,Latitude [deg],Longitude [deg],DOP,FixType,AnimalID'
        for hour in 1 2 3 4; do
            echo "1,7,0$hour.05.2024,0$hour:00:00,46.35$hour,15.8$hour,$hour.5,GPS-3D,Vesna"
        done
    } >plan/export.csv
    holds 'ranges of a collar' "$make" --from vectronic --max-dop 4 --percent=100 plan/export.csv plan/collar
    holds 'its filter' grep -qx 'animal,Vesna,fixes,3' plan/collar/report.txt
    holds 'ranges of a collar are verified' verify_ranges plan/collar plan/export.csv

    # Odd names, more levels than one table has room for, an animal without an area, and one with marked outliers alone.
    {
        echo individual-local-identifier,timestamp,utm-easting,utm-northing,utm-zone,visible
        for name in '"Vesna, the old"' 'فهد' '<b>' '"a ""quoted"" one"' "it's &amp;" '{{title}}' 007 \
            "$(printf 'turned \342\200\256')"; do
            for day in 1 2 3 4 5; do
                echo "$name,2023-12-3$((day % 2)) 0$day:00:00,56$((day * 3 % 10))10$day,513$((day * 7 % 10))00$day,33N,true"
            done
            echo "$name,2024-01-01 00:00:00,561000,5130000,33N,false"
        done
        echo 'one fix,2024-05-01 00:00:00,562000,5134000,33N,true'
        echo 'none,2024-05-01 00:00:00,562000,5134000,33N,false'
    } >plan/export.csv
    holds 'ranges of odd names' "$make" --mark --percent 1,20,35,50,75,90,95,100 plan/export.csv plan/odd
    holds 'odd names are verified' verify_ranges plan/odd plan/export.csv
    holds 'an animal with marked outliers alone has no range' \
        grep -q 'is used (fixes of the export): <bdi>none</bdi> (1)' plan/odd/report.html

    for folder in plan/*/tracks; do
        holds "a second way to ${folder%/tracks}" python3 "$tools/tests/second_way.py" "${folder%/tracks}"
    done

    # What is no file of a hand-in; tables, layers and the page as forgers could change them.
    echo 'seen by the authority' >plan/odd/seal.txt
    (cd plan/odd && sha256sum seal.txt >>SHA256SUMS)
    verify_ranges plan/odd plan/export.csv
    holds 'a file that no step knows is not looked at' [ $? -eq 3 ]
    holds 'it is named' grep -qx 'not looked at: what '\''seal.txt'\'' has: no step knows such a file' verified
    PYTHONDONTWRITEBYTECODE=1 python3 "$tools/tests/forged_tables.py" "$HOMERANGE" >plan/forged 2>&1
    python3 "$tools/tests/forged_layers.py" plan/first/ranges.gpkg plan/first/ranges.gpkg >>plan/forged 2>&1
    PYTHONDONTWRITEBYTECODE=1 python3 "$tools/tests/forged_systems.py" "$HOMERANGE" >>plan/forged 2>&1
    holds 'all tables, layers and pages were forged' [ "$(grep -c '^ok ' plan/forged)" -ge 150 ]
    while read -r how name; do
        holds "forgery: $name" [ "$how" = ok ]
    done <plan/forged

    # Tracks that are not those of the split.
    cp -r plan/points plan/changed
    sed -i '$d' plan/changed/tracks/boar.csv
    "$HOMERANGE" --percent 100 plan/changed/tracks/*.csv >plan/changed/report.txt
    holds 'a track that was changed is found' is_refused python3 "$tools/ranges.py" plan/changed
    rm plan/changed/tracks/boar.csv
    "$HOMERANGE" --percent 100 plan/changed/tracks/*.csv >plan/changed/report.txt
    holds 'a track that is not there is found' is_refused python3 "$tools/ranges.py" plan/changed

    # What is refused leaves nothing.
    export=$top/examples/export.csv
    refuses_ranges 2 'the export and the folder to make are wanted' "$make" "$export"
    refuses_ranges 2 '--depth=9 is no option' "$make" --depth=9 "$export" plan/none
    refuses_ranges 1 'plan/nothing.gpkg cannot be read' "$make" --over plan/nothing.gpkg "$export" plan/none
    refuses_ranges 2 '--clock Mars is no time zone' "$make" --clock Mars "$export" plan/none
    refuses_ranges 2 'invalid choice' "$make" --unit km "$export" plan/none
    refuses_ranges 1 'plan/nothing.csv cannot be read' "$make" plan/nothing.csv plan/none
    printf '%s\n' animal,second,x a,1,2 >plan/export.csv
    refuses_ranges 1 'there are no columns' "$make" plan/export.csv plan/none
    refuses_ranges 2 'level 1 is not a whole number' "$make" --percent 0 "$export" plan/none
    refuses_ranges 1 'there is no program' env HOMERANGE=plan/nothing "$make" "$export" plan/none
    refuses_ranges 1 'plan/first is there already' "$make" "$export" plan/first
    mkdir plan/other.part
    refuses_ranges 1 'another call is at work, or was killed' "$make" "$export" plan/other
    holds 'what another call makes is left' [ -d plan/other.part ]
    # The report of a program whose percent polygons are not those of the rule.
    printf '#!/bin/sh\n"%s" "$@" | sed "s/^percent,vixen,50,2,2,0/percent,vixen,50,2,1,0/"\n' "$HOMERANGE" >plan/changing
    chmod +x plan/changing
    ln -s "$(readlink -f "${HOMERANGE%/*}/homerange-page")" plan/homerange-page
    refuses_ranges 1 'tracks/vixen.csv: its fixes have another percent polygon than the report says' \
        env HOMERANGE=plan/changing "$make" "$export" plan/none
    holds 'what was there is left' sh -c 'cd plan/first && sha256sum -c --strict SHA256SUMS'
    # One that is ended leaves nothing.
    cat >plan/slow <<END
#!/bin/sh
[ "\$1" = --version ] || { : >'$PWD/plan/waits'; sleep 5; }
exec '$HOMERANGE' "\$@"
END
    chmod +x plan/slow
    HOMERANGE=plan/slow "$make" "$export" plan/none >out 2>errors &
    call=$!
    for _ in $(seq 100); do
        [ ! -e plan/waits ] || break
        sleep 0.1
    done
    kill -TERM "$call"
    wait "$call"
    holds 'a call that is ended says so by its status' [ $? -eq 143 ]
    holds 'it leaves nothing' [ ! -e plan/none ]
    holds 'and nothing half' [ ! -e plan/none.part ]
else
    skip "ranges of an export: $(tail -n 1 errors)"
fi
