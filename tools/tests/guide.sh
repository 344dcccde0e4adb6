# Runs the snippets of the guide as they stand there. Expected output is written by hand.
# shellcheck shell=sh disable=SC2154,SC2016

# The snippet in this language that has this text.
snippet() {
    awk -v language="$1" -v text="$2" '
        $0 == "```" language { block = ""; inside = 1; next }
        /^```$/ { if (inside && index(block, text)) printf "%s", block; inside = 0 }
        inside { block = block $0 "\n" }' "$top/docs/GUIDE.md"
}

# Whether the snippet writes what is on standard input, to this file or to standard output.
writes() {
    cat >wanted
    case $1 in
        sh) set -- sh "$@" ;;
        r) set -- Rscript "$@" ;;
        python) set -- python3 "$@" ;;
    esac
    snippet "$2" "$3" >taken
    holds "the guide's snippet with '$3' is there" [ -s taken ]
    "$1" taken >written 2>errors
    holds "the guide's snippet with '$3'" cmp wanted "${4:-written}"
}

rm -rf guide
mkdir guide
cd guide || exit 1
ln -s "$HOMERANGE" homerange
ln -s "$top/examples" .
mkdir tools
ln -s "$tools"/* tools
ln -sf "$splitter" tools/homerange-split
if is_split_here "the guide's first files"; then
    snippet sh '--into first' >taken
    sh taken >report.txt 2>errors
    holds "the guide's first files have a report" "$tools/check.py" report.txt 'first/old boar.csv' first/vixen.csv
fi

printf '%s\n' animal,second,easting,northing vixen,0,562000.4,5134001.2 boar,7,1,2 vixen,3000000000,561975.6,5133992 >track.csv
writes sh 'begun[file]' vixen.csv <<END
animal,second,easting,northing
vixen,0,562000,5134001
vixen,3000000000,561976,5133992
END
printf '%s\n' animal,second,easting,northing v,0,100,100 v,10,120,100 v,20,90,141 v,30,120,100 >vixen.csv
writes sh 'most=2' screened.csv <<END
animal,second,easting,northing,use
v,0,100,100,1
v,10,120,100,1
v,20,90,141,0
v,30,120,100,1
END
echo '1 of 4 records left out' | writes sh 'records left out'

# The commands for exports, each with a table of its maker.
if is_split_here "the guide's commands for exports"; then
    PYTHONDONTWRITEBYTECODE=1 python3 "$tools/tests/tables/unpack.py" "$work/guide/tables" >unpacked
    grep -E '^    tools/homerange-split ' "$top/docs/GUIDE.md" | sed 's/^ *//' >commands
    holds 'the guide has commands for exports' [ "$(wc -l <commands)" -ge 9 ]
    while IFS= read -r command; do
        maker=$(echo "$command" | sed -n 's/.*--from \([a-z]*\).*/\1/p')
        case $command in
            *RecDateTime*) table=lotek_in_local_time ;;
            *' argos '*) table=argos_of_classes ;;
            *) table=$maker ;;
        esac
        cp "tables/$table/table.csv" export.csv 2>/dev/null || cp examples/export.csv export.csv
        cp export.csv dog.gpx
        case $command in
            *Tier*) printf '%s\n' Tier,Datum,Uhrzeit,Laenge,Breite a,1.5.2024,12:30,15.8,46.3 >export.csv ;;
            *2024.csv) cp examples/export.csv 2023.csv && head -n 4 examples/export.csv >2024.csv ;;
        esac
        rm -rf tracks
        holds "the guide's $command" sh -c "$command"
        holds "tracks of the guide's $command" sh -c 'ls tracks/*.csv'
    done <commands
fi

# A square of 200 metres, a line and a point; the same square in decimetres.
printf '%s\n' animal,second,easting,northing a,0,0,0 a,1,200,0 a,2,200,200 a,3,0,200 >a.csv
printf '%s\n' animal,second,easting,northing b,0,0,0 b,1,200,0 >b.csv
printf '%s\n' animal,second,easting,northing NA,0,0,0 >c.csv
"$HOMERANGE" --percent 100 a.csv b.csv c.csv >report.txt
printf '%s\n' 'a 100% 4.00 ha' 'b 100% 0.00 ha' 'NA 100% 0.00 ha' | writes sh 'hectare = 20000 }'
printf '%s\n' 'animal;wkt' 'a;POLYGON ((0 0, 200 0, 200 200, 0 200, 0 0))' | writes sh 'POLYGON'
if is_here Rscript "the guide's R"; then
    writes r 'percents$V2' <<END
  animal level hectares
1      a   100        4
2      b   100        0
3     NA   100        0
END
fi
is_pandas=false
if python3 -c 'import pandas' 2>/dev/null; then is_pandas=true; else skip "the guide's pandas: no pandas"; fi
shows() {
    snippet python 'percents.assign' >taken
    python3 taken >written 2>errors
    holds "the guide's pandas shows $1 hectares" grep -qE "^ *[0-9]+ +percent +a +100 .* $1\$" written
}
! $is_pandas || shows 4.0
"$HOMERANGE" --unit dm --percent 100 a.csv >report.txt
printf '%s\n' 'a 100% 0.04 ha' | writes sh 'hectare = 20000 }'
! $is_pandas || shows 0.04
if is_here Rscript "the guide's R"; then
    printf '%s\n' '  animal level hectares' '1      a   100     0.04' | writes r 'percents$V2'
fi

# Its corners come to the area and the number of corners that the report has.
snippet sh 'corners.py 95' >taken
sh taken >written 2>errors
"$HOMERANGE" --percent 95 examples/fox.csv >report.txt
awk -F, '{ e[NR] = $4; n[NR] = $5 }
    END { for (i = 1; i <= NR; i++) { j = i % NR + 1; area += e[i] * n[j] - e[j] * n[i] } print NR "," area }' written >wanted
holds "the guide's corners" grep -qx "percent,fox,95,1140,$(cat wanted)" report.txt

# What is done to the fox, and to draws of equal numbers. The table has what the snippet writes, and that is by definition.
if is_split_here "the guide's traps"; then
    sed -n '/^| `[a-z0-9/]*` |\( [^|]* |\)\{6\}$/s/[|`]//gp' "$top/docs/GUIDE.md" |
        awk '{ print $1, $(NF - 4), $(NF - 3), $(NF - 2), $(NF - 1), $NF }' >shown
    holds "the guide's tracks with traps" [ "$(wc -l <shown)" -eq 7 ]
    writes sh 'mkdir trials' <shown
    while read -r track _; do
        "$tools/tests/by_definition.py" "$track.csv" | python3 -c '
import sys
lines = [line.split(",") for line in sys.stdin]
areas = [int(line[5]) for line in lines if line[0] == "row"]
percents = [int(line[5]) / 20000 for line in lines if line[0] == "percent"]
last = 100 * (areas[-1] - areas[len(areas) * 3 // 4 - 1]) / areas[-1]
print(sys.argv[1], len(areas), *(f"{number:.1f}" for number in [*percents, last]))' "$track"
    done <shown >made
    holds 'areas of tracks with traps' cmp made shown
    for hours in 6 24; do
        awk -v each=$((2 * hours)) 'NR == 1 || (NR - 2) % each == 0' examples/fox.csv >wanted
        holds "a fix each $hours hours" cmp wanted trials/$hours/fox.csv
    done
    "$splitter" --every 30min --into even trials/burst.csv 2>said
    holds 'no burst with a fix each half hour' cmp examples/fox.csv even/fox.csv
    "$splitter" --max-speed 2 --into slow trials/centres.csv 2>said
    holds 'five fixes are too fast' grep -qx 'split: 5 fixes are faster than 2 m/s: left out' said
    holds 'it is asked whose the others are' grep -q '^split: 595 .* fox lie 19 km .*: are they hers?$' said

    # Tables that look right.
    awk -F, -v OFS=, 'NR > 601 { $3 += 33 * (NR - 601) } { print }' examples/fox.csv >leaves.csv
    awk -F, -v OFS=, 'NR > 1 { $1 = "Canis" } NR == 1 || FNR > 1 { print }' examples/fox.csv examples/badger.csv >one_name.csv
    awk -F, -v OFS=, 'NR > 1 && FNR == NR { $1 = "f\303\266x" } NR == 1 || FNR > 1 { print }' examples/fox.csv examples/fox.csv \
        >copy.csv
    awk -F, -v OFS=, 'NR > 601 { $1 = "f\303\266x" } { print }' examples/fox.csv >two_names.csv
    awk -F, -v OFS=, 'FNR != NR { $2 += 3600 } NR == 1 || FNR > 1 { print }' examples/fox.csv examples/fox.csv >an_hour.csv
    awk -F, -v OFS=, 'NR > 1 { $2 = sprintf("%.0f", $2 + 2300000000) } { print }' examples/fox.csv >to_come.csv
    awk -F, 'NR == 1 { print "animal,second,longitude,latitude" }
        NR > 1 { printf "%s,%s,%.2f,%.2f\n", $1, $2, $3 / 80000 + 7, $4 / 111000 }' examples/fox.csv >two_decimals.csv
    awk -F, -v OFS=, 'NR > 1 { $3 += 1200000 } { print }' examples/fox.csv >mercator.csv
    awk -F, -v OFS=, 'NR == 1 { print } NR > 1 { print $1, $2, $4, $3 }' examples/fox.csv >exchanged.csv
    for table in leaves one_name two_names an_hour to_come mercator exchanged; do
        "$splitter" --into "asked/$table" $table.csv 2>said
        holds "nothing is asked of the table $table" [ "$?-$(grep -c '?$' said)" = 0-0 ]
    done
    "$splitter" --into asked/copy copy.csv 2>said
    holds "it is asked whether animals with the same fixes are one" grep -q '^split: all 1200 fixes of .* are the same: are they one?$' said
    "$splitter" --into asked/two_decimals two_decimals.csv 2>said
    holds "it is asked whether two decimals were rounded" grep -q 'have at most two decimals, .*: were they rounded?$' said
    for table in mercator exchanged; do
        "$splitter" --zone 33N --into "asked/33N/$table" $table.csv 2>said
        holds "the table $table is refused in a zone" grep -q '^split: areas of fox are .* % too great on this grid: ' said
    done
fi
"$tools/tests/by_definition.py" examples/fox.csv examples/badger.csv | sed -n 's/^overlap,.*,\([0-9]*\),[0-9]*$/\1/p' >counts
holds "the guide's overlaps" grep -q "has $(sed -n 1p counts) of 1,200 fixes of the fox .* and $(sed -n 2p counts) of 800 of" \
    "$top/docs/GUIDE.md"
if $is_pandas; then
    {
        echo 'import pandas, homerange'
        echo 'names = ("fox", "badger", "otter")'
        echo 'fixes = homerange.read_fixes(pandas.concat(pandas.read_csv(f"examples/{name}.csv") for name in names))'
        sed -n 's/^| Python | `\(drawn = .*\)` |$/\1/p' "$top/docs/GUIDE.md"
        echo 'print(*homerange.home_range(drawn).overview()["used"])'
    } >draws.py
    PYTHONPATH=$top/python PYTHONDONTWRITEBYTECODE=1 python3 -W ignore draws.py >written 2>errors
    holds "the guide's draws of equal numbers" [ "$(cat written)" = '300 300 300' ]
fi

# One curve for each animal. The pictures are looked at by people.
"$HOMERANGE" examples/fox.csv examples/badger.csv >report.txt
if is_here Rscript "the guide's picture in R"; then
    snippet r 'type = "s"' >taken
    holds 'R draws the curves' Rscript taken
    holds "R's picture is there" [ -s Rplots.pdf ]
fi
if is_here gnuplot "the guide's picture"; then
    snippet sh gnuplot >taken
    holds 'the picture is drawn' sh taken
    holds 'the picture is there' [ -s area-curve.png ]
fi

# GPX: two fixes, not in order. The metres are those that examples/export.csv has beside them.
if Rscript -e 'library(sf)' >/dev/null 2>&1; then
    {
        echo '<?xml version="1.0"?><gpx version="1.1" creator="t" xmlns="http://www.topografix.com/GPX/1/1"><trk><trkseg>'
        echo '<trkpt lat="46.358710" lon="15.807277"><time>2024-05-01T01:30:02Z</time></trkpt>'
        echo '<trkpt lat="46.356742" lon="15.805899"><time>2024-05-01T00:00:10Z</time></trkpt>'
        echo '</trkseg></trk></gpx>'
    } >dog.gpx
    writes r 'track_points' dog.csv <<END
animal,second,easting,northing
dog,$(date -u -d '2024-05-01 00:00:10' +%s),562000,5134001
dog,$(date -u -d '2024-05-01 01:30:02' +%s),562104,5134221
END
else
    skip "the guide's GPX: no sf in R"
fi
cd "$work" || exit 1
