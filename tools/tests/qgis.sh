# Tests the plugin for QGIS, as 'Install from ZIP' puts it there, in a QGIS without a screen: over the examples, held to the
# program's report and to QGIS's own convex hulls, and over layers of memory.
# shellcheck shell=sh disable=SC2154

# The wrapper qgis_process passes an option that this does not know.
process() {
    qgis_process.bin "$@" >said 2>&1
}

# Whether a run of the algorithm over these layers is refused, in a line with this text.
is_refused_with() {
    wanted=$1
    shift
    ! process run homerange:ranges "$@" RANGES=none.gpkg && grep -qF -- "$wanted" said
}

if ! command -v qgis_process.bin >/dev/null; then
    skip "the plugin for QGIS: no QGIS: tools/setup.sh --qgis installs it, which is a gigabyte"
elif ! python3 -c 'import geopandas, pyproj' 2>errors; then
    skip "the plugin for QGIS: $(tail -n 1 errors)"
else
    rm -rf "$work/qgis"
    mkdir -p "$work/qgis/conf/profiles/default/python/plugins"
    cd "$work/qgis" || exit 1
    export QT_QPA_PLATFORM=offscreen QGIS_CUSTOM_CONFIG_PATH="$work/qgis/conf" XDG_RUNTIME_DIR="$work/qgis"
    export PYTHONDONTWRITEBYTECODE=1
    plugins=$work/qgis/conf/profiles/default/python/plugins

    holds 'the plugin is packed' python3 "$top/qgis/pack.py" one.zip
    python3 "$top/qgis/pack.py" two.zip
    holds 'it is packed as the same bytes' cmp one.zip two.zip
    python3 -m zipfile -e one.zip "$plugins"
    for file in $programs; do
        holds "its $file is the released one" cmp "$plugins/homerange/package/release/$file" "$top/release/$file"
    done
    holds 'QGIS takes it' process plugins enable homerange
    holds 'its algorithm is there' process help homerange:ranges
    holds 'its help has what it refuses' grep -q 'one in degrees is refused' said

    python3 "$tools/tests/qgis_ranges.py" "$top/examples/fox.csv" "$top/examples/badger.csv" "$top/examples/otter.csv"
    "$HOMERANGE" "$top/examples/fox.csv" "$top/examples/badger.csv" "$top/examples/otter.csv" >report.txt
    holds 'ranges of the examples' process run homerange:ranges INPUT=fixes.gpkg RANGES=ranges.gpkg CORNERS=corners.gpkg \
        CURVE=curve.csv OVERLAPS=overlaps.csv PAGE=page.html
    holds 'it says what it took' grep -q 'columns: animal, second, easting of the point, northing of the point; 3 animals' said
    holds 'the page is of the three' grep -q 'fox, badger and otter' page.html
    process run qgis:minimumboundinggeometry INPUT=fixes.gpkg FIELD=animal TYPE=3 OUTPUT=hulls.gpkg
    holds "they are those of the report, and QGIS's own hulls" python3 "$tools/tests/qgis_ranges.py"
    process run native:reprojectlayer INPUT=fixes.gpkg TARGET_CRS=EPSG:4326 OUTPUT=degrees.gpkg
    holds 'degrees are refused' is_refused_with 'Reproject layer first, to the UTM zone of the fixes (EPSG:32633)' \
        INPUT=degrees.gpkg
    holds 'a level that is none is refused' is_refused_with 'from 1 to 100' INPUT=fixes.gpkg LEVELS=101
    holds 'nothing is made' [ ! -e none.gpkg ]

    python3 "$tools/tests/qgis_layers.py" "$plugins" >layers 2>errors
    sed -n 's/^passed: /the plugin for QGIS: /p' layers >>"$work/passed"
    sed -n 's/^failed: //p' layers | while read -r said; do holds "the plugin for QGIS: $said" false; done
    holds 'the tests of layers ended' grep -qx '[1-9][0-9]* passed, 0 failed' layers

    for file in $programs; do
        holds "its $file can be run" [ -x "$plugins/homerange/package/release/$file" ]
        echo >>"$plugins/homerange/package/release/$file"
        holds "another $file is refused" is_refused_with "/$file is not the program that this package was built with" \
            INPUT=fixes.gpkg
        cp "$top/release/$file" "$plugins/homerange/package/release/$file"
    done
    cd "$work" || exit 1
fi
