#!/bin/sh
# make.sh INTO: makes small honest folders of evidence, and their exports, in the new folder INTO: of one animal, of three with a
# boundary and all that can be typed in, in decimetres, of a herd of 70 short tracks, and of a data frame by the packages for
# Python and R. Those of the form that this copy writes are kept as form2 beside this script: CONTRIBUTING.md, The form of a
# folder. Of all but the first the pictures are taken out, since nothing looks at them. Needs geopandas, matplotlib, and the
# package for R where R finds it.
set -eu
top=$(cd "$(dirname "$0")/../../.." && pwd)
export HOMERANGE="$top/release/homerange" PATH="/usr/bin:$PATH"
[ $# -eq 1 ] || {
    echo 'make.sh: give the folder to make' >&2
    exit 2
}
mkdir "$1"
cd "$1"

# Fixes of so many animals, so many of each, as an export with UTM coordinates or, if that is said, with degrees.
export_of() {
    python3 - "$@" <<'END'
import random
import sys
from datetime import datetime, timedelta

animals, fixes = map(int, sys.argv[1:3])
draw, degrees = random.Random(animals), sys.argv[3:] == ["degrees"]
places = "location-long,location-lat" if degrees else "utm-easting,utm-northing,utm-zone"
print(f"individual-local-identifier,timestamp,visible,{places}")
for number in range(animals):
    moment = datetime(2025, 4, 1, 6)
    for count in range(fixes):
        moment += timedelta(hours=4, seconds=draw.randrange(90))
        east, north = draw.gauss(0, 400) + 300 * (number % 9), draw.gauss(0, 500) + 300 * (number // 9)
        place = f"{15.8 + east / 77000:.6f},{46.35 + north / 111000:.6f}" if degrees else f"{561000 + east:.1f},{5134000 + north:.1f},33N"
        print(f"{'fox owl hare'.split()[number] if animals < 4 else f'deer{number:02}'},{moment},{'false' if count == 5 else 'true'},{place}")
END
}

# Takes the pictures out of a folder and its list.
without_pictures() {
    rm "$1/curves.png" "$1/ranges.png"
    sed -i '/\.png$/d' "$1/SHA256SUMS"
}

export_of 1 24 degrees >one.csv
"$top/tools/ranges.sh" one.csv one
export_of 3 30 >three.csv
echo '{"type":"Polygon","coordinates":[[[15.79,46.34],[15.81,46.34],[15.81,46.36],[15.79,46.36],[15.79,46.34]]]}' >wood.geojson
"$top/tools/ranges.sh" --title 'Three & "more"' --study "a\\b" --species Vulpes --by Maja --over wood.geojson --clock Europe/Ljubljana \
    --percent 95,50,100 --max-speed 2 three.csv three
export_of 2 20 degrees >decimetres.csv
"$top/tools/ranges.sh" --unit dm decimetres.csv decimetres
export_of 70 8 >herd.csv
"$top/tools/ranges.sh" --percent 95 herd.csv herd
rm wood.geojson
for folder in three decimetres herd; do
    without_pictures "$folder"
done
python3 - "$top/python" <<'END'
import sys

sys.path.insert(0, sys.argv[1])
import pandas
from homerange import home_range

home_range(pandas.read_csv("three.csv"), tz="Europe/Ljubljana").evidence("frame_python", title="Of a frame")
END
Rscript --vanilla -e 'library(homerange)' \
    -e 'homerange_evidence(home_range(read.csv("three.csv", check.names = FALSE), tz = "Europe/Ljubljana"), "frame_r", title = "Of a frame")'
