# The memory of runs, as the system tells it of them from outside. A fix takes 16 bytes and its row 32; behind these come
# the order of fixes for percent polygons, some 20 more, or the report's text in their place, and of a corner what the hull
# and its line take. What is held longer than it has to be, such as fixes until the report is written (16 bytes more) or a
# second copy of all rows (32), comes out above these bounds.
# shellcheck shell=sh disable=SC2154

rm -rf "$work/memory"
mkdir "$work/memory"
cd "$work/memory" || exit 1
PYTHONDONTWRITEBYTECODE=1 python3 "$tools/tests/long_tracks.py" .

# A run's memory grows by so many bytes for each further fix, the least and the most, over tracks of this kind.
grows() {
    kind=$1
    shift
    holds "the memory of a run: $kind" python3 -I -S "$tools/tests/peaks.py" "$@"
}
grows 'one walk' 48 76 walk "$HOMERANGE"
grows 'one curve' 48 140 curve "$HOMERANGE" --unit dm
# How many of the eight are sorted at once, threads decide.
grows 'eight walks' 40 80 eight "$HOMERANGE"
cd "$work" || exit 1
rm -r "$work/memory"
