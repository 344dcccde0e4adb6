# Tests homerange-split on awkward exports. Expected files are written by hand.
# shellcheck shell=sh disable=SC2154,SC2034

is_split_here 'awkward exports' || return 0
stamp() { date -u -d "$1" +%s; }
head_line=individual-local-identifier,timestamp,utm-easting,utm-northing,utm-zone,visible
degrees=individual-local-identifier,timestamp,location-long,location-lat

# Splits the export on standard input with these options, which is to end with this status.
split_to() {
    cat >"$work/export.csv"
    status=$1
    shift
    rm -rf "$work/split"
    mkdir "$work/split"
    (cd "$work/split" && "$splitter" "$@" ../export.csv 2>messages)
    ended=$?
    holds "it ends with $status: $(tail -n 1 "$work/split/messages")" [ "$ended" -eq "$status" ]
    [ "$status" -eq 0 ] || holds 'it makes no file' [ ! -e "$work/split/tracks" ]
}

# Whether it made this file of what is on standard input.
makes() {
    cat >"$work/wanted"
    holds "it makes $1" cmp "$work/wanted" "$work/split/tracks/$1"
}

# Whether it said this.
says() {
    holds "it says $1" grep -qF -- "$1" "$work/split/messages"
}
