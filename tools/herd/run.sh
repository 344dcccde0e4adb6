#!/bin/sh
# run.sh TRACKS OUT [OPTION ..]: the report of all files TRACKS/*.csv, one animal in each, in OUT/report.txt.
#
# OPTION .. are those of homerange, such as --unit dm, and HOMERANGE names it (if left out, that of program.sh). JOBS runs are
# made at once (if left out, one for each processor). A call that was killed is called again, and goes on where it was.
# OUT/report.txt is there where all went well, and only then.
set -eu
here=$(cd "$(dirname "$0")" && pwd)
# shellcheck source=tools/herd/words.sh
. "$here/words.sh"
answer_words "$@"
read_words "$@"
rm -f "$out/report.txt"
"$here/plan.sh" "$@"

# Makes the runs, with a line for each that is there.
make_runs() {
    # shellcheck disable=SC2016
    xargs -P "${JOBS:-$(nproc)}" -L 1 sh -c '"$0" "$@" && echo' "$here/step.sh" "$out" <"$out/steps"
}

# Says on a terminal how many runs are there. The last line is 'well' where all are.
count_runs() {
    of=$(wc -l <"$out/steps") made=0 status=1
    while IFS= read -r line; do
        [ -z "$line" ] || status=0
        made=$((made + 1))
        [ ! -t 2 ] || [ "$status" -eq 0 ] || printf '\rrun.sh: %d of %d runs' "$made" "$of" >&2
    done
    [ ! -t 2 ] || printf '\r%40s\r' '' >&2
    return $status
}

{ make_runs && echo well; } | count_runs
"$here/merge.py" "$out"
