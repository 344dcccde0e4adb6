#!/bin/sh
# step.sh OUT A B: one run of a herd that plan.sh planned, of one group (A is B) or of a pair of groups.
#
# One group's report is OUT/reports/A.txt; of a pair OUT/pairs/A-B.txt has the overlap lines and the end line. If the reports of both
# groups of a pair stand, animals are run whose boxes meet one of the other group, as pair.awk says, and else all of both.
# Beside it stands its key, a checksum of what it was made of: the program, the options, and the checksums of the tracks,
# all as plan.sh wrote them. Does nothing where the key is that of the plan. Else OUT/report.txt is removed: it is not of
# the herd's files as they are now. The status is 0 where the file is there and whole.
set -eu
# Names are bytes.
LC_ALL=C
export LC_ALL
here=$(cd "$(dirname "$0")" && pwd)
# shellcheck source=tools/herd/words.sh
. "$here/words.sh"
answer_words "$@"
[ $# -eq 3 ] || misuse 'give the folder that plan.sh planned and two groups'
cd -- "$1"
sha256sum --status -c program 2>/dev/null || {
    echo "step.sh: the program is not that of $1/program: call plan.sh" >&2
    exit 255
}
read -r _ homerange <program
made=reports/$2.txt lines=.
if [ "$2" != "$3" ]; then
    made=pairs/$2-$3.txt lines='^overlap,\|^end,'
fi
mine=$made.$$
trap 'rm -f "$mine".*' EXIT
trap 'exit 143' HUP INT TERM

# The lists of a kind, groups or sums, of the groups of this run.
lists() {
    if [ "$2" = "$3" ]; then cat "$1/$2"; else cat "$1/$2" "$1/$3"; fi
}

# The key of a run of these groups.
key_of() {
    { cut -d ' ' -f 1 program; cat options; lists sums "$1" "$2"; } | sha256sum | cut -d ' ' -f 1
}
key=$(key_of "$2" "$3")

# Whether what a run made stands, which has this key.
stands() {
    [ -f "$1" ] && [ "$(cat "${1%.txt}.key" 2>/dev/null)" = "$2" ]
}

# Runs the files that standard input names, and answers the lines that are wanted.
run() {
    { cat options -; } | tr '\n' '\0' | xargs -0 "$homerange" --workers 1 | grep "$lines"
}

# The overlaps of a pair of groups, whose reports stand.
run_met() {
    for group in "$1" "$2"; do
        grep '^animal,\|^box,\|^overlap,' "reports/$group.txt" >"$mine.$group"
    done
    lists groups "$1" "$2" | awk -v files=1 -f "$here/pair.awk" "$mine.$1" "$mine.$2" - >"$mine.files"
    echo end,0 >"$mine.run"
    [ ! -s "$mine.files" ] || run <"$mine.files" >"$mine.run"
    [ "$(tail -n 1 "$mine.run")" != "end,$(wc -l <"$mine.files")" ] || awk -f "$here/pair.awk" "$mine.$1" "$mine.$2" "$mine.run"
}

! stands "$made" "$key" || exit 0
rm -f report.txt "${made%.txt}.key"
count=$(lists groups "$2" "$3" | wc -l)
if [ "$2" != "$3" ] && stands "reports/$2.txt" "$(key_of "$2" "$2")" && stands "reports/$3.txt" "$(key_of "$3" "$3")"; then
    run_met "$2" "$3" >"$mine.part" || :
else
    lists groups "$2" "$3" | run >"$mine.part" || :
fi
# A run that failed has no last line; one of other files has another.
if [ "$(tail -n 1 "$mine.part")" != "end,$count" ] ||
    [ "$(grep -c '^overlap,' "$mine.part")" -ne $((count * (count - 1))) ]; then
    echo "step.sh: the run of groups $2 and $3 failed" >&2
    exit 1
fi
lists sums "$2" "$3" | sha256sum --status -c || {
    echo "step.sh: a track of groups $2 and $3 is not as plan.sh found it: call plan.sh" >&2
    exit 1
}
mv "$mine.part" "$made"
echo "$key" >"$mine.key"
mv "$mine.key" "${made%.txt}.key"
