#!/bin/sh
# build.sh [--anew] [PROGRAM]: proves a program, homerange if left out, homerange-split or homerange-page, and the crates that
# it stands on, with `rt`, and leaves it in out/, with build.log, build-split.log or build-page.log, what the prover said, and
# SOURCES, the checksums of what it was made from.
#
# The crates are proved side by side, on a copy. A toolchain that keeps what this machine has proved before, here or in
# another clone, proves it again with --anew alone; an older one always does. The status is 70 where the program could not
# be built.
set -u
top=$(cd "$(dirname "$0")/.." && pwd)
# shellcheck source=tools/answers.sh
. "$top/tools/answers.sh"
# shellcheck source=tools/sources.sh
. "$top/tools/sources.sh"
answer_words "$@"
anew=
if [ "${1:-}" = --anew ]; then
    anew=$1
    shift
fi
[ $# -gt 0 ] || set -- homerange
is_program "$@" || misuse "it takes --anew, and one of $programs, and not $*"
name=$1
out=$top/out
log=$out/build${name#homerange}.log
room=

say() {
    printf '%s: %s\n' "$name" "$1" >&2
}

fail() {
    [ ! -f "$room/log" ] || mv -f "$room/log" "$log"
    say "the program cannot be built: $1"
    exit 70
}

# Ends what still runs, and removes the copy.
clear_room() {
    trap '' HUP INT TERM
    kill "${job:-}" 2>/dev/null && wait "$job"
    rm -rf "$room"
}

# Copies what the program is built from.
copy() {
    mkdir -p "$room/copy/.git" && cp "$top/HANDLES" "$room/copy" && program_crates "$name" >"$room/copy/crates.txt" || return
    while read -r crate _; do
        crate=crates/${crate%:}
        mkdir -p "$room/copy/$crate" || return
        for part in src specs proofs args data status stdin stdout; do
            [ ! -e "$top/$crate/$part" ] || cp -R "$top/$crate/$part" "$room/copy/$crate" || return
        done
    done <"$room/copy/crates.txt"
}

command -v rt >/dev/null || fail 'rt, the command of the Rattle toolchain, is not on PATH'
mkdir -p "$out" 2>/dev/null
[ -w "$out" ] || fail "$out cannot be written"
# Of calls side by side one builds, and the others wait for it.
exec 9<"$out"
if ! flock -n 9; then
    say 'another call builds a program: waiting for it'
    flock 9
    sum_sources "$name"
    ! is_of_sum "$name" "$out" || exit 0
fi
{ rt help; cat "$(rt doc)"; } 2>&1 | grep -q -e --anew || anew=
room=$(mktemp -d) || fail 'there is no room for a copy'
trap clear_room EXIT
trap 'exit 129' HUP
trap 'exit 130' INT
trap 'exit 143' TERM
copy || fail 'its sources cannot be copied'
sum=$(top=$room/copy && sum_sources "$name" && echo "$sum")
say 'building the proved program; docs/GATE.md has how long it takes'
begin=$(date +%s)
: >"$room/log"
(cd "$room/copy" && exec rt ci ${anew:+"$anew"}) </dev/null >>"$room/log" 2>&1 9<&- &
job=$!
tail -n +1 -f --pid="$job" "$room/log" 9<&- | sed -u -n "s/^rt: \(.* proved\)\$/$name: \1/p" >&2 9<&- &
wait "$job"
status=$?
job=
name_crate "$name"
made=$room/copy/crates/$crate/out/$crate
if [ "$status" -ne 0 ] || [ ! -x "$made" ]; then
    fail "$(sed -n 's/^rt: \(FAILED: .*\)/\1, /p' "$room/log")the log is $log"
fi
keep_program "$name" "$made" "$room/log" || fail "$out cannot be written"
say "built in $(($(date +%s) - begin)) s"
