#!/bin/sh
# test.sh [PROGRAM [PART ..]]: tests the scripts, what pages quote, and the program run for real, in a folder of its own
# that it removes.
#
# PROGRAM is the program (if left out, that of tools/program.sh). homerange-split and homerange-page are those beside it, or
# else those of these sources, where they were built or released. A PART is a file of tools/tests without its `.sh`. If parts
# are left out all are run, as many at once as there are processors; those whose names begin with the same word are run one
# after the other, in one folder. Needs python3 and sha256sum. Tests that need something else are skipped where it is not
# there, and said so: all of it is installed by tools/setup.sh. The last line is 'N passed, M failed', with ', K skipped'
# behind it where some were; the status is 0 where none failed.
set -u
tools=$(cd "$(dirname "$0")" && pwd)
top=${tools%/*}
# shellcheck source=tools/answers.sh
. "$top/tools/answers.sh"
# shellcheck source=tools/sources.sh
. "$top/tools/sources.sh"
answer_words "$@"
case ${1:-} in
    -*) misuse "it takes no option $1" ;;
esac
command -v python3 >/dev/null || {
    echo 'test.sh: it needs python3; tools/setup.sh installs what the tests use' >&2
    exit 1
}
# R's own check of a package warns in a locale of ASCII alone.
LANG=${LANG:-C.UTF-8}
export LANG
[ $# -gt 0 ] || set -- "$("$tools/program.sh")" || exit
work=$(mktemp -d)
trap 'rm -rf "$work"' EXIT

# Counts a test with this name, passed where the command holds. Counts stand in files, since it may run in a pipe.
holds() {
    name=$1
    shift
    if "$@" >"$work/said" 2>&1; then
        printf '%s\n' "$name" >>"$work/passed"
    else
        printf '%s\n' "$name" >>"$work/failed"
        printf '%s\n' "failed: $name: $*"
        head -n 5 "$work/said"
    fi
}

# Counts what is left out, since something is not there.
skip() {
    echo "skipped: $1" | tee -a "$work/skipped"
}

# Whether a command is there; where it is not, says what is skipped.
is_here() {
    command -v "$1" >/dev/null || {
        skip "$2: no $1"
        return 1
    }
}

# Whether homerange-split is there; where it is not, says what is skipped.
is_split_here() {
    is_beside homerange-split "$1"
}

# Whether homerange-page is there; where it is not, says what is skipped.
is_page_here() {
    is_beside homerange-page "$1"
}

# Whether this program lies beside the one that is tested; where it does not, says what is skipped.
is_beside() {
    [ -x "${HOMERANGE%/*}/$1" ] || {
        skip "$2: no $1"
        return 1
    }
}

# Whether a command fails.
is_refused() {
    ! "$@"
}

# Runs the parts whose names begin with each word, and says of each what it comes to and how long it took.
run_all() {
    for part in "$tools"/tests/*.sh; do
        part=${part##*/}
        part=${part%.sh}
        echo "$part" >>"$work/${part%%_*}.parts"
    done
    # shellcheck disable=SC2016
    (cd "$work" && ls -- *.parts) | xargs -P "$(nproc)" -I '{}' sh -c '
        begin=$(date +%s) of=$3/$4
        "$1" "$2" $(cat "$of") >"$of.said" 2>&1
        sed \$d "$of.said"
        echo "$(head -n 1 "$of"): $(tail -n 1 "$of.said"), $(($(date +%s) - begin)) s"
    ' sh "$0" "$1" "$work" '{}' || :
}

# How many tests of all parts the last lines count with this word.
count_all() {
    tail -q -n 1 "$work"/*.said | sed -n "s/.*\b\([0-9][0-9]*\) $1.*/\1/p" | awk '{ n += $1 } END { print n + 0 }'
}

# Says how many tests passed, failed and were skipped.
report() {
    said="$1 passed, $2 failed"
    [ "$3" -eq 0 ] || said="$said, $3 skipped"
    echo "$said"
    [ "$2" -eq 0 ]
}

if [ $# -eq 1 ]; then
    run_all "$1"
    # A part that was ended counts nothing.
    lost=$(tail -q -n 1 "$work"/*.said | grep -vc 'passed, [0-9]* failed')
    report "$(count_all passed)" "$(($(count_all failed) + lost))" "$(count_all skipped)"
    exit
fi
# In a folder of its own: where it was built, a log lies beside it, which evidence takes along.
mkdir "$work/tried"
cp -- "$1" "$work/tried/homerange" || exit
for name in homerange-split homerange-page; do
    program=$(dirname -- "$1")/$name
    if [ -x "$program" ] || find_made "$name"; then cp -- "$program" "$work/tried"; fi
done
HOMERANGE=$(readlink -f -- "$work/tried/homerange")
export HOMERANGE
# shellcheck disable=SC2034
splitter=${HOMERANGE%/*}/homerange-split page_program=${HOMERANGE%/*}/homerange-page
shift
touch "$work/passed" "$work/failed" "$work/skipped"
for part in "$@"; do
    cd "$work" || exit 1
    # shellcheck source=/dev/null
    . "$tools/tests/$part.sh"
done
report "$(wc -l <"$work/passed")" "$(wc -l <"$work/failed")" "$(wc -l <"$work/skipped")"
