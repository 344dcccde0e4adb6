#!/bin/sh
# program.sh [PROGRAM]: prints the path of the program that ./homerange runs, or with homerange-split or homerange-page as
# PROGRAM of the one that the script of this name in tools runs, and builds it where there is none. HOMERANGE_BUILD=1 leaves
# the release out. The status is 70 where no program can be had.
set -u
top=$(cd "$(dirname "$0")/.." && pwd)
# shellcheck source=tools/answers.sh
. "$top/tools/answers.sh"
answer_words "$@"
# shellcheck source=tools/sources.sh
. "$top/tools/sources.sh"
[ $# -gt 0 ] || set -- homerange
is_program "$@" || misuse "it takes one of $programs, and not $*"
find_program "$1" || exit 70
echo "$program"
