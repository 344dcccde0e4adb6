# Runs the proved program that a script of this folder is named after, with the words given to it: the one that was built
# here, or the release, or one that is built now (sources.sh). The script reads this one, and has its own path in $self. The
# status is 70 where there is no program; other statuses are the program's.
# shellcheck shell=sh disable=SC2154

top=${self%/tools/*}
# shellcheck source=tools/sources.sh
. "$top/tools/sources.sh"
find_program "${self##*/}" || exit 70
exec "$program" "$@"
