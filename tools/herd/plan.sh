#!/bin/sh
# plan.sh TRACKS OUT [OPTION ..]: what a herd's runs are to be.
#
# Writes OUT/groups/NNNN, the files TRACKS/*.csv in groups of at most 32, one per line; OUT/sums/NNNN, their checksums;
# OUT/options, the options of homerange, one per line; OUT/program, the checksum and the name of the program, which
# HOMERANGE names (if left out, that of program.sh); and OUT/steps, the runs, one per line: first 'A A' for the tables of each group,
# then 'A B' for the overlaps of each two. A run that stands is made again where one of these is another, whatever times
# files have. OUT/report.txt is removed. OPTION .. may stand before TRACKS too; what homerange refuses of them is refused here.
set -eu
LC_ALL=C
export LC_ALL
fail() {
    echo "plan.sh: $1" >&2
    exit 1
}
here=$(cd "$(dirname "$0")" && pwd)
# shellcheck source=tools/herd/words.sh
. "$here/words.sh"
answer_words "$@"
read_words "$@"
[ -d "$tracks" ] || fail "there is no folder $tracks"
[ -n "${HOMERANGE:-}" ] || HOMERANGE=$("$here/../program.sh") || fail 'there is no program'
program=$(command -v "$HOMERANGE") || fail "there is no program $HOMERANGE: HOMERANGE has to name it"
program=$(readlink -f "$program")
# Of an empty file homerange tells no option, where it takes them all.
set --
while IFS= read -r option; do
    [ -z "$option" ] || set -- "$@" "$option"
done <<END
$options
END
status=0
said=$("$program" "$@" -- /dev/null 2>&1 >/dev/null) || status=$?
[ "$status" -ne 2 ] || misuse "${said#homerange: }"
tracks=$(cd "$tracks" && pwd)
mkdir -p "$out/groups" "$out/sums" "$out/reports" "$out/pairs"
cd "$out"
rm -f report.txt

# Puts standard input into a file, if the file is not that already: by times of files Snakemake tells what is new.
keep() {
    cat >"$1.part"
    cmp -s "$1.part" "$1" || cp "$1.part" "$1"
    rm "$1.part"
}

# A pattern does not see them.
hidden=$(find "$tracks" -maxdepth 1 -name '.*.csv' | head -n 1)
[ -z "$hidden" ] || fail "the name of $hidden begins with a point: rename it, and the animal in it"
rm -rf groups.part
mkdir groups.part
printf '%s\n' "$tracks"/*.csv | sort | split -l 32 -a 4 -d - groups.part/
for group in groups.part/*; do
    keep "groups/${group##*/}" <"$group"
done
for group in groups/*; do
    [ -f "groups.part/${group##*/}" ] || rm -f "$group" "sums/${group##*/}"
done
rm -r groups.part
for group in groups/*; do
    tr '\n' '\0' <"$group" | xargs -0 sha256sum -- >sums.part || fail 'a track cannot be read'
    keep "sums/${group##*/}" <sums.part
done
rm sums.part
printf %s "$options" | keep options
sha256sum "$program" | keep program
for group in groups/*; do
    printf '%s\n' "${group##*/}"
done | awk '{ name[NR] = $0; print $0, $0 } END { for (i = 1; i <= NR; i++) for (j = i + 1; j <= NR; j++) print name[i], name[j] }' |
    keep steps
