# Tests ./test itself, in a folder where its parts stand in: in which order they run, what it says without the toolchain,
# what it installs, and how far it says that the proofs are.
# shellcheck shell=sh disable=SC2154,SC2016

rm -rf gate
mkdir -p gate/tools/tests/tables gate/hostile gate/release gate/crates gate/with
cd gate || exit 1
cp "$top/test" tried
echo program >release/homerange
sha256sum release/homerange >release/SHA256SUMS
cp "$tools/answers.sh" tools/
cat >tools/sources.sh <<'END'
programs='fox owl'
sum_sources() { sum="sum of $1"; }
name_crate() { crate=$1_crate; }
find_made() { program=release/$1 && [ ! -e "anew.$1" ]; }
keep_program() { echo "$1 of $sum: $2, $(tail -n 1 "$3")" >>kept; }
END
printf '#!/bin/sh\necho "release/${1:-homerange}"\n' >tools/program.sh
printf '#!/bin/sh\ncat tools/says\n' >tools/test.sh
printf '#!/bin/sh\n[ "$#" -eq 0 ] || { cat missing; exit; }\necho it is installed >>called\n: >missing\n' >tools/setup.sh
printf '#!/bin/sh\necho release.sh: the same\n' >tools/release.sh
echo 'print("2 passed, 0 failed")' >hostile/allocations.py
echo 'import sys; print(sys.argv[1:], "8 passed, 0 failed")' >tools/tests/tables/run_program.py
echo 'import sys; print(sys.argv[1:], "5 passed, 0 failed")' >tools/tests/tables/random_tables.py
echo 'import sys; print(sys.argv[1:], "6 passed, 0 failed")' >hostile/split_faults.py
echo 'import sys; print(sys.argv[1:], "7 passed, 0 failed")' >hostile/split_files.py
echo 'import sys; print(sys.argv[1:], "3 passed, 0 failed")' >hostile/page_faults.py
echo 'import sys; print(sys.argv[1:], "1 passed, 0 failed")' >hostile/page_files.py
printf '#!/bin/sh\necho "9 passed, 0 failed"\n' >with/rt
chmod +x tools/*.sh with/rt
echo '4 passed, 0 failed' >tools/says
: >missing

# What ./test says with these words, with the toolchain and without.
says() {
    PATH=$PWD/with:/usr/bin:/bin ./tried "$@" >said 2>&1
}
says_without() {
    PATH=/usr/bin:/bin ./tried "$@" >said 2>&1
}
# Whether the parts ran in this order.
ran() {
    [ "$(sed -n 's/^test: \([a-z]*\): [0-9]* passed.*/\1/p' said | paste -s -d ' ' -)" = "$1" ]
}
ends() {
    [ "$(tail -n 1 said)" = "$1" ]
}

holds 'all parts' says
holds 'the quick ones come first' ran 'release tools gate built split random faults files pagefaults pagefiles allocations'
holds 'all are counted' ends '47 passed, 0 failed'
printf '%s of sum of %s: crates/%s_crate/out/%s_crate, 9 passed, 0 failed\n' fox fox fox fox owl owl owl owl >wanted
holds 'the programs of the gate are kept' cmp wanted kept
holds 'the program homerange-split is called' [ "$(grep -c "^\['release/homerange-split'\]" said)" -eq 4 ]
holds 'the program homerange-page is called' [ "$(grep -c "^\['release/homerange-page'\]" said)" -eq 2 ]
for lost in fox owl; do
    touch "anew.$lost"
    holds "without a program $lost of these sources" says
    holds "the gate comes first: $lost" ran 'release gate tools built split random faults files pagefaults pagefiles allocations'
    rm "anew.$lost"
done
holds 'the quick parts alone' says --quick
holds 'they are these' ran 'release tools split random faults files pagefaults pagefiles allocations'
touch anew.homerange-page
holds 'without homerange-page' says --quick
holds 'all else is tested' ran 'release tools split random faults files allocations'
holds 'its parts are skipped' grep -q '^test: pagefaults and pagefiles: skipped, since there is no homerange-page' said
holds 'that is counted' ends '33 passed, 0 failed, 1 skipped'
rm anew.homerange-page
if [ ! -x /usr/bin/rt ] && [ ! -x /bin/rt ]; then
    holds 'without the toolchain' says_without
    holds 'all else is tested' ran 'release tools split random faults files pagefaults pagefiles allocations'
    holds 'the gate is skipped' ends '37 passed, 0 failed, 1 skipped'
    holds 'it says why' grep -q '^test: gate: skipped, since there is no rt' said
fi
echo '3 passed, 1 failed, 2 skipped' >tools/says
holds 'a part that fails' is_refused says
holds 'it is counted' ends '46 passed, 1 failed, 2 skipped'
echo nothing >tools/says
printf '#!/bin/sh\nexit 3\n' >tools/test.sh
holds 'a part that is ended' is_refused says
holds 'it is counted as one' ends '43 passed, 1 failed'
printf '#!/bin/sh\ncat tools/says\n' >tools/test.sh
echo changed >release/homerange
echo '4 passed, 0 failed' >tools/says
holds 'a release that is not whole' is_refused says --quick
holds 'it is said' grep -q '^release/homerange: FAILED' said
echo program >release/homerange
holds 'a word that it does not take' is_refused says --slow
holds 'it says so' grep -q 'not --slow' said

# What the tests use.
echo snakemake >missing
says --quick
if [ "$(id -u)" -eq 0 ]; then
    holds 'root installs what is missing' grep -qx 'it is installed' called
    holds 'and says so' grep -qx 'test: installing snakemake' said
else
    holds 'who is not root installs nothing' [ ! -e called ]
    echo '4 passed, 0 failed, 1 skipped' >tools/says
    says --quick
    holds 'and says what would' grep -qx 'test: not installed: snakemake; as root tools/setup.sh installs them' said
fi

# How far the proofs are.
mkdir crates/fox crates/fox/src crates/fox/must-fail crates/owl crates/owl/src
cp "$tools/progress.py" tools
printf '%s\n' '== fox' 'rt: fox proved' 'rt: owl: its tests are proved' 'rt: owl NOT PROVED' 'rt: fox: trying its must-fail edits (3)' \
    '1 passed, 1 failed' | tools/progress.py >said
printf '%s\n' '1 of 2 crates are proved: fox' 'tests of owl are proved' "1 of 1 crates' edits are tried: fox" >wanted
sed -n 's/^gate: \(.*\); 0 of some [0-9]* minutes$/\1/p' said >far
holds 'how far the proofs are' cmp wanted far
holds 'what failed is passed on' [ "$(grep -v ^gate: said)" = 'rt: owl NOT PROVED
1 passed, 1 failed' ]
cd "$work" || exit 1
