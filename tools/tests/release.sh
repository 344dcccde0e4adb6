# Which program ./homerange, tools/homerange-split and tools/homerange-page run, in a copy of the repository whose `rt` stands
# in for the toolchain's: it is quick, and a program that it makes only says that it was built.
# shellcheck shell=sh disable=SC2154,SC2016

rm -rf house stand-in
mkdir house stand-in
# A copy of what the program is built from, and of what runs it.
(cd "$top" && find crates.txt HANDLES homerange python release tools docs/homerange*.1 crates/*/src crates/*/specs \
    crates/*/proofs crates/homerange/std* -type f -print0 | xargs -0 cp --parents -t "$work/house") 2>/dev/null
cat >stand-in/rt <<'END'
#!/bin/sh
case $1 in
    version) echo 'stand-in logic 0' && exit ;;
    help) [ -e "$STAND_IN/old" ] || echo 'rt ci [--anew]' ;;
esac
[ "$1" = ci ] || exit 0
echo "$*" >"$STAND_IN/words"
[ ! -e "$STAND_IN/fails" ] || { echo 'rt: FAILED: range_plane'; exit 1; }
for crate in homerange homerange_split homerange_page; do
    [ -d "crates/$crate" ] || continue
    name=$(echo "$crate" | tr _ -)
    mkdir -p "crates/$crate/out"
    printf '#!/bin/sh\n[ "$1" != --version ] || exec echo "%s built: $*"\nexec "%s" "$@"\n' "$name" "$RELEASED" \
        >"crates/$crate/out/$crate"
    chmod +x "crates/$crate/out/$crate"
    echo "rt: $crate proved"
done
echo '1 passed, 0 failed'
END
chmod +x stand-in/rt
export STAND_IN="$work/stand-in" RELEASED="$HOMERANGE"

# Whether the house's program writes this of the version, after it told something with this text, or nothing. It is
# called in the house as ./homerange, or in this folder by this name.
answers() {
    (cd "${3:-house}" && PATH="$work/stand-in:$PATH" "${4:-./homerange}" --version) >written 2>told
    [ "$(cat written)" = "$1" ] || return
    if [ -n "$2" ]; then grep -qF -- "$2" told; else [ ! -s told ]; fi
}
checked() {
    PATH="$work/stand-in:$PATH" house/tools/release.sh --check
}
version=$("$HOMERANGE" --version)

holds 'the release answers at once' answers "$version" ''
holds 'it answers in a folder of the house' answers "$version" '' house/tools ../homerange
holds 'it answers in the folder above' answers "$version" '' . house/homerange
for called in homerange-split homerange-page; do
    released=$("$top/release/$called" --version)
    holds "the release of $called answers at once" answers "$released" '' house "tools/$called"
    holds "$called answers in the folder above" answers "$released" '' . "house/tools/$called"
    ln -sf "$work/house/tools/$called" stand-in/by-link
    holds "$called answers by a link" answers "$released" '' . stand-in/by-link
done
printf '%s\n' animal,second,easting,northing a,0,1,1 >one.csv
rm -rf released cloned built new none

# Evidence of one track in this folder, by the house's program.
evidence() {
    holds "$1" env -u HOMERANGE PATH="$work/stand-in:$PATH" house/tools/evidence.py "$2" one.csv
    holds "$1: its checksums hold" sh -c "cd $2 && sha256sum -c --strict SHA256SUMS"
}
evidence 'evidence of the release' released
holds 'its sources and logic' [ "$(sed -n '/^sources \|^logic /s/ /: /p' "$top/release/SOURCES")" = "$(grep -e '^sources' -e '^logic' released/evidence.txt)" ]
holds 'no log of a build' [ ! -e released/build.log ]
holds 'no commit outside git' grep -qx 'commit: not known, since git finds no clone here' released/evidence.txt
git -C house init -q
printf '%s\n' out/ __pycache__/ >house/.git/info/exclude
git -C house add .
git -C house -c user.name=Den -c user.email=den@example.org commit -q -m 'A house'
mkdir -p house/crates/homerange/out/src && : >house/crates/homerange/out/src/lib.rt
evidence 'evidence in a clone' cloned
holds 'its commit, which what a build leaves does not change' \
    grep -qx "commit: $(git -C house rev-parse HEAD)" cloned/evidence.txt
rm -r house/crates/homerange/out
holds 'a release of another logic and program does not pass' is_refused checked
rm -rf house/out
printf '\n// An edit.\n' >>house/crates/range_plane/src/lib.rt
holds 'an edit is not answered by the release' answers 'homerange built: --version' 'homerange: homerange proved'
holds 'what was built answers the next call' answers 'homerange built: --version' ''
for called in homerange-split homerange-page; do
    holds "an edit that $called stands on too" answers "$called built: --version" "$called: homerange_${called#*-} proved" \
        house "tools/$called"
    holds "what was built of $called answers the next call" answers "$called built: --version" '' house "tools/$called"
done
all_sources='sources sources-page sources-split logic'
holds 'all are known' [ "$(sed 's/ .*//' house/out/SOURCES | paste -s -d ' ' -)" = "$all_sources" ]
holds 'the first is still known' answers 'homerange built: --version' ''
evidence 'evidence of what was built' built
holds 'its log' grep -qx 'rt: homerange proved' built/build.log
holds 'an edited source is a change' grep -q '^commit: .*, changed$' built/evidence.txt
git -C house stash -q
for file in crates/range_plane/src/new.rt tools/new.py python/homerange/new.py; do
    echo '# New.' >"house/$file"
    rm -rf new
    evidence "evidence beside a new $file" new
    holds "a new $file is a change" grep -q '^commit: .*, changed$' new/evidence.txt
    [ "$file" = crates/range_plane/src/new.rt ] || rm "house/$file"
done
sed -i '/^logic/d' house/out/SOURCES
evidence 'evidence without a logic' none
holds 'no logic is said' grep -qx 'logic: not known, since it does not stand beside the program' none/evidence.txt
rm house/crates/range_plane/src/new.rt
git -C house stash pop -q
holds 'a release of other sources does not pass' is_refused checked
echo '// Another.' >>house/crates/range_words/src/version.rt
: >stand-in/fails
holds 'an edit is not answered by what was built before' answers '' 'FAILED: range_plane'
(cd house && PATH="$work/stand-in:$PATH" ./homerange --version) 2>told
holds 'a build that fails has status 70' [ $? -eq 70 ]
rm stand-in/fails house/crates/range_plane/src/lib.rt house/crates/range_words/src/version.rt
(cd "$top" && cp --parents crates/range_plane/src/lib.rt crates/range_words/src/version.rt "$work/house")
rm -rf house/out
holds 'sources as they were are answered by the release' answers "$version" ''
for called in homerange-split homerange-page; do
    edited=crates/${called#*-}_words/src/version.rt
    echo '// An edit.' >>"house/$edited"
    holds "an edit of $called alone leaves homerange as it is" answers "$version" ''
    holds "it is not answered by the release of $called" answers "$called built: --version" 'building the proved program' \
        house "tools/$called"
    holds "homerange is not built with $called" [ ! -e house/out/homerange ]
    holds "a release of other sources of $called does not pass" is_refused checked
    (cd "$top" && cp --parents "$edited" "$work/house")
    rm -rf house/out
    holds "sources of $called as they were are answered by the release" answers "$("$top/release/$called" --version)" '' \
        house "tools/$called"
done
export HOMERANGE_BUILD=1
holds 'a build that is asked for' answers 'homerange built: --version' 'building the proved program'
unset HOMERANGE_BUILD
holds 'what was built goes before the release' answers 'homerange built: --version' ''
for words in 'ci --anew' ci; do
    holds "a build anew by $words" env PATH="$work/stand-in:$PATH" house/tools/build.sh --anew
    holds "$words was called" [ "$(cat stand-in/words)" = "$words" ]
    : >stand-in/old
done
rm stand-in/old
rm -rf house/out
printf '#!/none\n' >house/release/homerange
holds 'a release that does not run here' answers 'homerange built: --version' 'the release does not run on this machine'
for called in homerange-split homerange-page; do
    holds "its $called does" answers "$("$top/release/$called" --version)" '' house "tools/$called"
done
holds 'a release with a changed byte does not pass' is_refused checked

# A release that does not have all programs yet: the one that it lacks is built, or else it is said in one line.
cp "$top/release/homerange" house/release
rm -rf house/release/homerange-page house/out
sed -i '/^sources-page /d' house/release/SOURCES
checked >written 2>told
holds 'a release without a program does not pass' [ "$?-$(cat written)" = 1- ]
holds 'it is said which' [ "$(cat told)" = \
    'release.sh: homerange-page of the release is not that of these sources: tools/release.sh makes it' ]
holds 'its other programs answer' answers "$version" ''
(cd house && PATH=/usr/bin:/bin tools/homerange-page --version) >written 2>told
holds 'the one that it lacks is not answered for' [ "$?-$(cat written)" = 70- ]
if [ ! -x /usr/bin/rt ] && [ ! -x /bin/rt ]; then
    holds 'that is one line' [ "$(cat told)" = 'homerange-page: the program cannot be built: rt, the command of the Rattle toolchain, is not on PATH' ]
fi
holds 'the one that it lacks is built' answers 'homerange-page built: --version' 'building the proved program' \
    house tools/homerange-page

# A release that is made anew passes, until a byte of it, of its checksums or of a manual page changes. A program that was
# built by a toolchain of another logic than the others is built anew.
rm -rf house/release
sed -i 's/^logic .*/logic 1/' house/out/SOURCES
holds 'a release is made' env PATH="$work/stand-in:$PATH" house/tools/release.sh
holds 'a release that was made passes' checked
holds 'it is of all programs' [ "$(sed 's/ .*//' house/release/SOURCES | paste -s -d ' ' -)" = "$all_sources kit" ]
holds 'its checksums hold' sh -c 'cd house && sha256sum -c --strict release/SHA256SUMS'
holds 'they are of all programs and their pages' [ "$(wc -l <house/release/SHA256SUMS)" -eq 6 ]
# A release beside this file with another byte does not pass.
holds_to() {
    cp "house/$1" saved
    sed -i '1 s/$/x/' "house/$1"
    holds "a release beside a changed $1 does not pass" is_refused checked
    cp saved "house/$1"
}
for called in homerange homerange-split homerange-page; do
    list=release/RELEASES${called#homerange}
    sum=$(sha256sum <"house/release/$called")
    sources=$(sed -n "s/^sources${called#homerange} //p" house/release/SOURCES)
    holds "its line of $called" [ "$(cat "house/$list")" = "built: ${sum%% *} 0 $sources" ]
    for file in "release/$called" "$list" "docs/$called.1"; do holds_to "$file"; done
done
for file in release/SOURCES release/SHA256SUMS; do holds_to "$file"; done
holds 'a release as it was passes again' checked
rm -rf house stand-in

# What the prover listed of the program: docs/EVIDENCE.md, How to check what is trusted.
is_list_whole() {
    (cd "$top" && sha256sum -c --quiet --strict release/checked/SHA256SUMS)
}
has_axioms() {
    grep -qF "(\`axioms=$(grep -c 'reached$' "$top/release/checked/axioms.txt")\`)" "$top/docs/EVIDENCE.md"
}
holds 'the lists of axioms and of calls' is_list_whole
holds 'there are as many axioms as a build says' has_axioms
