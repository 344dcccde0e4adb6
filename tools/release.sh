#!/bin/sh
# release.sh [--check | --deb [FOLDER]]: builds all programs and makes the release of them: the folder release with
# homerange, homerange-split and homerange-page, SOURCES (the checksum of what each was made from, behind 'sources',
# 'sources-split' and 'sources-page', and of the logic that they were proved in; the number of the toolchain's kit and the
# checksum of its archive), SHA256SUMS (of all and their manual pages) and for each a line in the list of all programs of its
# name that were ever released, RELEASES, RELEASES-split or RELEASES-page: version, checksum, logic and sources. No line is
# taken out, since folders that such a program made are to be verified for ever.
#
# With --check it changes nothing. The status is 0 where the release is whole, of these sources and of the logic that is
# here, and, byte for byte, the programs that are built of them now. With --deb it makes of the release, which has to be of
# these sources, a Debian package in the folder (if left out, the working folder), by deb.py.
set -eu
top=$(cd "$(dirname "$0")/.." && pwd)
# shellcheck source=tools/answers.sh
. "$top/tools/answers.sh"
# shellcheck source=tools/sources.sh
. "$top/tools/sources.sh"
answer_words "$@"
release=$top/release

fail() {
    echo "release.sh: $1" >&2
    exit 1
}

# Builds the programs of these sources, and leaves the release out. All are looked at twice, since those before one that had
# to be built by a toolchain of another logic are built anew.
build() {
    HOMERANGE_BUILD=1
    for name in $programs $programs; do find_program "$name" || exit; done
    built=${program%/*}
}

# The checksums of the release and its manual pages, as they stand.
checksums() {
    {
        for name in $programs; do echo "release/$name"; done
        for name in $programs; do echo "docs/$name.1"; done
    } | (cd "$top" && xargs sha256sum)
}

# The line of a program of the release in its list of releases.
release_line() {
    version=$("$release/$1" --version)
    version=${version#"$1 "}
    checksum=$(sha256sum <"$release/$1")
    said=$(sed -n 's/^logic //p' "$release/SOURCES")
    echo "${version%% *} ${checksum%% *} $said $(sed -n "s/^sources${1#homerange} //p" "$release/SOURCES")"
}

# The kit of the toolchain that is here: its number, and the checksum of the archive that it came in, where it says it.
kit() {
    rt version | sed -n 's/^\([^ ]*\) .*/kit \1/p'
    what=$(dirname "$(rt doc)")/WHAT
    [ ! -r "$what" ] || sed -n '/^archive /p' "$what"
}

# Whether a program of the release is in its list of releases.
is_listed() {
    grep -qxF "$(release_line "$1")" "$release/RELEASES${1#homerange}" 2>/dev/null
}

# Refuses a release that is not of these sources, or not whole.
check_whole() {
    for name in $programs; do
        sum_sources "$name"
        is_of_sum "$name" "$release" || fail "$name of the release is not that of these sources: tools/release.sh makes it"
    done
    checksums | cmp - "$release/SHA256SUMS" || fail 'the release is not that of its checksums'
    for name in $programs; do
        is_listed "$name" || fail "$name of the release is not in the list RELEASES${name#homerange}"
    done
}

check() {
    check_whole
    build
    # Another kit may build the same programs.
    grep -v -e '^kit ' -e '^archive ' "$release/SOURCES" | cmp "$built/SOURCES" - || fail 'the release is of another logic'
    for name in $programs; do
        cmp "$built/$name" "$release/$name" || fail "$name of the release is not what these sources build"
    done
    echo 'release.sh: the release is what these sources build, byte for byte'
}

case $*: in
    --check:) check ;;
    --deb:)
        check_whole
        exec "$top/tools/deb.py" .
        ;;
    '--deb '[!-]*)
        [ $# -eq 2 ] || misuse "--deb takes one folder"
        check_whole
        exec "$top/tools/deb.py" "$2"
        ;;
    :)
        build
        mkdir -p "$release"
        for name in $programs; do install -m 755 "$built/$name" "$release/$name"; done
        install -m 644 "$built/SOURCES" "$release/SOURCES"
        kit >>"$release/SOURCES"
        checksums >"$release/SHA256SUMS"
        for name in $programs; do is_listed "$name" || release_line "$name" >>"$release/RELEASES${name#homerange}"; done
        ;;
    *) misuse "it takes --check or --deb, and not $*" ;;
esac
