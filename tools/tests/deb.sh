# Tests the Debian package: it is built, and dpkg installs it in a folder of its own, where its programs and its commands
# serve, and takes it out again.
# shellcheck shell=sh disable=SC2154

# Runs a command of the package as it is installed in the folder, with nothing of this clone.
unpacked() {
    (cd deb/away && env -u HOMERANGE PATH="$work/deb/root/usr/bin:/usr/bin:/bin" \
        PYTHONPATH="$work/deb/root/usr/lib/python3/dist-packages" PYTHONDONTWRITEBYTECODE=1 "$@")
}

# dpkg of the folder, which knows of no other package.
dpkg_there() {
    dpkg --root="$work/deb/root" --force-depends --force-not-root --force-script-chrootless --log=/dev/null "$@"
}

if is_here dpkg-deb 'the Debian package'; then
    rm -rf deb
    mkdir -p deb/one deb/two deb/away deb/root/var/lib/dpkg/info deb/root/var/lib/dpkg/updates
    touch deb/root/var/lib/dpkg/status deb/root/var/lib/dpkg/available
    holds 'a Debian package is built' "$tools/release.sh" --deb deb/one
    holds 'and again' "$tools/deb.py" deb/two
    holds 'it is the same bytes' cmp deb/one/homerange_1.0.0_amd64.deb deb/two/homerange_1.0.0_amd64.deb
    holds 'a folder that is not there is refused' is_refused "$tools/release.sh" --deb deb/none
    if [ "$(id -u)" -eq 0 ]; then
        holds 'it is installed' dpkg_there -i deb/one/homerange_1.0.0_amd64.deb
    else
        skip 'the Debian package by dpkg: not root'
        dpkg-deb -x deb/one/homerange_1.0.0_amd64.deb deb/root
    fi
    holds 'its program is the released one' cmp deb/root/usr/bin/homerange "$top/release/homerange"
    carried=deb/root/usr/lib/python3/dist-packages/homerange/release
    for called in $programs; do
        for file in "$called" "RELEASES${called#homerange}"; do
            holds "it has the released $file" cmp "$carried/$file" "$top/release/$file"
        done
        zcat "deb/root/usr/share/man/man1/$called.1.gz" >deb/page
        holds "its page of the manual of $called is there" cmp deb/page "$top/docs/$called.1"
        holds "its command $called is the program" [ "$(unpacked "$called" --version)" = "$("$top/release/$called" --version)" ]
    done
    for page in README.md CHANGELOG.md CITATION.cff SECURITY.md docs/GUIDE.md; do
        holds "its $page is there" cmp "deb/root/usr/share/doc/homerange/$page" "$top/$page"
    done
    cp "$top"/examples/*.csv deb/away
    "$HOMERANGE" "$top/examples/fox.csv" >deb/direct
    unpacked homerange fox.csv >deb/report
    holds 'its program reports' cmp deb/direct deb/report
    mkdir deb/away/ranges
    cp deb/report deb/away/ranges/report.txt
    holds 'homerange-page' unpacked homerange-page ranges
    holds 'it has made the page' [ -s deb/away/ranges/report.html ]
    holds 'homerange-split' unpacked homerange-split --into tracks export.csv
    "$top/release/homerange-split" --into deb/tracks "$top/examples/export.csv" 2>errors
    holds 'it splits as the released program does' diff -r deb/tracks deb/away/tracks
    holds 'homerange-herd' unpacked homerange-herd run tracks herd
    holds 'homerange-check' unpacked sh -c 'homerange-check herd/report.txt tracks/*.csv'
    if python3 -c 'import pandas' 2>errors; then
        holds 'homerange-evidence' unpacked homerange-evidence hand-in tracks
        holds 'homerange-verify' unpacked homerange-verify hand-in export.csv
        holds 'its modules find its program' unpacked python3 -c 'import pandas, homerange
ranges = homerange.home_range(pandas.read_csv("fox.csv"))
assert ranges.program.path.endswith("dist-packages/homerange/release/homerange"), ranges.program'
        holds 'and homerange-split' [ "$(unpacked python3 -c '
from homerange.program import find_split_program
print(find_split_program())')" = "$work/$carried/homerange-split" ]
    else
        skip "the modules of the Debian package: $(tail -n 1 errors)"
    fi
    if [ "$(id -u)" -eq 0 ]; then
        holds 'it is taken out' dpkg_there -r homerange
        holds 'nothing of it is left' [ ! -e deb/root/usr/bin/homerange ]
        holds 'nor of its modules' [ ! -e $carried ]
    fi
fi
