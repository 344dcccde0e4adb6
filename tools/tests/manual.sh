# Tests the manual pages: that they are laid out without a warning, within 80 columns, and name each option of the help and
# each status. The help has to be as narrow, and the version to name the toolchain's logic.
# shellcheck shell=sh disable=SC2154

for called in $programs; do
    is_beside "$called" "the manual page and the version of $called" || continue
    called=${HOMERANGE%/*}/$called
    "$called" --help >help
    holds "the help of $called is within 80 columns" [ -z "$(awk 'length > 80' help)" ]
    "$called" --version >version
    holds "the version is one line: $called" grep -qx "${called##*/} [0-9.]* (logic [0-9a-f]*)" version
    if is_here rt 'the version beside that of the toolchain'; then
        holds "the version names the toolchain's logic: $called" grep -qF "($(rt version | sed 's/.* logic/logic/'))" version
    fi
    is_here man 'the manual page' || continue
    MANWIDTH=80 man --warnings -l "$top/docs/${called##*/}.1" >manual 2>warnings
    holds "the manual page has no warning: $called" [ ! -s warnings ]
    holds "the manual page is within 80 columns: $called" [ -z "$(awk 'length > 80' manual)" ]
    for option in $("$called" --help | grep -o -e '^ *--[a-z-]*' -e '--help' -e '--version'); do
        holds "the manual page has $option: $called" grep -q -e "^ *\\(.*, \\)\\?$option\\b" manual
    done
    for status in $("$called" --help | sed -n '/^Exit status/,$s/^  \([0-9]\)  .*/\1/p'); do
        holds "the manual page has status $status: $called" grep -q "^ *$status  " manual
    done
done
