# What the programs are built from, and which program is that of the sources. Other scripts read this one; they have the top
# of the repository in $top. It starts few processes, since each call of ./homerange goes through it.
# shellcheck shell=sh disable=SC2154,SC2034

# All programs, in the order in which they are built, released and listed.
programs='homerange homerange-split homerange-page'

# Whether these words are the name of a program.
is_program() {
    [ $# -eq 1 ] && case " $programs " in *" $1 "*) ;; *) false ;; esac
}

# Puts into $crate the name of the crate that a program is built from: its own, with underscores.
name_crate() {
    case $1 in
        *-*) crate=${1%%-*}_${1#*-} ;;
        *) crate=$1 ;;
    esac
}

# The lines of crates.txt for a program, homerange if left out, and the crates that it stands on, in their order there.
program_crates() {
    name_crate "${1:-homerange}"
    awk -v program="$crate" '
        function add(name,   names, count, i) {
            if (name in wanted) return
            wanted[name] = 1
            count = split(uses[name], names, " ")
            for (i = 1; i <= count; i++) if (names[i] in uses) add(names[i])
        }
        { sub(/#.*/, ""); split($0, sides, ":"); split(sides[1], words, " ") }
        words[1] != "" { lines[++all] = $0; names[all] = words[1]; uses[words[1]] = sides[2] }
        END { add(program); for (i = 1; i <= all; i++) if (names[i] in wanted) print lines[i] }
    ' "$top/crates.txt"
}

# Puts into $sum one SHA-256 checksum of those lines for a program, homerange if left out, and of the name and the content of each
# source of those crates.
sum_sources() {
    sum=$(
        # Before the change of folder, since $top may be relative.
        lines=$(program_crates "${1:-homerange}")
        cd "$top" || exit 1
        set --
        while read -r name _; do
            name=crates/${name%:}
            set -- "$@" "$name/src" "$name/specs" "$name/proofs"
        done <<END
$lines
END
        {
            echo "$lines"
            find "$@" -type f \( -name '*.rt' -o -name '*.antt' \) ! -name '.*' -print0 2>/dev/null |
                LC_ALL=C sort -z | xargs -0 sha256sum --
        } | sha256sum
    )
    sum=${sum%% *}
}

# Whether a program in this folder was made from sources of the checksum $sum: SOURCES has it behind 'sources' for homerange,
# and behind such as 'sources-split' for homerange-split.
is_of_sum() {
    [ -x "$2/$1" ] && [ -r "$2/SOURCES" ] || return
    while read -r kind made; do
        [ "$kind $made" != "sources${1#homerange} $sum" ] || return 0
    done <"$2/SOURCES"
    return 1
}

# Leaves in out/ a program that was made of the sources of $sum, the log of its build, and its line in SOURCES. What SOURCES
# says of the other programs stays where they were made in the same logic.
keep_program() {
    own=sources${1#homerange}
    logic="logic $(rt version | sed 's/.* logic //')"
    others=$(grep -qxF "$logic" "$top/out/SOURCES" 2>/dev/null && grep '^sources' "$top/out/SOURCES" | grep -v "^$own ")
    rm -f "$top/out/SOURCES"
    mkdir -p "$top/out" && cp "$3" "$top/out/build${1#homerange}.log" && install -m 755 "$2" "$top/out/$1" || return
    {
        printf '%s\n' "$own $sum" "$others" | grep . | LC_ALL=C sort
        echo "$logic"
    } >"$top/out/SOURCES"
}

# Whether a program of the release runs on this machine: Linux on x86-64-v2, with a C library that is young enough.
release_runs() {
    [ ! -r /proc/cpuinfo ] || grep -qw sse4_2 /proc/cpuinfo || return
    "$top/release/$1" --version >/dev/null 2>&1
}

# Puts into $program the path of a program that was made of these sources: that which was built here, or else the release.
# HOMERANGE_BUILD=1 leaves the release out.
find_made() {
    program=$top/out/$1
    sum_sources "$1"
    ! is_of_sum "$1" "$top/out" || return 0
    [ "${HOMERANGE_BUILD:-0}" != 1 ] && is_of_sum "$1" "$top/release" || return
    program=$top/release/$1
    release_runs "$1" && return
    echo "$1: the release does not run on this machine (it wants Linux on x86-64-v2 with glibc 2.34)" >&2
    return 1
}

# Puts into $program the path of a program that these sources make, which is built now, by build.sh, where there is none. A
# program of other sources is never named.
find_program() {
    ! find_made "$1" || return 0
    program=$top/out/$1
    # The sources may change while they are built.
    until is_of_sum "$1" "$top/out"; do
        "$top/tools/build.sh" "$1" || return
        sum_sources "$1"
    done
}
