# The words of a herd's scripts: TRACKS and OUT, with options of homerange before, between or behind them. The scripts read
# this one, with their folder in $here.
# shellcheck shell=sh disable=SC2154,SC2034

top=$here/../..
if [ -r "$top/tools/answers.sh" ]; then
    # shellcheck source=tools/answers.sh
    . "$top/tools/answers.sh"
else
    # In the package for Python, whose command answers --help itself.
    answer_words() { :; }
    misuse() {
        echo "${0##*/}: $1" >&2
        exit 2
    }
fi

# Puts the first two words that are no options into $tracks and $out, and the words of options, one a line, into $options.
# Each option of homerange has a value.
read_words() {
    tracks='' out='' options=''
    while [ $# -gt 0 ]; do
        case $1 in
            --?*=*) add_option "$1" ;;
            --?*)
                [ $# -ge 2 ] || misuse "$1 wants a value"
                add_option "$1"
                add_option "$2"
                shift
                ;;
            -?*) misuse "$1 is no option of homerange" ;;
            *)
                if [ -z "$tracks" ]; then tracks=$1; elif [ -z "$out" ]; then out=$1; else misuse "$1 is too much"; fi
                ;;
        esac
        shift
    done
    [ -n "$out" ] || misuse 'give the folder of the tracks and the folder to make'
}

add_option() {
    options="$options$1
"
}
