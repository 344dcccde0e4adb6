# What each script of sh answers before it works. Other scripts read this one, with the top of the repository in $top.
# shellcheck shell=sh disable=SC2154

# The version of the whole, which the package for Python keeps.
version() {
    sed -n 's/^__version__ = "\(.*\)"$/\1/p' "$top/python/homerange/__init__.py"
}

# Answers --help, by the comment at the script's head, and --version, where one stands before a word '--'.
answer_words() {
    for word; do
        case $word in
            --) return ;;
            -h | --help)
                sed -n '2,/^[^#]/s/^# \{0,1\}//p' "$0"
                exit
                ;;
            --version)
                echo "${0##*/} $(version)"
                exit
                ;;
        esac
    done
}

# Says what is wrong with the words of the call.
misuse() {
    echo "${0##*/}: $1; ${0##*/} --help says what it takes" >&2
    exit 2
}
