#!/bin/sh
# carriers.sh NUMBER | WORD: lists where a limit, a fault or a line of the report stands in this repository, so that none
# is forgotten when it changes. Names of files count too.
#
# A NUMBER such as 64 is found with and without separators (1048576, 1_048_576, 1,048,576), as a power (2^20, 1 << 20) and
# as a word (sixty-four, sixty_four), and so is the next number, which tests of a limit have. A WORD such as SecondFalls,
# box or 'second is less' is found in small letters and capitals, with blanks, underscores, hyphens or nothing between its
# parts. What is found is sorted into code, specs, proofs, edits, tests, scripts, packages and pages, each with the number
# of its lines and files. In files of data, such as kept reports, lines are counted and not shown, and numbers are not
# looked for; this script and its test are left out. The last line has the sum; the status is 1 where nothing is found.
set -u
top=$(cd "$(dirname "$0")/.." && pwd)
# shellcheck source=tools/answers.sh
. "$top/tools/answers.sh"
answer_words "$@"
[ $# -eq 1 ] || misuse 'give one number or one word'
case $1 in
    '' | [!0-9A-Za-z]* | *[!0-9A-Za-z_\ -]*) misuse "$1 is neither a number nor a word" ;;
    0* | [1-9]*[!0-9]* | [1-9]???????????????*) misuse "$1 is no number from 1 to 999999999999999" ;;
esac

# What stands for a number from 1 to 999 in words, as an expression; nothing for others.
in_words() {
    awk -v number="$1" '
        function below(n,   tens, ones) {
            if (n < 20) return small[n]
            tens = large[int(n / 10)]; ones = small[n % 10]
            return ones == "" ? tens : tens "[- _]?" ones
        }
        BEGIN {
            split("one two three four five six seven eight nine ten eleven twelve thirteen fourteen fifteen sixteen " \
                "seventeen eighteen nineteen", small, " ")
            split("ten twenty thirty forty fifty sixty seventy eighty ninety", large, " ")
            if (number > 999) exit
            if (number < 100) { print below(number); exit }
            hundred = small[int(number / 100)] "[- _]hundred"
            if (number < 200) hundred = "(one[- _]|a )?hundred"
            rest = number % 100
            print rest ? hundred "[- _](and[- _])?" below(rest) : hundred
        }'
}

# The digits of a number with or without separators between thousands.
in_digits() {
    echo "$1" | sed -e ':more' -e 's/\([0-9]\)\([0-9]\{3\}\)\($\|\[\)/\1[_, ]?\2\3/' -e 't more'
}

# The forms of a number, as one expression.
forms_of() {
    forms=$(in_digits "$1")
    spelled=$(in_words "$1")
    [ -z "$spelled" ] || forms="$forms|$spelled"
    for base in 2 10; do
        rest=$1 power=0
        while [ $((rest % base)) -eq 0 ]; do
            rest=$((rest / base)) power=$((power + 1))
        done
        if [ "$rest" -eq 1 ] && [ "$power" -gt 1 ]; then
            forms="$forms|$base ?(\\^|[*][*]) ?$power"
            [ "$base" -eq 10 ] || forms="$forms|1 ?<< ?$power"
        fi
    done
    echo "$forms"
}

case $1 in
    [1-9]*)
        kind=number
        forms="$(forms_of "$1")|$(in_digits "$(($1 + 1))")"
        spelled=$(in_words "$(($1 + 1))")
        [ -z "$spelled" ] || forms="$forms|$spelled"
        ;;
    *)
        kind=word
        forms=$(echo "$1" | sed -e 's/\([a-z0-9]\)\([A-Z]\)/\1 \2/g' -e 's/[ _-][ _-]*/[ _-]?/g' | tr '[:upper:]' '[:lower:]')
        ;;
esac

cd "$top" || exit 1
find . \( -name .git -o -name out -o -name __pycache__ -o -path ./release \) -prune -o -type f \
    ! -path ./tools/carriers.sh ! -path ./tools/tests/carriers.sh ! -name '*.png' ! -name '*.rda' ! -name '*.svg' \
    ! -name '*.pyc' ! -name '*.zip' -print | sed 's/^\.\///' | LC_ALL=C sort |
    LC_ALL=C awk -v kind="$kind" -v forms="(^|[^0-9a-z.]|[.][.])($forms)(st|nd|rd|th|s)?(\$|[^0-9a-z])" '
    # What the file is a part of.
    function group_of(file) {
        if (file ~ /\.(md|Rd|Rmd|cff)$/ || file ~ /^docs\//) return "pages"
        if (file ~ /^crates\/(test_|[^\/]*\/std)/ || file ~ /(^|\/)tests\// || file ~ /^hostile\//) return "tests"
        if (file ~ /^crates\/bench/) return "scripts"
        if (file ~ /^crates\/[^\/]*\/specs\//) return "specs"
        if (file ~ /^crates\/[^\/]*\/proofs\//) return "proofs"
        if (file ~ /^crates\/[^\/]*\/must-fail\//) return "edits"
        if (file ~ /^crates\//) return "code"
        if (file ~ /^(python|r|qgis)\//) return "packages"
        return "scripts"
    }
    function is_data(file) { return file ~ /\.(csv|txt)$/ || file ~ /\/stdout$/ }
    # The name of the machine has a number that is none.
    function has(text) {
        text = tolower(text)
        gsub(/x86[-_]64|amd64/, "", text)
        return text ~ forms
    }
    function counted(n, what) { return n + 0 " " what (n == 1 ? "" : "s") }
    function sum(lines, files) { return counted(lines, "line") " in " counted(files, "file") }
    function add(group, text) { found[group] = found[group] text "\n"; lines[group]++; seen++ }
    {
        file = $0; group = group_of(file); before = seen; count = 0; number = 0
        if (has(file)) add(group, file ": its name")
        if (is_data(file) && kind == "number") next
        while ((getline line < file) > 0) {
            number++
            if (!has(line)) continue
            if (is_data(file)) { count++; continue }
            gsub(/^[ \t]+/, "", line)
            add(group, file ":" number ": " substr(line, 1, 160))
        }
        close(file)
        if (count) add(group, file ": " counted(count, "line") " of data")
        if (seen > before) { files[group]++; all++ }
    }
    END {
        split("code specs proofs edits tests scripts packages pages", order, " ")
        for (i = 1; i in order; i++) {
            group = order[i]
            if (lines[group]) print group ": " sum(lines[group], files[group]) "\n" found[group]
        }
        print sum(seen, all)
        exit seen == 0
    }'
