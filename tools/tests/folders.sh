# Tests that folders of evidence outlive the version that made them: those that are kept in folders/form1, folders/form2 ..
# are verified with status 0 or 3; of the form that this copy writes tables, page and layers are made again as they are, so
# that another byte takes another form: CONTRIBUTING.md, The form of a folder.
# shellcheck shell=sh disable=SC2154

# Verifies a folder, with its export beside it where there is one.
verify_kept() {
    set -- "$1"
    [ ! -f "$1.csv" ] || set -- "$1" "$1.csv"
    PYTHONDONTWRITEBYTECODE=1 python3 "$tools/verify.py" "$@" >kept
    ended=$?
    [ "$ended" -eq 0 ] || { [ "$ended" -eq 3 ] && ! grep -q '^did not hold' kept; }
}

if python3 -c 'import geopandas' 2>errors; then
    form=$(sed -n 's/^FORM = \([0-9]*\).*/\1/p' "$top/python/homerange/about.py")
    holds 'the form has kept folders' [ -d "$tools/tests/folders/form$form" ]
    for folder in "$tools"/tests/folders/form*/*/; do
        folder=${folder%/}
        name=${folder#"$tools/tests/folders/"}
        holds "$name is verified" verify_kept "$folder"
        case $name in
            "form$form"/*)
                holds "$name: page and tables are as they were" grep -q '^held: summary.csv, animals.csv, overlaps.csv and report.html: made again' kept
                holds "$name: so are the layers" grep -q '^held: ranges.gpkg: made again' kept
                ;;
            *) holds "$name: it is said what is not looked at" grep -q "^not looked at: .*made in form" kept ;;
        esac
    done
    # A folder of another form: by this version, which makes none such; and by one that a copy lists as another version.
    cp -r "$tools/tests/folders/form$form/one" other
    sed -i '1s/.*/form: 999/' other/evidence.txt
    (cd other && find . -type f ! -name SHA256SUMS -printf '%P\n' | LC_ALL=C sort | xargs sha256sum >../sums && mv ../sums SHA256SUMS)
    holds 'another form of this version is false' is_refused verify_kept other
    holds 'that is said' grep -q "^did not hold: evidence.txt as a whole: it says form 999, and version .* makes form $form" kept
    mkdir copy copy/tools
    cp -r "$top/python" "$top/release" copy
    cp "$tools/verify.py" copy/tools
    rm -f copy/release/homerange-split
    one=$tools/tests/folders/form$form/one
    PYTHONDONTWRITEBYTECODE=1 python3 copy/tools/verify.py "$one" "$one.csv" >kept
    holds 'a copy without homerange-split says so' [ $? -eq 3 ]
    holds 'what it does not look at' \
        grep -q '^not looked at: whether the tracks are those of the export: there is no homerange-split beside' kept
    sed -i 's/^[0-9.]* /0.0.1 /' copy/release/RELEASES
    holds 'another form: nothing is held to be false' env PYTHONDONTWRITEBYTECODE=1 sh -c \
        'python3 copy/tools/verify.py other >kept; [ $? -eq 3 ] && ! grep -q "^did not hold" kept'
    holds 'another form: the program is asked for by its version' grep -q '^not looked at: .*use a copy of version 0.0.1' kept
    holds 'another form: the report is verified' grep -q '^held: run again by this copy.s program the program makes the same' kept
    holds 'another form: so is each line' grep -q '^held: each of the [0-9]* lines of the report' kept
    holds 'another form: it is said which copy is wanted' grep -q '^not looked at: .*made in form 999, and this copy knows form' kept
    rm -r other copy
else
    skip "kept folders: $(tail -n 1 errors)"
fi
