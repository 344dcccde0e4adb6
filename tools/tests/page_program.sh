# Runs homerange-page for real, on a folder of the examples: its tables are those of another computation from the fixes, it
# writes over what is there, and each refusal has its status and one line, and leaves all as it was.
# shellcheck shell=sh disable=SC2154

is_page_here 'tables and the page by homerange-page' || return 0

# A folder of the examples, with the report of its tracks.
make_folder() {
    rm -rf "$1"
    mkdir -p "$1/tracks"
    for track in fox badger otter; do cp "$top/examples/$track.csv" "$1/tracks"; done
    cp report.txt "$1"
}

# Runs the program with these arguments; what it wrote, what it told and its status are in written, told and ended.
run_page() {
    "$page_program" "$@" >written 2>told
    ended=$?
}

# Whether a run ended with this status and told one line that has this text, and nothing was written.
told_page() {
    [ "$ended" -eq "$1" ] && [ ! -s written ] && [ "$(wc -l <told)" -eq 1 ] && grep -q '^homerange-page: ' told && grep -qF -- "$2" told
}

# Whether a run ended well and said nothing.
went_well() {
    [ "$ended" -eq 0 ] && [ ! -s written ] && [ ! -s told ]
}

# All that a folder holds, with checksums.
content_of() {
    find "$1" -type f -exec sha256sum {} + | LC_ALL=C sort
    find "$1" ! -type f -printf '%p %y %l\n' | LC_ALL=C sort
}

# A run with these arguments, behind a status and a text, is refused, and the folder stays as it is.
refuses_page() {
    status=$1 text=$2
    shift 2
    content_of folder >before
    run_page "$@"
    holds "homerange-page: status $status: $text" told_page "$status" "$text"
    content_of folder >after
    holds "homerange-page: status $status: $text: all is as it was" cmp before after
}

rm -rf page_program
mkdir page_program
cd page_program || exit 1
"$HOMERANGE" "$top/examples/fox.csv" "$top/examples/badger.csv" "$top/examples/otter.csv" >report.txt

for word in --help --version; do
    run_page $word
    holds "homerange-page $word" [ "$ended-$(wc -c <told)" = 0-0 ]
    holds "homerange-page $word within 80 columns" [ -z "$(awk 'length > 80' written)" ]
    holds "homerange-page $word names itself" grep -q '^\(Usage: \)\?homerange-page ' written
    "$page_program" $word >/dev/full 2>told
    holds "homerange-page $word, which cannot be written" \
        [ "$?-$(cat told)" = '4-homerange-page: standard output cannot be written' ]
done

make_folder folder
run_page folder
holds 'homerange-page makes tables and the page' went_well
holds 'four files, and no more' [ "$(cd folder && find . -mindepth 1 -maxdepth 1 | LC_ALL=C sort | paste -s -d ' ' -)" = \
    './animals.csv ./overlaps.csv ./report.html ./report.txt ./summary.csv ./tracks' ]
holds 'their numbers are those of the fixes' python3 "$tools/tests/page_program.py" folder fox badger otter
content_of folder >first
run_page folder
holds 'homerange-page writes over its files' went_well
content_of folder >again
holds 'the same bytes' cmp first again

# What was typed in stands in the page, as text.
for file in summary.csv animals.csv overlaps.csv; do echo 'of yesterday' >"folder/$file"; done
rm folder/report.html
echo 'of mine' >own
ln -s ../own folder/report.html
run_page --title 'Ranges <of> 2026' --study 'A & B' --made 2026-11-30 --alone folder
holds 'homerange-page writes over other files' went_well
content_of folder | grep -v report.html >again
holds 'its tables are the same' [ "$(cat again)" = "$(grep -v report.html first)" ]
holds 'a link in the place of the page is replaced' [ ! -h folder/report.html ]
holds 'what it led to is as it was' [ "$(cat own)" = 'of mine' ]
for text in 'Ranges &lt;of&gt; 2026' 'A &amp; B' '30 Nov 2026'; do
    holds "the page has $text" grep -qF -- "$text" folder/report.html
done
holds 'a page alone has no checksum of the report' is_refused grep -q "$(sha256sum <report.txt | cut -d ' ' -f 1)" folder/report.html

# Without tracks the map has the polygons of all fixes alone; the tables are the same.
make_folder folder
run_page folder
cp folder/summary.csv folder/overlaps.csv .
rm -r folder/tracks folder/summary.csv folder/overlaps.csv
run_page folder
holds 'a report without tracks' went_well
for file in summary.csv overlaps.csv; do holds "its $file" cmp "$file" "folder/$file"; done

make_folder folder
refuses_page 1 'none/report.txt is not there' none
refuses_page 2 'no folder is named'
refuses_page 2 "'--wings'" --wings folder
refuses_page 2 "--shift: 'east' is not two whole numbers of metres" --shift east folder
refuses_page 2 "--made: '2026-02-30' is not a day" --made 2026-02-30 folder
refuses_page 2 "--clock: '/etc/passwd' is not the name of a time zone" --clock /etc/passwd folder
refuses_page 2 'has no time zone Europe/Nowhere' --clock Europe/Nowhere folder
sed -i '$ d' folder/report.txt
refuses_page 1 "report.txt: line $(wc -l <report.txt) " folder
make_folder folder
sed -i '5 s/[0-9]*$/5133000/' folder/tracks/otter.csv
refuses_page 1 'tracks/otter.csv: ' folder
make_folder folder
rm folder/tracks/otter.csv
refuses_page 1 'tracks: no file has the animal otter of the report' folder
for file in report.txt boundary.csv tracks/split.txt tracks/fox.csv; do
    make_folder folder
    rm -f "folder/$file"
    ln -s "$top/examples/fox.csv" "folder/$file"
    refuses_page 1 "folder/$file: it is no plain file" folder
done
make_folder folder
mkdir folder/summary.csv
refuses_page 4 'folder/summary.csv: Is a directory' folder
cd "$work" || exit 1
