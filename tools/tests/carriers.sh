# Tests what tools/carriers.sh lists, in a made-up repository: each form of a limit, a fault and a line of the report, in
# its group, and nothing that only looks like one.
# shellcheck shell=sh disable=SC2154

rm -rf carriers
mkdir -p carriers/tools carriers/python/homerange carriers/python/tests carriers/docs carriers/hostile/reports carriers/release
for folder in range_den/src range_den/specs range_den/proofs range_den/must-fail test_den/src homerange/out; do
    mkdir -p "carriers/crates/$folder"
done
cp "$tools/carriers.sh" "$tools/answers.sh" carriers/tools
cp "$top/python/homerange/__init__.py" carriers/python/homerange
cd carriers || exit 1
cat >crates/range_den/src/limits.rt <<'END'
/// The most foxes of a den: 4_096.
pub const FOX_LIMIT: u32 = 4096;
const NOT_IT: [u32; 4] = [40960, 14096, 4095, 4_0961];
const WIDTH: u64 = 64 + x86_64;
    SecondFalls { rec: u32 },
END
echo 'a fox comes before 2 ^ 12, and 1 << 12 is so many' >crates/range_den/specs/Foxes.antt
echo 'more_than_the_most : 4,097' >crates/range_den/proofs/Most.antt
echo 'new: 0..64' >crates/range_den/must-fail/den_65_taken.edit
echo 'fn a_second_falls() {} // 0.64, u64, f64' >crates/test_den/src/lib.rt
echo 'sixty-four, sixty_five, sixty four and sixty' >python/tests/test_den.py
echo 'box,fox,64,64,64,64' >hostile/reports/fox.txt
echo '65 foxes; the second falls; a box' >docs/GUIDE.md
echo '64' >release/homerange
echo '64' >crates/homerange/out/log

# The list of a word ends with status 0, and has these sums of its groups.
lists() {
    tools/carriers.sh "$1" >listed
    ended=$?
    grep -E '^([a-z]+: )?[0-9]+ lines? in [0-9]+ files?$' listed | paste -s -d ';' - >groups
    holds "carriers of $1" [ "$ended-$(cat groups)" = "0-$2" ]
}
# The list has a line with this.
has() {
    holds "it has $1" grep -q -F -- "$1" listed
}

lists 4096 'code: 2 lines in 1 file;specs: 1 line in 1 file;proofs: 1 line in 1 file;4 lines in 3 files'
has 'crates/range_den/src/limits.rt:1: /// The most foxes'
has 'crates/range_den/src/limits.rt:2: pub const'
has 'crates/range_den/proofs/Most.antt:1: '
lists 64 'code: 1 line in 1 file;edits: 2 lines in 1 file;tests: 1 line in 1 file;pages: 1 line in 1 file;5 lines in 4 files'
has 'crates/range_den/must-fail/den_65_taken.edit: its name'
has 'crates/range_den/src/limits.rt:4: '
lists SecondFalls 'code: 1 line in 1 file;tests: 1 line in 1 file;pages: 1 line in 1 file;3 lines in 3 files'
lists 'second falls' 'code: 1 line in 1 file;tests: 1 line in 1 file;pages: 1 line in 1 file;3 lines in 3 files'
lists box 'tests: 1 line in 1 file;pages: 1 line in 1 file;2 lines in 2 files'
has 'hostile/reports/fox.txt: 1 line of data'
tools/carriers.sh badger >listed
holds 'carriers of nothing' [ "$?-$(cat listed)" = '1-0 lines in 0 files' ]

# What is neither a number nor a word is refused in one line.
for word in '' 064 64a 'a.b' -5 9999999999999999; do
    tools/carriers.sh "$word" >listed 2>errors
    holds "carriers of '$word': refused" [ "$?-$(wc -l <errors)-$(wc -c <listed)" = 2-1-0 ]
done
holds 'two words: refused' is_refused tools/carriers.sh fox badger
cd "$work" || exit 1

# The most files of a run stand where code, scripts and pages say so.
"$tools/carriers.sh" 64 >listed
for file in crates/range_options/src/limits.rt tools/herd/slurm.sh tools/herd/Snakefile docs/homerange.1 docs/HERDS.md; do
    has "$file:"
done
