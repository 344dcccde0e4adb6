# Tests the evidence of a run: what evidence.py writes, and what it refuses; and that verify.py holds it to what it says.
# shellcheck shell=sh disable=SC2154,SC2016

is_split_here 'evidence of tracks' || return 0
make=$tools/evidence.py
rm -rf proof
mkdir proof
cd proof || exit 1

# Whether this command is refused with a line that has this text, and leaves no folder.
refuses_evidence() {
    wanted=$1
    shift
    if "$@" >out 2>errors; then holds "refused: $wanted" false; fi
    holds "said: $wanted" grep -qF -- "$wanted" errors
    holds "one line: $wanted" [ "$(wc -l <errors)" -eq 1 ]
    holds "nothing is left: $wanted" [ ! -e none ]
    holds "nothing half is left: $wanted" [ ! -e none.part ]
}
verify() {
    PYTHONDONTWRITEBYTECODE=1 python3 "$tools/verify.py" "$@" >said
}

"$splitter" "$top/examples/export.csv" 2>messages
holds 'evidence of a run' "$make" --percent 95,50 first tracks
holds 'its files' [ "$(cd first && find . -type f | LC_ALL=C sort)" = './SHA256SUMS
./evidence.txt
./report.txt
./tracks/old boar.csv
./tracks/split.txt
./tracks/vixen.csv' ]
"$HOMERANGE" --percent 95,50 'tracks/old boar.csv' tracks/vixen.csv >direct
holds 'its report is that of homerange' cmp direct first/report.txt
holds 'its checksums hold' sh -c 'cd first && sha256sum -c --strict SHA256SUMS'
holds 'all files but that of the checksums' [ "$(wc -l <first/SHA256SUMS)" -eq 5 ]
cat >wanted <<END
form: 2
program: $("$HOMERANGE" --version)
program sha256: $(sha256sum <"$HOMERANGE" | cut -c -64)
arguments: --percent 95,50 --unit m -- 'tracks/old boar.csv' tracks/vixen.csv
unit: m
levels: 95,50
runs: 1
export: export.csv
export sha256: $(sha256sum <"$top/examples/export.csv" | cut -c -64)
END
grep -v -e ^made: -e ^commit: -e ^sources: -e ^logic: first/evidence.txt >about
holds 'the record of the run' cmp wanted about
holds 'its date' grep -qxE 'made: 20[0-9]{2}-[0-9]{2}-[0-9]{2}T[0-9]{2}:[0-9]{2}:[0-9]{2}Z' first/evidence.txt
sh -c "cd first && '$HOMERANGE' $(sed -n 's/^arguments: //p' first/evidence.txt)" >again
holds 'a shell takes the arguments back' cmp again first/report.txt
holds 'so does xargs, as the page has it' sh -c "cd first && sed -n 's/^arguments: //p' evidence.txt | xargs '$HOMERANGE' | cmp - report.txt"
cut -d, -f2- "$top/examples/export.csv" >fetched.csv
"$splitter" --into mine fetched.csv 2>messages
holds 'an export of other columns has the same tracks' diff -r -x split.txt mine first/tracks
holds 'and a record of its own' [ "$(diff mine/split.txt first/tracks/split.txt | grep -v ',not read: ' | grep '^<' | cut -d, -f1)" = '< export
< sha256' ]
holds 'it is verified' verify first "$top/examples/export.csv" --program "$HOMERANGE"
holds 'all of it was looked at' grep -qx 'verify.py: 7 held, 0 did not, 0 not looked at' said
# What computes each line shares no code with the package, and needs the standard library alone.
holds 'each line is computed without the package' python3 -S -c 'import pathlib, sys
sys.modules["homerange"] = None
sys.path.insert(0, sys.argv[1])
from homerange_verifier.lines import Range, first_difference, overlaps_of, read_track, report_lines
ranges = [Range(read_track(pathlib.Path(f"first/tracks/{name}.csv")), [95, 50]) for name in ("old boar", "vixen")]
found = first_difference(pathlib.Path("first/report.txt").read_bytes(), report_lines(ranges, overlaps_of(ranges), "m"))
assert found[0] is None and found[1] > 10, found' "$top/python"
for unknown in 'who made the run, and when' 'whether the export is what'; do
    holds "what nobody can know is said: $unknown" grep -q "^not known: $unknown" said
done
verify first --program "$HOMERANGE"
holds 'without the export that is said, with a status' [ $? -eq 3 ]
holds 'what was not looked at' grep -q '^not looked at: whether the tracks are those of an export' said

# What was found cannot be written: to a device that is full, a pipe that nobody reads, an output that was closed.
unwritten() {
    python3 "$tools/verify.py" first --program "$HOMERANGE" 2>errors
    echo $? >status
}
unwritten >/dev/full
holds 'a full device has a status of its own' grep -qx 4 status
holds 'and nothing more is said' [ ! -s errors ]
mkfifo unread
unwritten >unread &
: <unread
wait
holds 'so has a pipe that nobody reads' grep -qx 4 status
holds 'of which nothing more is said' [ ! -s errors ]
unwritten >&-
holds 'so has an output that was closed' grep -qx 4 status

# A program that was built on this machine goes with what the prover said of it.
mkdir built
cp "$HOMERANGE" built
echo 'rt: homerange proved' >built/build.log
holds 'evidence by a program that was built here' env HOMERANGE=built/homerange "$make" --percent 95,50 second tracks
holds 'the log of its build' cmp built/build.log second/build.log
holds 'the log is in the list of checksums' grep -q '  build.log$' second/SHA256SUMS
holds 'it is verified, with the log' verify second "$top/examples/export.csv" --program "$HOMERANGE"

# Files by name, without a record; a fix that is left out, and an animal without one that is used.
head -n 61 "$top/examples/fox.csv" | sed '1s/$/,use/; 2,$s/$/,1/; 9s/1$/0/' >fox.csv
printf '%s\n' animal,second,easting,northing,use hare,0,1,1,0 >hare.csv
holds 'evidence of files' "$make" --unit dm files fox.csv hare.csv "$top/examples/otter.csv"
holds 'files that are used' grep -qx 'arguments: --percent 50,95,100 --unit dm -- tracks/fox.csv tracks/otter.csv' files/evidence.txt
verify files --program "$HOMERANGE"
holds 'files without an export: what can be said holds' is_refused grep '^did not hold' said
holds 'files without an export' grep -qx 'not looked at: from what the tracks were made: they have no record' said

# What is refused.
refuses_evidence 'the tracks are in m, by split.txt beside them, and not in dm' "$make" --unit dm none tracks
refuses_evidence 'first is there already' "$make" first tracks
refuses_evidence 'level 1 is not a whole number' "$make" --percent 0 none tracks
refuses_evidence 'no file of tracks has a used fix' "$make" none hare.csv
refuses_evidence 'have the same name' "$make" none fox.csv "$top/examples/fox.csv"
refuses_evidence 'give the folder to make' "$make"
refuses_evidence 'give the tracks' "$make" none
cp -r tracks changed
sed -i '2s/5/6/' changed/vixen.csv
refuses_evidence 'vixen.csv was changed since it was split' "$make" none changed
rm changed/vixen.csv
refuses_evidence 'vixen.csv is not among the tracks' "$make" none changed
cp tracks/vixen.csv changed
cp "$top/examples/fox.csv" changed
refuses_evidence 'fox.csv was not made by it' "$make" none changed
cp -r tracks older
sed -i '/^tool,/d; s/^\(track,.*\),[0-9a-f]*$/\1/' older/split.txt
refuses_evidence 'as older versions wrote it' "$make" none older
cp fox.csv 'a\b.csv'
refuses_evidence 'has a backslash' "$make" none 'a\b.csv'
printf '%s\n' animal,second,easting,northing fox,9,9 >short.csv
refuses_evidence 'short.csv' "$make" none short.csv
refuses_evidence 'is not homerange: its --version says' env HOMERANGE=/bin/true "$make" none tracks
refuses_evidence 'there is no program' env HOMERANGE=./nothing "$make" none tracks

# Programs that lie: nothing, a report that is cut off, of another unit, without a level, of fewer fixes; one that changes a
# track, and one that changes itself.
liar() {
    printf '#!/bin/sh\n[ "$1" != --version ] || exec "%s" --version\n%s\n' "$HOMERANGE" "$1" >liar
    chmod +x liar
}
real="\"$HOMERANGE\" \"\$@\""
for lie in "exit 0|but 'animal,,fixes,'" "$real >all; sed '\$d' all|'', but 'end,'" "echo unit,dm; $real|another unit than m" \
    "$real | grep -v ,95,|has other levels than 50,95,100" "\"$HOMERANGE\" --percent 50,95,100 tracks/vixen.csv|0 fixes of old boar" \
    "$real; echo >>tracks/vixen.csv|tracks/vixen.csv changed while it was read" "$real; echo >>'$work/proof/liar'|changed while it ran"; do
    liar "${lie%|*}"
    refuses_evidence "${lie##*|}" env HOMERANGE=./liar "$make" none tracks
done

# Many animals, of whose runs one report is made; and the report of a herd that was made before.
python3 "$top/examples/simulate.py" deer 70 6
holds 'evidence of 70 animals' "$make" --percent 95,50 many deer
holds 'its runs' grep -qx 'runs: 6 of groups of 32 animals' many/evidence.txt
verify many --program "$HOMERANGE"
holds '70 animals are verified' grep -qx 'held: run again the program makes the same report, byte for byte' said
holds 'the herd of 70 animals runs' "$tools/herd/run.sh" deer herd --percent 95,50
holds 'evidence of a herd' "$make" --herd herd herds
holds 'it has the same report' cmp many/report.txt herds/report.txt
holds 'it has the same arguments' [ "$(grep ^arguments: herds/evidence.txt)" = "$(grep ^arguments: many/evidence.txt)" ]
verify herds --program "$HOMERANGE"
holds 'the evidence of a herd is verified' is_refused grep '^did not hold' said
cp deer/deer00001.csv deer/deer00001.before
sed -i '3s/5/6/' deer/deer00001.csv
refuses_evidence 'deer00001.csv is not as plan.sh found it' "$make" --herd herd none
mv deer/deer00001.before deer/deer00001.csv
rm herd/report.txt
refuses_evidence 'herd/report.txt: No such file' "$make" --herd herd none

# A signature and stamps of time beside the list, and another file there; where there is no list.
cp -r first signed
cd signed || exit 1
if is_here ssh-keygen 'a signature'; then
    ssh-keygen -q -t ed25519 -N '' -C maja@park.example -f ../key
    printf 'maja@park.example %s\n' "$(cut -d ' ' -f 1,2 ../key.pub)" >../signers
    ssh-keygen -q -Y sign -f ../key -n homerange SHA256SUMS 2>../errors
    holds 'a signature is good' sh -c 'ssh-keygen -Y verify -f ../signers -I maja@park.example -n homerange \
        -s SHA256SUMS.sig <SHA256SUMS'
    sed '1s/^./x/' SHA256SUMS >../edited
    holds 'a signature of another list is not' is_refused sh -c 'ssh-keygen -Y verify -f ../signers \
        -I maja@park.example -n homerange -s SHA256SUMS.sig <../edited'
fi
if is_here openssl 'a stamp of time'; then
    # A service of time stamps of our own.
    openssl req -x509 -newkey rsa:2048 -nodes -keyout ../service.key -out ../service.pem -subj /CN=stamps -days 2 \
        -addext extendedKeyUsage=critical,timeStamping 2>../errors
    printf '%s\n' '[tsa]' default_tsa=own '[own]' serial=../serial default_policy=1.2.3 digests=sha256 signer_digest=sha256 \
        signer_cert=../service.pem signer_key=../service.key crypto_device=builtin >../service.cnf
    openssl ts -query -data SHA256SUMS -sha256 -cert -out SHA256SUMS.tsq 2>../errors
    openssl ts -reply -config ../service.cnf -section own -queryfile SHA256SUMS.tsq -out SHA256SUMS.tsr 2>../errors
    holds 'a stamp of time holds' openssl ts -verify -data SHA256SUMS -in SHA256SUMS.tsr -CAfile ../service.pem
    holds 'a stamp of another list does not' is_refused openssl ts -verify -data evidence.txt -in SHA256SUMS.tsr \
        -CAfile ../service.pem
fi
cd .. || exit 1
holds 'they may lie beside the list' verify signed "$top/examples/export.csv" --program "$HOMERANGE"
holds 'whose they are is not known' grep -q '^not known: whose SHA256SUMS.sig is' said
: >signed/SHA256SUMS.old
holds 'another file may not' is_refused verify signed "$top/examples/export.csv" --program "$HOMERANGE"
rm first/SHA256SUMS
verify first
holds 'a folder without a list is refused' grep -q '^did not hold: there is no SHA256SUMS in the folder' said

# Files that are called as options are, where a shell puts names in the place of *; and a program that was handed in.
mkdir zip
cp -r second zip/hand-in
cp "$HOMERANGE" zip/export.csv
refuses_call() {
    wanted=$1
    shift
    (cd zip && PYTHONDONTWRITEBYTECODE=1 python3 "$tools/verify.py" "$@" >../said 2>../errors)
    holds "a call is wrong: $wanted" [ $? -eq 2 ]
    holds "it is said: $wanted" grep -qF -- "$wanted" errors
    holds "nothing else is said: $wanted" [ ! -s said ]
}
: >zip/--program=export.csv
refuses_call '--program export.csv has no / in it' --program=export.csv hand-in export.csv
refuses_call '--program ./export.csv lies where the folder or the export lies' hand-in --program ./export.csv
refuses_call 'export.csv lies where the folder or the export lies' ../second export.csv --program "$PWD/zip/export.csv"
mv zip/export.csv zip/hand-in/run
refuses_call 'hand-in/run lies where the folder or the export lies' hand-in --program hand-in/run
refuses_call '--version is taken alone: a file of this name is ./--version' --version hand-in
refuses_call '--help is taken alone' hand-in --help
rm -r zip

# A locale of ASCII; a machine without room, which is no fault of the folder.
cp "$top/examples/fox.csv" 'Bär.csv'
sed -i 's/^fox,/Bär,/' 'Bär.csv'
holds 'evidence of a name with an umlaut' "$make" umlaut 'Bär.csv'
LC_ALL=C PYTHONCOERCECLOCALE=0 PYTHONUTF8=0 verify umlaut --program "$HOMERANGE"
holds 'it is verified in a locale of ASCII' [ $? -eq 3 ]
holds 'the track is named' grep -q '^held: the run was one of the 1 files' said
(ulimit -f 1 && TMPDIR=$PWD verify many --program "$HOMERANGE")
holds 'files that cannot be written are no fault of the folder' is_refused grep '^did not hold' said
holds 'a machine without room' python3 -c 'import sys
sys.path.insert(0, sys.argv[1])
from homerange_verifier.findings import Findings
for fault in (OSError(28, "No space left on device"), OSError(28, "No space left on device", "x"), MemoryError()):
    findings = Findings()
    findings.stopped(fault, "")
    assert findings.status() == 3, fault
findings.stopped(FileNotFoundError(2, "No such file", "x"), "")
assert findings.status() == 1' "$top/python"

# What forgers could do.
for forgeries in forgeries forged_files; do
    PYTHONDONTWRITEBYTECODE=1 python3 "$tools/tests/$forgeries.py" "$HOMERANGE" 2>&1
done >forged
holds 'all forgeries were tried' [ "$(grep -c '^ok ' forged)" -ge 204 ]
while read -r how name; do
    holds "forgery $name" [ "$how" = ok ]
done <forged
cd "$work" || exit 1
