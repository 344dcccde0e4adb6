# Tests the runs of a herd. What is wanted is what one run of homerange writes of the same files.
# shellcheck shell=sh disable=SC2154,SC2086,SC2016

export JOBS=2
herd="$tools/herd/run.sh tracks herd"

rm -rf tracks herd 'two words'
rm -f called
python3 "$top/examples/simulate.py" tracks 64 20
"$HOMERANGE" tracks/*.csv >direct
holds 'a herd of 64 runs' $herd
holds 'a herd of 64 is one direct run' cmp direct herd/report.txt

# What was made is not made again; what a killed run left out is, and what an input changed.
mark=$(stat -c %y herd/reports/0000.txt)
rm herd/reports/0001.txt herd/report.txt
echo 'half a line' >herd/pairs/0000-0001.txt.77.part
holds 'a herd goes on' $herd
holds 'a herd goes on to the same report' cmp direct herd/report.txt
holds 'what stands is not made again' [ "$(stat -c %y herd/reports/0000.txt)" = "$mark" ]
echo 'deer00040,99999999,552000,5124000' >>tracks/deer00040.csv
"$HOMERANGE" tracks/*.csv >direct
holds 'a herd runs with a changed input' $herd
holds 'a changed input is run again' cmp direct herd/report.txt
holds 'what it is not in is not made again' [ "$(stat -c %y herd/reports/0000.txt)" = "$mark" ]

# Of a second group that lies elsewhere but for two animals these are run with those of the first whose boxes they meet.
rm -rf apart tracks_apart called
mkdir tracks_apart
for track in tracks/*.csv; do
    number=${track#tracks/deer} east=0
    case $number in
        0003[2-9]* | 0004[1-9]* | 0005[1-9]* | 0006*) east=200000 ;;
    esac
    awk -F, -v OFS=, -v east="$east" 'NR > 1 { $3 += east } 1' "$track" >"tracks_apart/${track#tracks/}"
done
"$HOMERANGE" tracks_apart/*.csv >direct
printf '#!/bin/sh\nfor word; do echo "$word"; done | grep -c csv >>"%s/called"\nexec "%s" "$@"\n' "$work" "$HOMERANGE" >counting
chmod +x counting
holds 'a herd of two groups apart runs' env HOMERANGE=./counting JOBS=1 "$tools/herd/run.sh" tracks_apart apart
holds 'a herd of two groups apart is one direct run' cmp direct apart/report.txt
holds 'of a pair of groups those are run that may meet' [ "$(sed -n 4p called)" -lt 40 ]
rm apart/pairs/* apart/reports/*.key
holds 'a pair is run before its groups' "$tools/herd/step.sh" apart 0000 0001
holds 'it is run whole' [ "$(sed -n 5p called)" = 64 ]
holds 'a herd goes on after that' env HOMERANGE=./counting "$tools/herd/run.sh" tracks_apart apart
holds 'a pair that was run whole is the same' cmp direct apart/report.txt

# Other options, fewer files.
"$HOMERANGE" --unit dm --percent 95 tracks/*.csv >direct
holds 'a herd runs with options' $herd --unit dm --percent 95
holds 'other options are run anew' cmp direct herd/report.txt
script -qec "$herd --unit dm --percent 95" /dev/null >shown 2>&1
holds 'on a terminal it says how many runs are made' grep -q 'run.sh: 3 of 3 runs' shown
holds 'elsewhere it does not' is_refused sh -c "$herd 2>&1 | grep -q 'of 3 runs'"
$herd --unit dm --percent 95 2>errors
holds 'options may stand before the folders' "$tools/herd/run.sh" --unit dm --percent=95 tracks herd
holds 'the report is the same' cmp direct herd/report.txt
rm tracks/deer0006?.csv tracks/deer0004?.csv
"$HOMERANGE" tracks/*.csv >direct
holds 'a herd runs of fewer files' $herd
holds 'fewer files are run anew' cmp direct herd/report.txt

# A new program makes all anew, even one of an older date; a step of another one than the plan's is refused.
rm called
printf '#!/bin/sh\necho >>"%s/called"\nexec "%s" "$@"\n' "$work" "$HOMERANGE" >another
chmod +x another
touch -d '1 day ago' another
holds 'a herd runs by a new program' env HOMERANGE=./another $herd
# The plan asks it once for its options.
holds 'a new program makes each run' [ "$(wc -l <called)" -eq $(($(wc -l <herd/steps) + 1)) ]
holds 'a new program is run anew' cmp direct herd/report.txt
echo '# Changed.' >>another
holds 'a changed program is no longer that of the plan' is_refused "$tools/herd/step.sh" herd 0000 0000
holds 'a herd runs by the program of before' $herd

# An input that changes while it is read.
printf '#!/bin/sh\n"%s" "$@"\necho "deer00000,99999999,552000,5124000" >>%s\n' "$HOMERANGE" \
    "$work/tracks/deer00000.csv" >changing
chmod +x changing
HOMERANGE=./changing "$tools/herd/plan.sh" tracks herd
holds 'a step whose input changes is refused' is_refused "$tools/herd/step.sh" herd 0000 0000
holds 'nothing of it stands' [ ! -e herd/reports/0000.key ]
"$HOMERANGE" tracks/*.csv >direct
holds 'a herd runs after that' $herd
holds 'an input that changed in a run is run again' cmp direct herd/report.txt

# A track that was corrected and has an older time, as rsync, unzip and cp -p leave it.
sed '5s/,[0-9]*$/,1/' tracks/deer00001.csv >corrected
touch -d '1 year ago' corrected
cp -p corrected tracks/deer00001.csv
holds 'a merge sees that a track is another' is_refused "$tools/herd/merge.py" herd
holds 'a herd runs with a corrected track of an older time' $herd
"$HOMERANGE" tracks/*.csv >direct
holds 'a corrected track is run again' cmp direct herd/report.txt

# The same bytes under a new time are not run again.
mark=$(stat -c %y herd/reports/0000.txt)
touch tracks/*.csv
holds 'a herd runs with new times' $herd
holds 'a new time alone makes no run' [ "$(stat -c %y herd/reports/0000.txt)" = "$mark" ]

# A run of other options than those of the plan, whose key stayed.
"$tools/herd/plan.sh" tracks herd --percent 90
holds 'a merge of runs of another plan is refused' is_refused "$tools/herd/merge.py" herd
holds 'a herd runs by the plan of before' $herd

# Blanks, and a name in another script of bytes.
mkdir 'two words'
mv tracks 'two words/my tracks'
printf 'animal,second,easting,northing\nf\374chsin,0,552000,5124000\n' >'two words/my tracks/vixen.csv'
"$HOMERANGE" 'two words/my tracks'/*.csv >direct
holds 'a herd runs in a folder with a blank' "$tools/herd/run.sh" 'two words/my tracks' 'two words/my herd'
holds 'a herd in a folder with a blank is one direct run' cmp direct 'two words/my herd/report.txt'
mv 'two words/my tracks' tracks
rm tracks/vixen.csv
holds 'a herd runs after that' $herd

# A call that fails says why, and leaves no report, though the one of before was whole.
fails() {
    name=$1
    holds "$name: a report of before" [ -f herd/report.txt ]
    shift
    if $herd >errors 2>&1; then holds "$name" false; fi
    holds "$name" grep -q -- "$1" errors
    holds "$name: no report" [ ! -e herd/report.txt ]
}
sed -i 's/^\(overlap,deer00000,deer00001\),[0-9]*/\1,9/' herd/reports/0000.txt
fails 'overlaps that differ' '0001.txt: deer00000 has other overlaps than in group 0000'
rm herd/reports/0000.txt
$herd 2>errors
cp tracks/deer00050.csv saved
sed 's/deer00050/deer00000/' saved >tracks/deer00050.csv
fails 'an animal twice' 'step.sh: the run of groups 0000 and 0001 failed'
cp saved tracks/deer00050.csv
$herd 2>errors
HOMERANGE=./none fails 'no program' 'plan.sh: there is no program ./none'

# Words that are missing are asked for.
asks() {
    wanted=$1
    shift
    ! "$@" 2>errors && grep -qF -- "$wanted" errors
}
for script in plan run; do
    holds "$script.sh without a folder to make" asks 'give the folder of the tracks' "$tools/herd/$script.sh" tracks
    holds "$script.sh without tracks" asks 'plan.sh: there is no folder none' "$tools/herd/$script.sh" none unmade
done
for wrong in '--percnt 95' '--percent 101' --unit '-u dm' three; do
    holds "a plan refuses $wrong" asks "${wrong%% *}" "$tools/herd/run.sh" tracks unmade $wrong
done
holds 'slurm.sh without a number of jobs' asks 'slurm.sh: give the folder that plan.sh' "$tools/herd/slurm.sh" herd
holds 'no folder is made' [ ! -e unmade ]
