# Tests that merge.py refuses a herd with a fault in one of its files: in one line, with status 1, and with no report.
# shellcheck shell=sh disable=SC2154,SC2016

# 70 animals, in groups of 32, 32 and 6. Each line of their report is that of another method.
rm -rf tracks herd
python3 "$top/examples/simulate.py" tracks 70 6
holds 'a herd of 70 runs' "$tools/herd/run.sh" tracks herd --percent 95,50
holds 'a herd of 70 is checked' "$tools/check.py" herd/report.txt tracks/*.csv

# Whether the copy of the herd, with its report of before, is refused with this text.
is_caught() {
    "$tools/herd/merge.py" faulty >merged 2>told
    status=$?
    cat told
    ls faulty >left
    [ $status -eq 1 ] && [ ! -s merged ] && [ "$(wc -l <told)" -eq 1 ] && grep -q -e "$1" told && ! grep '^report[.]' left
}

# A herd is refused, with the text, whose file was edited by sed.
caught() {
    rm -rf faulty
    cp -R herd faulty
    sed -i "$4" "faulty/$2"
    if cmp -s "herd/$2" "faulty/$2"; then holds "$1: an edit that changes nothing" false; fi
    holds "a herd with $1" is_caught "$3"
}

# The same where a file ends without a line end.
rm -rf faulty
cp -R herd faulty
truncate -s -1 faulty/reports/0000.txt
holds 'a herd with an end without a line end' is_caught "'end,32', but"

# The same where there is no group.
rm -rf faulty
cp -R herd faulty
rm faulty/groups/*
: >faulty/steps
holds 'a herd of no groups' is_caught 'groups: there is none'

# The same where a file is not there.
lost() {
    rm -rf faulty
    cp -R herd faulty
    rm "faulty/$2"
    holds "a herd without $1" is_caught "$3"
}

one=reports/0000.txt
caught 'a missing animal line' $one "'box,deer00001,.* 'animal,deer00001,fixes," '/^animal,deer00001,/d'
caught 'a doubled animal line' $one "line 2: 'animal,deer00000" '/^animal,deer00000,/p'
caught 'fixes that are not the rows' $one "'row,deer00000,7,' and" '/^animal,deer00000,/s/6$/7/'
caught 'fewer fixes than rows' $one "'row,deer00000,6,.* 'corner," '/^animal,deer00000,/s/6$/5/'
caught 'no fixes' $one 'no corners' '/^animal,deer00000,/s/6$/0/; /^row,deer00000,/d'
caught 'a missing box' $one "'box,deer00001," '/^box,deer00001,/d'
caught 'a doubled box' $one "'row,deer00001,1,'" '/^box,deer00001,/p'
caught 'a box of another animal' $one "'box,deer00001,' and" 's/^box,deer00001,/box,deer00002,/'
caught 'a greater box' $one 'not of the box' 's/^box,deer00001,/&1/'
caught 'a missing row' $one "'row,deer00003,3," '/^row,deer00003,3,/d'
caught 'a missing last row' $one "'row,deer00003,6," '/^row,deer00003,6,/d'
caught 'a doubled row' $one "'row,deer00003,4," '/^row,deer00003,3,/p'
caught 'a doubled last row' $one "'row,deer00003,6,.* 'corner," '/^row,deer00003,6,/p'
caught 'rows swapped' $one "'row,deer00003,3,.* 'row,deer00003,2," '/^row,deer00003,2,/{h;d}; /^row,deer00003,3,/G'
caught 'a row of another animal' $one "'row,deer00003,2,'" 's/^row,deer00003,2,/row,deer00004,2,/'
caught 'a row in a wrong place' $one "'row,deer00003,5,'" 's/^row,deer00003,5,/row,deer00003,6,/'
caught 'a second that falls' $one 'seconds or areas fall' 's/^row,deer00003,3,[0-9]*/row,deer00003,3,1/'
caught 'an area that falls' $one 'seconds or areas fall' '/^row,deer00003,5,/s/,[0-9]*$/,1/'
caught 'another last area' $one 'not of the area' '/^row,deer00003,6,/s/$/0/'
caught 'a missing corner' $one "'corner,deer00004,2," '/^corner,deer00004,2,/d'
caught 'a missing last corner' $one "'percent,deer00004,95,.* 'corner," '/^corner,deer00004,3,/,/^percent/{/^corner/d}'
caught 'a doubled corner' $one "'corner,deer00004,2," '/^corner,deer00004,1,/p'
caught 'corners swapped' $one "'corner,deer00004,1," '/^corner,deer00004,1,/{h;d}; /^corner,deer00004,2,/G'
caught 'a corner of another animal' $one "'corner,deer00004,2," 's/^corner,deer00004,2,/corner,deer00005,2,/'
caught 'a corner elsewhere' $one 'not of the' '/^corner,deer00004,2,/s/[0-9]$/&0/'
caught 'a missing percent line' $one "'animal,deer00006.* 'percent,deer00005,50," '/^percent,deer00005,50,/d'
caught 'a doubled percent line' $one "'percent,deer00005,50," '/^percent,deer00005,95,/p'
caught 'percent lines swapped' $one "'percent,deer00005,95," '/^percent,deer00005,95,/{h;d}; /^percent,deer00005,50,/G'
caught 'another level of one animal' $one "'percent,deer00005,50," 's/^percent,deer00005,50,/percent,deer00005,49,/'
caught 'a level over 100' $one 'are not 101 percent' 's/^\(percent,deer0.*\),50,/\1,101,/'
caught 'too many fixes kept' $one '4 fixes are not 50 percent' 's/^percent,deer00005,50,3/percent,deer00005,50,4/'
caught 'a percent area that is too great' $one 'no polygon of fixes' '/^percent,deer00005,50,/s/$/000/'
caught 'all fixes kept in another area' $one 'not the last row' '/^percent,deer00005,95,/s/[0-9]$//'
caught 'no percent lines' $one 'no percent line' '/^percent,/d'
caught 'a missing overlap' $one "'overlap,deer00007,deer00008," '/^overlap,deer00007,deer00008,/d'
caught 'a doubled overlap' $one "'overlap,deer00007,deer00009," '/^overlap,deer00007,deer00008,/p'
caught 'overlaps swapped' $one "'overlap,deer00007,deer00000," '/^overlap,deer00007,deer00000,/{h;d}; /^overlap,deer00007,deer00001,/G'
caught 'an overlap of another animal' $one "'overlap,deer00007," 's/^overlap,deer00007,deer00008,/overlap,deer00007,deer00099,/'
caught 'an overlap with itself' $one "'overlap,deer00007," 's/^overlap,deer00007,deer00008,/overlap,deer00007,deer00007,/'
caught 'an overlap above its fixes' $one '7 of 6 fixes' 's/^overlap,deer00007,deer00008,[0-9]*/overlap,deer00007,deer00008,7/'
caught 'an overlap of other fixes' $one 'of 5 fixes, but deer00007 has 6' '/^overlap,deer00007,deer00008,/s/6$/5/'
caught 'a wrong end' $one 'not of 32 animals' 's/^end,32/end,31/'
caught 'no end' $one "'', but 'end,'" '/^end,/d'
caught 'two ends' $one 'a line behind the end' '/^end,/p'
caught 'a line of another kind' $one "'', but 'row,deer00003,4," '/^row,deer00003,3,/G'
caught 'a number with a zero before it' $one "'row,deer00003,2," 's/^row,deer00003,2,/&0/'
caught 'a negative number' $one "'row,deer00003,2," 's/^row,deer00003,2,/&-/'
caught 'a number with a blank' $one "'row,deer00003,2," 's/^row,deer00003,2,/& /'
caught 'digits of another script' $one "'row,deer00003,2," 's/^row,deer00003,2,/&٣/'
caught 'a number of too many digits' $one "'row,deer00003,2," "s/^row,deer00003,2,/&$(printf '%05000d' 0 | tr 0 7)/"
caught 'a name with a quote' $one 'no name of an animal' 's/deer00003/deer"0003/'
caught 'an empty name' $one 'no name of an animal' 's/deer00003//'
caught 'a number too many' $one "'row,deer00003,2," 's/^row,deer00003,2,/&1,/'
caught 'line ends of another system' $one "line 1: 'animal" 's/$/\r/'
caught 'a unit in the first group' $one '0001.txt: another unit' '1i unit,dm'
caught 'a unit in another group' reports/0001.txt '0001.txt: another unit' '1i unit,dm'
caught 'two units' $one "line 2: 'unit,dm'" '1{i unit,dm
i unit,dm
}'
caught 'other levels in a group' reports/0001.txt "'percent,deer00032,95," 's/^\(percent,deer0.*\),95,/\1,90,/'
caught 'more levels in a group' reports/0001.txt "'percent,deer00032,49," 's/^\(percent,deer0.*\),50,/&3,1,0\n\1,49,/'
caught 'an animal twice' reports/0001.txt 'deer00001 is there twice' 's/deer00032/deer00001/'
caught 'nothing in a group' reports/0002.txt "line 1: '', but 'animal,," d

two=pairs/0000-0001.txt
caught 'a missing overlap of a pair' $two "'overlap,deer00007,deer00040," '/^overlap,deer00007,deer00040,/d'
caught 'a missing overlap of a second' $two "'overlap,deer00040,deer00007," '/^overlap,deer00040,deer00007,/d'
caught 'a doubled overlap of a pair' $two "'overlap,deer00007,deer00041," '/^overlap,deer00007,deer00040,/p'
caught 'an overlap of a pair above its fixes' $two '7 of 6' 's/^overlap,deer00040,deer00007,[0-9]*/overlap,deer00040,deer00007,7/'
caught 'an overlap that is not the first group' $two 'in group 0000' 's/^overlap,deer00007,deer00008,[0-9]*/overlap,deer00007,deer00008,5/'
caught 'an overlap that is not the second group' $two 'in group 0001' 's/^overlap,deer00040,deer00041,[0-9]*/overlap,deer00040,deer00041,5/'
caught 'a pair of other groups' $two "'overlap,deer00000,deer00032," 's/deer00032/deer00064/'
caught 'a wrong end of a pair' $two 'not of 64 animals' 's/^end,64/end,70/'
caught 'a pair that is cut off' $two "but 'overlap,deer00040" '/^overlap,deer00040,deer00041/{s/,[0-9]*$//;q}'
caught 'a pair that is not the last' pairs/0001-0002.txt 'not of 38 animals' 's/^end,38/end,32/'

caught 'a file too few in a group' groups/0001 "'animal,deer00063.* 'overlap,deer00032" '$d'
caught 'a file too many in a group' groups/0001 "'overlap,deer00032.* 'animal,deer00032,fixes" '$p'
caught 'a missing step' steps 'not the steps of the 3 groups' '/^0001 0002$/d'
caught 'a doubled step' steps 'not the steps of the 3 groups' '/^0001 0002$/p'
lost 'its last group' groups/0002 'not the steps of the 2 groups'
lost 'its middle group' groups/0001 'one is not there'
lost 'its steps' steps 'No such file'
lost "a group's report" reports/0002.txt '0002.txt: No such file'
lost "a pair's report" pairs/0001-0002.txt '0001-0002.txt: No such file'
