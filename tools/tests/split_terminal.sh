# Tests that homerange-split shows on a terminal, and only there, how far it is once a second has passed.
# shellcheck shell=sh disable=SC2154

is_split_here 'how far it is' || return 0

# An export of 70,000 records, whose end comes after so many seconds.
late_export() {
    printf 'id,second,x,y\n'
    sleep "$1"
    seq 70000 | sed 's/.*/fox,&,&,1/'
}
# What it shows of an export which comes so late, where this command runs it.
shown() {
    rm -rf "$work/late"
    seconds=$1
    shift
    late_export "$seconds" | "$@" "$splitter" --into "$work/late" - 2>&1
}

shown 4 python3 "$tools/tests/on_terminal.py" >terminal
holds 'it ends well on a terminal' [ -f "$work/late/fox.csv" ]
# A terminal's line may go on at its begin; what is shown last is overwritten there.
tr '\r' '\n' <terminal >lines
holds 'it shows the records that are read' grep -qx 'split: 65536 of about 70001 records are read' lines
holds 'it takes that away again' [ "$(grep -A 1 'records are read' lines | tail -n 1 | tr -d ' ')" = '' ]
holds 'what it says comes behind that' [ "$(tail -n 1 terminal | tr -d '\r')" = "split: 70000 fixes of 1 animals are in $work/late, in m" ]
shown 0 python3 "$tools/tests/on_terminal.py" >terminal
holds 'it shows nothing within a second' [ "$(grep -c 'are read$' terminal)" -eq 0 ]
shown 4 env >plain
holds 'it shows nothing without a terminal' [ "$(grep -c 'are read' plain)" -eq 0 ]
