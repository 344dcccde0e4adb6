# Tests the runs of a herd by Snakemake, where it is there: with scripts, tracks and runs in folders with blanks.
# shellcheck shell=sh disable=SC2154,SC2016

# Plans the herd, and runs it.
plan() {
    'a clone/tools/herd/plan.sh' 'my tracks' 'my herd' "$@"
}
engine() {
    timeout 100 snakemake --snakefile 'a clone/tools/herd/Snakefile' --directory 'my herd' "$@"
}

# What is said by a call that fails, and leaves no report.
fails() {
    name=$1 text=$2
    shift 2
    if engine "$@" >told 2>&1; then holds "$name: status" false; fi
    holds "$name" grep -qF -e "$text" told
    holds "$name: no report" [ ! -e 'my herd/report.txt' ]
}

# Waits until a command holds, at most a minute.
wait_until() {
    for _ in $(seq 600); do
        "$@" 2>/dev/null && return
        sleep 0.1
    done
}
is_over() {
    ! ls 'my herd'/*/*.part >listed
}

if is_here snakemake 'herds by Snakemake'; then
    rm -rf 'my tracks' 'my herd' 'a clone'
    rm -f called
    mkdir -p 'a clone/tools'
    cp -R "$tools/herd" 'a clone/tools'
    ln -s "$top/python" 'a clone/python'
    python3 "$top/examples/simulate.py" 'my tracks' 40 20
    plan
    holds 'Snakemake runs' engine --cores 2
    "$HOMERANGE" 'my tracks'/*.csv >direct
    holds 'a herd by Snakemake is one direct run' cmp direct 'my herd/report.txt'
    engine --cores 2 >told 2>&1
    holds 'Snakemake does nothing anew' grep -q '^Nothing to be done' told

    # A new track, other options and a new program, each of which is called.
    sed 's/deer00007/deer00040/' 'my tracks/deer00007.csv' >'my tracks/deer00040.csv'
    printf '#!/bin/sh\necho >>"%s/called"\nexec "%s" "$@"\n' "$work" "$HOMERANGE" >another
    chmod +x another
    HOMERANGE=./another plan --percent 90
    holds 'Snakemake runs with a new track, other options and a new program' engine --cores 2
    "$HOMERANGE" --percent 90 'my tracks'/*.csv >direct
    holds 'the new herd by Snakemake is one direct run' cmp direct 'my herd/report.txt'
    # The plan asks it once for its options.
    holds 'the new program made each run' [ "$(wc -l <called)" -eq 4 ]

    # A track that changed and was not planned, and one that is planned and cannot be right.
    sed -i 's/deer00040/deer00000/' 'my tracks/deer00040.csv'
    fails 'a track that is not as planned' 'step.sh: a track of groups 0001 and 0001 is not as plan.sh found it' --cores 2
    HOMERANGE=./another plan --percent 90
    fails 'a rerun that fails by Snakemake' 'step.sh: the run of groups 0000 and 0001 failed' --cores 2
    rm 'my tracks/deer00040.csv'

    # One that is killed, while its step goes on: the program waits until it may go.
    printf '#!/bin/sh\necho >begun\nfor _ in $(seq 600); do [ -e go ] && break; sleep 0.1; done\nexec "%s" "$@"\n' \
        "$HOMERANGE" >slow
    chmod +x slow
    HOMERANGE=./slow plan
    snakemake --snakefile 'a clone/tools/herd/Snakefile' --directory 'my herd' --cores 1 >told 2>&1 &
    killed=$!
    wait_until [ -e 'my herd/begun' ]
    kill -9 $killed
    wait $killed 2>told
    touch 'my herd/go'
    wait_until is_over
    plan
    fails 'a run after a kill' 'rerun your command with the --rerun-incomplete flag' --cores 2
    fails 'a run of the incomplete' 'Directory cannot be locked' --cores 2 --rerun-incomplete
    holds 'a kill is unlocked' engine --unlock
    holds 'a run goes on' engine --cores 2 --rerun-incomplete
    "$HOMERANGE" 'my tracks'/*.csv >direct
    holds 'a herd after a kill is one direct run' cmp direct 'my herd/report.txt'
fi
