# Tests the runs of a herd by Slurm, on a node of this machine (slurm_node.py), as an array and by Snakemake; and on three
# nodes, of which one fails.
# shellcheck shell=sh disable=SC2154,SC2016

# Waits until a command holds, at most three minutes.
wait_for() {
    for _ in $(seq 900); do
        "$@" 2>/dev/null && return
        sleep 0.2
    done
    return 1
}

# Whether the program waits in so many jobs, and whether all jobs are over.
are_begun() {
    [ "$(printf '%s\n' herd/waiting.* | grep -c '[0-9]$')" -ge "$1" ]
}
are_over() {
    [ -z "$(squeue --noheader)" ]
}
is_down() {
    [ "$(sinfo --noheader --Node --format=%t | grep -c down)" -eq 1 ]
}

# A program that waits for the file `go` in the herd's folder before it runs, but where a plan asks it for its options. Its
# file there has its number.
write_patient() {
    printf '#!/bin/sh\ncase $* in *"-- /dev/null") exec "%s" "$@" ;; esac\n' "$HOMERANGE" >patient
    printf 'mine=waiting.${SLURM_ARRAY_TASK_ID:-0}\n' >>patient
    printf 'echo $$ >$mine\nuntil [ -e go ]; do sleep 0.1; done\nexec "%s" "$@"\n' "$HOMERANGE" >>patient
    chmod +x patient
}

# The lines of a report on standard input that are of the animals alone whose files are named.
lines_about() {
    printf '%s\n' "$@" | sed 's/.*\///; s/[.]csv$//' >wanted
    awk -F , 'NR == FNR { wanted[$1]; next } $1 != "end" && $2 in wanted && ($1 != "overlap" || $3 in wanted)' wanted -
}

# A herd of 320 as an array of four jobs, in a folder with a blank. Of the first call one job is cancelled, and a program
# of another killed.
test_array() {
    rm -rf 'two words'
    mkdir 'two words'
    cd 'two words' || return
    python3 "$top/examples/simulate.py" tracks 320 20
    HOMERANGE=../patient "$tools/herd/plan.sh" tracks herd
    holds 'a herd goes to Slurm' "$tools/herd/slurm.sh" herd 4
    holds 'four jobs run at once' wait_for are_begun 4
    scancel "$(squeue --noheader --states=running --array --format=%i | grep '_1$')"
    kill -9 "$(cat herd/waiting.2)"
    touch herd/go
    holds 'the jobs are over' wait_for are_over
    holds 'after a kill there is no report' [ ! -e herd/report.txt ]
    holds 'after a kill what was made stands' [ -n "$(ls herd/pairs)" ]
    holds 'the log says so' grep -q 'step.sh: the run of groups .* failed' herd/logs/*.log
    holds 'the herd goes to Slurm again, with more jobs than runs' "$tools/herd/slurm.sh" herd 56
    wait_for are_over
    holds 'a herd of 320 has a report' [ "$(tail -n 1 herd/report.txt)" = end,320 ]
    set -- tracks/deer00[0-9][0-9][05].csv
    holds '64 of the animals' [ $# -eq 64 ]
    "$HOMERANGE" "$@" | grep -v '^end,' >direct
    lines_about "$@" <herd/report.txt >found
    holds 'the lines of 64 animals are those of a direct run' cmp direct found
    # The same by the scripts of one machine.
    mv herd/report.txt by_array
    rm herd/reports/0003.txt herd/pairs/0003-*
    holds 'the herd runs on one machine' "$tools/herd/run.sh" tracks herd
    holds 'both reports are the same' cmp by_array herd/report.txt
    cd ..
}

# Snakemake hands its jobs to Slurm. The first call's job is cancelled.
test_snakemake() {
    rm -rf tracks herd
    python3 "$top/examples/simulate.py" tracks 40 20
    HOMERANGE=./patient "$tools/herd/plan.sh" tracks herd
    set -- snakemake --snakefile "$tools/herd/Snakefile" --directory herd --slurm --jobs 10 --cores 1 \
        --groups group=steps pair=steps --group-components steps=3 --max-status-checks-per-second 1
    "$@" >told 2>&1 &
    called=$!
    holds "Snakemake's job runs" wait_for are_begun 1
    scancel "$(squeue --noheader --states=running --format=%i | head -n 1)"
    if wait $called; then holds 'Snakemake fails where a job is cancelled' false; fi
    holds 'Snakemake says so' grep -q "SLURM status is: 'CANCELLED'" told
    holds 'after that there is no report' [ ! -e herd/report.txt ]
    touch herd/go
    holds 'Snakemake runs by Slurm' timeout 300 "$@" --rerun-incomplete
    "$HOMERANGE" tracks/*.csv >direct
    holds 'a herd of 40 by Slurm is one direct run' cmp direct herd/report.txt
}

# A herd of 320 over three nodes, of which one is unplugged while its jobs run: Slurm gives these to the others.
test_nodes() {
    rm -rf tracks herd alone
    python3 "$top/examples/simulate.py" tracks 320 20
    HOMERANGE=./patient "$tools/herd/plan.sh" tracks herd
    holds 'a herd goes to three nodes' "$tools/herd/slurm.sh" herd 6 --requeue
    holds 'six jobs run at once' wait_for are_begun 6
    holds 'on each of the three nodes' [ "$(squeue --noheader --states=running --format=%N | sort -u | wc -l)" -eq 3 ]
    # shellcheck disable=SC2086
    set -- $NODE_SPACES
    ip netns pids "$2" | xargs kill -9
    touch herd/go
    holds 'the node is down' wait_for is_down
    # Jobs that are given back wait two minutes, unless they are told not to.
    for job in $(squeue --noheader --array --states=pending --format=%i); do
        scontrol update JobId="$job" StartTime=now
    done
    holds 'the jobs are over' wait_for are_over
    HOMERANGE=./patient JOBS=4 "$tools/herd/run.sh" tracks alone 2>messages &
    alone=$!
    wait_for [ -d alone/groups ]
    touch alone/go
    wait $alone
    holds 'a herd over three nodes, of which one failed, is that of one machine' cmp alone/report.txt herd/report.txt
}

# Runs tests beside a Slurm of this machine, with these options of slurm_node.py; it ends with the file `conf`, which names
# its configuration and its namespaces.
beside_slurm() {
    tests=$1
    shift
    rm -f conf spaces
    # shellcheck disable=SC2016
    timeout 1800 python3 "$tools/tests/slurm_node.py" "$@" \
        sh -c 'echo "$NODE_SPACES" >spaces; echo "$SLURM_CONF" >conf; while [ -e conf ]; do sleep 0.2; done' 2>why &
    node=$!
    wait_for is_up_or_over
    if [ -s conf ]; then
        USER=${USER:-$(id -un)}
        SLURM_CONF=$(cat conf) NODE_SPACES=$(cat spaces)
        export USER SLURM_CONF
        write_patient
        $tests
        unset SLURM_CONF
        rm conf
    else
        skip "herds by Slurm: $(cat why)"
    fi
    wait $node
}
is_up_or_over() {
    [ -s conf ] || ! kill -0 "$node"
}
test_one() {
    test_array
    ! is_here snakemake 'herds by Snakemake and Slurm' || test_snakemake
}

if is_here slurmctld 'herds by Slurm' && is_here munged 'herds by Slurm'; then
    beside_slurm test_one
    ! is_here ip 'herds by Slurm on three nodes' || beside_slurm test_nodes --nodes 3
fi
