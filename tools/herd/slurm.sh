#!/bin/sh
# slurm.sh OUT JOBS [OPTION ..]: hands the runs of a herd that plan.sh planned to Slurm: as an array of so many jobs,
# each of which makes its share of the runs one after the other, and a job behind them that merges, if all went well.
#
# OPTION .. are those of sbatch, for both, such as --partition=short. A run gets a minute and 500 MB, which serve the 64
# files of a pair of groups, the merge an hour and 4 GB, unless --time and --mem say otherwise. What jobs say is in
# OUT/logs. The last line is the number of the merge's job. Where a job failed or was killed, this is called again, and
# goes on where it was: runs that stand are not made again.
set -eu
here=$(cd "$(dirname "$0")" && pwd)
# shellcheck source=tools/herd/words.sh
. "$here/words.sh"
answer_words "$@"
[ $# -ge 2 ] || misuse 'give the folder that plan.sh planned and the number of jobs'
case $2 in
    *[!0-9]* | 0*) misuse "$2 is no number of jobs" ;;
esac
[ -f "$1/steps" ] || misuse "$1 is no folder that plan.sh planned"
out=$(cd "$1" && pwd)
jobs=$2
shift 2
runs=$(wc -l <"$out/steps")
mkdir -p "$out/logs"
rm -f "$out/report.txt"

# Submits standard input as a script with these options, and prints the job's number.
submit() {
    sbatch --parsable --chdir="$out" --ntasks=1 --cpus-per-task=1 "$@"
}

# The scripts of a job of the array, which makes each run whose line leaves its number, and of the merge.
share() {
    cat <<END
#!/bin/sh
awk -v job="\$SLURM_ARRAY_TASK_ID" 'NR % $jobs == job' steps | xargs -r -L 1 '$here/step.sh' .
END
}
merge() {
    printf '#!/bin/sh\nexec "%s" .\n' "$here/merge.py"
}

# Of an option that stands twice sbatch takes the last.
array=$(share | submit --mem=500 --time="$((runs / jobs + 2))" "$@" --job-name=herd --array="0-$((jobs - 1))" \
    --output='logs/%A-%a.log')
echo "slurm.sh: $runs runs in $jobs jobs: $array" >&2
merge | submit --mem=4000 --time=60 "$@" --job-name=merge --dependency="afterok:$array" --kill-on-invalid-dep=yes \
    --output='logs/%j.log'
