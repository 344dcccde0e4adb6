# A file system that tells only when a file is closed that it has no room. The functions are those of program.sh.
# shellcheck shell=sh disable=SC2154,SC2034

cd "$work/program" || exit 1
rm -rf mount
mkdir mount
PYTHONDONTWRITEBYTECODE=1 timeout 120 python3 "$tools/tests/lossy.py" mount >errors 2>&1 &
mounting=$!

# Whether the folder is a mount, which takes a moment, and never comes where the mount has failed.
is_mounted() {
    for _ in $(seq 100); do
        ! mountpoint -q mount || return 0
        kill -0 $mounting 2>/dev/null || return
        sleep 0.1
    done
    return 1
}

if is_mounted; then
    while IFS=: read -r error reason; do
        "$HOMERANGE" a.csv >"mount/report.$error" 2>told
        ended=$?
        holds "$error when the output is closed" told 4 "standard output: $reason"
        holds "$error when the output is closed: a copy fails too" is_refused cp a.csv "mount/copy.$error"
    done <<END
ENOSPC:No space left on device
EDQUOT:Disk quota exceeded
EIO:Input/output error
END
    "$HOMERANGE" a.csv >mount/report.txt 2>told
    ended=$?
    holds 'nothing fails when the output is closed' told 0 ''
    echo "$alone" >wanted
    holds 'nothing fails when the output is closed: the report' cmp wanted mount/report.txt
    "$HOMERANGE" none.csv >mount/report.ENOSPC 2>told
    ended=$?
    holds 'without a report nothing is said of the output' told 1 'none.csv: No such file or directory'
else
    skip "a file system whose files fail when they are closed: $(sed -n '/^fuse/p; $p' errors | head -n 1)"
fi
kill $mounting 2>/dev/null
wait $mounting 2>/dev/null
