# Tests that hostile/split_faults.py finds programs that answer wrongly: one that leaves what it made of a folder, one that says
# two lines, and one that ends well though a file is not whole.
# shellcheck shell=sh disable=SC2154

# Whether a stub with this fault fails its first sweeps with this text.
is_found() {
    cc -D LEAVES="$(($1 == 1))" -D TWO="$(($1 == 2))" -D HALF="$(($1 == 3))" stub.c -o "stub$1" || return
    ! python3 "$top/hostile/split_faults.py" "./stub$1" >swept || return
    grep -F "failed: metres of two animals: {'STORE_AT': '1', 'STORE_AS': '28'}: $2" swept || return
    grep -q '^metres of two animals: READ: ' swept && tail -n 1 swept | grep -qx '[1-9][0-9]* passed, [1-9][0-9]* failed'
}

if is_here cc 'hostile/split_faults.py'; then
    rm -rf split_trials
    mkdir split_trials
    cd split_trials || exit 1
    export PYTHONDONTWRITEBYTECODE=1
    cat >stub.c <<'END'
#define _GNU_SOURCE
#include <errno.h>
#include <fcntl.h>
#include <stdio.h>
#include <string.h>
#include <sys/stat.h>
#include <unistd.h>

static int refuse(int status, const char *text) {
    char line[200];
    int size = snprintf(line, sizeof line, "split: %s: %s\n%s", text, strerror(errno), TWO ? "split: more\n" : "");
    if (!LEAVES) {
        unlink(".tracks.part-1/fox.csv");
        rmdir(".tracks.part-1");
    }
    return write(2, line, size) < 0 ? status : status;
}

int main(int count, char **words) {
    char text[4096];
    int from = open(words[count - 1], O_RDONLY);
    if (from < 0) return refuse(1, "export");
    ssize_t size = read(from, text, sizeof text);
    if (size < 0) return refuse(1, "export");
    if (mkdir(".tracks.part-1", 0777)) return refuse(4, "tracks");
    int to = open(".tracks.part-1/fox.csv", O_WRONLY | O_CREAT | O_EXCL, 0666);
    if (to < 0) return refuse(4, "tracks");
    if (write(to, text, size) != size && !HALF) return refuse(4, "tracks");
    return rename(".tracks.part-1", "tracks") ? refuse(4, "tracks") : 0;
}
END
    holds 'a folder that is left is found' is_found 1 'something is left'
    holds 'a second line is found' is_found 2 'not one line on standard error'
    holds 'half a file is found' is_found 3 'status 0, and not all is as it has to be'
    cd "$work" || exit 1
fi
