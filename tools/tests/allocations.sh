# Tests that hostile/allocations.py finds programs that answer wrongly: one that always says that it has no memory, one
# that writes half a report where it has none, and one that says so twice where it has none for good.
# shellcheck shell=sh disable=SC2154

# Whether each sweep of this program fails, the first in a line that has this text.
fails_each_sweep() {
    ! python3 "$top/hostile/allocations.py" "$1" >swept || return
    head -n 1 swept
    tail -n 1 swept
    head -n 1 swept | grep -qF -- "$2" && tail -n 1 swept | grep -qx '0 passed, [1-9][0-9]* failed, 1 skipped'
}

if is_here cc 'hostile/allocations.py'; then
    rm -rf allocations
    mkdir allocations
    cd allocations || exit 1
    export PYTHONDONTWRITEBYTECODE=1
    printf '#!/bin/sh\necho "homerange: out of memory" >&2\nexit 3\n' >always
    chmod +x always
    holds 'always out of memory is found' fails_each_sweep ./always "with ample memory it is (3, ''"
    cat >stub.c <<END
#include <stdio.h>
#include <stdlib.h>
#include <unistd.h>

int main(int count, char **words) {
    if (count && !malloc(1)) {
        if (HALF) return puts("animal,A,fixes,5") < 0;
        fputs(malloc(1) ? "homerange: out of memory\\n" : "homerange: homerange: out of memory\\n", stderr);
        return 3;
    }
    unsetenv("LD_PRELOAD");
    return execv("$HOMERANGE", words);
}
END
    cc -D HALF=1 stub.c -o half
    cc -D HALF=0 stub.c -o twice
    holds 'half a report is found' fails_each_sweep ./half "call 1 failed alone: (0, 'animal,A,fixes,5"
    holds 'two lines in one are found' fails_each_sweep ./twice "call 1 failed for good: (3, '', 'homerange: homerange"
    cd "$work" || exit 1
fi
