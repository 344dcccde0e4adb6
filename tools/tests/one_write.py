"""one_write.py PROGRAM [WORD ..]: whether a run writes to standard error once, a line that begins with `homerange: `.

Standard error is a socket that keeps apart what single writes bring. Prints how many there were, and the beginning of
each of the first ones; the status is 0 where there was one, and it was such a line."""

import socket
import subprocess
import sys

# More than the longest line, which has a word of the command line.
LONGEST = 1 << 20


def writes_of(command):
    """What each write of a run brought to its standard error."""
    ours, theirs = socket.socketpair(socket.AF_UNIX, socket.SOCK_SEQPACKET)
    running = subprocess.Popen(command, stdin=subprocess.DEVNULL, stdout=subprocess.DEVNULL, stderr=theirs)
    theirs.close()
    while text := ours.recv(LONGEST):
        yield text
    running.wait()


def main():
    found = list(writes_of(sys.argv[1:]))
    print(len(found), *(text[:80] for text in found[:9]))
    is_line = len(found) == 1 and found[0].startswith(b"homerange: ") and found[0].find(b"\n") == len(found[0]) - 1
    sys.exit(not is_line)


if __name__ == "__main__":
    main()
