"""on_terminal.py COMMAND ..: runs a command whose standard error is a terminal, and prints what it wrote there, byte for byte.

The status is that of the command. Standard input is handed on."""

import os
import pty
import subprocess
import sys


def written_to(terminal):
    """All that was written to a terminal until nobody has it open."""
    try:
        while text := os.read(terminal, 4096):
            yield text
    except OSError:
        return


def main():
    ours, theirs = pty.openpty()
    running = subprocess.Popen(sys.argv[1:], stdin=sys.stdin, stdout=subprocess.DEVNULL, stderr=theirs)
    os.close(theirs)
    sys.stdout.buffer.write(b"".join(written_to(ours)))
    sys.exit(running.wait())


if __name__ == "__main__":
    main()
