#!/bin/sh
# homerange-ranges, for a clone: homerange/commands/ranges.py of python/ has it. Debian's packages for Python are those of
# its own.
PATH=/usr/bin:$PATH exec python3 -c 'import sys
sys.path = [sys.argv.pop(1), *filter(None, sys.path)]
from homerange.commands.ranges import main
main("ranges.sh")' "$(cd "$(dirname "$0")/../python" && pwd)" "$@"
