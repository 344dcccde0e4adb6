#!/usr/bin/env python3
"""homerange-herd merge, for a clone: homerange/commands/herd.py of python/ has it."""
import sys
from pathlib import Path

sys.path[0] = str(Path(__file__).resolve().parents[2] / "python")

from homerange.commands.herd import main

sys.argv.insert(1, "merge")
main("merge.py")
