#!/usr/bin/env python3
"""homerange-tables, for a clone: homerange/commands/tables.py of python/ has it."""
import sys
from pathlib import Path

sys.path[0] = str(Path(__file__).resolve().parents[1] / "python")

from homerange.commands.tables import main

main("ranges.py")
