#!/usr/bin/env python3
"""homerange-corners, for a clone: homerange/commands/corners.py of python/ has it."""
import sys
from pathlib import Path

sys.path[0] = str(Path(__file__).resolve().parents[1] / "python")

from homerange.commands.corners import main

main("corners.py")
