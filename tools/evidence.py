#!/usr/bin/env python3
"""homerange-evidence, for a clone: homerange/commands/evidence.py of python/ has it."""
import sys
from pathlib import Path

sys.path[0] = str(Path(__file__).resolve().parents[1] / "python")

from homerange.commands.evidence import main

main("evidence.py")
