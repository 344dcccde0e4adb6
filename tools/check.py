#!/usr/bin/env python3
"""homerange-check, for a clone: homerange_verifier/check.py of python/ has it."""
import sys
from pathlib import Path

sys.path[0] = str(Path(__file__).resolve().parents[1] / "python")

from homerange_verifier.check import main

main("check.py")
