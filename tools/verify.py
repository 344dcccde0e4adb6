#!/usr/bin/env python3
"""homerange-verify, for a clone: homerange_verifier/verify.py of python/ has it."""
import sys
from pathlib import Path

sys.path[0] = str(Path(__file__).resolve().parents[1] / "python")

from homerange_verifier.verify import main

main("verify.py")
