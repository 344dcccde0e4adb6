"""A record of a run of another form than this copy writes: what can be had of it is what the report needs."""

from __future__ import annotations

import re
import shlex
from pathlib import Path

from homerange.about import About, Words

from .check import LEVELS
from .folder import lines_of
from .lines import Fault

NUMBER = re.compile("form: ([1-9][0-9]{0,3})")
NEEDED = ("made", "program", "program sha256", "arguments", "unit", "levels")


def form_of(path: Path) -> int:
    """The number of the form, which is the first line."""
    if not path.is_file():
        raise Fault(f"there is no {path.name}: it is no folder that evidence.py or ranges.sh wrote")
    found = NUMBER.fullmatch(lines_of(path)[0] if path.stat().st_size else "")
    if not found:
        raise Fault(f"{path.name} does not begin with the number of its form, such as 'form: 1'")
    return int(found[1])


def read_older(path: Path) -> About:
    """What a record of another form says of its run."""
    fields = dict(line.partition(": ")[::2] for line in lines_of(path))
    missing = [name for name in NEEDED if name not in fields]
    try:
        words = shlex.split(fields.get("arguments", ""))
    except ValueError:
        words = []
    if missing or "--" not in words or fields["unit"] not in ("m", "dm") or not LEVELS.fullmatch(fields["levels"]):
        raise Fault(f"{path.name} has no {missing[0] if missing else 'arguments, levels and unit that can be read'}")
    return About(fields["made"], fields["program"], fields["program sha256"], words[words.index("--") + 1:], fields["unit"],
                 fields["levels"], fields.get("commit", ""), fields.get("sources", ""), fields.get("logic", ""), None,
                 Words(clock=fields.get("clock")))
