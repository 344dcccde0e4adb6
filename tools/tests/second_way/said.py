"""Whether the record of tracks says one thing: what was said when fixes were read has the numbers, the zone and the shift of
its other lines. docs/TABLES.md, What is said, has the lines."""

from __future__ import annotations

import re
from collections import Counter
from typing import Iterable

from .records import Split

LEFT = {
    "records have no animal": "animal", "records have no coordinates": "coordinates",
    "records have longitude and latitude 0": "zero", "records of other sensors": "sensor", "outliers": "outlier",
    "fixes are of other Argos classes than .*": "class", "fixes have no DOP": "no dop", "fixes have a DOP above .*": "dop",
    "fixes are of other fix types than .*": "type", "fixes are before .*": "before", "fixes are after .*": "after",
    "outliers off the grid": "grid", "fixes are faster than .*": "speed", "fixes are in other months than .*": "months",
    "fixes are at other hours than .*": "hours", "fixes are not the first in .*": "every"}
COUNT = re.compile("([0-9]+) (.*): left out")
ZONE = re.compile("(?:coordinates are those of the table; zone:|UTM coordinates are those of the export; zone:|"
                  "longitude and latitude are projected into zone) ([0-9]+[NS])(?:[ ;].*)?")
SHIFT = re.compile("coordinates are shifted by (-?[0-9]+) m east and (-?[0-9]+) m north")


def reason_of(text: str) -> str | None:
    """The reason for which fixes were left out, by what was said of them; None where it is none."""
    return next((reason for form, reason in LEFT.items() if re.fullmatch(form, text)), None)


def counts_said(lines: Iterable[str]) -> Counter[str]:
    """How many fixes were left out for each reason, as it was said."""
    found = [COUNT.fullmatch(line) for line in lines]
    return Counter({reason: int(each[1]) for each in found if each and (reason := reason_of(each[2]))})


def fault_of(split: Split) -> str | None:
    """How the record contradicts itself; None where it does not. Rows that an argument left out are not said."""
    totals = Counter[str]()
    for _, count, reason in split.left:
        totals[reason] += count
    del totals["use"]
    said = counts_said(split.said)
    wrong = sorted(reason for reason in {*totals} | {*said} if totals[reason] != said[reason])
    if wrong:
        return f"split.txt has {totals[wrong[0]]} fixes left out for {wrong[0]!r}, and says {said[wrong[0]]}"
    zones = {found[1] for found in map(ZONE.fullmatch, split.said) if found}
    if zones and "crs" not in split.single and zones != {split.zone}:
        return f"split.txt has the zone {split.single['zone']}, and says {', '.join(sorted(zones))}"
    shifts = [tuple(map(int, found.groups())) for found in map(SHIFT.fullmatch, split.said) if found]
    if shifts != [split.shift] * any(split.shift):
        return "split.txt has another shift than it says"
    return None
