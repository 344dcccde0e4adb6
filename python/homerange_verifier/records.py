"""What no record of tracks has, though it can be read: another form, options, reasons, a reference system or makers that such
records have not. What a split is called with is taken from here."""

from __future__ import annotations

import re

from homerange.record import REASONS, Record, record_text
from homerange.zones import CODE, UTM

# The options of a split that a record may have, none of which names a file; and those of a call of older packages, which read data
# frames themselves.
SPLIT = set(
    "zone crs sensor from animal name time time-format tz lon lat easting northing na encoding argos-class argos max-dop dop "
    "fix-type fix since until max-speed every skip-lines header mark skip-unnamed".split())
TEXTS = sorted(SPLIT - {*"zone crs from tz encoding max-dop since until max-speed every skip-lines mark skip-unnamed".split()})  # any text
FRAME = SPLIT - set("from time-format na encoding skip-lines header mark".split()) | {"use", "months", "hours"}
# What makes tracks, and what projects for it.
TOOLS = (r"homerange-split [0-9.]+ \(logic [0-9a-f]{16}\)|(split\.py|split\.R|homerange for (Python|R)) [0-9.]+,[0-9a-f]{64}",
         r"(pyproj|sf) [0-9.]+[a-z0-9.]* \(PROJ [0-9.]+\)")
OLDER = re.compile(r"split\.(py|R) ")  # how the names begin of what made tracks of an export before the program did


def fault_of(record: Record, content: bytes) -> str | None:
    """What of a record is in no such record; None where nothing is."""
    if record_text(record).encode("utf-8", "surrogateescape") != content:
        return "split.txt is in another form than such records have"
    names, known = [name for name, _ in record.options], SPLIT if record.export else FRAME
    odd = [name for name in names if names.count(name) > 1 or name not in known]
    if odd or names != sorted(names):
        return f"split.txt has options in another order, or the option {odd[0] if odd else names[0]}, which a split has not, or has once"
    left = [(name, REASONS.index(reason) if reason in REASONS else -1) for name, _, reason in record.left]
    if left != sorted({*left}) or any(reason < 0 for _, reason in left) or not all(count for _, count, _ in record.left):
        return "split.txt has lines 'left' in another order, twice, or for a reason that is none"
    is_program = record.tools[:1] != [] and record.tools[0].startswith("homerange-split ")
    if not (1 <= len(record.tools) <= 2 - is_program and all(map(re.fullmatch, TOOLS, record.tools))):
        return "split.txt has a line 'tool' that is none of what makes tracks"
    return system_fault(record)


def system_fault(record: Record) -> str | None:
    """How the reference system is not written as it is in such records."""
    code = CODE.fullmatch(record.crs_text or "")
    if record.export is not None and record.crs is not None:
        return "split.txt has a line 'crs', which older records of data frames have"
    if record.zone and record.crs_text is not None:
        return "split.txt has a zone and another reference system"
    return f"split.txt has the zone {UTM[code[1]]} by another name" if code and code[1] in UTM else None
