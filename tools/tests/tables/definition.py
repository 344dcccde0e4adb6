"""What tracks come of records and what is left out, by the rules of docs/TABLES.md: numbers are fractions, times those of the
calendar. It was written from that page and not from the code of a reader, and knows nothing of separators, quotes and titles:
a record is a dictionary from the role of a column (animal, time, second, easting, northing, zone or a mark) to its text."""
import re
from collections import Counter, defaultdict
from datetime import datetime
from fractions import Fraction
from math import floor
from typing import NamedTuple

EPOCH = datetime(1970, 1, 1)
ISO = re.compile(r"(\d{4}-\d\d-\d\d)(?:[ T](\d\d:\d\d)(?::(\d\d)(\.\d+)?)?)?(?:Z|([+-])(\d\d):?(\d\d)?)?")
STEP = 1_000_000  # metres by which a local grid is shifted
GREATEST = {1: 1 << 24, 10: 1 << 27}  # the greatest coordinate, by how many units a metre has
NUMBER = re.compile(r"(-?[0-9]+)(?:[.,]([0-9]+))?")
TRUE, FALSE = {"true", "TRUE", "True", "1", "1.0"}, {"false", "FALSE", "False", "0", "0.0"}


class Asked(NamedTuple):
    """What is asked of a table."""

    units: int = 1  # that a metre has
    mark: bool = False
    missing: frozenset = frozenset({""})  # words for what is missing, beside NA
    is_local: bool = True  # whether the grid is one of its own, which is shifted where it has to be


class Made(NamedTuple):
    """What comes of a table: texts by the names of files, records and used ones by them, counts by name and reason, metres, and
    the text that says what became of each record."""

    texts: dict
    counts: dict
    left: Counter
    shift: tuple
    listed: str


def number(text):
    """The number that is written."""
    return Fraction(text.replace(",", "."))


def moment(record):
    """The seconds of a record's time: since 1970, or since a start of the table's own."""
    if "second" in record:
        return number(record["second"])
    day, minute, second, decimals, sign, hours, minutes = ISO.fullmatch(record["time"]).groups()
    clock = datetime.strptime(f"{day} {minute or '00:00'}:{second or '00'}", "%Y-%m-%d %H:%M:%S") - EPOCH
    ahead = 3600 * int(hours or 0) + 60 * int(minutes or 0)
    return 86400 * clock.days + clock.seconds + Fraction(f"0{decimals or ''}") - (-ahead if sign == "-" else ahead)


def bare(text):
    """A number without the zeros behind its digits: what stands before its point, and the digits behind it; None of another text."""
    found = NUMBER.fullmatch(text)
    return found and (found[1], (found[2] or "").rstrip("0"))


def is_missing(text, asked):
    """Whether a field is a word for what is missing, or the same number."""
    return text in asked.missing or bare(text) is not None and bare(text) in map(bare, asked.missing)


def is_used(record):
    """Whether a fix is used, by its marks."""
    if "use" in record:
        return record["use"] in TRUE
    owner, *others = (record.get(f"{who}-marked-outlier") in TRUE for who in ("manually", "algorithm", "import"))
    return record.get("visible") not in FALSE and not owner and (record.get("manually-marked-valid") in TRUE or not any(others))


def why_left(record, asked):
    """The reason for which a record is left out, without a look at its place; None where there is none."""
    if any(record[axis] == "NA" or is_missing(record[axis], asked) for axis in ("easting", "northing")):
        return "coordinates"
    if is_missing(record["animal"], asked):
        return "animal"
    return None if asked.mark or is_used(record) else "outlier"


def whole(metres, units):
    """A coordinate in whole units, a half up."""
    return floor(units * metres + Fraction(1, 2))


def is_on_grid(metres, units):
    return 0 <= whole(metres, units) <= GREATEST[units]


def shift_of(metres, units):
    """How many metres are added to the coordinates of an axis."""
    ends = min(metres), max(metres)
    if all(is_on_grid(end, units) for end in ends):
        return 0
    return -STEP * floor(ends[0] / STEP)


def name_of(record, asked):
    """The name of the file of a record's animal; "" where it has none."""
    return "" if is_missing(record["animal"], asked) else re.sub(r'[<>:"/\\|?*,\x00-\x1f\x7f]', "_", record["animal"])


def lines_of(name, fixes, asked):
    """The text of a track of these fixes: (moment, used, easting, northing) in the order of records."""
    yield "animal,second,easting,northing" + (",use" if asked.mark else "")
    for time, used, *place in sorted(fixes, key=lambda fix: fix[0]):
        yield ",".join(map(str, (name, floor(time), *place, *([int(used)] if asked.mark else []))))


def line_of(at, record, reason, asked):
    """What became of a record, as a line."""
    second, rest = divmod(moment(record), 1) if not reason else ("", "")
    return f"{at},{name_of(record, asked)},{second},{rest if reason else int(rest * 10 ** 9)},{reason or ''}"


def made_of(records, asked):
    """What comes of records."""
    why, kept, fixes = [why_left(record, asked) for record in records], [], defaultdict(list)
    for at, record in enumerate(records):
        if not why[at]:
            kept.append((at, record, is_used(record), [number(record[axis]) for axis in ("easting", "northing")]))
    zone = next(record.get("zone") for _, record, used, _ in kept if used)
    used_places = zip(*(place for _, _, used, place in kept if used))
    shift = tuple(shift_of(metres, asked.units) for metres in used_places) if asked.is_local else (0, 0)
    for at, record, used, place in kept:
        metres = [value + added for value, added in zip(place, shift)]
        if record.get("zone") == zone and all(is_on_grid(value, asked.units) for value in metres):
            fixes[name_of(record, asked)].append((moment(record), used, *(whole(value, asked.units) for value in metres)))
        else:
            why[at] = "grid"
    left = Counter((name_of(record, asked), reason) for record, reason in zip(records, why) if reason)
    listed = [line_of(at, record, reason, asked) for at, (record, reason) in enumerate(zip(records, why), 1)]
    texts = {name: "\n".join([*lines_of(name, own, asked), ""]) for name, own in fixes.items()}
    return Made(texts, {name: (len(own), sum(fix[1] for fix in own)) for name, own in fixes.items()}, left, shift,
                "\n".join(["record,file,second,nanosecond,reason", *listed, ""]))
