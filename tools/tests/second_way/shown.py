"""How the page writes numbers, lengths of time, dates and names, by exact quotients; halves are rounded up. The forms are
those of docs/GUIDE.md, The page."""

from __future__ import annotations

import re
from datetime import date, datetime, timedelta, timezone
from fractions import Fraction
from math import floor
from typing import Iterable, Sequence
from zoneinfo import ZoneInfo

from .facts import HECTARE

Number = int | Fraction
NOTHING = "\u2013"
MONTHS = "Jan Feb Mar Apr May Jun Jul Aug Sep Oct Nov Dec".split()
SECONDS = range(10 ** 8, 10 ** 10)  # those of a calendar
CONTROL = re.compile("[\x00-\x1f\x7f-\x9f\u2028\u2029]")
HIDDEN = re.compile("[\u200b\u200e\u200f\u202a-\u202e\u2060-\u2069\ufeff]")


def text_of(name: str) -> str:
    """A name as it is shown: what could change how it looks is written out."""
    name = CONTROL.sub(lambda sign: f"\\x{ord(sign[0]):02x}" if ord(sign[0]) < 256 else f"\\u{ord(sign[0]):04x}", name)
    return HIDDEN.sub(lambda sign: f"\\u{ord(sign[0]):04x}", name)


def unseen_replaced(name: str) -> str:
    """A name with a sign of replacement for each character that could change how it looks."""
    return HIDDEN.sub("\ufffd", CONTROL.sub("\ufffd", name))


def number(value: Number, places: int = 0) -> str:
    """A number with so many decimals, and commas between thousands."""
    scaled = floor(Fraction(value) * 10 ** places + Fraction(1, 2))
    whole, rest = divmod(scaled, 10 ** places)
    return f"{whole:,}.{rest:0{places}d}" if places else f"{whole:,}"


def three_digits(value: Number) -> str:
    return number(value, 0 if value >= 100 else 1 if value >= 10 else 2)


def fixes(count: int) -> str:
    return f"{number(count)} {'fix' if count == 1 else 'fixes'}"


def hectares(area2: int, unit: str) -> str:
    """A doubled area in hectares, below 1 hectare in square metres with their sign."""
    value = Fraction(area2, HECTARE[unit])
    if not value:
        return "0"
    return three_digits(value) if value >= 1 else f"{three_digits(10_000 * value)} m\u00b2"


def area(area2: int, unit: str) -> str:
    """A doubled area with its sign."""
    text = hectares(area2, unit)
    return text if text.endswith("m\u00b2") else f"{text} ha"


def days(seconds: int) -> str:
    value = Fraction(seconds, 86_400)
    return number(value, 1 if value < 10 else 0)


def interval(seconds: Number | None) -> str:
    """A length of time."""
    if seconds is None:
        return NOTHING
    for length, places, sign in ((1, 0, "s"), (60, 0, "min"), (3600, 1, "h")):
        if seconds < 100 * length:
            return f"{number(Fraction(seconds) / length, places)} {sign}"
    return f"{number(Fraction(seconds) / 86_400, 1)} d"


def count_in_range(count: int, of: int) -> str:
    """How many fixes are in the range of another animal, with their share."""
    if not count:
        return "0"
    text = number(Fraction(100 * count, of))
    if count < of and text == "100":
        text = ">99"
    return f"{number(count)} ({'<1' if text == '0' else text}\u00a0%)"


def share(part: int, whole: int) -> str:
    """A share of an area."""
    return f"{number(Fraction(100 * part, whole), 1)} %" if whole else NOTHING


def listed(words: Sequence[str]) -> str:
    return " and ".join(filter(None, (", ".join(words[:-1]), words[-1])))


def day(moment: date) -> str:
    return f"{moment.day} {MONTHS[moment.month - 1]} {moment.year}"


class Clock:
    """Writes dates by the clock of a zone; where a second is none of a calendar, all are days from the files' start."""

    def __init__(self, zone: str, seconds: Iterable[int]) -> None:
        self.zone, self.is_calendar = zone, all(second in SECONDS for second in seconds)
        self.info = timezone.utc if zone == "UTC" else ZoneInfo(zone)

    def date(self, second: int) -> str:
        if not self.is_calendar:
            return f"day {second // 86_400 + 1}"
        return day(self.moment(second))

    def moment(self, second: int) -> datetime:
        return (datetime(1970, 1, 1, tzinfo=timezone.utc) + timedelta(seconds=second)).astimezone(self.info)

    def local(self, moment: str) -> date:
        """The day of a moment of UTC that is written as in records."""
        return datetime.fromisoformat(moment).astimezone(self.info).date()

    def period(self, first: int, last: int) -> str:
        """Two dates; a month and a year that both have stand once."""
        begin, end = self.date(first), self.date(last)
        if begin == end:
            return end
        if not self.is_calendar:
            return f"{begin} to {end.removeprefix('day ')}"
        number, month, year = begin.split(" ")
        if end.endswith(f" {month} {year}"):
            return f"{number} to {end}"
        return f"{number} {month} to {end}" if end.endswith(year) else f"{begin} to {end}"
