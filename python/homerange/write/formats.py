"""How pictures write areas, as the page does, and whether their times are dates. Whole numbers are divided and rounded exactly, halves
up: from 100 hectares on whole ones (1,302), from 10 on tenths (23.4), from 1 on hundredths (2.34); below 1 hectare square metres with
their sign (3,456 m²), below 100 of them tenths, below 10 hundredths."""

from __future__ import annotations

from typing import Iterable

from ..units import UNITS, zone_of_time

SINCE_1970 = range(10 ** 8, 10 ** 10)  # seconds that are times of a calendar, 1973 to 2286


def fixed(part: int, whole: int, places: int) -> str:
    """A quotient with so many decimals, halves up, and commas between thousands."""
    scaled = (2 * part * 10 ** places + whole) // (2 * whole)
    digits, rest = divmod(scaled, 10 ** places)
    return f"{digits:,}.{rest:0{places}d}" if places else f"{digits:,}"


def three_digits(part: int, whole: int) -> str:
    """A quotient with three digits, or all that stand before its point."""
    return fixed(part, whole, 0 if part >= 100 * whole else 1 if part >= 10 * whole else 2)


def hectares(area2: int, unit: str) -> str:
    """A doubled area as a number of hectares, or of square metres with their sign."""
    hectare = UNITS[unit].hectare
    if area2 == 0 or area2 >= hectare:
        return three_digits(area2, hectare) if area2 else "0"
    return f"{three_digits(area2, hectare // 10_000)} m²"


def with_sign(area2: int, unit: str) -> str:
    """A doubled area with the sign of its unit."""
    text = hectares(area2, unit)
    return text if text.endswith("m²") else f"{text} ha"


class Clock:
    """The clock of a zone. Seconds from 1973 to 2286 are those of a calendar; where others are among them, all are counted in days of
    the files' own start."""

    def __init__(self, zone: str, seconds: Iterable[int]) -> None:
        self.is_calendar = all(second in SINCE_1970 for second in seconds)
        self.info = zone_of_time(zone)
