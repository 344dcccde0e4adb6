"""What tables, layers and the page say of an animal, computed of its track and of the record of the tracks. Whole numbers
alone; docs/TABLES.md has the reasons for which fixes are left out, in their order."""

from __future__ import annotations

from functools import cached_property
from typing import Sequence

from homerange_verifier.lines import Range

from .records import Split

REASONS = ("animal", "coordinates", "zero", "sensor", "outlier", "class", "no dop", "dop", "type", "before", "after", "grid",
           "speed", "months", "hours", "every", "use")
HECTARE = {"m": 20_000, "dm": 2_000_000}  # how much doubled area it has
PER_METRE = {"m": 1, "dm": 10}


class Animal:
    """The facts of an animal. Areas are doubled, in squares of the unit; times are seconds."""

    def __init__(self, number: int, own: Range, split: Split | None) -> None:
        self.number, self.percents, self.seconds, self.points = number, own.percents, own.track.seconds, own.track.points
        self.name = own.track.name.encode("latin-1").decode("utf-8", "replace")
        self.areas = [area2 for _, area2 in own.curve]
        self.hull, self.used, self.first, self.last = own.hull, len(own.curve), self.seconds[0], self.seconds[-1]
        # A fix that is in the track and not used is a marked outlier, where the track was made of an export.
        self.left = split.left_of(self.name) if split else {}
        if own.track.unused:
            reason = "outlier" if split else "use"
            self.left[reason] = self.left.get(reason, 0) + own.track.unused
        self.records = self.used + sum(self.left.values())

    @cached_property
    def intervals(self) -> list[int]:
        """The lengths of time from each fix to the next, the shortest first."""
        return sorted(after - before for before, after in zip(self.seconds, self.seconds[1:]))

    @property
    def median2(self) -> int | None:
        """Twice the median of the intervals; None of one fix."""
        lengths = self.intervals
        return lengths[len(lengths) // 2] + lengths[(len(lengths) - 1) // 2] if lengths else None

    @property
    def area2(self) -> int:
        return self.areas[-1]

    @cached_property
    def within(self) -> int | None:
        """The number of the first fix with 95 per cent of the final area; None where there is none."""
        return next(n for n, area2 in enumerate(self.areas, 1) if 100 * area2 >= 95 * self.area2) if self.area2 else None

    def added_since(self, share: int, whole: int) -> int:
        """How much of the area came behind this share of the fixes."""
        count = self.used * share // whole
        return self.area2 - (self.areas[count - 1] if count else 0)

    @property
    def tenth(self) -> int:
        return self.added_since(9, 10)

    @property
    def quarter(self) -> int:
        return self.added_since(3, 4)


def reasons_of(animals: Sequence[Animal]) -> list[str]:
    """The reasons for which fixes of these animals were left out."""
    return [reason for reason in REASONS if any(animal.left.get(reason) for animal in animals)]
