"""One row of facts for each animal, whole and exact: what became of its fixes, when they were, the areas, and how the area
grew. HomeRanges.overview() makes a table of it, and the page is written from it."""

from __future__ import annotations

from collections import Counter
from typing import Mapping, NamedTuple, Sequence

from ..record import REASONS
from ..report import Percent, Table
from .growth import Growth, growth_of


class Facts(NamedTuple):
    """What the table of an animal says. Times are seconds, areas doubled squares of the unit."""

    used: int
    first: int
    last: int
    median2: int | None  # twice the median of the intervals; None of one fix
    longest: int | None
    percents: Mapping[int, Percent]  # by level, in the order in which levels were given
    growth: Growth
    within_second: int | None  # the time of the fix from which on the area stayed at 95 per cent or more


class Row(NamedTuple):
    """The facts of an animal, and what was left out. Their fields are as those of Facts."""

    animal: str
    records: int | None  # fixes of the export or the frame; None where it is not known
    left: Mapping[str, int]  # left out, by reason
    used: int
    first: int
    last: int
    median2: int | None
    longest: int | None
    percents: Mapping[int, Percent]
    growth: Growth
    within_second: int | None


def twice_median(numbers: Sequence[int]) -> int:
    """Twice the median, which is a whole number."""
    order, middle = sorted(numbers), len(numbers) // 2
    return 2 * order[middle] if len(order) % 2 else order[middle - 1] + order[middle]


def facts_of(table: Table) -> Facts:
    """The facts of an animal of a report."""
    seconds = table.rows.seconds.tolist()
    intervals = [later - former for former, later in zip(seconds, seconds[1:])]
    growth = growth_of(table.rows.areas)
    return Facts(
        len(seconds), seconds[0], seconds[-1], twice_median(intervals) if intervals else None, max(intervals, default=None),
        {percent.level: percent for percent in table.percents}, growth, seconds[growth.within - 1] if growth.within else None)


def rows_of(facts: Mapping[str, Facts], records: Mapping[str, int], left: Counter[tuple[str, str]]) -> list[Row]:
    """The rows of all animals, with how many fixes were left out, by animal and reason."""
    by_animal: dict[str, dict[str, int]] = {}
    for (name, reason), count in sorted(left.items(), key=lambda item: REASONS.index(item[0][1])):
        if count:
            by_animal.setdefault(name, {})[reason] = count
    return [Row(name, records.get(name), by_animal.get(name, {}), *own) for name, own in facts.items()]


def reasons_of(rows: Sequence[Row]) -> list[str]:
    """The reasons for which fixes were left out, in their order."""
    return [reason for reason in REASONS if any(reason in row.left for row in rows)]
