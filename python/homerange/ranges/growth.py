"""How the area of a range grew with the number of fixes (incremental area analysis, Harris et al. 1990), in whole numbers:
from which fix on the area stayed at 95 per cent or more of the final one, and what the last tenth and the last quarter of
the fixes added."""

from __future__ import annotations

from bisect import bisect_left
from typing import NamedTuple, Sequence


class Growth(NamedTuple):
    """What the curve of an animal says. Areas are doubled, in squares of the unit."""

    area2: int  # of all fixes
    within: int | None  # the number of the first fix with 95 per cent of that area; None where there is no area
    tenth: int  # how much of it the last tenth of the fixes added
    quarter: int  # and the last quarter


def growth_of(areas: Sequence[int]) -> Growth:
    """What is said of the doubled areas after each fix, which never fall."""
    fixes, last = len(areas), areas[-1]
    within = bisect_left(areas, 19 * last, key=lambda area2: 20 * area2) + 1

    def area_of_first(count: int) -> int:
        return areas[count - 1] if count else 0

    tenth, quarter = last - area_of_first(9 * fixes // 10), last - area_of_first(3 * fixes // 4)
    return Growth(last, within if last else None, tenth, quarter)


def share(part: int, whole: int) -> float:
    """A part of an area; NaN where there is no area."""
    return part / whole if whole else float("nan")
