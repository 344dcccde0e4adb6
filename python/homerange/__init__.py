"""Home ranges of tagged animals in pandas, by the proved program homerange.

    ranges = home_range(frame)
    ranges.summary()

``home_range`` takes a data frame of fixes (a location with its time), a file of them, or what ``read_fixes`` read of either,
and has the program make the minimum convex polygon of each animal, its percent polygons, its table of incremental area analysis,
and the overlaps. ``read_report`` reads a report that the program made elsewhere. Both answer with ``HomeRanges``; ``plot_curve``
and ``plot_ranges`` draw it, ``write_layers`` writes a GeoPackage, ``write_page`` a page to hand in, and ``share_inside`` says how
much of each range lies in a reserve. ``read_fixes`` has the program homerange-split read an export of Movebank or of a collar, or
a data frame, and answers with ``Fixes``, a data frame of pandas. docs/TABLES.md says how tables are read.

The numbers are those of the programs, which are proved. This package writes data frames as text for them, and says in warnings of
the class ``HomeRangeNote`` what the programs left out or changed; it is tested and not proved.

Sources of the methods:
Mohr, C. O. 1947. Table of equivalent populations of North American small mammals. American Midland Naturalist 37.
Harris, S. et al. 1990. Home-range analysis using radio-tracking data. Mammal Review 20.
"""

from __future__ import annotations

from typing import TYPE_CHECKING, Any

from .errors import (
    CutError, FileError, FrameError, HomeRangeError, HomeRangeInfo, HomeRangeNote, OptionError, OutOfMemoryError,
    OutputError, ProgramError, ReportError,
)

if TYPE_CHECKING:
    from .ranges.home import HomeRanges, home_range, read_report, share_inside
    from .read.fixes import Fixes
    from .read.reading import read_fixes
    from .write.layers import write_layers
    from .write.page import write_page
    from .write.plot import plot_curve, plot_ranges

__version__ = "1.0.0"
__all__ = [
    "CutError", "FileError", "Fixes", "FrameError", "HomeRangeError", "HomeRangeInfo", "HomeRangeNote", "HomeRanges", "OptionError",
    "OutOfMemoryError", "OutputError", "ProgramError", "ReportError", "home_range", "plot_curve", "plot_ranges",
    "read_fixes", "read_report", "share_inside", "write_layers", "write_page",
]
DRAWN = ("plot_curve", "plot_ranges")


def __getattr__(name: str) -> Any:
    """What needs pandas is loaded when it is first asked for: tables of text are read without it."""
    if name not in __all__:
        raise AttributeError(f"module 'homerange' has no attribute {name!r}")
    from .ranges import home
    from .read import fixes, reading
    from .write import layers, page, plot

    places = {"write_layers": layers, "write_page": page, "Fixes": fixes, "read_fixes": reading, **dict.fromkeys(DRAWN, plot)}
    return getattr(places.get(name, home), name)


def __dir__() -> list[str]:
    return __all__
