"""Fixes as they were read: a data frame that knows how, so that rows may be chosen, sorted and bound as in any other."""

from __future__ import annotations

import html
import math
from collections import Counter
from dataclasses import dataclass, field, replace
from typing import TYPE_CHECKING, Any, Callable, Iterable, Sequence

import pandas

from ..arguments import says_ours
from ..errors import refuse
from ..units import IANA, zone_name
from ..zones import crs_of, text_of_crs
from .changes import PLACES, Seen, left_since, own_titles, title_of_time

if TYPE_CHECKING:
    import geopandas

SHOWN = 12  # lines of what is asked that are shown
UNNAMED = "animal"  # the animal of a table that does not say which it is
SAID_OF_NONE = f"no column has a usual title for the animal: all fixes are of one, named {UNNAMED}"


@dataclass(frozen=True)
class Reading:
    """How fixes were read: the unit to which coordinates were rounded, their zone and reference system (None where it is not
    known), the zone of their times, how many metres the program added to coordinates, what was said, how many fixes were left
    out by animal and reason, how many fixes each animal had, the names that files have of animals, the record that the program
    wrote, whether the export that it names is the text of a frame, the checksum of the rows that were read, the titles of their
    table and of those of its columns that were read, whether the fixes are the rows of a frame in its order, whether they have its
    labels, how many rows it has if these labels are 0, 1, 2, .., and what tells each fix."""

    unit: str
    zone: str | None
    crs: Any
    tz: str
    shift: tuple[int, int] = (0, 0)
    notes: tuple[str, ...] = ()
    left: dict[tuple[str, str], int] = field(default_factory=dict)
    counts: dict[str, int] = field(default_factory=dict)
    names: dict[str, str] = field(default_factory=dict)
    record: bytes | None = None  # None where they were bound of several
    is_frame: bool = False  # and not a file
    rows: str | None = None  # None where they were bound of several
    parts: tuple[Reading, ...] = ()  # of which they were bound
    is_again: bool = False  # whether it is of fixes that were read before, and changed
    titles: frozenset[str] = frozenset()
    sources: frozenset[str] = frozenset()
    unknown: frozenset[str] = frozenset()  # animals of which it is not known how many fixes were left out
    is_in_order: bool = False
    is_labelled: bool = False
    rows_counted: int | None = None
    seen: Seen | None = field(default=None, compare=False, repr=False)

    @property
    def system(self) -> Any:
        """The reference system; None where it is not known."""
        return crs_of(self.zone) if self.crs is None and self.zone else self.crs

    @property
    def system_text(self) -> str | None:
        """The reference system as it is written."""
        return None if self.system is None else text_of_crs(self.system)


def bound(readings: Iterable[Reading]) -> Reading:
    """How fixes were read that are bound of several, which have to be of one unit, reference system and zone of times."""
    several = [part for reading in readings for part in reading.parts or (reading,)]
    parts = [part for at, part in enumerate(several) if part not in several[:at]]
    check_alike(parts)
    if len(parts) == 1:
        return parts[0]
    left: Counter[tuple[str, str]] = sum((Counter(part.left) for part in parts), Counter())
    counts: Counter[str] = sum((Counter(part.counts) for part in parts), Counter())
    return replace(
        parts[0], notes=tuple(dict.fromkeys(note for part in parts for note in part.notes)), left=dict(left), counts=dict(counts),
        record=None, rows=None, rows_counted=None, parts=tuple(parts), titles=frozenset(title for part in parts for title in part.titles),
        unknown=frozenset(name for part in parts for name in part.unknown))


def reading_of_bound(own: Sequence[Fixes], rows: int) -> Reading | None:
    """How fixes were read that were bound to so many rows; None where others are among them, or others beside them."""
    known = [each.reading for each in own if each.reading is not None]
    if not known or len(known) < len(own):
        return None
    if sum(map(len, own)) == rows:
        refuse_unnamed(own)
        return bound(known)
    is_beside = all(len(each) == rows and each.reading == known[0] for each in own)
    return known[0] if is_beside else None


def refuse_unnamed(own: Iterable[Fixes]) -> None:
    """Refuses to make one animal of those of several readings, of which one is named so because its table has no column of the
    animal."""
    several = [each.reading for each in own if is_of_fixes(each) and (each["animal"] == UNNAMED).any()]
    readings = [[part for part in reading.parts or (reading,) if UNNAMED in part.counts] for reading in several if reading is not None]
    every = [part for parts in readings for part in parts]
    are_several = len({part.rows for part in every}) > max(map(len, readings), default=0)
    if are_several and any(SAID_OF_NONE in part.notes for part in every):
        refuse(f"animal {UNNAMED} is in two of them, whose tables do not say which animal it is: name each, as by name='Fox' of "
               "read_fixes, or keep the column of the animal")


def check_alike(parts: Sequence[Reading]) -> None:
    """Refuses fixes that cannot be bound to each other."""
    facts: dict[str, list[str | None]] = {
        "unit": [part.unit for part in parts], "reference system": [part.system_text for part in parts],
        "time zone": [part.tz for part in parts]}
    for what, own in facts.items():
        other = next((one for one in own if one != own[0]), own[0])
        if other != own[0]:
            refuse(f"fixes of the {what} {own[0] or 'not known'} and of {other or 'not known'} are not bound: read them alike")


class Fixes(pandas.DataFrame):
    """The fixes that a table was read to, a row for each: ``animal``; ``time``, or ``second`` where the table has no calendar;
    ``easting`` and ``northing`` in metres; and the other columns of the frame that was read.

    They are a data frame: choose rows, sort them and bind them by pandas, and hand them to ``home_range``. ``reading`` has how
    they were read. What pandas makes of them keeps it, also without one of their columns, which ``home_range`` wants back.
    """

    _metadata = ["reading"]
    reading: Reading | None = None

    @property
    def _constructor(self) -> Callable[..., pandas.DataFrame]:
        return self._made

    def _made(self, *data: Any, **words: Any) -> pandas.DataFrame:
        """A frame of this one's data."""
        fixes = Fixes(*data, **words)
        fixes.reading = self.reading
        return fixes

    def __finalize__(self, other: Any, method: str | None = None, **words: Any) -> Fixes:
        """Keeps how they were read, of all that were bound."""
        super().__finalize__(other, method=method, **words)
        if method == "concat":
            several: Any = getattr(other, "objs", None) or getattr(other, "input_objs", ())
            self.reading = reading_of_bound([each for each in several if isinstance(each, Fixes)], len(self))
        return self

    @says_ours
    def left_out(self) -> pandas.DataFrame:
        """How many fixes of the table were left out when it was read, a row for each ``animal`` and ``reason``, with ``fixes``.
        The reasons are those of docs/TABLES.md."""
        rows = [(name, reason, count) for (name, reason), count in sorted(reading_of(self).left.items())]
        return pandas.DataFrame(rows, columns=["animal", "reason", "fixes"])

    @says_ours
    def points(self) -> geopandas.GeoDataFrame:
        """The fixes as points, in their reference system. Refused is what ``home_range`` refuses of their columns. Wants geopandas."""
        try:
            import geopandas
        except ImportError:
            refuse("points want geopandas, which is not installed (python3-geopandas)")
        from .reading import check_fixes

        system = reading_of(self).system
        check_fixes(self)
        places = geopandas.points_from_xy(*(pandas.to_numeric(self[title]) for title in PLACES))
        return geopandas.GeoDataFrame(pandas.DataFrame(self, copy=True), geometry=places, crs=system)

    def __repr__(self) -> str:
        table = str(super().__repr__())
        return f"{told(self)}\n\n{table}" if is_of_classes(self) else table

    def _repr_html_(self) -> str | None:
        table = super()._repr_html_()
        return f"<pre>{html.escape(told(self))}</pre>\n{table}" if is_of_classes(self) else table


def is_of_fixes(frame: pandas.DataFrame) -> bool:
    """Whether a frame has each column of fixes once."""
    columns = [*frame.columns]
    return all(columns.count(title) == 1 for title in own_titles(frame))


def is_known(fixes: Fixes) -> bool:
    """Whether a frame has the columns of fixes, and it is known how they were read."""
    return fixes.reading is not None and is_of_fixes(fixes)


def is_of_classes(fixes: Fixes) -> bool:
    """Whether a frame has the columns of fixes with values such as they have, and it is known how they were read."""
    if not is_known(fixes):
        return False
    types, numbers, when = pandas.api.types, [fixes[title].dtype for title in PLACES], fixes[title_of_time(fixes)].dtype
    has_moments = isinstance(when, pandas.DatetimeTZDtype) if "time" in fixes else types.is_numeric_dtype(when)
    are_numbers = all(types.is_numeric_dtype(kind) and not types.is_bool_dtype(kind) for kind in numbers)
    return has_moments and are_numbers and types.infer_dtype(fixes["animal"], skipna=True) in ("string", "categorical", "empty")


def reading_of(fixes: Fixes) -> Reading:
    """How fixes were read, which has to be known."""
    return fixes.reading if fixes.reading is not None else refuse(
        "it is not known how these fixes were read, since read_fixes did not make them, or they were joined to others: read "
        "pandas.DataFrame(fixes) by read_fixes")


def clock_of(fixes: Fixes) -> str:
    """The zone of the times of fixes, which may be another than that by which they were read."""
    name = zone_name(getattr(fixes["time"].dtype, "tz", None)) if "time" in fixes else None
    return name if name is not None and IANA.fullmatch(name) else reading_of(fixes).tz


def told(fixes: Fixes) -> str:
    """What was taken, left out and asked when fixes were read."""
    reading = reading_of(fixes)
    questions = [note for note in reading.notes if note.endswith("?")]
    lines = [head(fixes, reading), *(note for note in reading.notes if note.startswith(("columns: ", "not read: ", "read again by columns: ")))]
    totals = Counter[str]()
    for (_, reason), count in reading.left.items():
        totals[reason] += count
    if totals:
        lines.append(f"left out: {', '.join(f'{count} {reason}' for reason, count in totals.items())}")
    gone = sum(left_since(fixes, reading).counts.values()) - sum(reading.left.values())
    if gone:
        lines.append(f"not chosen: {gone} of {sum(reading.counts.values())} fixes that were read")
    return "\n".join([*lines, *questions[:SHOWN]])


def extent(side: pandas.Series) -> float:
    """From the least coordinate to the greatest."""
    least, most = float(side.min()), float(side.max())
    return math.inf if math.inf in (-least, most) or least == math.inf else most - least


def head(fixes: Fixes, reading: Reading) -> str:
    """How many fixes there are, of when and where."""
    system = reading.system_text or "reference system not known"
    counted = f"{len(fixes)} fixes of {fixes['animal'].nunique()} animals"
    if not len(fixes):
        return f"{counted}; {system}"
    sizes = [extent(fixes[title]) / 1000 for title in PLACES]
    title = title_of_time(fixes)
    ends = [str(end.date()) if isinstance(end, pandas.Timestamp) else f"second {end}"
            for end in (fixes[title].min(), fixes[title].max())]
    span = f"from {ends[0]} to {ends[1]}" + (f" in {clock_of(fixes)}" if title == "time" else "")
    return f"{counted}, {span}, box {sizes[0]:.3f} by {sizes[1]:.3f} km; {system}"
