"""Pictures of ranges by matplotlib: the area curve, and a map of polygons and fixes."""

from __future__ import annotations

from typing import TYPE_CHECKING, Any, Iterable, Literal, Sequence, overload

import pandas

from ..arguments import says_ours
from ..errors import refuse, shown, truth_of
from ..units import UNITS
from .formats import Clock
from .plot_map import FOOT, Map, frame_of, rings_over, said_of_unseen, shapes_of
from .plot_style import (
    EDGE, LEAST_TEXT, LEVELS, SMALL, Drawn, add_key, area_axis, area_text, drawn_animals, halo, key_room, label,
    number_axes,
)
from ..ranges.home import HomeRanges, whole_numbers
from ..read.reading import tell
from ..zones import text_of_crs

if TYPE_CHECKING:
    from matplotlib.axes import Axes

PLAIN = "rectilinear"  # what matplotlib calls plain axes
# Up to how many animals have how many panels beside each other.
COLUMNS = ((1, 1), (2, 2), (3, 3), (12, 4), (40, 6), (10 ** 9, 10))
AROUND = (1.25, 0.9)  # inches of a new figure around its axes, across and up


def check_axes(axes: Any, facets: bool) -> None:
    """Refuses what are no axes, and axes beside panels."""
    if axes is None:
        return
    if facets:
        refuse("facets make a figure of their own: leave ax out")
    if not hasattr(axes, "get_xlim"):
        refuse(f"ax={axes!r} are no axes of matplotlib")
    from matplotlib.projections import get_projection_names

    kind = getattr(axes, "name", PLAIN)
    if kind != PLAIN and kind in get_projection_names():
        refuse(f"ax are axes of the projection {kind!r}, and plain ones are wanted, as those of pyplot.subplots()")


def new_axes(width: float, height: float, texts: Sequence[str], animals: int) -> Any:
    """Axes of so many points in a new figure, with room for the key."""
    from matplotlib import pyplot

    beside, below = key_room(texts, animals, width / 72)
    size = (width / 72 + AROUND[0] + beside, height / 72 + AROUND[1] + below)
    return pyplot.subplots(figsize=size, dpi=150, layout="constrained")[1]


def columns_of(animals: int) -> int:
    """How many panels stand beside each other."""
    return next(columns for most, columns in COLUMNS if animals <= most)


def new_panels(animals: Sequence[Drawn], ratio: float) -> list[Any]:
    """Axes for each animal in a new figure, as many beside each other as the page has."""
    from matplotlib import pyplot

    columns = columns_of(len(animals))
    rows = -(-len(animals) // columns)
    width = max(11.0 / columns, 1.3)
    figure, grid = pyplot.subplots(
        rows, columns, figsize=(width * columns, (width * ratio + 0.35) * rows), dpi=150, layout="constrained", squeeze=False)
    panels = list(grid.flat)
    for empty in panels[len(animals):]:
        empty.remove()
    return panels[:len(animals)]


def handle_of(animal: Drawn, text: str) -> Any:
    """An animal in the key."""
    from matplotlib.lines import Line2D

    return Line2D([], [], color=animal.colour, linewidth=2, label=text)


class Line:
    """The area curve of an animal: fixes or times, and areas in the unit of the axis or shares of the last one. Where the
    area stays, only the ends are kept."""

    def __init__(self, ranges: HomeRanges, animal: Drawn, by: str, share: bool) -> None:
        rows = ranges.report.tables[animal.name].rows
        areas = rows.areas
        changes = [at for at, (former, area2) in enumerate(zip(areas, areas[1:-1]), 1) if area2 != former]
        kept = [*dict.fromkeys((0, *changes, len(areas) - 1))]
        whole = areas[-1] / 100 if share else float(UNITS[ranges.unit].hectare)
        self.fixes = [at + 1 for at in kept]
        self.seconds = [rows.seconds[at] for at in kept]
        self.areas = [areas[at] / whole if whole else 0.0 for at in kept]
        self.animal, self.by = animal, by

    def across(self, ranges: HomeRanges, clock: Clock) -> list[Any]:
        """Where the curve is along its axis: numbers of fixes, moments, or days since the files' own start."""
        if self.by == "fix":
            return list(self.fixes)
        if clock.is_calendar:
            times = pandas.to_datetime(self.seconds, unit="s", utc=True).tz_convert(ranges.tz)
            return list(times.to_pydatetime())
        return [second / 86_400 for second in self.seconds]


def number_line(axes: Any, animal: Drawn, x: Any, y: float) -> None:
    """The number of an animal beside its curve."""
    axes.annotate(str(animal.number), (x, y), xytext=(3, 0), textcoords="offset points", color=animal.colour,
                  fontsize=SMALL, va="center", annotation_clip=False, path_effects=halo(), zorder=4)


def number_ends(axes: Any, lines: Sequence[tuple[Drawn, Sequence[Any], Sequence[float]]], height: float) -> None:
    """The numbers of animals at the ends of their curves, as many as there is room for beside these."""
    step, lowest = SMALL * axes.get_ylim()[1] / height, float("-inf")
    for animal, across, areas in sorted(lines, key=lambda line: line[2][-1]):
        place = max(areas[-1], lowest + step)
        if place <= areas[-1] + step:
            lowest = place
            number_line(axes, animal, across[-1], place)


def number_halves(axes: Any, lines: Sequence[tuple[Drawn, Sequence[Any], Sequence[float]]]) -> None:
    """The numbers of animals where their curves of shares, which all end at the same height, pass a half of it; each on
    the next of five heights, since many do so at about the same fix."""
    for place, (animal, across, areas) in enumerate(lines):
        half = 30 + 10 * (place % 5)
        at = next((at for at, area in enumerate(areas) if area >= half), None)
        if at is not None:
            number_line(axes, animal, across[at], half)


def draw_line(axes: Any, line: Line, across: Sequence[Any], factor: float) -> None:
    areas = [area * factor for area in line.areas]
    marker = "o" if len(areas) == 1 else None
    axes.step(across, areas, where="post", color=line.animal.colour, linewidth=1.6, marker=marker, markersize=4,
              label=label(line.animal.name))


@overload
def plot_curve(
    ranges: HomeRanges, ax: Axes | None = None, *, animals: Iterable[str] | str | None = None, by: str = "fix",
    share: bool = False, facets: Literal[False] = False, colours: Any = None,
) -> Axes: ...


@overload
def plot_curve(
    ranges: HomeRanges, ax: None = None, *, animals: Iterable[str] | str | None = None, by: str = "fix",
    share: bool = False, facets: Literal[True], colours: Any = None,
) -> list[Axes]: ...


@says_ours
def plot_curve(
    ranges: HomeRanges, ax: Axes | None = None, *, animals: Iterable[str] | str | None = None, by: str = "fix",
    share: bool = False, facets: bool = False, colours: Any = None,
) -> Axes | list[Axes]:
    """Draws the area of each animal's minimum convex polygon after each fix (incremental area analysis, Harris et al.
    1990).

    ax: axes of matplotlib to draw in; else a new figure is made.
    animals: the names to draw; if left out, all. An animal has its number and colour in each picture.
    by: 'fix', or 'date' for the time of each fix; where the seconds are not since 1970, days of the files' own start.
    share: areas as per cent of the final one of each animal.
    facets: a panel for each animal, in a new figure.
    colours: one, several in turn, or a mapping of names to colours.

    Answers with the axes, or with facets a list of them. Numbers at the ends of curves are those of the key, which has
    all animals; where ends lie close together some have no room.
    """
    if not isinstance(by, str) or by not in ("fix", "date"):
        refuse(f"by={shown(by)} is neither 'fix' nor 'date'")
    share, facets = truth_of(share, "share"), truth_of(facets, "facets")
    check_axes(ax, facets)
    drawn = drawn_animals(ranges, animals, colours)
    lines = [Line(ranges, animal, by, share) for animal in drawn]
    clock = Clock(ranges.tz, (second for line in lines for second in (line.seconds[0], line.seconds[-1])))
    factor, sign = (1.0, "% of the final one") if share else area_axis(max(line.areas[-1] for line in lines))
    texts = [f"{animal.number} {label(animal.name)}" for animal in drawn] if len(drawn) > 1 else [label(drawn[0].name)]
    named = f"Area of the minimum convex polygon ({sign})"
    below = "Fixes" if by == "fix" else f"Date ({ranges.tz})" if clock.is_calendar else "Days from the files' start"
    if facets:
        return curve_panels(ranges, lines, (clock, factor), (below, f"Area ({sign})"))
    axes = new_axes(480.0, 300.0, texts, len(drawn)) if ax is None else ax
    for line in lines:
        draw_line(axes, line, line.across(ranges, clock), factor)
    axes.set(xlabel=below, ylabel=named)
    if by == "fix":
        axes.set_xlim(left=0)
    axes.set_ylim(bottom=0)
    number_axes(axes, clock.info if by == "date" and clock.is_calendar else None)
    height = 300.0 if ax is None else size_of(axes)[1]
    found = [(line.animal, line.across(ranges, clock), [area * factor for area in line.areas]) for line in lines]
    if len(drawn) > 1 and share:
        number_halves(axes, found)
    elif len(drawn) > 1:
        number_ends(axes, found, height)
    add_key(axes, list(map(handle_of, drawn, texts)), len(drawn), 480.0 / 72, height / 72)
    return axes


def curve_panels(
    ranges: HomeRanges, lines: Sequence[Line], scales: tuple[Clock, float], names: tuple[str, str],
) -> list[Any]:
    """A panel for each animal, with its number, its name and its area above."""
    clock, factor = scales
    panels = new_panels([line.animal for line in lines], 0.62)
    few = len(lines) <= 12
    for axes, line in zip(panels, lines):
        draw_line(axes, line, line.across(ranges, clock), factor)
        area = area_text(ranges, line.animal.name, 100)
        axes.set_title(f"{line.animal.number} {label(line.animal.name)}, {area}", fontsize=9 if few else LEAST_TEXT, loc="left",
                       color=line.animal.colour)
        axes.set_ylim(bottom=0)
        number_axes(axes, clock.info if line.by == "date" and clock.is_calendar else None)
        axes.tick_params(labelsize=8 if few else 4.5)
    panels[0].figure.supxlabel(names[0], fontsize=9)
    panels[0].figure.supylabel(names[1], fontsize=9)
    return panels


def check_over_name(over: Any, name: Any, facets: bool) -> None:
    """Refuses what is no name of a boundary, and one that nothing would show."""
    if name is not None and not isinstance(name, str):
        refuse(f"over_name={shown(name)} is no text")
    if name and over is None:
        refuse("over_name is the name of no boundary: give its shape as over")
    if name and facets:
        refuse("over_name stands in a key, which facets do not have: leave it out")


def levels_of_map(level: Any) -> list[int]:
    """The levels of a map, from the highest on."""
    return sorted({*whole_numbers(level, 1, 100, "level")}, reverse=True)


def title_of(ranges: HomeRanges, levels: Sequence[int]) -> str:
    """What a map shows, and the name of its reference system."""
    text = "reference system not known" if ranges.crs is None else text_of_crs(ranges.crs)
    return f"Minimum convex polygons, {', '.join(map(str, levels))} % of the fixes\n{text}"


def map_handles(ranges: HomeRanges, drawn: Sequence[Drawn], levels: Sequence[int], over: str | None) -> list[Any]:
    """The key of a map: the lines of levels, the boundary, and each animal with the area of the highest level."""
    from matplotlib.lines import Line2D

    lines = [Line2D([], [], color="black", linewidth=LEVELS[at % len(LEVELS)][0], linestyle=LEVELS[at % len(LEVELS)][1],
                    label=f"{level} %") for at, level in enumerate(levels)]
    found = lines if len(levels) > 1 else []
    if over is not None:
        found = [*found, Line2D([], [], color=EDGE, linewidth=2.4, label=label(over))]
    for animal in drawn:
        number = f"{animal.number} " if len(drawn) > 1 else ""
        text = f"{number}{label(animal.name)}, {area_text(ranges, animal.name, levels[0])}"
        found = [*found, handle_of(animal, text)]
    return found


@overload
def plot_ranges(
    ranges: HomeRanges, ax: Axes | None = None, level: int | Iterable[int] = 100, *,
    animals: Iterable[str] | str | None = None, fixes: bool = True, over: Any = None, over_name: str | None = None,
    facets: Literal[False] = False, colours: Any = None,
) -> Axes: ...


@overload
def plot_ranges(
    ranges: HomeRanges, ax: None = None, level: int | Iterable[int] = 100, *, animals: Iterable[str] | str | None = None,
    fixes: bool = True, over: Any = None, over_name: str | None = None, facets: Literal[True], colours: Any = None,
) -> list[Axes]: ...


@says_ours
def plot_ranges(
    ranges: HomeRanges, ax: Axes | None = None, level: int | Iterable[int] = 100, *,
    animals: Iterable[str] | str | None = None, fixes: bool = True, over: Any = None, over_name: str | None = None,
    facets: bool = False, colours: Any = None,
) -> Axes | list[Axes]:
    """Draws each animal's polygons at a level, or at several, over its fixes where they are known: a map with a bar of
    scale and an arrow to the north of the grid, in metres or, where it is wide, kilometres.

    ax, animals, facets, colours: as in plot_curve.
    level: one, or several: the kinds of lines are those of the page, the same for all animals.
    fixes: whether fixes are drawn; of those that would cover each other one is.
    over, over_name: a boundary, as of a reserve, as share_inside takes it, and what the key calls it; if left out,
        'boundary'. Where it is more than six times as wide as all ranges, the map shows the ranges, and it is said if no edge of
        the boundary is on it.

    Answers as plot_curve does. The numbers at polygons are those of the key, which has the area of the highest level.
    """
    fixes, facets = truth_of(fixes, "fixes"), truth_of(facets, "facets")
    check_over_name(over, over_name, facets)
    check_axes(ax, facets)
    levels, drawn = levels_of_map(level), drawn_animals(ranges, animals, colours)
    shapes, rings = shapes_of(ranges, drawn, levels, fixes), rings_over(ranges, over)
    if facets:
        return map_panels(ranges, drawn, shapes, levels, rings)
    handles = map_handles(ranges, drawn, levels, None if over is None else over_name or "boundary")
    size = None if ax is None else size_of(ax)
    frame = frame_of(ranges, shapes, rings, size)
    texts = [handle.get_label() for handle in handles]
    axes = new_axes(frame.width, frame.height + FOOT, texts, len(drawn)) if ax is None else ax
    draw_map(Map(axes, frame), shapes, drawn, rings)
    west, south, east, north = frame.ground()
    tell(said_of_unseen(rings, (west, south - FOOT / frame.scale, east, north)))
    axes.set_title(title_of(ranges, levels), fontsize=9, loc="left")
    number_axes(axes)
    add_key(axes, handles, len(drawn), frame.width / 72, frame.height / 72)
    return axes


def size_of(axes: Any) -> tuple[float, float]:
    """The width and the height of axes, in points."""
    width, height = axes.get_window_extent().size
    return 72 * width / axes.figure.dpi, 72 * height / axes.figure.dpi


def draw_map(own: Map, shapes: Sequence[Any], drawn: Sequence[Drawn], rings: Sequence[Any]) -> None:
    own.draw_over(rings)
    own.draw_fixes(shapes, drawn)
    own.draw_polygons(shapes, drawn)
    if len(drawn) > 1:
        own.draw_numbers(shapes, drawn)
    own.draw_scale()


def map_panels(ranges: HomeRanges, drawn: Sequence[Drawn], shapes: Sequence[Any], levels: Sequence[int],
               rings: Sequence[Any]) -> list[Any]:
    """A map for each animal, with its number, its name and its area above, and a bar of scale of its own."""
    panels = new_panels(drawn, 0.9)
    few = len(drawn) <= 12
    side = 72 * panels[0].figure.get_figwidth() / columns_of(len(drawn)) - 12
    for axes, animal, shape in zip(panels, drawn, shapes):
        frame = frame_of(ranges, [shape], rings, (side, 0.8 * side))
        draw_map(Map(axes, frame), [shape], [animal], rings)
        area = area_text(ranges, animal.name, levels[0])
        axes.set_title(f"{animal.number} {label(animal.name)}, {area}", fontsize=9 if few else LEAST_TEXT, loc="left",
                       color=animal.colour)
        axes.set(xlabel="", ylabel="", xticks=[], yticks=[])
    panels[0].figure.suptitle(title_of(ranges, levels), fontsize=9)
    return panels
