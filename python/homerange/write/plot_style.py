"""What the pictures share: the colours and numbers of animals, the kinds of lines of levels, the key beside a picture, and
the numbers at its axes. Colours and lines are those of the page, and an animal has its own in each picture."""

from __future__ import annotations

from math import ceil
from typing import Any, Iterable, Mapping, NamedTuple, Sequence

from ..errors import is_several, one_line, refuse, shown
from ..ranges.home import HomeRanges, check_ranges, refuse_animal
from ..units import UNITS
from .formats import with_sign

COLOURS = ("#0072b2", "#c44e00", "#00805e", "#a8437a", "#7a6200", "#4b3fa0", "#4d4d4d")
# The lines of levels, from the highest on: width, dashes and how dark the polygon is filled.
LEVELS: tuple[tuple[float, Any, float], ...] = (
    (1.2, (0, (5, 3)), 0.0), (2.0, "-", 0.06), (1.0, "-", 0.22), (1.6, (0, (1.5, 2.5)), 0.15), (1.6, (0, (8, 3)), 0.1),
    (1.2, (0, (8, 2, 1.5, 2)), 0.1), (0.9, (0, (3, 1.5)), 0.1), (0.6, "-", 0.1))
ALONE = (1.6, "-", 0.08)  # the line of a level that is drawn alone
LONGEST = 24  # letters of a name in the key
BESIDE, ROWS = 40, 20  # up to how many animals the key stands beside the picture, in how many rows
EDGE = "#666666"  # of a boundary
SMALL = 7.0  # points of the numbers at polygons and curves, and of the key of many animals
LEAST_TEXT = 5.5  # points of a key below the picture, and above small panels


class Drawn(NamedTuple):
    """An animal of a picture: its number among all, its name and its colour."""

    number: int
    name: str
    colour: str


def drawn_animals(ranges: HomeRanges, animals: Iterable[str] | str | None, colours: Any) -> list[Drawn]:
    """The animals that are wanted, in the order of the ranges, with the colours of the user or their own."""
    check_ranges(ranges)
    if animals is not None and not isinstance(animals, str) and not is_several(animals):
        refuse(f"animals={shown(animals)} are no names")
    wanted = ranges.animals if animals is None else [animals] if isinstance(animals, str) else list(animals)
    missing = [name for name in wanted if not isinstance(name, str) or name not in ranges.animals]
    if not wanted:
        refuse("animals: there is none")
    if missing:
        refuse_animal(missing[0], ranges.animals)
    chosen = [Drawn(number, name, COLOURS[(number - 1) % len(COLOURS)])
              for number, name in enumerate(ranges.animals, 1) if name in wanted]
    named = [*colours] if isinstance(colours, Mapping) else []
    odd = next((name for name in named if name not in ranges.animals), None)
    if odd is not None or isinstance(colours, (list, tuple)) and not colours:
        refuse("colours: there is none" if odd is None else f"colours: there is no animal {odd!r}")
    return [own._replace(colour=colour_of(own, place, colours)) for place, own in enumerate(chosen)]


def colour_of(animal: Drawn, place: int, colours: Any) -> str:
    """The colour of an animal: of colours by name its own, of several in turn the next, else the one for all."""
    if colours is None:
        return animal.colour
    from matplotlib.colors import is_color_like, to_hex

    several = colours if isinstance(colours, (Mapping, list, tuple)) else [colours]
    if not isinstance(several, Mapping):
        several = {animal.name: several[place % len(several)]} if several else {}
    own = several.get(animal.name, animal.colour)
    if not isinstance(own, (str, list, tuple)) or not is_color_like(own):
        refuse(f"colours: {own!r} is no colour")
    return own if isinstance(own, str) else str(to_hex(own))


def label(name: str) -> str:
    """A name as matplotlib shows it: in one line, no formula, in a legend even where it begins with an underscore, and
    no longer than leaves a picture its room."""
    text = one_line(name)
    text = text if len(text) <= LONGEST else f"{text[:LONGEST - 3]}..."
    text = text.replace("$", r"\$")
    return "\u200b" + text if text.startswith("_") else text


def halo() -> list[Any]:
    """What makes a text legible over lines."""
    from matplotlib import patheffects

    return [patheffects.withStroke(linewidth=2, foreground="white")]


def area_text(ranges: HomeRanges, name: str, level: int) -> str:
    """An area as the page writes it."""
    return with_sign(round(ranges.hectares(name, level) * UNITS[ranges.unit].hectare), ranges.unit)


def area_axis(hectares: float) -> tuple[float, str]:
    """By what hectares are multiplied at an axis whose greatest area this is, and the unit's sign."""
    return (0.01, "km²") if hectares >= 10_000 else (1.0, "ha") if hectares >= 1 or hectares == 0 else (10_000.0, "m²")


def key_columns(animals: int) -> int:
    """How many columns of the key stand beside a picture; none where it stands below."""
    return ceil(animals / ROWS) if animals <= BESIDE else 0


def key_size(animals: int) -> float:
    """The points of the letters of a key."""
    return 9.0 if animals <= ROWS else SMALL if animals <= BESIDE else LEAST_TEXT


def key_width(texts: Sequence[str], size: float) -> float:
    """How wide a column of a key is, in inches."""
    from matplotlib.textpath import TextPath

    widest = max(TextPath((0, 0), text, size=size).get_extents().width for text in texts)
    return float(widest + 3.6 * size) / 72


def add_key(axes: Any, handles: Sequence[Any], animals: int, width: float, height: float) -> None:
    """The key of a picture of this width and height, in inches: beside the axes, or below them where there are many
    animals."""
    texts = [str(handle.get_label()) for handle in handles]
    beside, size = key_columns(animals), key_size(animals)
    place = {"loc": "upper left", "bbox_to_anchor": (1.01, 1), "ncol": beside}
    if not beside:
        columns = max(int(width / key_width(texts, size)), 1)
        place = {"loc": "upper left", "bbox_to_anchor": (0, -0.6 / height), "ncol": columns}
    axes.legend(handles=list(handles), borderaxespad=0, frameon=False, handlelength=1.6, handletextpad=0.5, columnspacing=1,
                labelspacing=0.4, fontsize=size, **place)


def key_room(texts: Sequence[str], animals: int, width: float) -> tuple[float, float]:
    """The room of the key of a picture of this width, in inches: beside it, and below."""
    beside, size = key_columns(animals), key_size(animals)
    column = key_width(texts, size)
    if beside:
        return beside * column, 0.0
    return 0.0, 1.75 * size / 72 * ceil(len(texts) / max(int(width / column), 1)) + 0.3


def number_axes(axes: Any, zone: Any = None) -> None:
    """Numbers with commas between thousands and as many digits as tell them apart, few enough not to run into each other,
    and a grid behind what is drawn. Where a time zone is given, dates of it stand below."""
    has_dates = zone is not None
    from matplotlib.dates import AutoDateLocator, ConciseDateFormatter
    from matplotlib.ticker import FuncFormatter, MaxNLocator

    if has_dates:
        locator = AutoDateLocator(tz=zone, maxticks=7)
        axes.xaxis.set_major_locator(locator)
        axes.xaxis.set_major_formatter(ConciseDateFormatter(locator, tz=zone))
    for axis in (axes.yaxis,) if has_dates else (axes.xaxis, axes.yaxis):
        axis.set_major_locator(MaxNLocator(6, steps=[1, 2, 5, 10]))
        axis.set_major_formatter(FuncFormatter(lambda value, _: f"{value:,.10g}"))
    axes.grid(color="#dddddd", linewidth=0.6)
    axes.set_axisbelow(True)
