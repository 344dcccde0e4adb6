"""Arguments that there are not, but in other tools: which of ours they are."""

from __future__ import annotations

import functools
import inspect
from typing import Any, Callable, Iterable, Mapping, NoReturn, TypeVar, cast

from .errors import refuse, shown

Called = TypeVar("Called", bound=Callable[..., Any])

# What others call what an argument is here. Of several, that is said which the function has.
OURS = {
    "animal": "id individual name", "animals": "animal id ids individual individuals", "ax": "axes axis",
    "by": "author", "colours": "color colors colour col palette", "crs": "epsg srid projection", "facets": "facet panels subplots",
    "files": "tracks", "fixes": "points", "level": "levels percent percents isopleths", "levels": "level percent percents isopleths",
    "made": "date day", "over": "boundary reserve polygon", "over_name": "boundary_name label reserve_name",
    "overwrite": "force replace", "path": "file filename fname output", "record": "split", "reserve": "boundary over polygon",
    "reserve_name": "boundary_name label over_name", "share": "proportion", "title": "main", "tz": "timezone time_zone"}
WANTED = {  # what arguments are that have no default
    "animal": "the name of an animal is wanted", "folder": "the name of a folder is wanted", "path": "the name of a file is wanted",
    "ranges": "ranges are wanted, as home_range makes them", "report": "home_range and read_report make ranges", "reserve": "a geometry is wanted", "table": "a table of these ranges is wanted",
    "tracks": "home_range and read_report make ranges", "x": "fixes, a data frame or a file are wanted"}
OF_AXES = {"title": "set_title", "xlim": "set_xlim", "ylim": "set_ylim", "xlabel": "set_xlabel", "ylabel": "set_ylabel"}


def refuse_argument(name: str, known: Iterable[str]) -> NoReturn:
    """Refuses an argument that is none of a function with these."""
    own = next((own for own in known if name in OURS.get(own, "").split()), None)
    if own is not None:
        refuse(f"there is no argument {name}: here it is {own}")
    if "ax" in known and name in OF_AXES:
        refuse(f"there is no argument {name}: the axes that are answered have it, as by .{OF_AXES[name]}(..)")
    refuse(f"there is no argument {name}")


def refuse_twice(name: str | None, named: Mapping[str, Any]) -> NoReturn:
    """Refuses an argument too many, that of this name if it is there twice: x beside y names columns in other tools."""
    if name == "x" and isinstance(named.get("y"), str) and isinstance(named["x"], str):
        sides = [*zip(("lon", "lat"), (named["x"], named["y"]))]
        refuse(f"x is the table: name columns of degrees by {', '.join(f'{side}={shown(title)}' for side, title in sides)}, and those of metres "
               "by easting and northing")
    refuse(f"there is an argument too many{'' if name is None else f': {name} is there twice'}")


def says_ours(function: Called) -> Called:
    """A function that says which argument is missing, and of one that it has not what it is here, if another tool calls it so."""
    kinds = {name: own.kind for name, own in inspect.signature(function).parameters.items()}
    needed = [name for name, own in inspect.signature(function).parameters.items()
              if own.default is own.empty and own.kind is own.POSITIONAL_OR_KEYWORD]
    has_options, places = inspect.Parameter.VAR_KEYWORD in kinds.values(), [*kinds.values()].count(inspect.Parameter.POSITIONAL_OR_KEYWORD)

    @functools.wraps(function)
    def called(*given: Any, **named: Any) -> Any:
        for name in () if has_options else named:
            if name not in kinds:
                refuse_argument(name, kinds)
        lost = next((name for name in needed[len(given):] if name not in named), None)
        if lost is not None:
            refuse(f"{lost} is missing: {WANTED[lost]}")
        twice = next((name for name in [*kinds][:len(given)] if name in named), None)
        if len(given) > places or twice is not None:
            refuse_twice(twice, named)
        return function(*given, **named)

    return cast(Called, called)
