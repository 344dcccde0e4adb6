"""Reference systems of coordinates and of points: which are planes in metres, what names them, and how areas and lengths differ on
their grids. docs/TABLES.md, Coordinates."""

from __future__ import annotations

import re
from math import isfinite
from typing import TYPE_CHECKING, Any, Container, Iterable, Mapping, NoReturn, Sequence

import numpy
import pandas
from numpy.typing import NDArray

from ..errors import refuse, shown
from ..zones import CODE, REFUSED, TOLD, Scales, scales_of_crs, text_of_crs, zone_of, zone_of_crs
from .cells import row_named

if TYPE_CHECKING:
    import geopandas

DEGREES = "EPSG:4326"  # longitude and latitude as the program takes them
HELP = "project it first, as by frame.to_crs(frame.estimate_utm_crs())"
HELP_NAMED = "make points of its columns and project these first, as by geopandas.points_from_xy({}, {}, crs=..) and to_crs"
HELP_MULTIPOINT, HELP_VERTICES = "frame.explode() makes points of it", "its vertices are no fixes unless they say when"
HELP_SCALE = "take a zone or a reference system of the place"
PROJECTED = "longitude and latitude are projected into zone "  # how the program begins what it says of degrees that it projected
HELP_LOCAL = "make {} of its coordinates, which need no CRS"
METRE = {"metre", "meter", "metres", "meters", "m"}  # in small letters
NEAR = 3  # degrees beside the area of a reference system in which it is used too: a shift is of 9 or more
BESIDE = 1  # such degrees where its coordinates were not shifted
ZONES = 'METHOD["Transverse Mercator'  # how systems are projected that whole countries use beside their own area, where areas tell more
FIRST = re.compile("^by column [0-9]+ .*, which are not read, the first fix is near ([0-9.]+) ([EW]) ([0-9.]+) ([NS])$")
MOST_AWAY = 20_000  # metres from there, of which the tenth of a degree is 11,000 at most
RADIUS = (6_350_000, 6_400_000)  # metres between which that of a body is one of the Earth
# What may be odd of two coordinates that lie elsewhere: whether they are exchanged, and what their signs are to be.
ODD = (("{} and {} are exchanged, perhaps: give them the other way", True, (1, 1)),
       ("{} and {} are without their signs, perhaps: give them a minus", False, (-1, -1)),
       ("{} is without its sign, perhaps: give it a minus", False, (-1, 1)),
       ("{1} is without its sign, perhaps: give it a minus", False, (1, -1)),
       ("{} and {} are exchanged and without their signs, perhaps: give them the other way, and a minus", True, (-1, -1)))
HELP_ELSEWHERE = "name the system that they have, or are {} and {} exchanged, or without their signs?"
SIDES = "easting", "northing"
TITLES = {"easting": "point easting", "northing": "point northing"}
TITLES_OF_DEGREES = {"lon": "point longitude", "lat": "point latitude"}


def refuse_crs(text: str, kind: str = "crs") -> NoReturn:
    """Refuses a reference system, that of an argument or of points, which have it under the same name."""
    refuse(f"crs: {text}", kind)


def crs_named(crs: Any, helps: str | None = None) -> Any:
    """A reference system by what names it, which has to be a plane in metres; with what helps where its coordinates are no columns."""
    try:
        from pyproj import CRS
    except ImportError:
        return crs
    try:
        found = CRS.from_user_input(crs)
    except Exception:
        found = None
    # A text that is neither a code nor a definition is a name, of which pyproj takes one that has it as a part.
    is_name = isinstance(crs, str) and not re.search("[:+=\\[{]|^[0-9]+$", crs)
    if found is None or is_name and found.name.lower() != crs.lower():
        helps = f": a zone is named by zone={shown(crs)}" if isinstance(crs, str) and re.fullmatch("[0-9]{1,2} ?[NSns]", crs) else ""
        refuse(f"crs={shown(crs)} names no reference system{helps}", "crs")
    if found.is_geographic:
        refuse_crs(f"the CRS {found.name} has longitude and latitude, which are no plane coordinates: "
                   f"{helps or 'name their columns by lon and lat, without crs'}")
    check_plane(found, helps or HELP_NAMED)
    return None if is_local(found) else found


def check_sides(crs: Any, said: Iterable[str], options: Mapping[str, Any]) -> None:
    """Refuses columns titled x and y, which nobody named as a side, of a system whose own x is the northing, as surveyors have it."""
    own = {} if crs is None else {axis.abbrev.lower(): axis.direction for axis in crs.axis_info[:2]}
    line = next((line for line in said if line.startswith("columns: ")), "")
    if options.get("easting") is None and own == {"x": "north", "y": "east"} and line.partition(";")[0].lower().endswith(", x, y"):
        refuse_crs(f"x of {crs.name} is the northing, and that of a table the easting: say which it is, as by easting='y', northing='x', or "
                   "by easting='x', northing='y'", "ambiguous")


def is_local(crs: Any) -> bool:
    """Whether a system, or none, is a plane without a place on the Earth."""
    return crs is None or bool(getattr(crs, "is_engineering", False))


def check_body(crs: Any) -> None:
    """Refuses a reference system of another body than the Earth."""
    if crs.ellipsoid is not None and not RADIUS[0] < crs.ellipsoid.semi_major_metre < RADIUS[1]:
        refuse_crs(f"the CRS {crs.name} is of another body than the Earth")


def check_plane(crs: Any, helps: str = HELP) -> None:
    """Refuses a reference system that is no plane of eastings and northings in metres, with what helps."""
    check_body(crs)
    named = helps.format("eastings", "northings")
    if not crs.is_projected and not crs.is_engineering:
        refuse_crs(f"the CRS {crs.name} is not a plane one in metres: {named}")
    odd = sorted({unit for axis in crs.axis_info[:2] for unit in other_unit(axis)})
    if odd:
        refuse_crs(f"the CRS {crs.name} is in {', '.join(odd)} and not in metres: {HELP_LOCAL.format('metres') if is_local(crs) else named}")
    if crs.is_projected and not has_way(crs):
        refuse_way(crs)
    check_axes(crs, helps)
    if crs.to_epsg() == 3857:
        refuse_crs(f"areas in the CRS {crs.name} grow away from the equator: {named}", "scale")


def turned_axes(crs: Any) -> list[str]:
    """Where the axes of a plane go, if one goes west, or one alone south, and so what stands on the map as north and east is another
    way; none else. Around a pole both go south."""
    ways = [axis.direction for axis in crs.axis_info[:2]]
    return ways if "west" in ways or ways.count("south") == 1 else []


def check_axes(crs: Any, helps: str) -> None:
    """Refuses a plane whose axes do not go east and north, with what helps."""
    ways = turned_axes(crs)
    if ways:
        helps = HELP_LOCAL.format("eastings and northings") if is_local(crs) else helps.format(*(f"{way}ings" for way in ways))
        refuse_crs(f"the axes of the CRS {crs.name} go {' and '.join(ways)}, and not east and north: {helps}")


def other_unit(axis: Any) -> list[str]:
    """The unit of an axis, if it is not the metre, by its name and its factor."""
    if axis.unit_name.lower() not in METRE:
        return [axis.unit_name]
    return [] if axis.unit_conversion_factor == 1 else [f"{axis.unit_name} of {axis.unit_conversion_factor:g} m"]


def has_way(crs: Any) -> bool:
    """Whether places of a reference system can be turned into degrees."""
    from pyproj import Transformer
    from pyproj.exceptions import ProjError

    try:
        Transformer.from_crs(crs, DEGREES)
        return scales_of_crs(crs) is not None
    except ProjError:
        return False


def refuse_way(crs: Any) -> NoReturn:
    """Refuses a reference system that has no way to degrees."""
    refuse_crs(f"the CRS {crs.name} has no way to longitude and latitude that pyproj knows: name another one, such as by its code")


def options_of(crs: Any, zone: Any) -> dict[str, Any]:
    """The options that say to the program of which system coordinates are, where a zone may be named too."""
    if crs is None:
        return {"zone": zone}
    own = zone_of_crs(crs)
    if zone is not None and zone_of(zone) not in (own, getattr(crs, "utm_zone", None)):
        refuse_zone(zone, crs)
    return {"zone": own} if own else {"zone": None, "crs": text_of_crs(crs)}


def refuse_zone(zone: Any, crs: Any) -> None:
    """Refuses a zone that is not that of the reference system."""
    own = getattr(crs, "utm_zone", None)
    refuse_crs(f"the coordinates are of the zone {zone}, and the CRS {getattr(crs, 'name', crs)} is "
               f"{'that of ' + own if own else 'none of UTM'}: give one of the two", "zone")


def refuse_beside_zone(zone: str, said: Iterable[str], crs: Any) -> None:
    """Refuses a reference system beside the zone of coordinates that the program read, which said this."""
    if any(line.startswith(PROJECTED) for line in said):
        refuse_crs(f"longitude and latitude are read, which are projected into the zone {zone}, and crs is the reference system of easting "
                   "and northing: leave crs out, or name these by easting and northing", "zone")
    refuse_zone(zone, crs)


def check_points(points: geopandas.GeoSeries, labels: pandas.Index) -> None:
    """Refuses other shapes, and points of another body."""
    kinds = points.geom_type.to_numpy()
    odd = numpy.flatnonzero((kinds != "Point") & ~(points.isna() | points.is_empty).to_numpy())
    if len(odd):
        shape = kinds[odd[0]].lower()
        helps = HELP_MULTIPOINT if shape == "multipoint" else HELP_VERTICES
        refuse(f"{row_named(labels, int(odd[0]))}: the geometry is a {shape}, and points are wanted: {helps}", "number", int(odd[0]) + 1)
    if points.crs is not None:
        check_body(points.crs)


def columns_of_points(points: geopandas.GeoSeries, labels: pandas.Index) -> tuple[dict[str, pandas.Series], list[str]]:
    """The columns of points by the options that name them, and what is to be said: of a plane in metres as they are, of degrees
    turned into those of WGS 84."""
    crs = points.crs
    check_points(points, labels)
    if crs is None or not crs.is_geographic:
        sides = dict(zip(TITLES, sides_of(points)))
        if crs is not None:
            check_plane(crs)
        elif are_degrees(*sides.values()):
            refuse("the points have no CRS, and lie as longitude and latitude do: frame.set_crs(4326) says so where they are",
                   "degrees")
        return sides, []
    if not has_way(crs):
        refuse_way(crs)
    is_of_program = crs.equals(type(crs).from_user_input(DEGREES), ignore_axis_order=True)
    degrees = sides_of(points, DEGREES)
    if is_of_program:
        return dict(zip(TITLES_OF_DEGREES, degrees)), []
    own = [side.dropna().to_numpy() for side in sides_of(points)]
    place = said_of_place(crs, own[0], own[1], ("longitude", "latitude"))
    return dict(zip(TITLES_OF_DEGREES, degrees)), [f"points of {crs.name} are turned into longitude and latitude of WGS 84", *place]


def are_degrees(east: pandas.Series, north: pandas.Series) -> bool:
    """Whether all of some coordinates may be degrees, and are no whole metres."""
    pairs = [pandas.to_numeric(side, errors="coerce").to_numpy() for side in (east, north)]
    is_there = numpy.isfinite(pairs[0]) & numpy.isfinite(pairs[1])
    own = [side[is_there] for side in pairs]
    is_near = bool((numpy.abs(own[0]) <= 180).all() and (numpy.abs(own[1]) <= 90).all())
    return bool(is_there.any()) and is_near and bool((own[0] % 1 > 0).any() or (own[1] % 1 > 0).any())


def sides_of(points: geopandas.GeoSeries, into: str | None = None) -> tuple[pandas.Series, pandas.Series]:
    """The two coordinates of points, of which some may be transformed; missing where there is none."""
    is_point = ~(points.isna() | points.is_empty).to_numpy()
    own = points[is_point] if into is None else points[is_point].to_crs(into)
    return side_of(own.x, is_point), side_of(own.y, is_point)


def side_of(values: pandas.Series, is_point: NDArray[numpy.bool_]) -> pandas.Series:
    """One coordinate of points, whose other rows are missing."""
    found = numpy.full(len(is_point), numpy.nan)
    found[is_point] = values
    return pandas.Series(found)


def middle_outside(crs: Any, middle: tuple[float, float], near: float = NEAR) -> str | None:
    """Where the middle of some coordinates lies, and for where their reference system is made, if that is far from each other; None
    where it is not, or not known."""
    area = getattr(crs, "area_of_use", None)
    if area is None:
        return None
    at = degrees_of(crs, *middle)
    where = place_said(*at) if is_place(*at) else "where that has no place"
    return None if is_within(area, *at, near) else (f"{where}, and {crs.name} is of {placed(area.west, 'EW')} to {placed(area.east, 'EW')}, "
                                                    f"{placed(area.south, 'NS')} to {placed(area.north, 'NS')}")


def degrees_of(crs: Any, east: Any, north: Any) -> tuple[Any, Any]:
    """Longitudes and latitudes of WGS 84 of coordinates; not finite where they have none."""
    from pyproj import Transformer

    longitudes, latitudes = Transformer.from_crs(crs, DEGREES, always_xy=True).transform(east, north)
    return longitudes, latitudes


def is_place(longitude: float, latitude: float) -> bool:
    return isfinite(longitude) and isfinite(latitude)


def is_within(area: Any, longitudes: Any, latitudes: Any, near: float = BESIDE) -> Any:
    """Whether places lie in the area of a reference system, or near it."""
    wide = (area.east - area.west) % 360 or 360
    is_of_latitude = (area.south - near <= latitudes) & (latitudes <= area.north + near)
    return is_of_latitude & ((longitudes - area.west + near) % 360 <= wide + 2 * near)


def place_said(longitude: float, latitude: float) -> str:
    """A place as it is said."""
    return f"near {placed(longitude, 'EW')} {placed(latitude, 'NS')}"


def said_of_place(crs: Any, east: NDArray[numpy.float64], north: NDArray[numpy.float64], sides: Sequence[str] = SIDES) -> list[str]:
    """What is to be said of where fixes lie by their reference system: the middle of them, or else one that lies where the system
    is made for. Refused if none does, unless it is a zone, or degrees, that have no other place for them."""
    if not hasattr(crs, "area_of_use") or not len(east):
        return []
    middle = (float(east.min() + east.max()) / 2, float(north.min() + north.max()) / 2)
    place, where = degrees_of(crs, *middle), middle_outside(crs, middle, BESIDE)
    if where is not None:
        several = degrees_of(crs, east, north)
        near = numpy.flatnonzero(is_within(crs.area_of_use, *several))
        place = place if not len(near) else (float(several[0][near[0]]), float(several[1][near[0]]))
        helps = None if len(near) else help_elsewhere(crs, middle)
        if not len(near) and (helps is not None or not (crs.is_geographic or ZONES in crs.to_wkt())):
            refuse_crs(f"the fixes lie {where}: {(helps or HELP_ELSEWHERE).format(*sides)}")
    return [f"{place_said(*place)} by {code_or_text(crs)}"] if is_place(*place) else []


def code_or_text(crs: Any) -> str:
    """A reference system by its code, or else as it is written."""
    text = text_of_crs(crs)
    code = CODE.fullmatch(text)
    return code[1] if code else text


def help_elsewhere(crs: Any, middle: tuple[float, float]) -> str | None:
    """What is odd of coordinates that lie elsewhere than their reference system, if there is one such thing."""
    likely = [text for text, is_exchanged, signs in ODD if lies_so(crs, middle, is_exchanged, signs)]
    return likely[0] if len(likely) == 1 else None


def lies_so(crs: Any, middle: tuple[float, float], is_exchanged: bool, signs: tuple[int, int] = (1, 1)) -> bool:
    """Whether coordinates lie where their reference system is made for once they are exchanged, and those above 0 get these signs."""
    if getattr(crs, "area_of_use", None) is None:
        return False
    east, north = middle[::-1] if is_exchanged else middle
    has_signs = all(side > 0 or sign > 0 for side, sign in zip((east, north), signs))
    return has_signs and bool(is_within(crs.area_of_use, *degrees_of(crs, east * signs[0], north * signs[1])))


def placed(degrees: float, ways: str) -> str:
    """Degrees as they are written, with where they go."""
    return f"{abs(degrees):.1f} {ways[degrees < 0]}"


def refuse_elsewhere(crs: Any, said: Iterable[str], east: NDArray[numpy.float64], north: NDArray[numpy.float64]) -> None:
    """Refuses a reference system by which no fix is where the program said that the first one is, by columns that are not read."""
    line, place = next(((line, found) for line in said if (found := FIRST.search(line))), (None, None))
    if crs is None or place is None:
        return
    from pyproj import Transformer

    longitude, latitude = (float(place[at]) * (-1 if place[at + 1] in "WS" else 1) for at in (1, 3))
    at = Transformer.from_crs(DEGREES, crs, always_xy=True).transform(longitude, latitude)
    if not numpy.hypot(east - at[0], north - at[1]).min() <= MOST_AWAY:
        refuse_crs(f"{line}, and by {crs.name} no fix is within {MOST_AWAY // 1000} km of there: name the system of easting and northing, "
                   "or leave out the columns that are not theirs")


def scales_said(crs: Any, zone: str | None, middles: Mapping[str, tuple[float, float]]) -> list[str]:
    """What is to be said of how much greater areas are on a grid, and how much lengths differ by direction, at the middle of each
    animal's fixes in metres. Refused is a grid on which these are wrong; of zones the program has looked already."""
    scales_at = None if zone or crs is None else scales_of_crs(crs)
    if scales_at is None:
        return []
    scales = {name: scales_at(*middle) for name, middle in middles.items()}
    lost = next((name for name, own in scales.items() if not all(map(isfinite, own))), None)
    if lost is not None:
        refuse_crs(f"the fixes of {lost} have no place on this grid: {HELP_SCALE}", "scale")
    turned = {name for name, middle in middles.items() if lies_so(crs, middle, True)}
    return [line for what in Scales._fields
            for line in worst_said(what, {name: getattr(own, what) - 1 for name, own in scales.items()}, turned)]


def worst_said(what: str, away: Mapping[str, float], turned: Container[str]) -> list[str]:
    """What is to be said of the animal whose areas or lengths are most wrong; refused where that is too much, with what is asked of
    areas of those that lie where the system is made for once their coordinates are exchanged."""
    name, worst = max(away.items(), key=lambda pair: abs(pair[1]))
    share = f"{abs(worst) * 100:.2f} %"
    text = (f"lengths of {name} differ by up to {share} by direction on this grid" if what == "lengths" else
            f"areas of {name} are {share} too {'great' if worst > 0 else 'small'} on this grid")
    if abs(worst) > getattr(REFUSED, what):
        asked = ", or are easting and northing exchanged?" if what == "areas" and name in turned else ""
        refuse_crs(f"{text}: {HELP_SCALE}{asked}", "scale")
    return [text] if abs(worst) > getattr(TOLD, what) else []
