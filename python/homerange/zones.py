"""UTM zones and other reference systems: their one form, and how areas and lengths differ on a grid. docs/TABLES.md, Coordinates."""

from __future__ import annotations

import re
import warnings
from functools import lru_cache
from math import cos, hypot, inf, isfinite, remainder, sin, sqrt, tau
from typing import Any, Callable, NamedTuple, Sequence

from .errors import refuse

ZONE = re.compile("0?([1-9]|[1-5][0-9]|60) ?([NnSs])")
BAND = re.compile("0?([1-9]|[1-5][0-9]|60) ?([C-HJ-MP-RT-Xc-hj-mp-rt-x])")
CODE = re.compile("([A-Za-z]+:[A-Za-z0-9]+) [(](.*)[)]")
DEFINITION = re.compile("[+]proj=[a-z0-9]+( [+][a-z0-9_]+(=[-+A-Za-z0-9_.,]+)?)*")


class Scales(NamedTuple):
    """How many times greater areas are on a grid than on the ground at a place, and how many times longer a length is there in the
    direction in which it is longest than in that in which it is shortest."""

    areas: float
    lengths: float


TOLD, REFUSED = Scales(areas=0.001, lengths=0.01), Scales(areas=0.01, lengths=0.1)  # how far each may be from 1 until it is said, and refused
ScalesAt = Callable[[float, float], Scales]  # the scales at an easting and a northing
STEP = 100  # metres by which a place is moved on a grid, to see how far it goes on the ground
WGS_84 = (6_378_137.0, 6_356_752.314245)  # half the axes of its ellipsoid in metres


@lru_cache(maxsize=1000)
def zone_of(text: str) -> str:
    """A zone in its one form."""
    found = ZONE.fullmatch(text.strip(" "))
    if found:
        return found[1] + found[2].upper()
    band = BAND.fullmatch(text.strip(" "))
    remedy = ""
    if band:
        remedy = f": {band[2]} is a band, and the zone is {band[1]}{'S' if band[2].upper() < 'N' else 'N'}"
    refuse(f"{text} is no zone as 33N{remedy}", "zone")


def crs_of(zone: str) -> str:
    """The reference system of a zone, on the ellipsoid of WGS 84."""
    return f"EPSG:{326 if zone[-1] == 'N' else 327}{zone[:-1]:0>2}"


UTM = {crs_of(f"{zone}{half}"): f"{zone}{half}" for zone in range(1, 61) for half in "NS"}


def zone_of_crs(crs: Any) -> str | None:
    """The zone of a reference system; None where it is that of none, or not known."""
    return None if crs is None else UTM.get(str(crs)) or UTM.get(code_of_crs(crs))


def code_of_crs(crs: Any) -> str:
    """The code of a reference system, such as EPSG:3035, as its own definition has it; else its name."""
    try:
        from pyproj import CRS
    except ImportError:
        return str(crs)
    system = CRS.from_user_input(crs)
    code = system.to_json_dict().get("id")
    return f"{code['authority']}:{code['code']}" if code else str(system.name)


def text_of_crs(crs: Any) -> str:
    """A reference system as it is written: its code and its name, or how it is defined where it has neither; those of UTM
    are written alike in all languages."""
    text = str(crs)
    if text in UTM:
        return text_of_zone(UTM[text])
    try:
        from pyproj import CRS
    except ImportError:
        return text
    system = CRS.from_user_input(crs)
    own = system.to_json_dict().get("id")
    if own is None:
        return definition_of(system) if system.name == "unknown" else str(system.name)
    code = f"{own['authority']}:{own['code']}"
    return text_of_zone(UTM[code]) if code in UTM else f"{code} ({system.name})"


def text_of_zone(zone: str) -> str:
    """The reference system of a zone as it is written."""
    return f"{crs_of(zone)} (WGS 84 / UTM zone {zone})"


def system_of_text(text: str) -> str | None:
    """What a reference system that is written has for pyproj: its code, or its definition, which names no file; None where it
    has neither."""
    code = CODE.fullmatch(text)
    if code:
        return code[1]
    return text if DEFINITION.fullmatch(text) and "grids" not in text and "init" not in text else None


def definition_of(system: Any) -> str:
    """A reference system as PROJ has it in one line, without the datum's grids, of which it warns."""
    with warnings.catch_warnings():
        warnings.simplefilter("ignore")
        return str(system.to_proj4()).removesuffix(" +type=crs")


def scales_of_crs(crs: Any) -> ScalesAt | None:
    """What tells the scales of a reference system, on the ground of its ellipsoid, or of that of WGS 84 where it has a sphere; None
    where it has neither, or there is no pyproj."""
    try:
        from pyproj import CRS, Transformer
    except ImportError:
        return None
    system = CRS.from_user_input(crs)
    if len(system.sub_crs_list) > 0:
        system = system.sub_crs_list[0]
    if system.ellipsoid is None:
        return None
    axes = system.ellipsoid.semi_major_metre, system.ellipsoid.semi_minor_metre
    to_ground = Transformer.from_crs(system, "+proj=longlat +a={:.6f} +b={:.6f} +no_defs".format(*axes), always_xy=True)
    ground = WGS_84 if axes[0] == axes[1] else axes

    def scales(easting: float, northing: float) -> Scales:
        around = [easting + STEP, easting - STEP, easting, easting], [northing, northing, northing + STEP, northing - STEP]
        return scales_around(*to_ground.transform(*around, radians=True), *ground)

    return scales


def scales_around(longitudes: Sequence[float], latitudes: Sequence[float], major: float, minor: float) -> Scales:
    """The scales at a place, by the radians of those that lie to the east, west, north and south of it on the grid."""
    if not all(map(isfinite, (*longitudes, *latitudes))):
        return Scales(inf, inf)
    latitude, squared = sum(latitudes) / 4, 1 - (minor / major) ** 2
    bulge = 1 - squared * sin(latitude) ** 2
    parallel, meridian = major * cos(latitude) / sqrt(bulge), major * (1 - squared) / bulge ** 1.5  # metres of a radian
    (a, b), (c, d) = ((remainder(longitudes[at] - longitudes[at + 1], tau) * parallel / (2 * STEP),
                       (latitudes[at] - latitudes[at + 1]) * meridian / (2 * STEP)) for at in (0, 2))
    # How far a metre of the grid goes on the ground, in the direction in which it goes farthest and in which it goes least far.
    turned, bent = hypot(a + d, b - c) / 2, hypot(a - d, b + c) / 2
    most, least = turned + bent, abs(turned - bent)
    return Scales(1 / (most * least), most / least) if least > 0 else Scales(inf, inf)
