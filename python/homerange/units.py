"""Units of coordinates, and zones of times."""

from __future__ import annotations

import re
import zoneinfo
from datetime import tzinfo
from typing import Any, NamedTuple

from .errors import refuse, shown


class Unit(NamedTuple):
    """A unit of coordinates."""

    per_metre: int
    limit: int  # the greatest coordinate
    name: str
    hectare: int  # how much doubled area a hectare has


OF_MACHINE = {"localtime", "posixrules", "factory"}  # zones that each machine has otherwise, in small letters
OF_DATABASE = ("posix/", "right/")  # how copies of zones begin, of which one counts leap seconds
IANA = re.compile("[A-Za-z]+(/[A-Za-z0-9_+-]+)*")  # how a time zone is named
OF_UTC = re.compile("(Etc/)?(UTC|GMT[+-]?0?|UCT|Zulu|Universal|Greenwich)")  # names of that zone
UNITS = {"m": Unit(1, 16_777_216, "metres", 20_000), "dm": Unit(10, 134_217_728, "decimetres", 2_000_000)}


def zone_text(zone: Any) -> Any:
    """A time zone of Python by its name, or what it says of itself; all else as it is."""
    return zone_name(zone) if isinstance(zone, tzinfo) else zone


def zone_name(zone: Any) -> str | None:
    """The name of a time zone; of one without a name, as those of an offset, what it says of itself, in brackets."""
    if zone is None:
        return None
    name = getattr(zone, "key", None) or getattr(zone, "zone", None)
    if isinstance(name, str):
        return name
    own = str(zone)
    return "UTC" if own in ("utc", "UTC", "tzutc()") and not zone.utcoffset(None) else f"({own})" if IANA.fullmatch(own) else own


def zone_of_time(name: object) -> zoneinfo.ZoneInfo:
    """A time zone by its name, which each machine has alike: docs/TABLES.md, Local time."""
    if not isinstance(name, str):
        refuse(f"tz={shown(name)} is no time zone")
    try:
        zone = None if name.lower() in OF_MACHINE or name.startswith(OF_DATABASE) else zoneinfo.ZoneInfo(name)
    except Exception:
        zone = None
    return zone or refuse(f"tz={shown(name)} is no time zone such as 'Europe/Ljubljana'")
