"""Options of reading, by the names of arguments, as words of homerange-split. docs/TABLES.md says what each does; here stands
what it may be."""

from __future__ import annotations

import math
import re
from datetime import date, datetime, timedelta, timezone
from decimal import Decimal
from numbers import Integral, Real
from typing import Any, Callable, Iterable, Mapping

from ..errors import fault_of_text, is_several, one_line, refuse, shown, truth_of

LONGEST_WORD = 2 ** 16  # bytes of a word; the system takes some more
TAKEN = "is not a second or more in h, min or s, such as '24h', '30min' or '90s'"  # what a length of time is that is none
LENGTHS = {"h": 3600, "min": 60, "s": 1}
LENGTH = re.compile("([0-9]+(?:[.][0-9]+)?)(h|min|s)")
NUMBER = re.compile("[-+]?(?:[0-9]+[.]?[0-9]*|[.][0-9]+)(?:[eE][-+]?[0-9]+)?")
SLACK = 1e-6  # seconds by which a number of hours may miss a whole second
# What is no option any more, or never was one here, and what to do in its place.
ELSEWHERE = {
    "use": "choose the rows of the frame before, as by frame[frame['use']]",
    "months": "choose among the fixes, as by fixes[fixes['time'].dt.month.isin([5, 6])]",
    "hours": "choose among the fixes, as by fixes[fixes['time'].dt.hour < 6]",
    "mark": "fixes that are not used are left out and counted", "to": "until is the last moment",
    "every_hours": "every takes hours too",
    **dict.fromkeys(("levels", "by", "jobs", "progress"), "give it to home_range"),
    **dict.fromkeys(("xy", "x", "y", "coords", "coordinates"), "easting and northing name columns of metres, and lon and lat those of degrees"),
    "unin": "coordinates are in metres, and in no other unit", "unout": "areas are in hectares",
    **dict.fromkeys(("sep", "delimiter", "separator", "dec", "decimal", "sheet", "skip", "skiprows"),
                    "read a file of another form by pandas before, as by pandas.read_csv, and give the data frame"),
    **dict.fromkeys(("quiet", "verbose"), "warnings.simplefilter('ignore', homerange.HomeRangeInfo) has what was taken not shown")}
# What others call what an option, or an argument of home_range, is here.
OURS = {
    "animal": "id ids individual individuals individual_id animal_id animals track_id burst", "argos_class": "lc argos_lc",
    "by": "group groups group_by groupby season period", "crs": "crs_code epsg srid srs proj projection proj4string",
    "every": "interval resolution", "jobs": "cores n_jobs threads workers", "lat": "latitude", "levels": "level percent percents isopleths",
    "lon": "longitude long lng", "max_dop": "hdop pdop dop_max", "max_speed": "speed vmax", "na": "na_values na_strings",
    "sensor": "sensors sensor_type", "since": "start begin from_date start_date", "time": "date datetime timestamp times",
    "time_format": "format date_format", "tz": "timezone time_zone", "unit": "units", "until": "end to_date end_date",
    "zone": "utm utm_zone zone_number"}
ELSEWHERE.update({name: f"here it is {own}" for own, names in OURS.items() for name in names.split()})


def text_of(value: Any, option: str) -> str:
    """A text, of one line where it is a name."""
    if not isinstance(value, str):
        refuse(f"{option}={shown(value)} is no text" + (": write such as zone='33N'" if option == "zone" else ""))
    if option == "name" and one_line(value) != value:
        refuse(f"{option}={shown(value)} has a control character")
    return value


def number_of(value: Any, option: str) -> str:
    """A number that is not negative, as text or by all its digits, without an exponent."""
    is_odd = isinstance(value, bool) or isinstance(value, str) and not NUMBER.fullmatch(value)
    try:
        number = math.nan if is_odd else plain_number(value)
    except (TypeError, ValueError, OverflowError):
        number = math.nan
    if not 0 <= number < math.inf:
        unit = " of metres a second" if option == "max_speed" else ""
        refuse(f"{option} is {shown(value)} and not a number{unit} from 0")
    return value if isinstance(value, str) else digits_of(number)


def plain_number(value: Any) -> float:
    """A number as Python has it: of one of numpy's, of whatever width, the digits that it is written with."""
    return float(str(value)) if type(value).__module__ == "numpy" else float(value)


def digits_of(number: float) -> str:
    """The digits of a number, as few as tell it from others."""
    text = f"{Decimal(repr(number)):f}"
    return text.rstrip("0").removesuffix(".") if "." in text else text


def count_of(value: Any, option: str) -> str:
    """A whole number from 0."""
    if not isinstance(value, Integral) or isinstance(value, bool) or not 0 <= int(value) < 2 ** 40:
        refuse(f"{option} is {shown(value)} and not a number from 0")
    return str(int(value))


def length_of(value: Any, option: str) -> str:
    """A length of time, which is text such as 2h, a timedelta, or a number of hours."""
    if isinstance(value, str):
        found = LENGTH.fullmatch(value)
        seconds = float(found[1]) * LENGTHS[found[2]] if found else 0.0
    else:
        seconds = seconds_of(value)
    if not 1 <= seconds < 2 ** 40:
        refuse(f"{option}={shown(value)} {TAKEN}")
    if isinstance(value, str):
        return value
    if abs(seconds - round(seconds)) > SLACK:
        refuse(f"{option}={shown(value)} is no whole number of seconds: write such as '90min' or '5s'")
    return f"{round(seconds)}s"


def seconds_of(value: Any) -> float:
    """The seconds of a timedelta, of Python, numpy or pandas, or of a number of hours; 0 where it is neither."""
    if isinstance(value, timedelta):
        return value / timedelta(seconds=1)
    is_length = type(value).__name__ == "timedelta64"
    try:
        seconds = value / type(value)(1, "s") if is_length else value
        return 0.0 if isinstance(value, (bool, str)) else float(seconds) if is_length else plain_number(seconds) * 3600
    except (TypeError, ValueError, OverflowError):
        return 0.0


def bound_of(value: Any, option: str) -> str:
    """A moment or a day. A moment of a zone is written in UTC, and one without is of the clock of tz."""
    if isinstance(value, str):
        return value
    if type(value).__name__ == "datetime64" and value == value:
        return str(value)
    if type(value).__name__ in ("NaTType", "datetime64"):
        refuse(f"{option} is missing, and a moment is wanted: leave {option} out where none is meant")
    if hasattr(value, "__len__") and is_several(value) and not isinstance(value, Mapping):
        refuse(f"{option} has {len(value)} values, and one moment is wanted, such as '2024-05-01'")
    if not isinstance(value, date) or value != value:
        refuse(f"{option}={shown(value)} is neither a text such as '2024-05-01' nor a date")
    if isinstance(value, datetime) and value.utcoffset() is not None:
        return f"{value.astimezone(timezone.utc).isoformat().removesuffix('+00:00')}Z"
    return value.isoformat()


def words_of(value: Any, option: str) -> str:
    """One word or number, several between commas, or several words and numbers."""
    if isinstance(value, (str, Real)):
        return word_of(value, option)
    if isinstance(value, Mapping) or not is_several(value):
        refuse(f"{option}={type(value).__name__} is no name: a text, or several, is wanted")
    return listed([word_of(word, option) for word in value], option)


def word_of(word: Any, option: str) -> str:
    if isinstance(word, str):
        return word
    if isinstance(word, Integral) and not isinstance(word, bool):
        return str(int(word))
    if not isinstance(word, Real) or isinstance(word, bool) or not math.isfinite(word):
        refuse(f"{option}: {word!r} is no word: a text is wanted")
    return digits_of(plain_number(word))


def columns_of(value: Any, option: str) -> str:
    """The title of a column, or several."""
    several = [value] if isinstance(value, str) else value
    if isinstance(value, date) or hasattr(value, "dtype"):
        refuse(f"{option} has values, and the title of their column is wanted, in quotes, as by {option}='COLUMN'")
    if not isinstance(several, (list, tuple)) or not all(isinstance(title, str) for title in several):
        refuse(f"{option}={shown(value)} is no name of a column: a text, or several, is wanted")
    return value if isinstance(value, str) else listed(several, option)


def listed(words: Iterable[str], option: str) -> str:
    """Words between commas."""
    found = [*words]
    odd = next((word for word in found if "," in word), None)
    if not found or odd is not None:
        refuse(f"{option}: there is no word" if odd is None else f"{option}: {odd!r} has a comma, which stands between words")
    return ",".join(found)


# How the value of each option is written.
FORMS: dict[str, Callable[[Any, str], str]] = {
    **dict.fromkeys(("argos", "crs", "dop", "easting", "encoding", "fix", "from_", "header", "lat", "lon", "name", "northing",
                     "time_format", "tz", "unit", "zone"), text_of),
    **dict.fromkeys(("animal", "time"), columns_of),
    **dict.fromkeys(("argos_class", "fix_type", "na", "sensor"), words_of),
    **dict.fromkeys(("max_dop", "max_speed"), number_of),
    **dict.fromkeys(("since", "until"), bound_of),
    "every": length_of, "skip_lines": count_of,
}
FLAGS = ("skip_unnamed",)


def check_names(options: Iterable[str]) -> None:
    """Refuses options that there are not."""
    unknown = sorted({*options}.difference(FORMS, FLAGS))
    if unknown:
        name = unknown[0]
        refuse(f"there is no option {name}: {ELSEWHERE[name]}" if name in ELSEWHERE else f"there is no option {name}")


def words_of_options(options: Mapping[str, Any]) -> list[str]:
    """Options by their names as words of the program's command line; None is no wish."""
    check_names(options)
    given = {name: value for name, value in options.items() if value is not None}
    flags = [f"--{in_program(name)}" for name in FLAGS if truth_of(given.pop(name, False), name)]
    return [*flags, *(f"--{in_program(name)}={said(FORMS[name](value, name), name)}" for name, value in given.items())]


def in_program(name: str) -> str:
    """What the program calls an option."""
    return name.removesuffix("_").replace("_", "-")


def said(text: str, what: str) -> str:
    """A text that a word of a command line can be."""
    fault = fault_of_text(text)
    if fault is None and len(text.encode("utf-8")) > LONGEST_WORD:
        fault = f"has more than {LONGEST_WORD} bytes"
    return text if fault is None else refuse(f"{what} is {shown(text)}, which the program cannot be told, since it {fault}")
