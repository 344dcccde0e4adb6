"""What helps in Python where the program refuses a time that is counted or written otherwise, a number, a type of fixes, or an option. Of
a frame its columns are known, of a file none are."""

from __future__ import annotations

import re
from typing import Any, Callable, Mapping, Sequence

import pandas

from ..errors import one_line
from .cells import cells_of, is_time
from .letters import like_title
from .text import Column, has_times, is_number, plain, titles_named

Refusal = re.Match[str]
NUMBER = re.compile(" *[+-]?([0-9]+[.]?[0-9]*|[.][0-9]+)([eE][+-]?[0-9]+)? *")
CLOCKS = {4: (2400, "%H%M"), 6: (240000, "%H%M%S")}  # clocks without their colons, by their digits: what is above them, and their form
TYPES = ("gps-fix-type", "fix-type", "fixtype", "fix-status", "fixstatus", "type-of-fix")
DAYS = {"days since 1970": (7305, 32874, "unix"), "days of Excel": (32874, 49310, "1899-12-30"),  # 1990 to 2059, to 2034, and 1993 to 2077
        "modified Julian days": (49310, 80000, "1858-11-17"), "Julian days": (2_400_000, 2_500_000, "julian")}
PARTS = {13: ("milliseconds", "ms"), 16: ("microseconds", "us"), 19: ("nanoseconds", "ns")}  # since 1970, by their digits
FAR = re.compile("[0-9]{5,}-.*")  # a day behind the year 9999
# Cells that are no numbers, and what helps.
ODD_NUMBERS = {"\u2212.*": "the minus is another sign (U+2212): write -", " +": "blanks are no missing cell: empty the cell",
               "[+-]?[0-9]{1,3}([.][0-9]{3}){2,}": "dots stand between thousands, or a spreadsheet took the decimal sign: mend the column"}
NO_TIMES = ("nat", "nan")  # words for a time that is missing, in small letters
SIGN_HELPS = {"%f": "%S has the decimals of seconds: leave .%f out", "%T": "%H:%M:%S stands for %T", "%F": "%Y-%m-%d stands for %F",
              "%R": "%H:%M stands for %R", "%e": "%d stands for %e", "%z": "a form has no offset: make moments of its texts, as by "
              "pandas.to_datetime(.., format=.., utc=True)", "%B": "make moments of its texts, as by pandas.to_datetime(.., format=..)"}


def digits_of_clocks(title: str, columns: Sequence[Column]) -> int:
    """How many digits clocks without their colons have in a column, such as 30, 130 and 1330, which have lost zeros; 0 where it has others."""
    known = [cell for column in columns if column.title == title for cell in cells_of(column.values) if cell]
    if not known or not all(re.fullmatch("[0-9]{1,6}", cell) for cell in known):
        return 0
    numbers = [int(cell) for cell in known]
    digits = 4 if max(numbers) < 10000 else 6
    are_clocks = all(number < CLOCKS[digits][0] and number % 100 < 60 and number // 100 % 100 < 60 for number in numbers)
    return digits if are_clocks and max(numbers) >= 100 else 0


def of_time(found: Refusal, options: Mapping[str, Any], columns: Sequence[Column]) -> str:
    """A time that is joined of a day and a clock without its zeros, or of a day and hours with decimals."""
    if found[3].lower() in NO_TIMES:
        return f"{found[1]}: if it stands for what is missing, name it, by na={found[3]!r}"
    far = of_far(found, columns) if FAR.fullmatch(found[3]) else None
    if far is not None:
        return far
    titles, cells = titles_named(options.get("time")), found[3].split(" ")
    if len(titles) != len(cells) or len(titles) < 2 or found[2] != one_line(" ".join(titles)):
        return found[0]
    last = titles[-1]
    digits = digits_of_clocks(last, columns)
    if digits and len(cells[-1]) < digits:
        return f"{found[1]}: {clocks_of(digits, last, columns)}"
    own = next((column.values for column in columns if column.title == last), None)
    if len(titles) == 2 and own is not None and re.fullmatch("[0-9]+[.][0-9]+", cells[1]):
        said = re.sub(": name its form too, .*$", "", found[1])  # hours with decimals look as clocks with a point
        return f"{said}: {help_for_decimals(titles[0], last, own)}"
    return found[0]


def of_far(found: Refusal, columns: Sequence[Column]) -> str | None:
    """Moments far behind the year 9999, whose numbers may be of another part of a second; None of others."""
    column = next((column for column in columns if one_line(column.title) == found[2] and is_time(column.values.dtype)), None)
    most = 0 if column is None else int(column.values.dropna().astype("int64").max())
    name, unit = PARTS.get(len(str(most)), (None, ""))
    if column is None or name is None:
        return None
    own = f"frame[{column.title!r}]"
    said = found[1].replace(f"'{found[3]}'", "far behind the year 9999")
    return f"{said}: if its numbers are {name} since 1970, make moments of them, as by {own} = pandas.to_datetime({own}.astype('int64'), unit={unit!r}, utc=True)"


def clocks_of(digits: int, title: str, columns: Sequence[Column]) -> str:
    """How clocks are written with all their digits, of numbers or of texts."""
    are_numbers = any(is_number(column.values) for column in columns if column.title == title)
    return (f"write clocks of {'four' if digits == 4 else 'six'} digits, as by frame[{title!r}] = "
            f"frame[{title!r}]{'.astype({})'.format(repr('Int64')) if are_numbers else ''}.astype('string').str.zfill({digits})")


def help_for_decimals(day: str, hours: str, own: pandas.Series) -> str:
    """What helps where hours have decimals, or are parts of a day, as numbers or as text."""
    numbers = f"frame[{hours!r}]{'' if is_number(own) else '.astype(float)'}"
    is_part = pandas.to_numeric(own.dropna().astype(str), errors="coerce").max() < 1
    unit, how = ("D", ".dt.round('s')") if is_part else ("h", "")
    return (f"make moments of both, as by pandas.to_datetime(frame[{day!r}]) + pandas.to_timedelta({numbers}, unit={unit!r}){how}, "
            "in a column that time names alone")


def of_hours(found: Refusal, options: Mapping[str, Any], columns: Sequence[Column]) -> str:
    """Hours that are no clocks, beside the days of one column: clocks without their colons, parts of a day, or hours with decimals."""
    own = next((column.values for column in columns if column.title == found[2]), None)
    digits = digits_of_clocks(found[2], columns)
    if own is None or found[3] not in [column.title for column in columns]:
        return found[0]
    if digits:
        form = f"{options.get('time_format') or '%Y-%m-%d'} {CLOCKS[digits][1]}"
        return (f"{found[1]}: {clocks_of(digits, found[2], columns)}, and join them, as by time='{found[3]},{found[2]}', time_format={form!r}, "
                "or remove it")
    if not is_number(own) or not own.dropna().astype(float).between(0, 24).all():
        return found[0]
    return f"{found[1]}: {help_for_decimals(found[3], found[2], own)}, or remove it"


def of_moments(found: Refusal, _: Mapping[str, Any], columns: Sequence[Column]) -> str:
    """Moments of one day beside others, which are clocks to which a day was given."""
    own = next((column for column in columns if one_line(column.title) == found[2]), None)
    if own is None or not has_times(own.values) or day_of_all(own) is None:
        return found[0]
    return (f"{found[1]}, and all of one day: if they are clocks, make times of the day of them, as by frame[{own.title!r}] = "
            f"frame[{own.title!r}].dt.time, and name both, as by time='DAY,{own.title}'; or remove it")


def day_of_all(column: Column) -> str | None:
    """The day of moments, more than one, that are all of it; None of others."""
    days = {str(time.date()) for time in column.values.dropna().astype(object)}
    return days.pop() if len(days) == 1 and column.values.count() > 1 else None


def of_number(found: Refusal, _: Mapping[str, Any], columns: Sequence[Column]) -> str:
    """A number that is text and written otherwise than it is read."""
    column, cell = next((column for column in columns if one_line(column.title) == found[2]), None), found[3]
    odd = next((helps for form, helps in ODD_NUMBERS.items() if re.fullmatch(form, cell)), None)
    if odd is not None:
        return f"{found[1]}: {odd}"
    if column is None or is_number(column.values):
        return found[0]
    own = f"frame[{column.title!r}]"
    if re.fullmatch("-?[0-9]+,[0-9]+", cell):
        what, numbers = "if its comma stands before decimals, make", f"{own}.astype('string').str.replace(',', '.')"
    elif not NUMBER.fullmatch(cell):
        return found[0]
    else:
        what, numbers = "make", own
    return f"{found[1]}: {what} numbers of its column, as by {own} = pandas.to_numeric({numbers})"


def of_year(found: Refusal, _: Mapping[str, Any], columns: Sequence[Column]) -> str:
    """A year of two digits that was read as one of the first century."""
    return f"{found[1]}: if its year was written with two digits, read it so, as by pandas.to_datetime(.., format='%d.%m.%y')" if columns else found[0]


def of_types(found: Refusal, options: Mapping[str, Any], columns: Sequence[Column]) -> str:
    """Types of fixes that no fix has."""
    named = options.get("fix")
    own = next((column for column in columns if (plain(column.title) in TYPES if named is None else column.title == named)), None)
    return found[0] if own is None else f"{found[0]}{kinds_said(own)}"


def kinds_said(column: Column) -> str:
    """What a column has."""
    kinds = [one_line(kind) for kind in dict.fromkeys(cells_of(column.values)) if kind]
    return f": column {one_line(column.title)!r} has {', '.join(kinds[:5])}{', ..' if len(kinds) > 5 else ''}" if kinds else ""


def of_count(found: Refusal, _: Mapping[str, Any], columns: Sequence[Column]) -> str:
    """A number that counts something else than seconds since 1970."""
    column = next((column for column in columns if one_line(column.title) == found[2]), None)
    is_of_days = next((what for what, (first, last, _) in DAYS.items() if first <= float(found[3]) < last), None)
    looks_so = is_of_days is not None and "days" in found[4]
    said = f"{found[2]} is '{found[3]}', which looks like {is_of_days}" if looks_so else found[1]
    if column is None:
        return found[0].replace(found[1], said)
    own = f"frame[{column.title!r}]"
    numbers = own if is_number(column.values) else f"pandas.to_numeric({own})"
    if is_of_days is not None:
        what = "" if looks_so else f"if it is {is_of_days}, "
        return f"{said}: {what}make moments of it, as by {own} = pandas.to_datetime({numbers}, unit='D', origin={DAYS[is_of_days][2]!r}).dt.round('s')"
    name, unit = PARTS.get(len(found[3]), (None, ""))
    if name is None:
        return found[0]
    return f"{found[1]}: if it is {name} since 1970, make moments of it, as by {own} = pandas.to_datetime({numbers}, unit={unit!r}, utc=True)"


def of_none(found: Refusal, _: Mapping[str, Any], columns: Sequence[Column]) -> str:
    """A row without a time."""
    column = next((column for column in columns if one_line(column.title) == found[1]), None)
    if column is None or not column.values.isna().any():
        return found[0]
    return f"{found[0]}: leave rows without one out, as by frame[frame[{column.title!r}].notna()]"


def of_form(found: Refusal, _: Mapping[str, Any], __: Sequence[Column]) -> str:
    """A form of times with signs that others have."""
    helps = next((help_of for sign, help_of in SIGN_HELPS.items() if sign in found[1]), None)
    return found[0] if helps is None else f"{found[0]}: {helps}"


def of_offset(found: Refusal, _: Mapping[str, Any], __: Sequence[Column]) -> str:
    """An offset in place of a zone of times: those of Etc have its other sign."""
    hours, sign = int(found[2]), "-" if found[1] == "+" else "+"
    if hours > 12:
        return found[0]
    return f"{found[0]}: the offset {found[1]}{hours} is that of '{f'Etc/GMT{sign}{hours}' if hours else 'UTC'}'"


def of_bound(found: Refusal, options: Mapping[str, Any], _: Sequence[Column]) -> str:
    """A moment that is none, with the option whose it is."""
    name = next((name for name in ("since", "until") if options.get(name) == found[1]), None)
    return found[0] if name is None else f"{name}: {found[0]}"


def of_title(found: Refusal, _: Mapping[str, Any], columns: Sequence[Column]) -> str:
    """A title that no column has; that of a file is among those that the program lists."""
    titles = [column.title for column in columns] or re.findall("'([^']*)'", found[3])
    return f"{found[0]}{like_title(found[2], titles)}"


# What the program says, and what is said in its place.
HELPS: tuple[tuple[str, Callable[[Refusal, Mapping[str, Any], Sequence[Column]], str]], ...] = (
    ("((.*) is '(.*)' and not a time (?:such as 2024-05-01 00:30:04|of the form .*?))(?:: (?:if it is one|name its form), .*)?", of_time),
    ("(column [0-9]+ '(.*)' has hours, which the days of the time have not): write them as clocks, such as 00:30, and join them, as by "
     "--time '([^,]*),.*', or remove it", of_hours),
    ("(column [0-9]+ '(.*)' has days with clocks), and the times that are read are days alone: name it .*", of_moments),
    ("((.*) is '(.*)' and not a number of up to 12 digits)(?:: write .*)?", of_number),
    ("(.* is '00[0-9]{2}-[^']*', which is no time since 1970, and not within 0 to [0-9]+ seconds): if its year .*", of_year),
    ("no fix is left; left out by reason: type [0-9]+", of_types),
    ("((.*) is '([0-9.]+)', (which (?:looks like|is no second since 1970).*)): write a time such as .*", of_count),
    ("(.*there is no column '(.*)'); the table has (.*)", of_title), ("there is no ([^:,]*)", of_none), ("time-format is '(.*)', which is no form of a day.*", of_form),
    ("tz='(?:UTC|GMT)?([+-])0?([0-9]{1,2})(?::?00)?' is no time zone such as .*", of_offset),
    ("'(.*)' is no time in .*", of_bound), ("( *) is no zone as 33N", lambda found, *_: f"zone={found[1]!r} is no zone as 33N"),
    ("EPSG:.* is no zone as 33N", lambda found, *_: f"{found[0]}: a reference system is named by crs"),
    ("from(: .* is none of .*)", lambda found, *_: f"from_{found[1]}"))


def with_help(said: str, options: Mapping[str, Any], columns: Sequence[Column] = ()) -> str:
    """What the program refuses, with what helps."""
    for form, help_of in HELPS:
        found = re.fullmatch(form, said)
        if found is not None:
            return help_of(found, options, columns)
    return said
