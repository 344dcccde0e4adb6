"""What the package for Python says, in the words of the dialog, and what is typed into the dialog."""

import re

from .parameters import HOURS, LABELS, LEVELS, MONTHS

VALUE = r"'[^']*'|\[[^]]*\]|True|-?[\d.]+"
ALL = "|".join(LABELS)
# Arguments that are no words of English too.
PLAIN = "|".join(name for name in LABELS if "_" in name or name == "tz")
# An argument with its value, as the subject of what is said or by itself; what is quoted is passed over.
ARGUMENT = re.compile(
    rf"'[^']*'|\b({ALL})=({VALUE})|^({ALL})(?=: | is | are | has | leaves )|\b({PLAIN})\b|\b(name)(?= is for| out)")
ROW = re.compile(r"^row (\S+)(?: \(frame\.iloc\[\d+\]\))?: ")
ROWS = re.compile(r": rows (?=\d)")
COLUMN = re.compile(r"\bcolumn \d+ (?=')")


class WordFault(Exception):
    """What was typed in cannot be right."""


def in_dialog(text):
    """A refusal with the names of the dialog for those of arguments, and with the feature for its row in the frame."""
    def label(found):
        name = found[1] or found[3] or found[4] or found[5]
        if name is None:
            return found[0]
        if name == "time" and "," in (found[2] or ""):
            return "Field calculator"  # a parameter has one field alone
        return f"'{LABELS[name]}'" if found[2] in (None, "True") else f"'{LABELS[name]}' = {found[2]}"

    row = ROW.match(text)
    where, rest = ("", text) if row is None else (f"feature {row[1]} ($id): ", text[row.end():])
    return where + COLUMN.sub("field ", ARGUMENT.sub(label, rest))


def said_of(note):
    """What was said of fixes, whose rows are features."""
    return in_dialog(ROWS.sub(": features ", note))


def numbers_of(text, parameter):
    """Whole numbers between commas."""
    try:
        return [int(word) for word in text.split(",")]
    except ValueError as fault:
        raise WordFault(f"'{parameter.label}': whole numbers between commas are wanted, and not '{text}'") from fault


def levels_of(text):
    """The levels, which are from 1 to 100, and each once."""
    levels = numbers_of(text, LEVELS)
    if not all(1 <= level <= 100 for level in levels) or len({*levels}) < len(levels) or len(levels) > 8:
        raise WordFault(f"'{LEVELS.label}': up to eight different whole numbers from 1 to 100 are wanted, and not '{text}'")
    return levels


def months_of(text):
    """The months, None where none are wished."""
    months = numbers_of(text, MONTHS) if text else None
    if months is not None and not all(1 <= month <= 12 for month in months):
        raise WordFault(f"'{MONTHS.label}': months from 1 to 12 are wanted, and not '{text}'")
    return months


def hours_of(text):
    """The first hour and the one behind the last, None where none are wished."""
    hours = numbers_of(text, HOURS) if text else None
    if hours is not None and (len(hours) != 2 or hours[0] == hours[1] or not all(0 <= hour <= 24 for hour in hours)):
        raise WordFault(f"'{HOURS.label}': two different hours from 0 to 24 are wanted, such as 18,6, and not '{text}'")
    return hours
