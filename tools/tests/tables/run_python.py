#!/usr/bin/env python3
"""run_python.py CASES: whether the Python package reads of each table the fixes that are wanted, or refuses it with the kind and the
record: as a frame with types, and as a frame of text. CASES is the folder that unpack.py wrote. Tables that a frame cannot have
alike stand here, with the reason."""
import sys
import warnings
from concurrent.futures import ProcessPoolExecutor
from pathlib import Path

from cases import LISTS, cases, difference, report

sys.path.insert(0, str(Path(__file__).resolve().parents[3] / "python"))

import pandas
from homerange import FrameError, read_fixes
from homerange.errors import one_line
from homerange.ranges.tracks import track_text, tracks_of_fixes

OF_FILES = {"encoding", "skip-lines", "header", "mark"}  # options
# Why pandas makes another frame of a table than the text is.
QUOTES = "pandas takes quotes as they come"
FIELDS = "pandas makes an index of what is too much, and fills what is missing"
DIGITS = "pandas makes a number of it"
MISSING = "pandas takes the word for what is missing"
UNLIKE = {
    "a_blank_before_a_quote": QUOTES, "a_lone_quote_and_one_within_a_field": QUOTES, "a_quote_inside_a_title": QUOTES,
    "a_quote_behind_a_backslash": QUOTES, "a_quote_inside_a_name": QUOTES, "digits_before_a_quote": QUOTES,
    "digits_behind_a_quote": QUOTES, "two_lone_quotes_within_fields": QUOTES,
    "a_comma_in_decimals_between_commas": FIELDS, "fewer_fields": FIELDS, "more_fields": FIELDS,
    "a_line_of_blanks": "pandas passes over it", "byte_0": "pandas ends the cell there", "one_title_twice": "pandas renames the second"}
UNLIKE_WITH_TYPES = {
    "a_number_with_a_blank": DIGITS, "a_number_with_a_plus": DIGITS, "a_number_with_a_point_behind": DIGITS,
    "a_number_with_an_exponent": DIGITS, "words_of_floats": DIGITS,
    "NA_as_a_name": MISSING, "words_for_what_is_missing_not_named": MISSING,
    "points_before_thousands_between_commas": DIGITS, "a_mark_in_mixed_letters": "pandas makes a truth of it"}


def is_alike(case, unlike):
    """Whether pandas can make a frame of a table that is what the text is."""
    if case.name in unlike or OF_FILES & {*case.options} or case.options.get("from") == "gpx":
        return False
    first = next((line for line in case.table.read_bytes().splitlines() if line.strip()), b"")
    try:
        pandas.read_csv(case.table, dtype=str)
    except (ValueError, pandas.errors.ParserError):
        return False
    return not (b";" in first or b"\t" in first)


def compared(case, make):
    """How what is made of a case is not what is wanted; None where it is."""
    warnings.simplefilter("ignore")
    refusal = case.refusal()
    try:
        found = make(case)
    except FrameError as fault:
        told = ("-" if fault.record is None else str(fault.record), fault.kind)
        return None if told == refusal else f"refused as {told} ({fault}), {refusal or 'tracks'} wanted"
    return f"taken, and {refusal} is wanted: {found}" if refusal else difference(case.tracks, found)


def argument(name, value):
    """An option as an argument."""
    if name in LISTS:
        return value.split(",")
    return True if name == "skip-unnamed" else value


def as_frame(case, **reading):
    """The tracks of the table as a frame, as files would have them."""
    frame = pandas.read_csv(case.table, **reading)
    words = {"from_" if name == "from" else name.replace("-", "_"): argument(name, value) for name, value in case.options.items()}
    tracks = tracks_of_fixes(read_fixes(frame, **words))
    if tracks.shift != case.shift:
        raise AssertionError(f"{case.name}: shifted by {tracks.shift}")
    renamed = {file: name for name, file in tracks.names.items()}
    if case.names and renamed != {file: one_line(name) for file, name in case.names.items()}:
        raise AssertionError(f"{case.name}: files are named {tracks.names}")
    files = {name: tracks.names.get(name, name) for name in tracks.by_name}
    return {files[name]: track_text(files[name], track) for name, track in tracks.by_name.items()}


def typed_frame(case):
    return as_frame(case, float_precision="round_trip")


def text_frame(case):
    return as_frame(case, dtype=str, keep_default_na=False)


def main():
    results = []
    for name, make, unlike in (("typed frame", typed_frame, UNLIKE | UNLIKE_WITH_TYPES), ("frame of text", text_frame, UNLIKE)):
        found = [case for case in cases(sys.argv[1], "text") if is_alike(case, unlike)]
        found += [case for case in cases(sys.argv[1], "frame") if case.only == "frame"]
        with ProcessPoolExecutor(4) as pool:
            results += [(f"{case.name} as a {name}", fault) for case, fault in zip(found, pool.map(compared, found, [make] * len(found)))]
    sys.exit(report(results))


if __name__ == "__main__":
    main()
