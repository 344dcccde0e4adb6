#!/usr/bin/env python3
"""run_presets.py: whether the presets that homerange-split was built with are those of collars.csv, option by option."""
import csv
import re
import sys
from pathlib import Path

HERE = Path(__file__).resolve().parent
SOURCE, OPTIONS = HERE.parents[2] / "crates/split_titles/src/presets.rt", HERE / "collars.csv"
FIELD = re.compile(r'(\w+):\s*(?:Some\(\s*)?(?:"([^"\\]*)"|(GPX)|None)')


def of_program():
    """The options of each maker, by the constants of the source."""
    table = SOURCE.read_text("utf-8").partition("PRESETS: ")[2].partition("\n];")[0]
    found = {}
    for block in table.split("Preset {")[1:]:
        options = {name.replace("_", "-"): "gpx" if is_gpx else text for name, text, is_gpx in FIELD.findall(block)}
        maker = options.pop("maker")
        found[maker] = {name: text for name, text in options.items() if text}
    return found


def of_table():
    """The options of each maker, by collars.csv."""
    found = {}
    with open(OPTIONS, encoding="utf-8", newline="") as file:
        for row in csv.DictReader(file):
            found.setdefault(row["maker"], {})[row["option"]] = row["value"]
    return found


def faults():
    """Each maker with how its options differ, None where they do not; and the order of makers."""
    own, wanted = of_program(), of_table()
    yield "makers", None if [*own] == [*wanted] else f"the makers are {[*own]} where {[*wanted]} are wanted"
    for maker, options in wanted.items():
        yield f"preset {maker}", None if own.get(maker) == options else f"{own.get(maker)} where {options} is wanted"


def main():
    found = list(faults())
    for name, fault in found:
        if fault:
            print(f"{name}: {fault}")
    bad = sum(fault is not None for _, fault in found)
    print(f"{len(found) - bad} passed, {bad} failed")
    sys.exit(bool(bad))


if __name__ == "__main__":
    main()
