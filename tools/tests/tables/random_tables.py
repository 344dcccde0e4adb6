#!/usr/bin/env python3
"""random_tables.py [--records N] [--first SEED] PROGRAM: whether homerange-split makes of random tables what definition.py says,
each file of tracks byte for byte, and in split.txt the unit, the shift, and the counts of what is left out and of what is in
tracks. Tables are drawn by the seeds from SEED on (0 if left out) until they have N records (20,000 if left out; the full trial
are 1,000,000). That of a seed is always the same:

    random_tables.py --show SEED > table.csv

writes it, and its options to standard error. Tables have metres with 0 to 20 decimals, signs, halves and leading zeros; both
units; local grids that are shifted, fixes on their edges, and UTM; animals that take turns; times of ISO in all its forms, or
whole seconds, many of them alike; marks, outliers off the grid; cells and words that are missing; commas, semicolons and tabs,
decimal commas, quoted fields with any of these and ends of lines within; blank lines, ends of all kinds, a byte order mark,
standard input."""
import argparse
import concurrent.futures
import hashlib
import itertools
import os
import random
import subprocess
import sys
import tempfile
from datetime import datetime, timedelta
from pathlib import Path

sys.dont_write_bytecode = True
from definition import Asked, made_of

MOST = 2000  # records of a table
FULL, QUICK = 1_000_000, 20_000
# Titles of the animal, the time, the easting and the northing, and that of the zone in UTM.
FAMILIES = (
    ("animal", "second", "easting", "northing", None), ("id", "date", "x", "y", None), ("id", "t_", "x_", "y_", None),
    ("individual-local-identifier", "timestamp", "utm-easting", "utm-northing", "utm-zone"),
)
MARKS = ("visible", "manually-marked-outlier", "algorithm-marked-outlier", "import-marked-outlier", "manually-marked-valid")
TRUTHS = (("true", "false"), ("TRUE", "FALSE"), ("True", "False"), ("1", "0"), ("1.0", "0.0"))
NAMES = ("fox", "Vesna 2", "lisička", "a,b", 'the "old" one', "semi;colon", "NA", "x", "007", "Ѳ", "naïve/2", "tab\tbed", "=sum", "-1.5")
NOTES = ("", "NA", "12", "a note", "a, b; c", 'says "no"', "one\nline and another", "\r\n", "ž\tz", ";;", '""', "1,5", "2024-05-01")
FRACTIONS = ("5", "49999999999999999999", "50000000000000000000", "05", "04999999999999999999", "25", "75", "9" * 20, "0" * 20)


class Table:
    """A table that is drawn by a seed: its records by roles, what is asked of it, and its text."""

    def __init__(self, seed):
        self.draw = draw = random.Random(seed)
        self.count = 2 + int(2 * (MOST / 2) ** draw.random())
        self.family = draw.choice(FAMILIES)
        is_local, self.has_seconds = self.family[4] is None, self.family[1] == "second"
        word = draw.choice((None, None, "-9999", "none"))
        self.asked = Asked(draw.choice((1, 10)), draw.random() < 0.4, frozenset({"", word} - {None}), is_local)
        self.separator = draw.choice(",,;\t")
        self.points = "." if self.separator == "," else draw.choice((".", ",", ".,"))
        self.blanks = [*self.asked.missing, "NA"] + [f"-9999{point}{zeros}" for point in self.points for zeros in ("0", "000")] * (word == "-9999")
        self.skips_unnamed = draw.random() < 0.3
        self.animals = draw.sample(NAMES, draw.randrange(1, 7))
        self.marks = draw.choice(((), (), ("use",), tuple(draw.sample(MARKS, draw.randrange(1, 6)))))
        self.truths = draw.choice(TRUTHS)
        self.start = draw.randrange(10**8, 4 * 10**9)
        self.span = draw.choice((3, 60, self.count, 86400, 10**7))
        self.middles, self.reach, self.edges = *self.drawn_place(), {}
        if is_local and draw.random() < 0.3:
            self.be_at_an_edge()
        self.outliers = draw.choice((0, 0.02, 0.3))
        self.failing = draw.choice((0, 0.02, 0.3))
        self.records = [self.drawn_record(at) for at in range(self.count)]

    def drawn_place(self):
        """The middle of both axes, and how far fixes lie from it along each, in metres."""
        draw = self.draw
        if not self.asked.is_local:
            return (draw.randrange(250_000, 750_000), draw.randrange(60_000, 9_900_000)), draw.choice((100, 5000, 50_000))
        reach = draw.choice((100, 5000, 500_000, 5_000_000))
        far = draw.choice((20_000, 900_000, 16_000_000, 90_000_000))
        return tuple(draw.choice((-1, 1)) * draw.randrange(0, far) for _ in range(2)), reach

    def be_at_an_edge(self):
        """Moves an axis to the least or the greatest coordinate of a grid, on which or beside which a fix is to lie."""
        draw, middles, axis, reach = self.draw, [*self.middles], self.draw.randrange(2), min(self.reach, 500_000)
        greatest = ("16777216", "16777216.49999999999999999999", "16777216.5", "16777217") if self.asked.units == 1 else (
            "13421772.8", "13421772.84999999999999999999", "13421772.85", "13421772.9")
        least = ("0", "-0", "-0.5", "-0.50000000000000000001", "-1") if self.asked.units == 1 else ("0", "-0.05", "-0.05000000000000000001", "-0.1")
        is_greatest = draw.random() < 0.5
        middles[axis], self.reach = 13_000_000 - reach if is_greatest else reach + 20_000, reach
        self.middles = tuple(middles)
        self.edges = {("easting", "northing")[axis]: draw.choice(greatest if is_greatest else least).replace(".", self.points[0])}

    def drawn_record(self, at):
        draw, is_sure = self.draw, at < 2  # the first two records keep a table from being refused
        place = {axis: self.metres(middle, is_sure) for axis, middle in zip(("easting", "northing"), self.middles)}
        record = {"animal": self.animals[0] if is_sure else draw.choice(self.animals), **place, **self.marked(is_sure), **self.time()}
        if at == 1:
            record.update(self.edges)
        if self.family[4]:
            record["zone"] = "33N"
        if not is_sure and draw.random() < self.outliers and self.marks:
            self.be_outlier(record)
        if not is_sure and draw.random() < 0.05 and self.skips_unnamed:
            record["animal"] = draw.choice([blank for blank in self.blanks if blank != "NA"])
        if not is_sure and draw.random() < self.failing:
            self.fail(record)
        return record

    def metres(self, middle, is_sure):
        """A coordinate as it is written. A sure one has five digits before its point."""
        draw = self.draw
        whole = middle + draw.randrange(-self.reach, self.reach + 1)
        if is_sure and abs(whole) < 10_000:
            whole = 12_345
        size = draw.choice((0, 0, 1, 2, 3, 6, draw.randrange(21)))
        decimals = draw.choice(FRACTIONS) if draw.random() < 0.2 else "".join(draw.choices("0123456789", k=size))
        zeros = "0" * draw.choice((0, 0, 0, 0, 1, 14))
        sign = "-" if whole < 0 or (whole == 0 and self.asked.is_local and draw.random() < 0.5) else ""
        return f"{sign}{zeros}{abs(whole)}" + (draw.choice(self.points) + decimals if decimals else "")

    def time(self):
        """A time, which is that of several records where the span is short."""
        draw, second = self.draw, self.start + self.draw.randrange(self.span)
        if self.has_seconds:
            return {"second": "0" * draw.choice((0, 0, 3)) + str(second)}
        minutes = draw.choice((0, 0, 0, 60, 120, -210, 345, 840, -720))
        clock = datetime(1970, 1, 1) + timedelta(seconds=second + 60 * minutes)
        hour, rest = divmod(abs(minutes), 60)
        ends = ("", "Z", "+00", "+0000", "-00:00") if not minutes else (f"{hour:02}:{rest:02}", f"{hour:02}{rest:02}", *([f"{hour:02}"] if not rest else []))
        end = ("" if not minutes else "-" if minutes < 0 else "+") + draw.choice(ends)
        if draw.random() < 0.02:
            return {"time": clock.strftime("%Y-%m-%d")}
        form = draw.choice(("%Y-%m-%d %H:%M:%S", "%Y-%m-%dT%H:%M:%S")) if draw.random() < 0.95 else "%Y-%m-%d %H:%M"
        decimals = "." + "".join(draw.choices("059", k=draw.choice((1, 3, 9)))) if form.endswith("S") and draw.random() < 0.5 else ""
        return {"time": clock.strftime(form) + decimals + end}

    def marked(self, is_sure):
        """The marks of a fix that is used."""
        true, false = self.truths
        used = {"use": [true], "visible": [true, ""], "manually-marked-valid": [true, false, ""]}
        return {mark: self.draw.choice(used.get(mark, [false, "", "NA"])) for mark in self.marks}

    def be_outlier(self, record):
        """Marks a fix as an outlier, as far as no other mark goes before that, and moves one that its owner marked."""
        draw = self.draw
        for mark in draw.sample(self.marks, draw.randrange(1, 1 + min(2, len(self.marks)))):
            record[mark] = self.truths[mark in ("use", "visible")]
        if draw.random() < 0.5 and self.is_left(record):
            record[draw.choice(("easting", "northing"))] = str(draw.choice((-1, 1)) * draw.randrange(10**8))
            record.update({"zone": "32N"} if self.family[4] and draw.random() < 0.5 else {})

    def is_left(self, record):
        """Whether the owner's own marks say that a fix is not used."""
        true, false = self.truths
        return record.get("use") == false or record.get("visible") == false or record.get("manually-marked-outlier") == true

    def fail(self, record):
        """Takes a coordinate or both from a record, of which then nothing else is looked at."""
        for axis in self.draw.choice((("easting",), ("northing",), ("easting", "northing"))):
            record[axis] = self.draw.choice(self.blanks)
        if self.draw.random() < 0.3:
            record.update({"time": "no time"} if "time" in record else {"second": "none"})

    def columns(self):
        """The role and the title of each column, in some order."""
        animal, time, easting, northing, zone = self.family
        found = [("animal", animal), ("second" if self.has_seconds else "time", time), ("easting", easting), ("northing", northing),
                 *((mark, mark) for mark in self.marks), *([("zone", zone)] if zone else [])]
        found = [(role, self.draw.choice((title, title, title.replace("-", "_"), title.replace("-", "."), title.upper()))) for role, title in found]
        found += [("note", f"note {at}") for at in range(self.draw.randrange(3))]
        return self.draw.sample(found, len(found))

    def field(self, text):
        """A field, quoted where it has to be, and sometimes where not."""
        if any(sign in text for sign in (self.separator, '"', "\n", "\r")) or self.draw.random() < 0.1:
            return '"' + text.replace('"', '""') + '"'
        return text

    def line(self, cells):
        return self.separator.join(map(self.field, cells))

    def text(self):
        """The bytes of the table."""
        draw, columns, end = self.draw, self.columns(), self.draw.choice(("\n", "\n", "\r\n", "\r"))
        lines = [self.line([title for _, title in columns])]
        for record in self.records:
            lines += [""] * (draw.random() < 0.02)
            lines.append(self.line([record[role] if role != "note" else draw.choice(NOTES) for role, _ in columns]))
        mark = "\ufeff" if draw.random() < 0.1 else ""
        return (mark + end.join(lines) + end * draw.choice((0, 1, 1, 3))).encode()

    def words(self):
        """The options."""
        given = [("--unit", "dm", self.asked.units == 10), *(("--na", word, True) for word in self.asked.missing if word)]
        words = [word for *pair, is_given in given if is_given for word in pair]
        return [*words, "--records"] + ["--mark"] * self.asked.mark + ["--skip-unnamed"] * self.skips_unnamed


def record_of(text):
    """The lines of split.txt of a kind that is compared, as a dictionary: kind, then name and reason where there are some."""
    found = {}
    for line in text.split("\n"):
        kind, *rest = line.split(",")
        if kind in ("unit", "shift"):
            found[kind] = tuple(rest)
        elif kind in ("left", "track"):
            name, *numbers = rest
            found[(kind, name, numbers[1]) if kind == "left" else (kind, name)] = numbers[0] if kind == "left" else tuple(numbers)
    return found


def wanted_record(made, asked):
    found = {"unit": ("dm" if asked.units == 10 else "m",), **({"shift": tuple(map(str, made.shift))} if any(made.shift) else {})}
    found.update({("left", name, reason): str(count) for (name, reason), count in made.left.items()})
    sums = {name: hashlib.sha256(text.encode()).hexdigest() for name, text in made.texts.items()}
    found.update({("track", name): (str(records), str(used), sums[name]) for name, (records, used) in made.counts.items()})
    return found


def lines_of(texts):
    """Each line of texts, by the name of its file and its place."""
    return {(name, at): line for name, text in texts.items() for at, line in enumerate(text.split("\n"))}


def first_difference(found, wanted):
    return next((f"{key}: {found.get(key)!r} where {wanted.get(key)!r} is wanted"
                 for key in sorted({*found, *wanted}, key=str) if found.get(key) != wanted.get(key)), None)


def fault_in(found, made, asked):
    """How the texts of a folder, by the names of their files, are not what is wanted."""
    record = found.pop("split.txt")
    wanted = {**{f"{name}.csv": text for name, text in made.texts.items()}, "records.txt": made.listed}
    return first_difference(lines_of(found), lines_of(wanted)) or first_difference(record_of(record), wanted_record(made, asked))


def fault_of(seed, program):
    """How many records the table of a seed has, and how the program does not do with it what is wanted."""
    table = Table(seed)
    text, made = table.text(), made_of(table.records, table.asked)
    with tempfile.TemporaryDirectory() as name:
        is_piped = table.draw.random() < 0.2
        if not is_piped:
            Path(name, "table.csv").write_bytes(text)
        run = subprocess.run([program, *table.words(), "-" if is_piped else "table.csv"], cwd=name, input=text if is_piped else b"", capture_output=True)
        if run.returncode:
            return table.count, f"status {run.returncode}: {run.stderr.decode()}"
        found = {path.name: path.read_bytes().decode() for path in Path(name, "tracks").iterdir()}
    return table.count, fault_in(found, made, table.asked)


def sized_seeds(first, records):
    """Seeds from the first on, until their tables have so many records."""
    for seed in itertools.count(first):
        if records <= 0:
            return
        yield seed
        records -= 2 + int(2 * (MOST / 2) ** random.Random(seed).random())


def show(seed):
    table = Table(seed)
    sys.stdout.buffer.write(table.text())
    print(*table.words(), file=sys.stderr)


def read_options():
    parser = argparse.ArgumentParser(description=__doc__.split("\n\n")[0])
    parser.add_argument("program", nargs="?", help="the built program")
    parser.add_argument("--records", type=int, default=QUICK, help=f"how many records the tables have [default: {QUICK}]")
    parser.add_argument("--first", type=int, default=0, help="the first seed [default: 0]")
    parser.add_argument("--show", type=int, metavar="SEED", help="writes the table of this seed")
    return parser.parse_args()


def main():
    options = read_options()
    if options.show is not None:
        show(options.show)
        return
    program, seeds = str(Path(options.program).resolve()), [*sized_seeds(options.first, options.records)]
    with concurrent.futures.ProcessPoolExecutor(os.cpu_count()) as workers:
        found = [*workers.map(fault_of, seeds, itertools.repeat(program), chunksize=8)]
    bad = [(seed, fault) for seed, (_, fault) in zip(seeds, found) if fault]
    for seed, fault in bad:
        print(f"table {seed}: {fault[:400]}")
    print(f"{sum(count for count, _ in found)} records of {len(seeds)} random tables")
    print(f"{len(seeds) - len(bad)} passed, {len(bad)} failed")
    sys.exit(bool(bad))


if __name__ == "__main__":
    main()
