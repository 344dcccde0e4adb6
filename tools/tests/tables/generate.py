"""Tables that are made and not written: each knows the tracks that it was made of, before it was a table.

A track is whole units and seconds. Its table has them with decimals that round to them, in one of the usual forms, with
rows in disorder, failed fixes and marked outliers among them."""
import random
from datetime import datetime, timedelta, timezone

EPOCH = datetime(1970, 1, 1, tzinfo=timezone.utc)
FAMILIES = {
    "movebank": ("individual-local-identifier", "timestamp", "utm-easting", "utm-northing"),
    "move2": ("individual_local_identifier", "timestamp", "utm_easting", "utm_northing"),
    "homerange": ("animal", "second", "easting", "northing"),
    "amt": ("id", "t_", "x_", "y_"),
    "adehabitat": ("id", "date", "x", "y"),
}
TRUTHS = (("true", "false"), ("TRUE", "FALSE"), ("True", "False"), ("1", "0"))


def clock(draw, second, fraction):
    """A time as text, in one of the forms of ISO, with so many thousandths."""
    moment = EPOCH + timedelta(seconds=second)
    offset = draw.choice((0, 0, 0, 120, -330))
    local = (moment + timedelta(minutes=offset)).strftime(draw.choice(("%Y-%m-%d %H:%M:%S", "%Y-%m-%dT%H:%M:%S")))
    sign = "Z" if draw.random() < 0.5 else ""
    if offset:
        sign = f"{'-' if offset < 0 else '+'}{abs(offset) // 60:02}:{abs(offset) % 60:02}"
    return f"{local}.{fraction:03}{sign}" if fraction else local + sign


def metres(draw, whole, units):
    """A coordinate as text, which rounds to so many whole units."""
    thousandths = 1000 * whole + draw.randrange(-490, 490)
    below, rest = divmod(thousandths, 1000 * units)
    return f"{below}.{rest * 10 // units:04}"


class Table:
    """A table of some animals, drawn with this seed."""

    def __init__(self, seed):
        self.draw = random.Random(seed)
        self.family = self.draw.choice(sorted(FAMILIES))
        self.units = self.draw.choice((1, 1, 10))
        self.truths = self.draw.choice(TRUTHS)
        self.is_marked = self.family.startswith("move") or self.draw.random() < 0.3
        self.fixes, self.rows = [], []
        for number in range(self.draw.randrange(1, 6)):
            self.add(f"animal {number}", self.draw.randrange(2, 12))
        self.draw.shuffle(self.rows)

    def row(self, animal, time, east, north, is_outlier):
        cells = [animal, time, east, north]
        cells += ["33N"] if self.family.startswith("move") else []
        cells += [self.truths[is_outlier], self.truths[1 - is_outlier]] if self.is_marked else []
        return cells

    def add(self, animal, count):
        """Draws the fixes of an animal, no two of one stamp, and what stands among them in the table."""
        seconds = self.draw.sample(range(1_700_000_000, 1_700_400_000), count)
        for second in sorted(seconds):
            east, north = (self.units * (base + self.draw.randrange(-4000, 4000)) for base in (562000, 5134000))
            self.fixes.append(f"{animal},{second},{east},{north}")
            texts = [metres(self.draw, whole, self.units) for whole in (east, north)]
            fraction = self.draw.choice((0, 0, 250, 999))
            time = f"{second}.{fraction:03}" if self.family == "homerange" else clock(self.draw, second, fraction)
            self.rows.append(self.row(animal, time, *texts, False))
            if self.draw.random() < 0.2:
                self.rows.append(self.row(animal, time, "", self.draw.choice(("", "NA")), False))
            if self.is_marked and self.draw.random() < 0.2:
                self.rows.append(self.row(animal, time, "990000.5", texts[1], True))

    def text(self):
        """The table, its columns in some order."""
        titles = [*FAMILIES[self.family]]
        titles += ["utm-zone"] if self.family.startswith("move") else []
        titles += ["visible", "manually-marked-outlier"] if self.is_marked else []
        order = self.draw.sample(range(len(titles)), len(titles))
        if self.family.startswith("adehabitat") and self.draw.random() < 0.5:
            lines = [["X", *titles], *([str(at), *row] for at, row in enumerate(self.rows, 1))]
            order = [0, *(at + 1 for at in order)]
        else:
            lines = [titles, *self.rows]
        return "".join(",".join(line[at] for at in order) + "\n" for line in lines)


def drawn(seed):
    """A table that is drawn."""
    table = Table(seed)
    call = ["unit dm"] if table.units == 10 else []
    return f"drawn_{seed:02}_of_{table.family}", table.text().encode(), call, table.fixes, None


def wide():
    """A field longer than csv modules take by themselves."""
    rows = "".join(f"a,{second},56200{second},5134000,{'x' * 140_000}\n" for second in range(2))
    tracks = [f"a,{second},56200{second},5134000" for second in range(2)]
    return "a_field_of_140000_letters", f"animal,second,easting,northing,note\n{rows}".encode(), [], tracks, None


def herd():
    """More animals than a run takes, three fixes each, the rows of all in turns."""
    fixes = [[f"deer {number:02}", 60 * at, 500000 + 37 * number + at * at, 5100000 + 53 * at + number]
             for at in range(3) for number in range(70)]
    lines = [",".join(map(str, fix)) for fix in fixes]
    text = "animal,second,easting,northing\n" + "\n".join(lines) + "\n"
    return "a_herd_of_70", text.encode(), [], sorted(lines, key=lambda line: line.split(",")[0]), None


def movebank():
    """An export with all columns of Movebank, quoted as it writes them, of two foxes, with an outlier and a failed fix."""
    titles = ("event-id,visible,timestamp,location-long,location-lat,gps:dop,manually-marked-outlier,sensor-type,"
              "individual-taxon-canonical-name,tag-local-identifier,individual-local-identifier,study-name,utm-easting,"
              "utm-northing,utm-zone,study-timezone,study-local-timestamp")
    rows, tracks = [], []
    for at in range(40):
        fox, east, north = f"fox {at % 2}", 562000 + 77 * at, 5134000 + 78 * at
        time = EPOCH + timedelta(seconds=1714521600 + 1801 * at)
        clock_text = time.strftime("%Y-%m-%d %H:%M:%S") + f".{at:03}"
        places = [f"{15.8 + at / 1000:.6f}", f"{46.35 + at / 1400:.6f}"], [f"{east}.13", f"{north - 1}.871"]
        if at == 9:
            places = ["", ""], ["", ""]
        rows.append([str(90000 + at), '"true"', clock_text, *places[0], "1.8", "true" if at == 7 else "", '"gps"',
                     '"Vulpes vulpes"', f'"tag {at % 2}"', f'"{fox}"', '"A study, of foxes"', *places[1], '"33N"',
                     '"Central European Summer Time"', clock_text])
        if at not in (7, 9):
            tracks.append(f"{fox},{1714521600 + 1801 * at},{east},{north}")
    text = "\n".join([titles, *map(",".join, rows)]) + "\n"
    return "an_export_of_movebank", text.encode(), [], tracks, None


def long(name, count, ill=None, end=""):
    """A table of many records, with thousands of blank lines in its midst, one of which may be ill, and this end."""
    lines = [f"a,{second},{562000 + second % 97},{5134000 + second % 89}" for second in range(count)]
    rows = [f"a,{at},x,1" if at == ill else line for at, line in enumerate(lines)]
    rows[count // 2:count // 2] = [""] * 5000
    text = "animal,second,easting,northing\n" + "".join(f"{row}\n" for row in rows) + end
    refusal = None if ill is None else f"{ill + 1} number"
    return name, text.encode(), [], [] if refusal else lines, refusal


def seconds_of_a_minute(name, count):
    """A table of so many seconds that go from 0 to 59 and begin anew, refused where they are more."""
    lines = [f"v,{at % 60},{1000 + at},2000" for at in range(count)]
    refusal = "- time" if count > 60 else None
    return name, ("animal,second,easting,northing\n" + "".join(f"{line}\n" for line in lines)).encode(), [], [] if refusal else lines, refusal


def generated():
    """All these tables: the name, the bytes, the call, the tracks' lines, and the refusal, of which one is None."""
    return [*map(drawn, range(50)), wide(), herd(), movebank(), long("a_long_table", 9000),
            long("a_long_table_with_a_fault", 9000, ill=7654)]


def generated_texts():
    """The tables that can be given as texts alone."""
    open_quote = long("a_long_table_with_an_open_quote", 6000, end='"a,6000,1,1\n')
    return [(*open_quote[:3], [], "6001 text"), seconds_of_a_minute("seconds_of_a_minute", 61), seconds_of_a_minute("sixty_seconds", 60)]
