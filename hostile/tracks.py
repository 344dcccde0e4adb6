"""Tracks of the hostile runs, and the words of those runs whose reports are kept.

    python3 tracks.py FOLDER

writes the tracks into the folder, and prints NAME and WORDS of each run whose report is kept. `reports/NAME.txt` is
that report, made of these tracks by `tools/tests/by_definition.py WORDS`, and never by the program;
`tools/tests/by_definition.sh` makes each again. A block has 256 fixes, a piece of a hull up to 256 corners, a part of a
report up to 8,192 rows:

    a, b      a square and its middle, and a line through it
    blocks    700 fixes of a walk, in three blocks
    curve     900 fixes in no order, each of which is a corner: 600 along the south, in three pieces or more, and 300
              along the north, in two or more
    used      600 records in two blocks, since each third is left out
    long      8,200 fixes, whose rows are in two parts
"""

import pathlib
import random
import sys

HEADER = "animal,second,easting,northing"
FILE_A = f"{HEADER}\nA,0,0,0\nA,60,10,0\nA,120,10,10\nA,180,0,10\nA,240,5,5\n"
FILE_B = f"{HEADER}\nB,0,5,5\nB,60,10,5\nB,120,20,5\n"
REPORTS = {
    "one": "a.csv",
    "two": "a.csv b.csv",
    "decimetres": "--percent 50 --unit dm a.csv",
    "use": "used.csv blocks.csv",
    "curve": "--unit dm curve.csv",
    "long": "--percent 95,7 long.csv",
}


def walk(seed, count, stride, side):
    """Places of a walk within a square, each at most a stride from the one before along each axis. Its numbers are
    those of random() alone, which every version of Python draws alike."""
    draw, at = random.Random(seed).random, [side // 2, side // 2]
    for _ in range(count):
        yield at
        at = [min(max(place + int((2 * stride + 1) * draw()) - stride, 0), side) for place in at]


def curve():
    """Corners along two curves that bend away from each other, in an order that jumps."""
    south = [(i, i * i) for i in range(600)]
    north = [(2 * i, 800_000 - 4 * i * i) for i in range(300)]
    places = south + north
    # 907 is prime, so each place comes once.
    return [places[at] for at in (389 * i % 907 for i in range(907)) if at < len(places)]


def text(name, places, pace):
    """A track, with so many fixes in a second."""
    records = (f"{name},{i // pace},{east},{north}" for i, (east, north) in enumerate(places))
    return "\n".join([HEADER, *records, ""])


def used_text():
    """A track with the column `use`."""
    places = walk(2, 600, 40, 2000)
    records = (f"U,{60 * i},{east},{north},{int(i % 3 != 1)}" for i, (east, north) in enumerate(places))
    return "\n".join([f"{HEADER},use", *records, ""])


def write(folder):
    """Writes all tracks into a folder."""
    texts = {
        "a": FILE_A,
        "b": FILE_B,
        "blocks": text("W", walk(1, 700, 40, 2000), 1),
        "curve": text("C", curve(), 1),
        "used": used_text(),
        "long": text("L", walk(3, 8200, 4, 60), 100),
    }
    for name, track in texts.items():
        pathlib.Path(folder, f"{name}.csv").write_text(track)


if __name__ == "__main__":
    write(sys.argv[1])
    for name, words in REPORTS.items():
        print(name, words)
