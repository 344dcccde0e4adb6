"""Writes three simulated tracks beside itself: fox.csv, badger.csv and otter.csv.

With a folder, a number of animals and a number of fixes it writes a herd instead: so many tracks, of so many fixes
each, into the folder, which is made.

    python3 simulate.py FOLDER ANIMALS FIXES

No animal was tracked. Each fix comes from the random numbers of one fixed seed,
so each run writes the same bytes. To hold that for every version of Python,
the script draws by random() alone, and only adds, subtracts and multiplies.
"""

import random
import sys
from pathlib import Path

SEED = 1
INTERVAL = 1800  # seconds from one fix to the next
DAY = 48  # fixes in a day; the first fix is at midnight

# Places, as metres east and north in a UTM grid.
DEN = (562000.0, 5134000.0)
SETT = (562700.0, 5133550.0)
RIVER = [
    (559900.0, 5132900.0),
    (560500.0, 5133150.0),
    (561000.0, 5133100.0),
    (561550.0, 5133450.0),
    (562100.0, 5133550.0),
    (562500.0, 5133950.0),
    (563100.0, 5134050.0),
    (563500.0, 5134500.0),
    (564200.0, 5134700.0),
]


def normal(draw):
    """Returns a nearly normal number, of mean 0 and deviation 1, between -6 and 6."""
    total = -6.0
    for _ in range(12):
        total += draw()
    return total


def step(draw, at, home, pull, stride):
    """Returns the place a random step from `at`, drawn the part `pull` of the way home."""
    return [x + pull * (h - x) + stride * normal(draw) for x, h in zip(at, home)]


def fox(draw):
    """Roams day and night around its den."""
    at = DEN
    while True:
        yield at
        at = step(draw, at, DEN, 0.06, 110.0)


def badger(draw):
    """Forages from 20:00 to 05:00, and rests in its sett in between."""
    at, time = SETT, 0
    while True:
        yield at
        time = (time + 1) % DAY
        at = SETT if 10 <= time < 40 else step(draw, at, SETT, 0.12, 130.0)


def otter(draw):
    """Swims up and down a river, and turns at the ends of its stretch."""
    along, end = 4.0, len(RIVER) - 1  # in bends of the river
    while True:
        bend = min(int(along), end - 1)
        here = [x + (along - bend) * (y - x) for x, y in zip(RIVER[bend], RIVER[bend + 1])]
        yield step(draw, here, here, 0.0, 10.0)
        along = abs(along + 0.4 * normal(draw))
        along = min(along, 2 * end - along)


def deer(draw):
    """Roams around a home of its own, somewhere in 20 by 20 kilometres."""
    home = [552000.0 + 20000.0 * draw(), 5124000.0 + 20000.0 * draw()]
    at = home
    while True:
        yield at
        at = step(draw, at, home, 0.03, 150.0)


def write(folder, name, fixes, places):
    with open(folder / f"{name}.csv", "w", newline="\n") as out:
        out.write("animal,second,easting,northing\n")
        for fix in range(fixes):
            easting, northing = [int(metres + 0.5) for metres in next(places)]
            out.write(f"{name},{fix * INTERVAL},{easting},{northing}\n")


def main():
    draw = random.Random(SEED).random
    if len(sys.argv) == 4:
        folder, animals, fixes = Path(sys.argv[1]), int(sys.argv[2]), int(sys.argv[3])
        folder.mkdir(parents=True)
        for number in range(animals):
            write(folder, f"deer{number:05}", fixes, deer(draw))
    else:
        for name, fixes, track in [("fox", 1200, fox), ("badger", 800, badger), ("otter", 480, otter)]:
            write(Path(__file__).resolve().parent, name, fixes, track(draw))


if __name__ == "__main__":
    main()
