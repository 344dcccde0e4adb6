#!/usr/bin/python3
"""Holds the program of crates/bench_projection against PROJ, on a million places of all zones of UTM.

    /usr/bin/python3 projection.py [PROGRAM]

PROGRAM is that of crates/bench_projection; where it is left out, `rt` builds it. It needs Debian's python3-pyproj. The places
are the same in each run: in each zone of the north and of the south up to three degrees beside it and to 84 degrees north or
80 degrees south, and in odd ones anywhere, also past a pole, past a turn and far from the zone. Prints how many there are
and how far a position is at most from PROJ's, and the status is 0 where that is at most 1 mm, and where both have none of the
same places."""

import pathlib
import random
import subprocess
import sys

from pyproj import Transformer

TOP = pathlib.Path(__file__).resolve().parent.parent.parent
DEGREE = 10**12
IN_ZONES, ODD = 900_000, 100_000
MOST = 0.001  # metres
# The last latitudes and longitudes that PROJ takes, and those beyond them.
EDGES = [sign * (edge + past) for sign in (1, -1) for edge in (90 * DEGREE + 57, 572_957_795_130_823) for past in (-1, 0, 1)]
TURNS = [degrees * DEGREE + past for degrees in range(-540, 541, 3) for past in (-1, 0, 1)]


def zones():
    """All zones: the number and whether it is of the south."""
    return [(number, is_south) for number in range(1, 61) for is_south in (False, True)]


def place_in(numbers, number, is_south):
    """A longitude and a latitude in a zone or up to three degrees beside it, in trillionths of a degree."""
    middle = (6 * number - 183) * DEGREE
    longitude = middle + numbers.randint(-6 * DEGREE, 6 * DEGREE)
    return longitude, numbers.randint(-80 * DEGREE, 0) if is_south else numbers.randint(0, 84 * DEGREE)


def odd_place(numbers):
    """A longitude and a latitude anywhere, on an edge or past it."""
    kind = numbers.randrange(4)
    longitude = numbers.choice(TURNS + EDGES) if kind % 2 else numbers.randint(-600 * DEGREE, 600 * DEGREE)
    whole = numbers.choice(EDGES + [0, 1, -1]) if kind == 3 else numbers.randint(-91, 91) * DEGREE
    return longitude, whole if kind > 1 else numbers.randint(-91 * DEGREE, 91 * DEGREE)


def places():
    """All places by zone."""
    numbers = random.Random(1)
    all_zones = zones()
    found = {zone: [] for zone in all_zones}
    for at in range(IN_ZONES):
        zone = all_zones[at % len(all_zones)]
        found[zone].append(place_in(numbers, *zone))
    for _ in range(ODD):
        found[numbers.choice(all_zones)].append(odd_place(numbers))
    return found


def by_proj(number, is_south, of_zone):
    """The positions of places in a zone by PROJ, infinite where it has none."""
    transformer = Transformer.from_crs("EPSG:4326", f"EPSG:{327 if is_south else 326}{number:02}", always_xy=True)
    longitudes, latitudes = ([degrees / DEGREE for degrees in side] for side in zip(*of_zone))
    return list(zip(*transformer.transform(longitudes, latitudes)))


def built():
    """The program, built by `rt`."""
    folder = TOP / "crates" / "bench_projection"
    subprocess.run(["rt", "run"], cwd=folder, stdin=subprocess.DEVNULL, capture_output=True, check=True)
    return folder / "out" / "bench_projection"


def by_program(program, found):
    """The positions of all places by the program, infinite where it has none."""
    text = "".join(
        f"{longitude},{latitude},{number}{'S' if is_south else 'N'}\n"
        for (number, is_south), of_zone in found.items() for longitude, latitude in of_zone)
    done = subprocess.run([program], input=text, stdout=subprocess.PIPE, stderr=subprocess.DEVNULL, text=True, check=True)
    return [(float("inf"),) * 2 if line == "none" else tuple(map(float, line.split(","))) for line in done.stdout.splitlines()]


def apart(ours, theirs):
    """How far two positions are apart along the easting or the northing; 0 where there is none in both."""
    return 0.0 if ours == theirs else max(abs(one - other) for one, other in zip(ours, theirs))


def main(program=None):
    found = places()
    theirs = [position for zone, of_zone in found.items() for position in by_proj(*zone, of_zone)]
    ours = by_program(program or built(), found)
    most = max(apart(*pair) for pair in zip(ours, theirs, strict=True))
    print(f"{len(ours)} places, largest difference {most:.2g} m")
    return 0 if most <= MOST else 1


if __name__ == "__main__":
    sys.exit(main(*sys.argv[1:]))
