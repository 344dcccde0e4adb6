"""Times the whole program as fixes and corners grow, beside plain Rust, and draws a picture of it.

A *curve* is a track whose fixes all stay corners, in shuffled order; of a *walk* few are. Of each the first table has
the milliseconds from start to end, the median of several turns, by the number of fixes. Plain Rust has its chains of
corners as sorted vectors or as trees. Curves of more than 300,000 corners are in decimetres, and too long for vectors.
The picture, both axes of which are logarithmic, goes to the file that is named.
"""

import argparse
import itertools
import math
import pathlib
import tempfile
from dataclasses import dataclass

import programs
import timing

CORNERS = (1 << 12, 1 << 14, 1 << 16, 227264, 900000)
FIXES = (1 << 12, 1 << 14, 1 << 16, 1 << 18, 1 << 20)
MOST_IN_METRES = 300000
COLOURS = {"homerange": "#b2182b", "vectors": "#777777", "trees": "#2166ac"}
# The picture's plane: the powers of ten that its sides stand for, and where they are drawn.
LEFT, RIGHT, TOP, BOTTOM = 70, 560, 40, 400
ACROSS = (3.5, 6.1)
UP = (0, 5)


@dataclass(frozen=True)
class Line:
    """How one program does on one kind of track: pairs of a number of fixes and milliseconds."""

    program: str
    track: str
    points: tuple


def read_options():
    parser = argparse.ArgumentParser(description=__doc__)
    parser.add_argument("picture", type=pathlib.Path, help="where the picture goes, as SVG")
    parser.add_argument("--turns", type=timing.one_or_more, default=3, metavar="N", help="how often each program is run (3)")
    parser.add_argument("--homerange", type=pathlib.Path, metavar="FILE", help="the program, where it is built already")
    return parser.parse_args()


def limit_of(count):
    return timing.METRES if count <= MOST_IN_METRES else timing.DECIMETRES


def make_files(maker, folder):
    for count in CORNERS:
        timing.make_curves(maker, f"curve{count}-", count, limit_of(count), folder)
    programs.output([maker, "tracks", folder], "")
    with open(f"{folder}/walk.csv") as walk:
        lines = walk.readlines()
    for count in FIXES:
        pathlib.Path(folder, f"walk{count}.csv").write_text("".join(lines[: count + 1]))


def file_of(track, count):
    return f"curve{count}--shuffled.csv" if track == "curve" else f"walk{count}.csv"


def options_of(track, count):
    return ["--unit", "dm"] if track == "curve" and limit_of(count) == timing.DECIMETRES else []


def times_of(track, count, commands, folder, turns):
    """The milliseconds of each program that is quick enough, by its name."""
    arguments = [*options_of(track, count), file_of(track, count)]
    chosen = {name: command for name, command in commands.items() if not options_of(track, count) or name != "vectors"}
    found = timing.medians([[*command, *arguments] for command in chosen.values()], folder, turns)
    return {name: took for name, (took, *_) in zip(chosen, found)}


def lines_of(track, counts, commands, folder, turns):
    """Prints a table of one kind of track, and gives a line for each program."""
    print(f"| {track}, fixes | {' | '.join(commands)} |\n|---|{'---|' * len(commands)}")
    taken = {}
    for count in counts:
        taken[count] = times_of(track, count, commands, folder, turns)
        cells = [f"{taken[count][name]:.0f}" if name in taken[count] else "" for name in commands]
        print(f"| {count} | {' | '.join(cells)} |", flush=True)
    return [
        Line(name, track, tuple((n, times[name]) for n, times in taken.items() if name in times)) for name in commands
    ]


def across(fixes):
    return LEFT + (math.log10(fixes) - ACROSS[0]) / (ACROSS[1] - ACROSS[0]) * (RIGHT - LEFT)


def up(milliseconds):
    return BOTTOM - (math.log10(milliseconds) - UP[0]) / (UP[1] - UP[0]) * (BOTTOM - TOP)


def drawn_axes():
    for power in range(UP[0], UP[1] + 1):
        y = up(10**power)
        yield f'<line x1="{LEFT}" y1="{y:.1f}" x2="{RIGHT}" y2="{y:.1f}" stroke="#dddddd"/>'
        yield f'<text x="{LEFT - 6}" y="{y + 4:.1f}" text-anchor="end">{10 ** (power - 3):g}</text>'
    for power in range(math.ceil(ACROSS[0]), math.floor(ACROSS[1]) + 1):
        x = across(10**power)
        yield f'<line x1="{x:.1f}" y1="{TOP}" x2="{x:.1f}" y2="{BOTTOM}" stroke="#dddddd"/>'
        yield f'<text x="{x:.1f}" y="{BOTTOM + 18}" text-anchor="middle">{10**power:,}</text>'
    yield f'<text x="{LEFT}" y="{TOP - 14}">seconds</text>'
    yield f'<text x="{RIGHT}" y="{BOTTOM + 36}" text-anchor="end">fixes</text>'


def drawn(line):
    """A line with a dot at each run and its name at its end; a walk's is dashed."""
    places = [(across(fixes), up(took)) for fixes, took in line.points]
    path = " ".join(f"{x:.1f},{y:.1f}" for x, y in places)
    dashes = ' stroke-dasharray="5 4"' if line.track == "walk" else ""
    colour = COLOURS[line.program]
    yield f'<polyline points="{path}" fill="none" stroke="{colour}" stroke-width="2"{dashes}/>'
    for x, y in places:
        yield f'<circle cx="{x:.1f}" cy="{y:.1f}" r="3" fill="{colour}"/>'


def drawn_names():
    names = itertools.product(COLOURS, ("curve", "walk"))
    for place, (program, track) in enumerate(names):
        y = TOP + 12 + 18 * place
        dashes = ' stroke-dasharray="5 4"' if track == "walk" else ""
        style = f'stroke="{COLOURS[program]}" stroke-width="2"{dashes}'
        yield f'<line x1="{LEFT + 12}" y1="{y}" x2="{LEFT + 44}" y2="{y}" {style}/>'
        yield f'<text x="{LEFT + 52}" y="{y + 4}">{program}, {track}</text>'


def picture(lines):
    parts = [*drawn_axes(), *(part for line in lines for part in drawn(line)), *drawn_names()]
    body = "\n".join(parts)
    return (
        f'<svg xmlns="http://www.w3.org/2000/svg" width="{RIGHT + 40}" height="{BOTTOM + 50}" '
        f'font-family="sans-serif" font-size="12">\n<rect width="100%" height="100%" fill="white"/>\n{body}\n</svg>\n'
    )


def main():
    options = read_options()
    proved = options.homerange.resolve() if options.homerange else programs.proved("homerange", "--help")
    with tempfile.TemporaryDirectory() as folder:
        plain = programs.plain("program_plain.rs", folder)
        timing.apart(make_files, programs.plain("program_files.rs", folder), folder)
        commands = {"homerange": [proved], "vectors": [plain], "trees": [plain, "--trees"]}
        lines = lines_of("curve", CORNERS, commands, folder, options.turns)
        lines += lines_of("walk", FIXES, commands, folder, options.turns)
    options.picture.write_text(picture(lines))


if __name__ == "__main__":
    main()
