"""long_tracks.py FOLDER: makes tracks for tests of memory. In FOLDER each kind has folders that are named by their number
of fixes, and hold the tracks of one run:

    walk    one track, each fix at most 1,024 m from the one before along each axis: few are corners
    curve   one track in decimetres, each of whose fixes is a corner
    eight   eight walks

The shorter are the first fixes of the longest. Names are short, since each line of a report has one."""

import itertools
import pathlib
import sys

TOP = pathlib.Path(__file__).resolve().parents[2]
sys.path += [str(TOP / "bench"), str(TOP / "hostile")]

import polygon  # noqa: E402
import tracks  # noqa: E402

METRES, DECIMETRES = 1 << 24, 1 << 27


def write(kind, name, places, counts, parts=1):
    """Writes a track of so many parts, each of which has the same number of fixes."""
    lines = [f"{name},{i},{east},{north}\n" for i, (east, north) in enumerate(places)]
    for count in counts:
        folder = kind / str(count)
        folder.mkdir(parents=True, exist_ok=True)
        with open(folder / f"{name}.csv", "w") as file:
            file.write(f"{tracks.HEADER}\n")
            file.writelines(itertools.islice(lines, count // parts))


def main():
    folder = pathlib.Path(sys.argv[1])
    counts = [1 << 18, 1 << 19, 1 << 20]
    write(folder / "walk", "w", tracks.walk(1, counts[-1], 1024, METRES), counts)
    for part in range(8):
        write(folder / "eight", f"w{part}", tracks.walk(part, counts[-1] // 8, 1024, METRES), counts, 8)
    corners = polygon.corners(1 << 19, margin=0, limit=DECIMETRES)
    write(folder / "curve", "c", corners, [1 << 17, 1 << 18, 1 << 19])


if __name__ == "__main__":
    main()
