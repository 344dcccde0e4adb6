"""Compares homerange's rows with the convex hulls of CGAL, GEOS, Boost and JTS, of sets of points in their own test data.

The folder has the unpacked sources of these libraries; point_sets.py says what is read there and how coordinates become
whole numbers. Of each set the first 512 points are a track. For each of its fixes, the corners and the doubled area in
homerange's row are compared with those of the hull of all fixes so far, by each library anew. Debian's packages of the
libraries are used, and nothing is fetched. The status is 1 where something differs.
"""

import argparse
import itertools
import pathlib
import subprocess
import tempfile
from collections.abc import Iterator
from dataclasses import dataclass

from point_sets import PointSet, Points, all_sets

HERE = pathlib.Path(__file__).resolve().parent
NEEDS = (
    "run `apt-get install g++ libcgal-dev libgeos-dev libboost-dev libjts-java default-jdk-headless` and, in FOLDER and with"
    " deb-src lines in apt's sources, `apt-get source cgal geos boost1.74 jts`; where that of cgal is gone, unpack"
    " the tar files of the package libcgal-demo in FOLDER/cgal"
)
JAR = "/usr/share/java/jts-core.jar"
COMPILE = ("g++", "-O2", "-DNDEBUG", "-std=c++17", "-frounding-math")
LONGEST = 512  # each hull is made anew, so time grows with the square of this
GROUP = 64  # the most files of a run of homerange


@dataclass(frozen=True)
class Peer:
    """A library, its package, and the program here that makes its hulls."""

    name: str
    package: str
    source: str
    links: tuple[str, ...] = ()

    def version(self) -> str:
        done = subprocess.run(["dpkg-query", "-W", "-f=${Version}", self.package], capture_output=True, text=True)
        if done.returncode:
            raise SystemExit(f"no package {self.package}: {NEEDS}")
        return done.stdout

    def command(self, built: str) -> list[str]:
        """The command of the program, which is built into the folder."""
        source, program = str(HERE / self.source), f"{built}/{self.name}"
        if source.endswith(".java"):
            subprocess.run(["javac", "-cp", JAR, "-d", built, source], check=True)
            return ["java", "-cp", f"{JAR}:{built}", pathlib.Path(source).stem]
        subprocess.run([*COMPILE, "-o", program, source, *self.links], check=True)
        return [program]


PEERS = (
    Peer("CGAL", "libcgal-dev", "agreement_cgal.cpp", ("-lgmp", "-lmpfr")),
    Peer("GEOS", "libgeos-dev", "agreement_geos.cpp", ("-lgeos_c",)),
    Peer("Boost", "libboost1.74-dev", "agreement_boost.cpp"),
    Peer("JTS", "libjts-java", "Agreement.java"),
)


def read_options() -> argparse.Namespace:
    parser = argparse.ArgumentParser(description=__doc__, epilog=NEEDS, formatter_class=argparse.RawDescriptionHelpFormatter)
    parser.add_argument("folder", type=pathlib.Path, metavar="FOLDER", help="where the sources of the libraries are unpacked")
    parser.add_argument("--homerange", type=pathlib.Path, required=True, metavar="PROG", help="the built program")
    parser.add_argument("--most", type=int, metavar="N", help="take only the first N sets")
    return parser.parse_args()


def write_track(path: pathlib.Path, points: Points) -> None:
    lines = [f"{path.stem},{n},{east},{north}\n" for n, (east, north) in enumerate(points)]
    path.write_text("animal,second,easting,northing\n" + "".join(lines))


def rows_of(homerange: pathlib.Path, sets: list[PointSet], work: str) -> Iterator[str]:
    """The corners and the doubled area of each row of a run over these sets."""
    paths = [pathlib.Path(work, f"set{i}.csv") for i in range(len(sets))]
    for path, found in zip(paths, sets):
        write_track(path, found.points)
    report = subprocess.run([homerange, "--percent", "100", *paths], stdout=subprocess.PIPE, text=True, check=True).stdout
    rows = [line.split(",") for line in report.splitlines() if line.startswith("row,")]
    wanted = [["row", f"set{i}", str(n + 1), str(n)] for i, found in enumerate(sets) for n in range(len(found.points))]
    if [row[:4] for row in rows] != wanted:
        raise SystemExit(f"the report of {sets[0].path} and the sets behind it has other rows than fixes")
    yield from (" ".join(row[4:]) for row in rows)


def hulls_of(command: list[str], sets: list[PointSet]) -> list[str]:
    """The corners and the doubled area of each prefix of the sets, by the program of a library."""
    lines = [f"{east} {north}" for found in sets for east, north in ((len(found.points), ""), *found.points)]
    return subprocess.run(command, input="\n".join(lines), stdout=subprocess.PIPE, text=True, check=True).stdout.splitlines()


def differences(sets: list[PointSet], ours: list[str], theirs: list[str]) -> list[str]:
    """What is to be said of each prefix that differs."""
    places = (f"set {i} ({found.path}), fix {n + 1}" for i, found in enumerate(sets) for n in range(len(found.points)))
    lines = itertools.zip_longest(places, ours, theirs)
    return [f"{place}: corners and doubled area {their}, of homerange {our}" for place, our, their in lines if our != their]


def main() -> None:
    options = read_options()
    versions = {peer: peer.version() for peer in PEERS}
    sets = list(itertools.islice(all_sets(options.folder, LONGEST), options.most))
    if not sets:
        raise SystemExit(f"{options.folder} has no sets: {NEEDS}")
    failed = []
    with tempfile.TemporaryDirectory() as work:
        groups = [sets[first : first + GROUP] for first in range(0, len(sets), GROUP)]
        rows = [row for group in groups for row in rows_of(options.homerange.resolve(), group, work)]
        print("| Library | Version | Sets | Prefixes | Differences |\n|---|---|---|---|---|", flush=True)
        for peer, version in versions.items():
            found = differences(sets, rows, hulls_of(peer.command(work), sets))
            print(f"| {peer.name} | {version} | {len(sets):,} | {len(rows):,} | {len(found):,} |", flush=True)
            failed += [f"{peer.name}: {found[0]}"] if found else []
    raise SystemExit("\n".join(failed) or 0)


if __name__ == "__main__":
    main()
