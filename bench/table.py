"""Times the program and its parts beside plain Rust, and prints the table of docs/PERFORMANCE.md.

A case is a row; without one it prints those of the page. Of each case what all ways come to is compared first, and it
stops where they differ. Then they are run in turns, since a machine's pace wanders.

Of a part a time is the least of all runs, each of which makes several passes over cover flags and percent polygons. Of
the whole program it is the median of the turns, from start to end, with the report sent to /dev/null; beside it stand
the medians of the processor's time, its own and the system's, and, of homerange, of the most memory that a run held.
The ratios are those of the time and of the processor's time to the plain way that took the least time, which is named,
and then to plain Rust whose fields the crate csv reads, as the proved port of it does homerange's.
Behind the table stands the share of the processors' time that other machines took meanwhile, builds included.
"""

import argparse
import functools
import pathlib
import tempfile

import parts
import program
import programs
import timing

ROWS = {
    "flags-12-walk": "flags, 12 corners",
    "flags-200-walk": "flags, 200 corners",
    "flags-20000-walk": "flags, 20,000 corners",
    "inserts-walk": "inserts, walk",
    "inserts-spiral": "inserts, spiral",
    "inserts-shuffled": "inserts, curve shuffled",
    "percents": "percent polygons, walk",
    "follow-walk-1": "one file followed, walk",
    "follow-files-4": "eight files followed",
    "walk": "program, walk",
    "walk-block-1": "program, walk, with `--block 1`",
    "walk-cores-1": "program, walk, on one core",
    "walk-cores-1-block-1": "program, walk, on one core with `--block 1`",
    "scattered": "program, scattered",
    "growing": "program, spiral",
    "eight-workers-4": "program, eight files",
    "herd": "program, 64 files",
    "curve": "program, curve",
    "curve-shuffled": "program, curve shuffled",
    "curve-falling": "program, curve falling",
    "fine-curve-shuffled": "program, fine curve shuffled",
}
CASES = (*(case for part in parts.PARTS for case in part.cases), *program.CASES)
HEAD = (
    "| What | ms | user, ms | system, ms | MB | plain Rust, ms | user, ms | system, ms | ratio | of processor time |"
    " with csv, ms | ratio | of processor time |\n|---|---|---|---|---|---|---|---|---|---|---|---|---|"
)


def named_case(name):
    if name not in CASES:
        raise argparse.ArgumentTypeError(f"no case {name}; --help lists them")
    return name


def read_options():
    parser = argparse.ArgumentParser(
        description=__doc__, epilog=f"Cases: {', '.join(CASES)}", formatter_class=argparse.RawDescriptionHelpFormatter
    )
    parser.add_argument("cases", nargs="*", type=named_case, metavar="CASE", help="a row of the table")
    parser.add_argument("--runs", type=timing.one_or_more, metavar="N", help="how often each way is run (parts 5, the program 3 to 9)")
    parser.add_argument("--homerange", metavar="FILE", help="the program, where it is built already")
    parser.add_argument("--benches", metavar="FILE", help="that of crates/benches, where it is built already")
    parser.add_argument("--compare", action="store_true", help="compare what all come to, and time nothing")
    return parser.parse_args()


def built(path, crate, *arguments):
    """The proved program at this path, or else the one that `rt` builds."""
    return pathlib.Path(path).resolve() if path else programs.proved(crate, *arguments)


def ratios(ours, plain):
    """Of the time and of the processor's time, where that is known."""
    return [f"{ours[0] / plain[0]:.2f}", f"{sum(ours[1:3]) / sum(plain[1:3]):.2f}" if ours[1:] else ""]


def row(case, ours, plain, by_csv=None):
    """A line of the table: what ours and each plain way took, the time alone or all four numbers."""
    way = min(plain, key=plain.get)
    digits = 0 if ours[0] >= 100 else 1
    cells = [f"{ours[0]:.{digits}f}", *(f"{x:.0f}" for x in ours[1:])]
    cells += [""] * (4 - len(cells))
    cells += [f"{plain[way][0]:.{digits}f}, {way}", *(f"{x:.0f}" for x in plain[way][1:3])]
    cells += [""] * (7 - len(cells))
    cells += ratios(ours, plain[way])
    cells += [f"{by_csv[0]:.{digits}f}", *ratios(ours, by_csv)] if by_csv else [""] * 3
    return f"| {ROWS.get(case, case)} | {' | '.join(cells)} |"


def time_parts(wanted, options, plain):
    benches = built(options.benches, "benches", "percents")
    for part in parts.PARTS:
        if wanted.isdisjoint(part.cases):
            continue
        runs = 1 if options.compare else options.runs or 5
        for case, took in parts.best(part, benches, plain, wanted, runs).items():
            ours = took.pop(parts.OURS)
            print(case if options.compare else row(case, (ours,), {way: (ms,) for way, ms in took.items()}), flush=True)


def time_programs(cases, options, plain, by_csv, folder):
    proved = built(options.homerange, "homerange", "--help")
    files = {name for case in cases for name in case.files}
    timing.apart(program.make_files, plain("program_files.rs"), files, folder)
    for case in cases:
        commands = program.commands_of(case, proved, plain("program_plain.rs"), by_csv)
        program.compare(case, commands, folder)
        if options.compare:
            print(case.name, flush=True)
            continue
        found = dict(zip(commands, timing.medians(list(commands.values()), folder, options.runs or case.turns)))
        ours, with_csv = found.pop("homerange"), found.pop(program.BY_CSV)
        print(row(case.name, ours, found, with_csv), flush=True)


def main():
    options = read_options()
    wanted = options.cases or list(ROWS)
    whole = [program.CASES[case] for case in wanted if case in program.CASES]
    began = timing.now()
    with tempfile.TemporaryDirectory() as folder:
        plain = functools.cache(functools.partial(programs.plain, folder=folder))
        by_csv = programs.plain_by_csv("program_plain.rs", folder) if whole else None
        print("All ways come to the same in:" if options.compare else HEAD, flush=True)
        if len(whole) < len(wanted):
            timing.apart(time_parts, set(wanted), options, plain)
        if whole:
            time_programs(whole, options, plain, by_csv, folder)
    if not options.compare:
        print(timing.stolen_since(began))


if __name__ == "__main__":
    main()
