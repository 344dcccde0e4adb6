#!/usr/bin/env python3
"""run_program.py PROGRAM: whether homerange-split makes of each table of this folder the tracks that are wanted, or refuses it
as it is wanted, in a Turkish locale, and says and writes what records.txt has of it, but for the lines of rules that are newer. Behind
them come the rules that run_rules.py has, the titles and words that run_titles.py and run_words.py refuse, several exports of run_several.py,
and whether its presets are those of collars.csv."""
import csv
import hashlib
import os
import re
import subprocess
import sys
import tempfile
from concurrent.futures import ThreadPoolExecutor
from pathlib import Path

sys.dont_write_bytecode = True
from cases import cases, difference, finish
from run_presets import faults as preset_faults
from run_rules import faults
from run_several import faults as several_faults
from run_titles import faults as title_faults
from run_words import faults as word_faults

HERE = Path(__file__).resolve().parent
# What records.txt has not, since its reader did not say it: whole lines, and what stands behind the box in the line of columns.
MORE_LINES = re.compile(r"(?:not read: .*|all [0-9,]+ fixes lie within .*|the fixes of each animal that has 10 or more lie within .*"
                        r"|[0-9,]+ of [0-9,]+ fixes of .* k?m from the others: .*"
                        r"|animals .* differ in (?:zeros|the form of letters(?: and in blanks or capitals)?) alone: are they one\?"
                        r"|[0-9]+ times have parts of a second: .*|.* lies? [0-9,]+ km from the other animals: .*"
                        r"|animal '.*' has [0-9]+ records: are they of no animal\?"
                        r"|--na: no field of the columns that are read is '.*'|[0-9]+ times have no offset, which others have, .*)")
MORE_OF_COLUMNS = re.compile(r"(columns: .* box [0-9.]+ by [0-9.]+ km)(?: near [0-9.]+ [EW] [0-9.]+ [NS])?(?:,? from .*)?")
OTHER_KINDS = ("export", "sha256", "tool")  # of lines of a record that records.txt has not


def wanted_records():
    """Of each table the lines of the record that are wanted: those that another reader of the same rules wrote, which went when the
    program took its place."""
    found = {}
    for block in (HERE / "records.txt").read_text("utf-8").split("== ")[1:]:
        name, _, lines = block.partition("\n")
        found[name] = lines.split("\n")[:-1]
    return found


def words(case):
    """The options of a case as words of a command."""
    return [word for name, value in case.options.items() for word in ([f"--{name}", value] if value else [f"--{name}"])]


def check_refusal(case, run, told, into):
    """How the end of the program is not the refusal that is wanted, nor what --machine tells of it."""
    record, kind = case.refusal()
    lines = run.stderr.decode().splitlines()
    if run.returncode not in (1, 2) or into.exists() or len(lines) != 1:
        return f"status {run.returncode} where it is to be refused as {kind}: {lines}"
    found = re.match("split: (?:record ([0-9]+): )?.", lines[0])
    if not found or (found[1] or "-") != record:
        return f"says {lines[0]!r}, and record {record} is wanted"
    rows = list(csv.reader(told.stderr.decode().splitlines()))
    if told.returncode != run.returncode or len(rows) != 1 or rows[0][0] != kind or (rows[0][2] or "-") != record:
        return f"--machine tells {rows}, and {kind} of record {record} is wanted"
    silent = [text for text in case.said if text not in lines[0]]
    return f"says {lines[0]!r}, and not {silent[0]!r}" if silent else None


def older_lines(lines):
    """Lines that are said, without what records.txt has not."""
    return [MORE_OF_COLUMNS.sub(r"\1", line) for line in lines if not MORE_LINES.fullmatch(line)]


def check_tracks(case, run, into, wanted):
    """How what the program made and said is not what is wanted."""
    if run.returncode:
        return f"status {run.returncode}: {run.stderr.decode()}"
    found = {path.name.removesuffix(".csv"): path.read_bytes() for path in into.iterdir() if path.name.endswith(".csv")}
    record = (into / "split.txt").read_text("utf-8").split("\n")[:-1]
    said = [line.partition(",")[2] for line in record if line.startswith("said,")]
    fixes = sum(content.count(b"\n") - 1 for content in found.values())
    last = f"{fixes} fixes of {len(found)} animals are in tracks, in {case.options.get('unit', 'm')}"
    if run.stderr.decode().split("\n")[:-1] != [f"split: {line}" for line in (*said, last)]:
        return f"says {run.stderr.decode()!r}, and its record {said}"
    own = [line for line in record if line.partition(",")[0] not in (*OTHER_KINDS, "said")]
    if own + [f"said,{line}" for line in older_lines(said)] != [line for line in wanted if not line.startswith("said,")] + [
            line for line in wanted if line.startswith("said,")]:
        return f"has the record {record} where {wanted} is wanted"
    if [f"sha256,{hashlib.sha256(case.table.read_bytes()).hexdigest()}"] != [line for line in record if line.startswith("sha256,")]:
        return "has another checksum of the table"
    silent = [text for text in case.said if not any(text in line for line in said)]
    odd = [line for line in said if any(text in line for text in case.silent)]
    return difference(case.tracks, found) or (f"{silent[0]!r} is not said" if silent else f"{odd[0]!r} is said" if odd else None)


def check(case, program, room, records):
    """How the program does not do what is wanted of it with a case; None where it does."""
    folder = room / case.name
    folder.mkdir(parents=True)
    call = [*words(case), "--", str(case.table.resolve())]
    found = subprocess.run([program, *call], capture_output=True, cwd=folder)
    if case.refusal():
        told = subprocess.run([program, "--machine", *call], capture_output=True, cwd=folder)
        return check_refusal(case, found, told, folder / "tracks")
    return check_tracks(case, found, folder / "tracks", records.get(case.name, []))


def main():
    program, env, records = str(Path(sys.argv[1]).resolve()), dict(os.environ, PYTHONDONTWRITEBYTECODE="1"), wanted_records()
    with tempfile.TemporaryDirectory() as name:
        room = Path(name)
        subprocess.run([sys.executable, str(HERE / "unpack.py"), str(room / "tables")], check=True, env=env)
        found = list(cases(room / "tables", "text"))
        with ThreadPoolExecutor(4) as pool:
            results = list(pool.map(lambda case: check(case, program, room / "made", records), found))
    own = [*faults(program), *title_faults(program), *word_faults(program), *several_faults(program), *preset_faults()]
    finish([*((case.name, fault) for case, fault in zip(found, results)), *own])


if __name__ == "__main__":
    main()
