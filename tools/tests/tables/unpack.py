#!/usr/bin/env python3
"""unpack.py FOLDER: writes the cases of this folder as files, a folder for each. README.md says what they are."""
import re
import sys
from datetime import datetime, timezone
from pathlib import Path

from generate import generated, generated_texts

HERE = Path(__file__).resolve().parent
ENDS = {"|": b"\n", "r|": b"\r\n", "c|": b"\r", "n|": b""}
TITLES = "animal,second,easting,northing"


class Case:
    """One case, as the lines of a file have it."""

    def __init__(self, name, only=""):
        self.name, self.only = name, only
        self.table, self.call, self.tracks, self.files = b"", [], {}, {}

    def track(self, line):
        """Takes a line of a track."""
        def second(found):
            moment = datetime.strptime(found[1], "%Y-%m-%d %H:%M:%S").replace(tzinfo=timezone.utc)
            return f",{int(moment.timestamp())},"

        self.tracks.setdefault(line.split(",")[0], []).append(re.sub(",@([^,]*),", second, line))

    def write(self, folder):
        """Writes the files of the case."""
        own = folder / self.name
        own.mkdir()
        (own / "table.csv").write_bytes(self.table)
        texts = {**self.files, "only": [self.only] if self.only else [], "call": self.call}
        for name, lines in texts.items():
            if lines:
                (own / name).write_text("".join(f"{line}\n" for line in lines), encoding="utf-8")
        if self.tracks:
            (own / "tracks").mkdir()
        titles = TITLES + ",use" * ("mark" in self.call)
        for animal, lines in self.tracks.items():
            text = "".join(f"{line}\n" for line in [titles, *lines])
            (own / "tracks" / f"{animal}.csv").write_text(text, encoding="utf-8", newline="\n")


def bytes_of(text):
    """The bytes of a line of a table."""
    return re.sub(rb"\\x([0-9A-F]{2})", lambda found: bytes([int(found[1], 16)]), text.encode())


def take(case, kind, text, known):
    """Takes a line of a case that has this kind."""
    if kind in ENDS:
        text = re.sub(r"^\$(\w+)", lambda found: known.get(found[1], found[0]), text)
        case.table += bytes_of(text) + ENDS[kind]
    elif kind == ">":
        case.track(text)
    elif kind == "call:":
        case.call += [option.strip() for option in text.split("; ")]
    elif kind == "only:":
        case.only = text if text != "both" else ""
    elif kind == "names:":
        case.files.setdefault("names", []).append("\t".join(text.split(" = ")))
    else:
        name = {"!": "refusal", "shift:": "shift", "said:": "said", "silent:": "silent"}[kind]
        case.files.setdefault(name, []).append(text)


def read(path):
    """The cases of a file."""
    cases, known, only = [], {}, ""
    for line in path.read_text("utf-8").split("\n"):
        kind, _, text = line.partition(" ")
        if kind == "==":
            cases.append(Case(text.partition(":")[0], only))
        elif kind == "let":
            name, _, value = text.partition(" = ")
            known[name] = value
        elif kind == "only:" and not cases:
            only = text
        elif kind and not kind.startswith("#"):
            take(cases[-1], kind, text, known)
    return cases


def made(name, table, call, tracks, refusal, only=""):
    """A case of a table that was made."""
    case = Case(name, only)
    case.table, case.call = table, call
    for line in tracks:
        case.track(line)
    if refusal:
        case.files["refusal"] = [refusal]
    return case


def main():
    folder = Path(sys.argv[1])
    folder.mkdir(parents=True)
    cases = [case for path in sorted(HERE.glob("*.cases")) for case in read(path)]
    cases += [made(*given) for given in generated()] + [made(*given, only="text") for given in generated_texts()]
    for case in cases:
        if bool(case.tracks) == ("refusal" in case.files):
            sys.exit(f"unpack.py: {case.name} wants either tracks or a refusal")
        case.write(folder)
    print(len(cases), "cases")


if __name__ == "__main__":
    main()
