"""What forgeries.py, forged_tables.py and forged_frames.py share: one who hands in a folder and forges it, the forgeries by
their names, and how each is tried in a folder of its own and held to what tools/verify.py says of it."""
import copy
import os
import random
import re
import shlex
import shutil
import subprocess
import sys
import tempfile
from datetime import datetime, timedelta
from pathlib import Path

TOOLS = Path(__file__).resolve().parents[1]
TITLES = "individual-local-identifier,timestamp,utm-easting,utm-northing,utm-zone,visible\n"
SUM = re.compile("[0-9a-f]{64}")
UNSEEN, UNKNOWN = "not looked at: ", "not known: "
OTHERS = (UNSEEN, UNKNOWN)
PATIENCE = 60  # seconds that a verification may take


def export_text(seed):
    """An export of two wolves, of which each twentieth fix is marked as an outlier."""
    draw, lines = random.Random(seed), []
    for name, east in (("Bor", 561000), ("Vesna", 562500)):
        moment, place = datetime(2024, 9, 20), [east, 5134000]
        for number in range(60):
            moment += timedelta(hours=3, seconds=draw.randrange(60))
            place = [end + draw.randrange(-400, 401) for end in place]
            lines.append(f"{name},{moment},{place[0]},{place[1]},33N,{'false' if number % 20 == 7 else 'true'}\n")
    return TITLES + "".join(lines)


def checksum(path):
    said = subprocess.run(["sha256sum"], stdin=open(path, "rb"), stdout=subprocess.PIPE, check=True, text=True)
    return SUM.search(said.stdout)[0]


def line_of_track(line, folder):
    """A line of split.txt as the track that it names has it now."""
    path = folder / f"{line.split(',')[1]}.csv" if line.startswith("track,") else None
    if path is None or not path.is_file():
        return line
    content = path.read_bytes()
    rows = content.count(b"\n") - 1
    left_out = content.count(b",0\n") if b",use" in content[:60] else 0
    return f"track,{path.stem},{rows},{rows - left_out},{checksum(path)}"


class Hand:
    """One who forges: a folder that was handed in, and what it was made of. A subclass says how it is made."""

    honest = 0  # the status of verify.py where all is as it was

    def __init__(self, program, room, export):
        self.program, self.room, self.export, self.folder = program, room, room / "export.csv", room / "hand-in"
        self.outside = room / "outside"  # what nobody may write
        self.splitter = Path(program).with_name("homerange-split")
        self.hand_in(export)

    def hand_in(self, export):
        """Makes the folder of the text of an export."""
        self.export.write_text(export)
        self.make()

    def call(self, *words, folder=None):
        run = subprocess.run(list(map(str, words)), cwd=folder or self.room, stdout=subprocess.PIPE, stderr=subprocess.PIPE,
                             env={**os.environ, "HOMERANGE": str(self.program)})
        if run.returncode != 0:
            raise SystemExit(f"{Path(sys.argv[0]).name}: {words} said {run.stderr.decode()}")
        return run.stdout

    def path(self, name):
        return self.folder / name

    def edit(self, name, change):
        """Changes the bytes of a file, which have to be others then."""
        before = self.path(name).read_bytes()
        after = change(before)
        assert after != before, f"{name} did not change"
        self.path(name).write_bytes(after)

    def sub(self, name, old, new, count=1):
        self.edit(name, lambda content: re.sub(old.encode(), new.encode(), content, count=count, flags=re.M))

    def seal(self):
        """All checksums anew: in split.txt those of the tracks, in SHA256SUMS those of all files."""
        record = self.path("tracks/split.txt")
        if record.is_file():
            lines = record.read_text("utf-8").split("\n")
            record.write_text("\n".join(line_of_track(line, record.parent) for line in lines), "utf-8")
        self.seal_files()

    def seal_files(self):
        """SHA256SUMS anew."""
        paths = sorted(path for path in self.folder.rglob("*") if path.is_file() and path.name != "SHA256SUMS")
        self.path("SHA256SUMS").write_text("".join(f"{checksum(path)}  {path.relative_to(self.folder)}\n" for path in paths))

    def sealed_edit(self, name, change):
        self.edit(name, change)
        self.seal()

    def sealed_sub(self, name, old, new, count=1):
        self.sub(name, old, new, count)
        self.seal()

    def run(self, *words):
        """Runs the program over the tracks as they are now, and writes the report."""
        files = sorted(f"tracks/{path.name}" for path in self.path("tracks").glob("*.csv"))
        words = words or ("--percent", "50,95,100", "--unit", "m")
        self.path("report.txt").write_bytes(self.call(self.program, *words, "--", *files, folder=self.folder))
        arguments = f"arguments: {shlex.join([*words, '--', *files])}"
        about = re.sub("(?m)^arguments: .*", lambda _: arguments, self.path("evidence.txt").read_text("utf-8"))
        self.path("evidence.txt").write_text(about, "utf-8")

    def sealed_run(self, *words):
        self.run(*words)
        self.seal()

    def verdict(self):
        """What verify.py says, and its status."""
        named = filter(None, (self.folder, self.export))
        try:
            run = subprocess.run([sys.executable, TOOLS / "verify.py", *named, "--program", self.program],
                                 stdout=subprocess.PIPE, stderr=subprocess.STDOUT, text=True, timeout=PATIENCE)
        except subprocess.TimeoutExpired:
            return -1, f"nothing in {PATIENCE} s"
        return run.returncode, run.stdout


class Forgeries(dict):
    """By their names forgeries, each with parts of what has to be said: of lines that begin with 'did not hold', unless a part
    begins as another line does; none where it can't be known."""

    def __call__(self, name, *wanted):
        """Keeps the function below it by this name."""
        def keep(forge):
            assert name not in self, f"{name} stands there twice"
            self[name] = (forge, wanted)
            return forge
        return keep

    def sealed(self, name, *wanted, file, old, new, count=1):
        """Keeps a forgery that puts other text into a file, with all checksums made anew."""
        self(name, *wanted)(lambda hand: hand.sealed_sub(file, old, new, count))


def form_of(text):
    """What finds a part of what has to be said."""
    return f"^{text}" if text.startswith(OTHERS) else f"^did not hold: .*{text}"


def status_of(hand, wanted):
    """The status with which such parts have to be said."""
    if any(not text.startswith(OTHERS) for text in wanted):
        return 1
    return 3 if any(text.startswith(UNSEEN) for text in wanted) else hand.honest


def fault_of(hand, wanted):
    """How verify.py does not say what is wanted; None where it does."""
    status, said = hand.verdict()
    if hand.outside.exists():
        return f"{hand.outside.name} was written"
    unsaid = [text for text in (*wanted, "not known: who made the run") if not re.search(form_of(text), said, re.M)]
    has_failed = "\ndid not hold: " in f"\n{said}"
    if unsaid or status != status_of(hand, wanted) or has_failed != (status == 1) or "Traceback" in said:
        return f"status {status}, {unsaid} is not said: {said}"
    return None


def try_all(make, forgeries):
    """Tries forgeries, each in a copy of what is made in a room."""
    with tempfile.TemporaryDirectory() as base:
        room = Path(base, "room")
        room.mkdir()
        honest = make(room)
        status, said = honest.verdict()
        print("ok an honest folder" if status == honest.honest else f"failed an honest folder: {said!r}")
        shutil.copytree(room, Path(base, "kept"))
        for name, (forge, wanted) in forgeries.items():
            shutil.rmtree(room)
            shutil.copytree(Path(base, "kept"), room)
            hand = copy.copy(honest)
            forge(hand)
            fault = fault_of(hand, wanted)
            print(f"failed {name}: {fault!r}" if fault else f"ok {name}", flush=True)


def try_export(kind, program, seed, forgeries):
    """Tries forgeries of what one of this kind hands in, made by a program of the export of a seed."""
    try_all(lambda room: kind(Path(program).resolve(), room, export_text(seed)), forgeries)
