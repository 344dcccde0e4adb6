"""Gives `homerange-split` odd files: pipes, folders, devices, links, files that change meanwhile, and names of all kinds.

    python3 split_files.py HOMERANGE_SPLIT

HOMERANGE_SPLIT is the built program. Each trial has to end with the status that is named for it. Where that is 0, the
folder is the one that the same bytes give as a plain file. Else there is one line on standard error, and all files are
as before. No line has a control character. Prints what went wrong; the last line is 'N passed, M failed'. Needs `cc`.
As root it runs as nobody where a file has to be another's.
"""

import os
import pathlib
import re
import signal
import sys

sys.dont_write_bytecode = True

import rooms
from refusing import tree
from rooms import CONTROL, SECONDS, SIGNS, expect, feed, refuses_odd_words, unread_pipe

TITLES = b"animal,second,easting,northing\n"
OWN = TITLES + b"fox,0,1000,2000\nowl,0,1500,2500\nfox,60,1010,2020\nowl,30,1510,2490\n"
LONG = TITLES + b"".join(b"fox,%d,%d,5134000\n" % (at, 562000 + at % 97) for at in range(30_000))
ODD_PATHS = ("a\nb.csv", "\r.csv", "\t.csv", *(f"a{sign}b.csv" for sign in SIGNS))
ODD_WORDS = (
    (b"\xff.csv",),
    (b"--into", b"\xc3", b"export.csv"),
    (b"--\xe9",),
    (b"--zone", b"\n33N", b"export.csv"),
    (b"--animal", b"\x1b[2J", b"export.csv"),
    (b"--\x1b[2J\nx", b"export.csv"),
    (b"--unit", b"a\nb", b"export.csv"),
    (b"--unit", "\u2028\u0085".encode(), b"export.csv"),
    (b"--into", b"a", b"export.csv", b"\nsecond\x1b"),
)
# Tables that are refused, in which a sign stands for each @.
ODD_TABLES = (
    "ani@mal,second,east@ing,northing\nfox,0,1,2\n",
    "animal,second,easting,northing\nfox,0,1@,2\n",
    "animal,second,easting,northing\nfo@x,0@,1,2\n",
    'animal,second,easting,northing\n"fo\n@x",x,1,2\n',
    "animal,second,easting,northing,dop@,id@\nfox,0,1000,x,1,1\n",
)


class Room(rooms.Room):
    """Where tracks are made of exports."""

    name = "homerange-split"
    line = re.compile("(?:homerange-)?split: [^\x00-\x1f\x7f-\x9f\u2028\u2029]+\n")

    def own(self, **files):
        """A folder with these files, whose names have a point for `__`."""
        return self.with_files({path.replace("__", "."): text for path, text in files.items()})

    def plain(self, text, *words):
        """What the same bytes come to as a plain file."""
        with self.own(export__csv=text) as folder:
            return self.run(folder, *words, "export.csv")


def expect_tracks(found, plain, are_told=True):
    """That a run made the tracks of another, and said the same."""
    made, wanted = (
        {path: text for path, text in each.files.items() if path.startswith("tracks")} for each in (found, plain)
    )
    expect(found.status == 0, "status 0 is wanted", found)
    expect(not are_told or found.told == plain.told, f"{plain.told!r} is wanted", found)
    expect(made == wanted, "other tracks", found)


def of_pipe(room, pieces):
    """What an export comes to that is a named pipe."""
    with room.own() as folder:
        os.mkfifo(folder / "export.csv")
        writing = feed(folder / "export.csv", pieces)
        found = room.run(folder, "export.csv")
        writing.join(SECONDS)
        return found


def a_pipe(room):
    """an export that is a named pipe"""
    expect_tracks(of_pipe(room, [OWN]), room.plain(OWN))


def a_pipe_of_pieces(room):
    """a named pipe that is written byte by byte"""
    expect_tracks(of_pipe(room, [OWN[at : at + 1] for at in range(len(OWN))]), room.plain(OWN))


def a_long_pipe(room):
    """a named pipe with more than a pipe holds"""
    expect_tracks(of_pipe(room, [LONG]), room.plain(LONG))


def a_pipe_that_ends_at_once(room):
    """a named pipe whose writer writes nothing"""
    room.expect_refused(of_pipe(room, []), 1, "", {"export.csv": None})


def a_pipe_that_is_cut(room):
    """a named pipe whose writer ends within a record"""
    room.expect_refused(of_pipe(room, [OWN[:-12]]), 1, "record 4", {"export.csv": None})


def standard_input(room):
    """standard input that is a pipe"""
    with room.own() as folder, room.own(export__csv=OWN) as other:
        found = room.run(folder, "-", given=OWN)
        with open(other / "export.csv", "rb") as file:
            expect_tracks(found, room.run(other, "-", stdin=file))


def no_standard_input(room):
    """standard input that is closed"""
    with room.own() as folder:
        found = room.run(folder, "-", stdin=None, preexec_fn=lambda: os.close(0))
        room.expect_refused(found, 1, "standard input", {})


def refused_export(room, path, text):
    with room.own(export__csv=OWN) as folder:
        (folder / "folder").mkdir()
        (folder / "loop").symlink_to("loop")
        (folder / "nowhere").symlink_to("missing")
        before = tree(folder)
        room.expect_refused(room.run(folder, path), 1, text, before)


def a_folder(room):
    """an export that is a folder"""
    refused_export(room, "folder", "folder: ")


def the_null_device(room):
    """an export that is /dev/null"""
    refused_export(room, "/dev/null", "")


def a_loop_of_links(room):
    """an export that is a link to itself"""
    refused_export(room, "loop", "loop: ")


def a_link_to_nothing(room):
    """an export that is a link to nothing"""
    refused_export(room, "nowhere", "nowhere: ")


def an_empty_path(room):
    """an export without a name"""
    refused_export(room, "", "")


def an_endless_device(room):
    """an export without an end, with 300 MB of memory"""
    with room.own() as folder:
        found = room.with_memory(folder, 300 << 20, "/dev/zero")
        room.expect_refused(found, 3, "memory", {})


def a_full_standard_error(room):
    """standard error that is full"""
    with room.own(export__csv=OWN) as folder, open("/dev/full", "wb") as full:
        expect_tracks(room.run(folder, "export.csv", stderr=full), room.plain(OWN), are_told=False)
        found = room.run(folder, "export.csv", stderr=full)
        expect(found.status == 1, "status 1 is wanted where the folder is there", found)


def no_standard_error(room):
    """standard error that is closed"""
    with room.own(export__csv=OWN) as folder:
        found = room.run(folder, "export.csv", stderr=None, preexec_fn=lambda: os.close(2))
        expect_tracks(found, room.plain(OWN), are_told=False)


def a_standard_error_that_nobody_reads(room):
    """standard error that is a pipe without a reader"""
    with room.own(export__csv=OWN) as folder, unread_pipe() as pipe:
        expect_tracks(room.run(folder, "export.csv", stderr=pipe), room.plain(OWN), are_told=False)


def a_full_standard_output(room):
    """standard output that is full"""
    with room.own(export__csv=OWN) as folder, open("/dev/full", "wb") as full:
        for word in ("--help", "--version"):
            room.expect_refused(room.run(folder, word, stdout=full), 4, "standard output", {"export.csv": OWN})
        expect_tracks(room.run(folder, "export.csv", stdout=full), room.plain(OWN))


def no_standard_output(room):
    """standard output that is closed"""
    with room.own(export__csv=OWN) as folder:
        closed = {"stdout": None, "preexec_fn": lambda: os.close(1)}
        room.expect_refused(room.run(folder, "--help", **closed), 4, "standard output", {"export.csv": OWN})
        expect_tracks(room.run(folder, "export.csv", **closed), room.plain(OWN))


def a_standard_output_that_nobody_reads(room):
    """standard output that is a pipe without a reader"""
    with room.own() as folder, unread_pipe() as pipe:
        expect(room.run(folder, "--help", stdout=pipe).status == 4, "status 4 is wanted", "")


def changed(room, change):
    """What an export comes to that is changed after a part of it was read, and how many bytes were read by then."""
    with room.own(export__csv=LONG) as folder:
        running = room.stopped(folder, "READ", 2, "export.csv")
        place = max(int(path.read_text().split()[1]) for path in pathlib.Path(f"/proc/{running.pid}/fdinfo").iterdir())
        change(folder / "export.csv", place)
        os.kill(running.pid, signal.SIGCONT)
        return room.end(folder, running), place


def expect_as(found, plain):
    """That a run comes to what another comes to."""
    expect(found.status == plain.status and found.told == plain.told, f"{plain.told!r} is wanted", found)
    own, other = ({path: text for path, text in each.files.items() if path != "export.csv"} for each in (found, plain))
    expect(own == other, "other files", found)


def a_file_that_grows(room):
    """an export that grows while it is read"""
    more = b"owl,1,562000,5134000\nowl,2,562000,5134001\n"

    def grow(path, place):
        with path.open("ab") as file:
            file.write(more)

    found, place = changed(room, grow)
    expect(0 < place < len(LONG), "it was not read by parts", place)
    expect_as(found, room.plain(LONG + more))


def a_file_that_shrinks(room):
    """an export that shrinks while it is read"""
    found, place = changed(room, lambda path, place: os.truncate(path, place - 9))
    expect_as(found, room.plain(LONG[:place]))


def a_file_that_is_replaced(room):
    """an export that is replaced while it is read"""
    def replace(path, place):
        path.with_name("new").write_bytes(OWN)
        path.with_name("new").rename(path)

    found, _ = changed(room, replace)
    expect_as(found, room.plain(LONG))


def a_folder_that_appears(room):
    """a folder of tracks that another makes meanwhile"""
    with room.own(export__csv=OWN) as folder:
        running = room.stopped(folder, "SYNC", 1, "export.csv")
        (folder / "tracks").mkdir()
        (folder / "tracks/fox.csv").write_bytes(b"of another")
        os.kill(running.pid, signal.SIGCONT)
        before = {"export.csv": OWN, "tracks": None, "tracks/fox.csv": b"of another"}
        room.expect_refused(room.end(folder, running), 1, "there already", before)


def refused_into(room, path, status, text, prepare=lambda folder: None):
    with room.own(export__csv=OWN) as folder:
        prepare(folder)
        before = tree(folder)
        room.expect_refused(room.run(folder, "--into", path, "export.csv"), status, text, before)


def into_a_link_to_nothing(room):
    """--into a link to nothing"""
    refused_into(room, "tracks", 1, "there already", lambda folder: (folder / "tracks").symlink_to("nothing"))


def into_a_link_to_a_folder(room):
    """--into a link to an empty folder"""
    def prepare(folder):
        (folder / "own").mkdir()
        (folder / "tracks").symlink_to("own")

    refused_into(room, "tracks", 1, "there already", prepare)


def into_a_file(room):
    """--into a file, and below one"""
    refused_into(room, "export.csv", 1, "there already")
    refused_into(room, "export.csv/tracks", 4, "Not a directory")


def into_a_pipe(room):
    """--into a named pipe"""
    refused_into(room, "tracks", 1, "there already", lambda folder: os.mkfifo(folder / "tracks"))


def into_a_loop(room):
    """--into a folder below a link to itself"""
    refused_into(room, "loop/tracks", 4, "loop", lambda folder: (folder / "loop").symlink_to("loop"))


def into_no_name(room):
    """--into the folder itself, the root, and paths that cannot be"""
    for path in (".", "..", "/"):
        refused_into(room, path, 1, "there already")
    for path in ("", "x/.", "x/..", "n" * 256, "a/" * 2100 + "x"):
        with room.own(export__csv=OWN) as folder:
            found = room.run(folder, "--into", path, "export.csv")
            expect(found.status in (1, 2, 4), "a refusal is wanted", found)
            room.expect_refused(found, found.status, "", {"export.csv": OWN})


def into_slashes(room):
    """--into a path that ends in a slash, and one with two within"""
    with room.own(export__csv=OWN) as folder:
        found = room.run(folder, "--into", "tracks/", "export.csv")
        expect(found.status == 0 and "tracks/fox.csv" in found.files, "tracks are wanted", found)
        found = room.run(folder, "--into", "of//this/year", "export.csv")
        expect(found.status == 0 and "of/this/year/fox.csv" in found.files, "tracks are wanted", found)


def a_file_of_others(room):
    """an export that may not be read"""
    with room.own(export__csv=OWN) as folder:
        (folder / "export.csv").chmod(0)
        found = room.as_nobody(folder, "export.csv")
        (folder / "export.csv").chmod(0o644)
        room.expect_refused(found._replace(files={}), 1, "Permission denied", {})
        expect(tree(folder) == {"export.csv": OWN}, "files are not as before", found)


def into_a_folder_of_others(room):
    """--into a folder that may not be written, and one that may not be seen"""
    with room.own(export__csv=OWN) as folder:
        for mode, path in ((0o555, "own/tracks"), (0o555, "own/of/tracks"), (0, "own/tracks")):
            (folder / "own").mkdir()
            (folder / "own").chmod(mode)
            found = room.as_nobody(folder, "--into", path, "export.csv")
            (folder / "own").rmdir()
            room.expect_refused(found._replace(files={}), 4, "Permission denied", {})


def odd_paths(room):
    """names of files with ends of lines, controls, and signs that turn a line"""
    for name in ODD_PATHS:
        with room.own() as folder:
            room.expect_refused(room.run(folder, name), 1, ".csv: ", {})
            (folder / name).write_bytes(OWN)
            found = room.run(folder, "--into", f"{name}.d", name)
            expect(found.status == 0 and f"{name}.d/split.txt" in found.files, "tracks are wanted", found)
            lines = found.told.splitlines(keepends=True)
            expect(all(map(room.line.fullmatch, lines)) and "".join(lines) == found.told, "lines with controls", found)
            record = found.files[f"{name}.d/split.txt"].decode()
            is_clean = not CONTROL.search(record.replace("\n", "")) and record.count("export,") == 1
            expect(is_clean, "a record with controls", record)
            before = tree(folder)
            room.expect_refused(room.run(folder, "--into", f"{name}.d", name), 1, "there already", before)


def odd_words(room):
    """words that are no text, and options with controls"""
    refuses_odd_words(room, {"export.csv": OWN}, ODD_WORDS)


def odd_cells(room):
    """titles and cells with controls in a refusal"""
    for sign in SIGNS:
        for table in ODD_TABLES:
            text = table.replace("@", sign)
            with room.own(export__csv=text.encode()) as folder:
                room.expect_refused(room.run(folder, "export.csv"), 1, "", {"export.csv": text.encode()})


def odd_names(room):
    """animals whose names have controls, in what is said"""
    names = [f"a{place}{sign}" for place, sign in enumerate(SIGNS)]
    text = TITLES + "".join(f"{name},{at},{1000 + at},2000\n" for name in names for at in range(2)).encode()
    with room.own(export__csv=text) as folder:
        found = room.run(folder, "export.csv")
        expect(found.status == 0, "tracks are wanted", found)
        lines = found.told.splitlines(keepends=True)
        expect(all(map(room.line.fullmatch, lines)) and "".join(lines) == found.told, "lines with controls", found)
        expect(sum(path.endswith(".csv") for path in found.files) == 1 + len(SIGNS), "a track of each is wanted", found)


TRIALS = (
    a_pipe,
    a_pipe_of_pieces,
    a_long_pipe,
    a_pipe_that_ends_at_once,
    a_pipe_that_is_cut,
    standard_input,
    no_standard_input,
    a_folder,
    the_null_device,
    a_loop_of_links,
    a_link_to_nothing,
    an_empty_path,
    an_endless_device,
    a_full_standard_error,
    no_standard_error,
    a_standard_error_that_nobody_reads,
    a_full_standard_output,
    no_standard_output,
    a_standard_output_that_nobody_reads,
    a_file_that_grows,
    a_file_that_shrinks,
    a_file_that_is_replaced,
    a_folder_that_appears,
    into_a_link_to_nothing,
    into_a_link_to_a_folder,
    into_a_file,
    into_a_pipe,
    into_a_loop,
    into_no_name,
    into_slashes,
    a_file_of_others,
    into_a_folder_of_others,
    odd_paths,
    odd_words,
    odd_cells,
    odd_names,
)


if __name__ == "__main__":
    rooms.main(__doc__.split("\n\n")[0], Room, TRIALS)
