"""Gives `homerange-page` odd folders: pipes, sockets, links and folders in the places of files, files that change meanwhile,
names of all kinds, and reports that are cut or have numbers that are too great.

    python3 page_files.py HOMERANGE_PAGE

HOMERANGE_PAGE is the built program. Each trial has to end with the status that is named for it. Where that is 0, the four
files are those of a plain folder. Else there is one line on standard error, and all files are as before. No line has a
control character. Prints what went wrong; the last line is 'N passed, M failed'. Needs `cc`. As root it runs as nobody where
a file has to be another's.
"""

import os
import re
import shutil
import signal
import socket
import sys

sys.dont_write_bytecode = True

import rooms
from page_folder import MADE, OWL, OWN, PARTS, REPORT, WHOLE
from refusing import tree
from rooms import SIGNS, expect, refuses_odd_words, unread_pipe

READ = ("of/report.txt", "of/tracks/fox.csv", "of/tracks/split.txt", "of/boundary.csv")
ODD_NAMES = ("a\nb", "\r", "\t", *(f"a{sign}b" for sign in SIGNS))
ODD_WORDS = (
    (b"\xff",),
    (b"--title", b"\xc3", b"of"),
    (b"--\xe9", b"of"),
    (b"--clock", b"\nUTC", b"of"),
    (b"--clock", b"../../../etc/passwd", b"of"),
    (b"--clock", b"/etc/passwd", b"of"),
    (b"--\x1b[2J\nx", b"of"),
    (b"--shift", "\u2028\u0085".encode(), b"of"),
    (b"--shift", b"1000000000,0", b"of"),
    (b"--made", b"2026-02-29", b"of"),
    (b"--program-sum", b"0", b"of"),
    (b"--area-difference", b"0.1,0.2", b"of"),
    (b"of", b"of"),
    (b"",),
    (),
)
# What stands in a report, and numbers in its place that are greater than any of a report, or than any number of its kind.
TOO_GREAT = (
    (b"fixes,4", b"fixes,1048577"),
    (b"fixes,4", b"fixes,18446744073709551620"),
    (b"row,fox,4,180,", b"row,fox,4,18446744073709551796,"),
    (b"percent,fox,100,4", b"percent,fox,101,4"),
    (b"percent,fox,100,4", b"percent,fox,356,4"),
    (b"percent,fox,100,4,3,1200", b"percent,fox,100,4,3,18446744073709552816"),
    (b"row,fox,4,180,3,1200", b"row,fox,4,180,3,340282366920938463463374607431768212656"),
    (b"end,2", b"end,65"),
)
# The same for numbers of which lines elsewhere in it say others.
NOT_OF_OTHERS = (
    (b"box,fox,1000", b"box,fox,16777217"),
    (b"corner,fox,2,1040", b"corner,fox,2,4294968336"),
    (b"row,fox,4,180,", b"row,fox,4,1099511627777,"),
    (b"overlap,owl,fox,1,2", b"overlap,owl,fox,3,2"),
)


class Room(rooms.Room):
    """Where tables and the page are made of folders."""

    name = "homerange-page"
    line = re.compile("homerange-page: [^\x00-\x1f\x7f-\x9f\u2028\u2029]+\n")

    def plain(self, files=WHOLE, *words):
        """What a plain folder comes to."""
        with self.with_files(files) as folder:
            return self.run(folder, *words, "of")


def expect_made(found, plain):
    """That a run made the four files of another, said nothing, and left nothing in the making."""
    expect(found.status == 0 and not found.told, "status 0 and no line are wanted", found)
    for path in MADE:
        expect(plain.files.get(path) and found.files.get(path) == plain.files[path], f"another {path}", found)
    expect(not PARTS & found.files.keys(), "something is left", found)


def put_socket(path):
    """Puts a socket in a place, by a short way to it."""
    here = os.open(path.parent, os.O_RDONLY)
    with socket.socket(socket.AF_UNIX) as end:
        end.bind(f"/proc/self/fd/{here}/{path.name}")
    os.close(here)


def put_link(path):
    """Puts a link to a file with the same bytes in its place."""
    beside = path.with_name("beside")
    beside.write_bytes(WHOLE[f"of/{path.name}" if path.parent.name == "of" else f"of/tracks/{path.name}"])
    path.symlink_to(beside.name)


# What may stand in the place of a file.
OTHERS = {
    "a pipe": os.mkfifo,
    "a socket": put_socket,
    "a folder": os.mkdir,
    "a link to a file": put_link,
    "a link to nothing": lambda path: path.symlink_to("nothing"),
    "a link to itself": lambda path: path.symlink_to(path.name),
    "a link to a device": lambda path: path.symlink_to("/dev/null"),
    "a link to an endless device": lambda path: path.symlink_to("/dev/zero"),
}


def in_places_of_read_files(room):
    """a pipe, a socket, a folder or a link in the place of a file that is read"""
    for path in READ:
        for put in OTHERS.values():
            with room.with_files(WHOLE) as folder:
                (folder / path).unlink()
                put(folder / path)
                before = tree(folder)
                room.expect_refused(room.run(folder, "of"), 1, f"{path}: ", before)


def in_places_of_made_files(room):
    """a pipe, a socket or a link in the place of a file that is made, which is replaced"""
    plain = room.plain()
    for path in MADE:
        for name, put in OTHERS.items():
            if name not in ("a folder", "a link to a file"):
                with room.with_files(WHOLE) as folder:
                    put(folder / path)
                    expect_made(room.run(folder, "of"), plain)


def a_link_in_the_place_of_a_made_file(room):
    """a link to a file in the place of one that is made, or in the making: that file stays as it is"""
    plain = room.plain()
    for path in (*MADE, *sorted(PARTS)):
        with room.with_files({**WHOLE, "of/own": b"of mine"}) as folder:
            (folder / path).symlink_to("own")
            found = room.run(folder, "of")
            expect_made(found, plain)
            expect(found.files["of/own"] == b"of mine", "what a link leads to was written over", found)


def a_folder_in_the_place_of_a_made_file(room):
    """a folder in the place of a file that is made, or in the making: each other is whole"""
    plain = room.plain()
    for path in (*MADE, *sorted(PARTS)):
        with room.with_files({**WHOLE, f"{path}/own": b"of mine"}) as folder:
            before = tree(folder)
            found = room.run(folder, "of")
            made = {name: text for name, text in found.files.items() if name not in before}
            expect(all(plain.files.get(name) == text for name, text in made.items()), "a file that is not whole", found)
            expect(path in MADE or not made, "a file was made", found)
            room.expect_refused(found, 4, ": ", {**before, **made})


def a_folder_that_is_none(room):
    """a folder that is not there, a file, or below one"""
    with room.with_files(WHOLE) as folder:
        before = tree(folder)
        room.expect_refused(room.run(folder, "none"), 1, "none/report.txt is not there", before)
        room.expect_refused(room.run(folder, "of/report.txt"), 1, "Not a directory", before)
        room.expect_refused(room.run(folder, "n" * 300), 1, "File name too long", before)
    with room.with_files({"of/report.txt": REPORT, "of/tracks": b""}) as folder:
        before = tree(folder)
        room.expect_refused(room.run(folder, "of"), 1, "of/tracks: it is no folder", before)


def tracks_that_are_a_link(room):
    """a link to a folder in the place of the tracks"""
    with room.with_files({path.replace("of/tracks", "of/own"): text for path, text in WHOLE.items()}) as folder:
        (folder / "of/tracks").symlink_to("own")
        room.expect_refused(room.run(folder, "of"), 1, "of/tracks: it is no folder", tree(folder))


def other_ways_to_the_folder(room):
    """a folder by a link, with a slash behind it, and the working folder"""
    plain = room.plain()
    for way in ("of/", "./of//", "link", "link/"):
        with room.with_files(WHOLE) as folder:
            (folder / "link").symlink_to("of")
            expect_made(room.run(folder, way), plain)
    with room.with_files(WHOLE) as folder:
        room.run(folder / "of", ".")
        expect(all(tree(folder)[path] == plain.files[path] for path in MADE), "other files", tree(folder))


def odd_folders(room):
    """names of folders with ends of lines, controls, and signs that turn a line"""
    plain = room.plain()
    for name in ODD_NAMES:
        with room.with_files(WHOLE) as folder:
            room.expect_refused(room.run(folder, name), 1, "report.txt is not there", tree(folder))
            (folder / "of").rename(folder / name)
            expect(room.run(folder, name).status == 0, "status 0 is wanted", name)
            (folder / name).rename(folder / "of")
            expect(all(tree(folder)[path] == plain.files[path] for path in MADE), "other files", tree(folder))


def odd_tracks(room):
    """names of tracks of all kinds, and files beside them"""
    plain = room.plain()
    for name in (*ODD_NAMES, ".", "\u00fc", "n" * 250):
        with room.with_files({**WHOLE, "of/tracks/notes.txt": b"x", "of/tracks/old.CSV": b"x"}) as folder:
            (folder / "of/tracks/owl.csv").rename(folder / f"of/tracks/{name}.csv")
            expect_made(room.run(folder, "of"), plain)
            (folder / f"of/tracks/{name}.csv").write_bytes(b"x")
            before = tree(folder)
            room.expect_refused(room.run(folder, "of"), 1, "tracks/", before)


def tracks_without_a_text(room):
    """a track whose name is no text"""
    with room.with_files(WHOLE) as folder:
        os.rename(os.fsencode(folder / "of/tracks/owl.csv"), os.fsencode(folder) + b"/of/tracks/\xff.csv")
        room.expect_refused(room.run(folder, "of"), 1, "", tree(folder))


def odd_words(room):
    """words that are no text, with controls, or not as they have to be"""
    refuses_odd_words(room, WHOLE, ODD_WORDS)


def a_report_that_is_cut(room):
    """a report that ends at each byte of its last two lines"""
    for at in range(REPORT.rindex(b"overlap"), len(REPORT)):
        files = {**WHOLE, "of/report.txt": REPORT[:at]}
        with room.with_files(files) as folder:
            room.expect_refused(room.run(folder, "of"), 1, "report.txt: line ", tree(folder))


def a_report_that_goes_on(room):
    """a report with more behind its last line"""
    for more in (b"\n", b"end,2\n", b"x", b"\0"):
        with room.with_files({**WHOLE, "of/report.txt": REPORT + more}) as folder:
            room.expect_refused(room.run(folder, "of"), 1, "report.txt: line ", tree(folder))


def refuses_report(room, files, old, new, text):
    """That a report is refused in which something stands in the place of something else."""
    expect(REPORT.count(old) == 1, "it does not stand once in the report", old)
    with room.with_files({**files, "of/report.txt": REPORT.replace(old, new)}) as folder:
        room.expect_refused(room.run(folder, "of"), 1, text, tree(folder))


def a_report_with_great_numbers(room):
    """a report with numbers that are too great, with tracks and without"""
    for old, new in TOO_GREAT:
        for files in (WHOLE, {}):
            refuses_report(room, files, old, new, "report.txt: line ")
    for old, new in NOT_OF_OTHERS:
        for files in (WHOLE, {}):
            refuses_report(room, files, old, new, "report.txt: animal ")


def files_that_do_not_agree(room):
    """a track that is another, that is missing, and one too many"""
    other = OWL.replace(b"owl", b"bat")
    for path, text in (("owl.csv", OWL.replace(b"1050", b"1051")), ("owl.csv", other), ("bat.csv", other), ("owl2.csv", OWL)):
        with room.with_files({**OWN, f"of/tracks/{path}": text}) as folder:
            room.expect_refused(room.run(folder, "of"), 1, "tracks", tree(folder))
    with room.with_files({path: text for path, text in WHOLE.items() if path != "of/tracks/owl.csv"}) as folder:
        room.expect_refused(room.run(folder, "of"), 1, "owl", tree(folder))


def little_memory(room):
    """a report of 300 MB, with 100 MB of memory"""
    with room.with_files(WHOLE) as folder:
        os.truncate(folder / "of/report.txt", 300 << 20)
        found = room.with_memory(folder, 100 << 20, "of")
        room.expect_refused(found._replace(files={}), 3, "memory", {})
        expect(not {*MADE, *PARTS} & found.files.keys(), "a file was made", found.status)


def a_report_that_is_replaced(room):
    """a report that is replaced after it was read"""
    with room.with_files(WHOLE) as folder:
        running = room.stopped(folder, "PLACE", 1, "of")
        (folder / "of/report.txt").write_bytes(b"of another")
        os.kill(running.pid, signal.SIGCONT)
        expect_made(room.end(folder, running), room.plain())


def a_track_that_goes(room):
    """a track that goes after it was listed"""
    with room.with_files(WHOLE) as folder:
        running = room.stopped(folder, "LIST", 2, "of")
        (folder / "of/tracks/owl.csv").unlink()
        before = tree(folder)
        os.kill(running.pid, signal.SIGCONT)
        room.expect_refused(room.end(folder, running), 1, "of/tracks/owl.csv is not there", before)


def another_run_meanwhile(room):
    """another run in the same folder, while the files of one are in the making"""
    plain = room.plain()
    with room.with_files(WHOLE) as folder:
        running = room.stopped(folder, "PLACE", 1, "of")
        expect_made(room.run(folder, "of"), plain)
        os.kill(running.pid, signal.SIGCONT)
        room.expect_refused(room.end(folder, running), 4, "of/summary.csv: ", plain.files)


def a_folder_that_goes(room):
    """a folder that goes while its files are in the making"""
    with room.with_files(WHOLE) as folder:
        running = room.stopped(folder, "SYNC", 1, "of")
        shutil.rmtree(folder / "of")
        os.kill(running.pid, signal.SIGCONT)
        room.expect_refused(room.end(folder, running), 4, "of/animals.csv: ", {})


def files_of_others(room):
    """files that may not be read, and folders that may not be written, listed or seen"""
    for path, mode, status in (
        *((path, 0, 1) for path in READ),
        ("of", 0o555, 4),
        ("of", 0, 1),
        ("of/tracks", 0, 1),
        ("of/tracks", 0o111, 1),
        ("of/tracks", 0o444, 1),
    ):
        with room.with_files(WHOLE) as folder:
            before = tree(folder)
            (folder / path).chmod(mode)
            found = room.as_nobody(folder, "of")
            (folder / path).chmod(0o755)
            room.expect_refused(found._replace(files=tree(folder)), status, "Permission denied", before)


def full_outputs(room):
    """standard output and standard error that are full, closed or a pipe that nobody reads"""
    with room.with_files(WHOLE) as folder, open("/dev/full", "wb") as full, unread_pipe() as pipe:
        before = tree(folder)
        for output in (full, pipe):
            for word in ("--help", "--version"):
                room.expect_refused(room.run(folder, word, stdout=output), 4, "standard output", before)
            expect(room.run(folder, "none", stderr=output).status == 1, "status 1 is wanted", output)
            expect_made(room.run(folder, "of", stdout=output, stderr=output), room.plain())
            for path in MADE:
                (folder / path).unlink()
        closed = {"stdout": None, "preexec_fn": lambda: os.close(1)}
        room.expect_refused(room.run(folder, "--help", **closed), 4, "standard output", before)
        expect_made(room.run(folder, "of", stderr=None, preexec_fn=lambda: os.close(2)), room.plain())


TRIALS = (
    in_places_of_read_files,
    in_places_of_made_files,
    a_link_in_the_place_of_a_made_file,
    a_folder_in_the_place_of_a_made_file,
    a_folder_that_is_none,
    tracks_that_are_a_link,
    other_ways_to_the_folder,
    odd_folders,
    odd_tracks,
    tracks_without_a_text,
    odd_words,
    a_report_that_is_cut,
    a_report_that_goes_on,
    a_report_with_great_numbers,
    files_that_do_not_agree,
    little_memory,
    a_report_that_is_replaced,
    a_track_that_goes,
    another_run_meanwhile,
    a_folder_that_goes,
    files_of_others,
    full_outputs,
)


if __name__ == "__main__":
    rooms.main(__doc__.split("\n\n")[0], Room, TRIALS)
