"""Runs of a program that is given odd files, each in a folder of its own, and what is expected of them. `split_files.py` and
`page_files.py` say what each program is given. Needs `cc`.

As root it runs as nobody where a file has to be another's.
"""

import argparse
import contextlib
import os
import pathlib
import re
import resource
import shutil
import subprocess
import tempfile
import threading

import refusing
from refusing import Found, Wrong, tree

SECONDS = 60
NOBODY = 65534
CONTROL = re.compile("[\x00-\x1f\x7f-\x9f\u2028\u2029]")
SIGNS = ("\x1b[31m", "\u0085", "\u009b2J", "\u2028", "\u2029", "\x7f", "\x08")


class Room:
    """Where runs are made: the program, a library that makes calls fail, and a folder for each run."""

    name: str  # of the program
    line: re.Pattern  # what it says

    def __init__(self, program, folder):
        self.folder, self.program = folder, folder / self.name
        shutil.copy(program, self.program)
        self.library = refusing.Runs(self.program, folder).library
        folder.chmod(0o755)

    @contextlib.contextmanager
    def with_files(self, files):
        """A folder with these files, by their paths."""
        with tempfile.TemporaryDirectory(dir=self.folder) as name:
            folder = pathlib.Path(name)
            folder.chmod(0o755)
            for path, text in files.items():
                (folder / path).parent.mkdir(parents=True, exist_ok=True)
                (folder / path).write_bytes(text)
            yield folder

    def start(self, folder, *words, **streams):
        pipes = {"stdin": subprocess.DEVNULL, "stdout": subprocess.PIPE, "stderr": subprocess.PIPE, **streams}
        return subprocess.Popen([self.program, *words], cwd=folder, **pipes)

    def end(self, folder, running, given=None):
        """What a run comes to."""
        try:
            output, told = running.communicate(given, SECONDS)
        except subprocess.TimeoutExpired:
            running.kill()
            raise Wrong(f"no end within {SECONDS} seconds") from None
        return Found(running.returncode, (output or b"").decode(), (told or b"").decode(), tree(folder))

    def run(self, folder, *words, given=None, **streams):
        more = {} if given is None else {"stdin": subprocess.PIPE}
        return self.end(folder, self.start(folder, *words, **more, **streams), given)

    def as_nobody(self, folder, *words):
        """What a run comes to that is not root's."""
        streams = {"user": NOBODY, "group": NOBODY, "extra_groups": []} if os.geteuid() == 0 else {}
        return self.run(folder, *words, **streams)

    def with_memory(self, folder, size, *words):
        """What a run comes to that has so many bytes of memory."""
        return self.run(folder, *words, preexec_fn=lambda: resource.setrlimit(resource.RLIMIT_AS, (size, size)))

    def stopped(self, folder, kind, at, *words):
        """A run that stops at this call of a kind."""
        calls = {"LD_PRELOAD": str(self.library), f"{kind}_AT": str(at), f"{kind}_AS": "-1"}
        running = self.start(folder, *words, env=calls)
        _, status = os.waitpid(running.pid, os.WUNTRACED)
        if not os.WIFSTOPPED(status):
            raise Wrong(f"there is no call {at} of {kind}")
        return running

    def expect_refused(self, found, status, text, before):
        """That a run was refused in one line, which has this text, and left all as it was."""
        expect(found.status == status, f"status {status} is wanted", found)
        expect(self.line.fullmatch(found.told) and text in found.told, f"one line with {text!r} is wanted", found)
        expect(found.files == before, "files are not as before", found)


def expect(is_so, why, found):
    if not is_so:
        raise Wrong(f"{why}: {found}")


def feed(path, pieces):
    """Writes pieces into a pipe, in a thread of its own."""
    def write():
        with contextlib.suppress(BrokenPipeError), open(path, "wb", 0) as pipe:
            for piece in pieces:
                pipe.write(piece)

    writing = threading.Thread(target=write, daemon=True)
    writing.start()
    return writing


@contextlib.contextmanager
def unread_pipe():
    """A pipe that nobody reads."""
    reader, writer = os.pipe()
    os.close(reader)
    with open(writer, "wb") as pipe:
        yield pipe


def refuses_odd_words(room, files, all_words):
    """That each of these words of a call is refused beside these files."""
    with room.with_files(files) as folder:
        before = tree(folder)
        for words in all_words:
            found = room.run(folder, *words)
            expect(found.status in (1, 2), "a refusal is wanted", found)
            room.expect_refused(found, found.status, "", before)


def is_well(trial, room):
    try:
        trial(room)
    except Wrong as wrong:
        print(f"failed: {trial.__doc__}: {wrong}")
        return False
    return True


def main(description, room_of, trials):
    """All trials of a program, and ends."""
    parser = argparse.ArgumentParser(description=description)
    parser.add_argument("program", type=pathlib.Path, help="the built program")
    program = parser.parse_args().program
    with tempfile.TemporaryDirectory() as name:
        room = room_of(program, pathlib.Path(name))
        found = [is_well(trial, room) for trial in trials]
    print(f"{found.count(True)} passed, {found.count(False)} failed")
    raise SystemExit(not all(found))
