"""Has the program homerange-split make tracks of a table: what it says, with its options said as arguments, and which errors
come of what it refuses."""

from __future__ import annotations

import csv
import io
import re
import subprocess
from typing import Iterable, NoReturn

from ..errors import FAULTS, FrameError, ProgramError, one_line
from .words import FLAGS, FORMS, in_program, said

KINDS = {"memory": 3, "output": 4}  # kinds of refusals that are none of a table or an option, and their status
NAMES = {in_program(name): name for name in (*FORMS, *FLAGS)}
NUMBERS = ("skip_lines", "max_dop", "max_speed")
# An option as the program says it, with its value if one of these words does not follow; what is quoted is passed over.
NO_VALUE = "and|are|for|has|is|leaves|names|or|out|times"
VALUE = rf"(?: (?!(?:{NO_VALUE})\b)('[^']*'|[^\s']*[^\s',;:.)])|=('[^']*'|[^\s']+?(?=[,;:)]?(?:\s|$))))"
OPTION = re.compile(rf"'[^']*'|--({'|'.join(sorted(NAMES, key=len, reverse=True))})(?![\w-])(?:{VALUE})?")
FOLLOWED = re.compile(rf"(--[a-z-]+{VALUE})(?= --[a-z])")  # by another one, without a comma between
WORD = re.compile(f"({'|'.join(name for name in NAMES if '-' in name)})(?= is )")  # at the start of what is said of a word


def as_arguments(text: str, kind: str = "") -> str:
    """What the program says, or refuses as of a kind, with its options said as arguments: zone='33N' for --zone 33N."""
    def argument(found: re.Match[str]) -> str:
        if found[1] is None:
            return found[0]
        name, value = NAMES[found[1]], found[2] or found[3]
        if value is None:
            return f"{name}=True" if name in FLAGS else name
        bare = value.removeprefix("'").removesuffix("'")
        return f"{name}={bare if name in NUMBERS else repr(bare)}"

    own = WORD.match(text) if kind == "option" else None
    named = text if own is None else f"{NAMES[own[1]]}{text[own.end():]}"
    return OPTION.sub(argument, FOLLOWED.sub(r"\1,", named))


def split_table(path: str, into: str, words: Iterable[str], program: str, folder: str | None = None) -> list[str]:
    """Has the program make the folder of tracks of a table, called in a folder, and answers what it says of it."""
    table = "./-" if path == "-" else said(path, "path")  # the program takes - for standard input
    try:
        run = subprocess.run([program, "--machine", f"--into={into}", *words, "--", table], capture_output=True, cwd=folder,
                             stdin=subprocess.DEVNULL)
    except OSError as fault:
        raise ProgramError(f"{program} does not run: {fault.strerror}") from fault
    if run.returncode != 0:
        refuse_run(run.returncode, run.stderr.decode("utf-8", "replace"), program)
    lines = run.stderr.decode("utf-8", "replace").split("\n")
    return [one_line(line.removeprefix("split: ")) for line in lines if line]


def refuse_run(status: int, text: str, program: str) -> NoReturn:
    """Raises the error of a refusal, which is a record of CSV: its kind, the table, the number of the record that has the
    fault, and the text. The text has neither the table nor the record."""
    rows = [*csv.reader(io.StringIO(text, newline=""))]
    is_refusal = len(rows) == 1 and len(rows[0]) == 4 and status in (1, 2, 3, 4)
    if not is_refusal or not (rows[0][2] == "" or rows[0][2].isdecimal() and rows[0][2].isascii()):
        line = text.strip().split("\n")[-1] or "it says no more"
        raise ProgramError(one_line(f"{program} ended with status {status}: {line}"))
    kind, _, record, line = map(one_line, rows[0])
    if kind in KINDS:
        raise FAULTS[KINDS[kind]](line)
    raise FrameError(line, kind, int(record) if record else None)
