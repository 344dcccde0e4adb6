"""What a verifier finds: sentences that held, that did not hold, and that were not looked at."""

from __future__ import annotations

import errno
from typing import Sequence

LONGEST, MOST = 700, 9  # signs of a sentence, and names of a list
NO_ROOM = (errno.ENOSPC, errno.EDQUOT, errno.ENOMEM, errno.EMFILE, errno.ENFILE)


class Unwritten(Exception):
    """What was found cannot be written."""


class Findings:
    """Sentences, printed as they are found."""

    def __init__(self) -> None:
        self.counts = {"held": 0, "did not hold": 0, "not looked at": 0}
        self.stops: set[str] = set()

    def write(self, line: str) -> None:
        try:
            print(line, flush=True)
        except OSError:
            raise Unwritten from None

    def say(self, how: str, text: str) -> None:
        self.counts[how] += 1
        self.write(f"{how}: {one_line(text)}")

    def held(self, text: str) -> None:
        self.say("held", text)

    def failed(self, text: str) -> None:
        self.say("did not hold", text)

    def unseen(self, text: str) -> None:
        self.say("not looked at", text)

    def note(self, text: str) -> None:
        """Says what nobody can know from what was handed in."""
        self.write(f"not known: {one_line(text)}")

    def hold(self, fault: str | None, text: str) -> bool:
        """Says the sentence where there is no fault, and else the fault."""
        if fault:
            self.failed(fault)
        else:
            self.held(text)
        return not fault

    def stopped(self, fault: Exception, room: object) -> None:
        """Says once what ends a step: a fault of the folder, or of this machine, which has not the room to look at it. A fault
        of the system that is of no file is the machine's."""
        text = f"{fault.filename}: {fault.strerror}" if isinstance(fault, OSError) else str(fault)
        text, say = text.replace(f"{room}/given/", "").replace(f"{room}/", ""), self.failed
        if isinstance(fault, MemoryError) or isinstance(fault, OSError) and (fault.filename is None or fault.errno in NO_ROOM):
            text, say = "this machine has no room for what comes next: give it memory, or name a TMPDIR with more disk", self.unseen
        if text not in self.stops:
            say(text)
        self.stops.add(text)

    def status(self) -> int:
        """0 where all held, 1 where something did not, 3 where something was not looked at."""
        return 1 if self.counts["did not hold"] else 3 if self.counts["not looked at"] else 0


def one_line(text: object) -> str:
    """A text with what could change how it is shown written out, and without the middle of one that is long."""
    whole = str(text)
    some = whole if len(whole) <= LONGEST else f"{whole[:LONGEST // 2]} .. {whole[-LONGEST // 2:]}"
    return "".join(sign if sign.isprintable() else ascii(sign)[1:-1] for sign in some)


def listed(words: Sequence[str], most: int = MOST) -> str:
    """Words as a sentence has them, of many the first and how many more there are."""
    some = [*words[:most], *[f"{len(words) - most} more"] * (len(words) > most)]
    return " and ".join(filter(None, (", ".join(some[:-1]), some[-1])))


def having(names: Sequence[str]) -> str:
    """Names that a stranger gave, with the verb of a sentence on what their files have."""
    return listed([f"'{name}'" for name in names]) + (" has" if len(names) == 1 else " have")
