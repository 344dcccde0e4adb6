"""Says on a terminal how far long work is."""

from __future__ import annotations

import sys
import time
from typing import Any, Callable

from .errors import calling, refuse, shown

QUIET = 1.0  # seconds for which nothing is said


class Bar:
    """A line on standard error that says how many of how many runs are done, and is gone at the end."""

    def __init__(self) -> None:
        self.begin, self.width = time.monotonic(), 0

    def __call__(self, done: int, of: int) -> None:
        if done < of and time.monotonic() - self.begin > QUIET:
            self.show(f"homerange: {done} of {of} runs")
        elif self.width:
            self.show("")

    def show(self, text: str) -> None:
        print(f"\r{text.ljust(self.width)}", end="\r" * (not text), file=sys.stderr, flush=True)
        self.width = len(text)


class Log:
    """What a command of this name says on standard error: lines, and on a terminal what it is at."""

    def __init__(self, name: str) -> None:
        self.name, self.bar = name, Bar() if sys.stderr.isatty() else None

    def say(self, line: str, by: str | None = None) -> None:
        """Says a line, which is by another command where that is named."""
        self.clear()
        print(f"{by or self.name}: {line}", file=sys.stderr)

    def at(self, text: str) -> None:
        self.clear()
        if self.bar:
            self.bar.show(f"{self.name}: {text} ..")

    def clear(self) -> None:
        if self.bar and self.bar.width:
            self.bar.show("")


def progress_of(wish: Any) -> Callable[[int, int], object] | None:
    """What is called as runs are done: what was given, a bar on a terminal, or nothing."""
    if callable(wish):
        def called(done: int, of: int) -> None:
            with calling("progress: the function"):
                wish(done, of)

        return called
    if wish is not None and not isinstance(wish, bool):
        refuse(f"progress={shown(wish)} is neither True nor False, nor a function of two numbers")
    return Bar() if wish or wish is None and sys.stderr.isatty() else None
