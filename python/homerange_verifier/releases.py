"""The list of all programs that were ever released, release/RELEASES: of each its version, its checksum, the logic that it was
proved in and the checksum of its sources. A line stays for ever, so that a folder outlives the version that made it. Before a
version is published it may have several."""

from __future__ import annotations

from pathlib import Path
from typing import NamedTuple


class Release(NamedTuple):
    """A released program."""

    version: str
    checksum: str
    logic: str
    sources: str

    @property
    def program(self) -> str:
        """What it says that it is."""
        return f"homerange {self.version} (logic {self.logic})"


def releases(path: Path) -> list[Release]:
    """The released programs, the first one first."""
    lines = path.read_text("utf-8").split("\n") if path.is_file() else []
    return [Release(*line.split(" ")) for line in lines if line]
