"""Which files are written over: such as the package made itself, and others only where that is asked for."""

from __future__ import annotations

import os
import sqlite3
from contextlib import closing
from pathlib import Path

from ..errors import FileError, one_line, refuse

LAYERS = {"ranges", "fixes", "layer_styles"}  # of a GeoPackage that write_layers made
LISTED = "SELECT table_name FROM gpkg_contents"
STYLED = "SELECT count(*) FROM layer_styles WHERE description = 'homerange'"
TITLE = b"<title>"  # of a page; what stands before it is the same in each


def check_ending(path: Path, *endings: str) -> None:
    """Refuses the name of a file that ends otherwise, in whatever letters."""
    if path.suffix.lower() not in endings:
        refuse(f"path={str(path)!r}: a name that ends in {' or '.join(endings)} is wanted")


def is_full(path: Path) -> bool:
    """Whether there is a file with something in it."""
    return os.path.isfile(path) and os.path.getsize(path) > 0


def refuse_other_page(path: Path, page: Path) -> None:
    """Refuses to write this page over a file that is none."""
    if not is_full(path):
        return
    head = page.read_bytes().partition(TITLE)[0]
    with path.open("rb") as file:
        if file.read(len(head)) != head:
            raise FileError(one_line(f"{path} is there, and is no page of write_page: name another file, or say overwrite=True"))


def refuse_other_layers(path: Path) -> None:
    """Refuses to write layers over a file that has others, or is none with layers."""
    if not is_full(path):
        return
    try:
        with closing(sqlite3.connect(f"{path.absolute().as_uri()}?mode=ro", uri=True)) as base:
            layers = [name for name, in base.execute(LISTED)]
            is_own = base.execute(STYLED).fetchone()[0] > 0 if "layer_styles" in layers else False
    except sqlite3.DatabaseError:
        layers, is_own = [], False
    other = next((name for name in layers if name not in LAYERS), None)
    if other is not None or not is_own:
        has = "and is no file of write_layers" if other is None else f"and has a layer {other!r}"
        raise FileError(one_line(f"{path} is there, {has}: name another file, or say overwrite=True, which removes what is in it"))
