"""The list of checksums of a folder, and what is wrong with its files by it."""

from __future__ import annotations

import base64
import binascii
import hashlib
import re
from pathlib import Path
from typing import Mapping

from .intake import SIGNATURES, SUMS, Intake
from .lines import Fault

PIECE = 2 ** 20  # bytes of a file that are read together
SUM = re.compile("([0-9a-f]{64})  (.+)")
ARMOUR = re.compile(b"-----BEGIN SSH SIGNATURE-----\n([A-Za-z0-9+/=\n]+)\n-----END SSH SIGNATURE-----\n")


def checksum_of(path: Path) -> str:
    found = hashlib.sha256()
    with open(path, "rb") as file:
        while piece := file.read(PIECE):
            found.update(piece)
    return found.hexdigest()


def lines_of(path: Path) -> list[str]:
    """The lines of a text, each of which ends in a line feed."""
    lines = path.read_bytes().decode("utf-8", "surrogateescape").split("\n")
    if lines.pop():
        raise Fault(f"the last line of {path.name} has no end")
    if any("\r" in line for line in lines):
        raise Fault(f"{path.name} has line ends of another system")
    return lines


def name_fault(name: str) -> str | None:
    """How a name is no plain one of a file in the folder: relative, without a way out of it, and one that other systems have."""
    if "\\" in name or {"", ".", ".."} & {*name.split("/")}:
        return "which is not a file in the folder: such a name is never looked at in a copy"
    return "and other systems cannot have ':' in a name: hand an export of that name in beside the folder" if ":" in name else None


def sums_of(path: Path) -> dict[str, str]:
    """The checksums of a list, by name."""
    sums: dict[str, str] = {}
    for number, line in enumerate(lines_of(path), 1):
        found = SUM.fullmatch(line)
        if not found:
            raise Fault(f"line {number} of {path.name} is no checksum and name")
        if found[2] in sums:
            raise Fault(f"{path.name} has {found[2]} twice")
        fault = name_fault(found[2])
        if fault:
            raise Fault(f"{path.name} names '{found[2]}', {fault}")
        sums[found[2]] = found[1]
    return sums


def unlisted(intake: Intake, sums: Mapping[str, str]) -> list[str]:
    """The files and folders that are not of a list. The list itself is of none, nor are its signatures."""
    above = {name.rsplit("/", depth)[0] for name in (*sums, "tracks/") for depth in range(1, name.count("/") + 1)}
    return [*(name for name in intake.names if name not in sums and name not in (SUMS, *SIGNATURES)),
            *(name for name in intake.folders if name not in above)]


def sums_fault(intake: Intake, sums: Mapping[str, str]) -> str | None:
    """How the files are not those of their list."""
    for name, wanted in sums.items():
        if name not in intake.names:
            return f"{name} is in {SUMS} and not there"
        if intake.sums[name] != wanted:
            return intake.text_fault(name, wanted) or f"{name} was changed since {SUMS} was written"
    return None


def is_signature(path: Path) -> bool:
    """Whether a file has the form of what ssh-keygen and openssl write."""
    content = path.read_bytes()
    if path.suffix == ".sig":
        armour = ARMOUR.fullmatch(content)
        try:
            return armour is not None and base64.b64decode(armour[1].replace(b"\n", b""), validate=True).startswith(b"SSHSIG")
        except binascii.Error:
            return False
    # A sequence of DER, which says how long it is.
    if len(content) < 4 or content[0] != 0x30:
        return False
    count = content[1] - 0x80
    size, head = (content[1], 2) if count < 0 else (int.from_bytes(content[2:2 + count], "big"), 2 + count)
    return size + head == len(content)
