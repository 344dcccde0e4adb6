#!/usr/bin/env python3
"""pack.py [ZIP]: the plugin for QGIS as the file that 'Install from ZIP' takes, with the package for Python and the released
programs in it. ZIP is homerange-qgis-VERSION.zip in the working folder, if left out. Two calls write the same bytes."""

import re
import sys
import zipfile
from pathlib import Path

TOP = Path(__file__).resolve().parents[1]
sys.path.insert(0, str(TOP / "python"))

from homerange.commands.options import Options

PLUGIN, PACKAGE, RELEASE = TOP / "qgis/homerange", TOP / "python/homerange", TOP / "release"
TIME = (2026, 1, 1, 0, 0, 0)  # that of each file in the archive
KINDS = {".py", ".html", ".svg", ".txt", ".csv", ".qml", ".typed"}


def files_in(folder):
    """The files of a folder, but for what Python keeps of them."""
    return sorted(path for path in folder.rglob("*") if path.is_file() and path.suffix in KINDS)


def version():
    return re.search("^version=(.*)$", (PLUGIN / "metadata.txt").read_text("utf-8"), re.MULTILINE)[1]


def content():
    """Each file of the archive: its name, its bytes and its rights."""
    for path in files_in(PLUGIN):
        yield f"homerange/{path.relative_to(PLUGIN)}", path.read_bytes(), 0o644
    for path in files_in(PACKAGE):
        if path.parent.name != "commands":
            yield f"homerange/package/{path.relative_to(PACKAGE)}", path.read_bytes(), 0o644
    # As in a wheel: the package has programs of its own, and holds them to their checksums.
    for name in ("SOURCES", "SHA256SUMS"):
        yield f"homerange/package/release/{name}", (RELEASE / name).read_bytes(), 0o644
    for name in re.findall("  release/(.+)", (RELEASE / "SHA256SUMS").read_text("utf-8")):
        yield f"homerange/package/release/{name}", (RELEASE / name).read_bytes(), 0o755


def write(path):
    with zipfile.ZipFile(path, "w", zipfile.ZIP_DEFLATED) as archive:
        for name, data, rights in content():
            entry = zipfile.ZipInfo(name, TIME)
            entry.external_attr = (0o100000 | rights) << 16
            entry.compress_type = zipfile.ZIP_DEFLATED
            archive.writestr(entry, data)


def main():
    parser = Options("pack.py", __doc__)
    parser.add_argument("zip", nargs="?", type=Path, default=Path(f"homerange-qgis-{version()}.zip"))
    path = parser.parse_args().zip
    try:
        write(path)
    except OSError as fault:
        sys.exit(f"pack.py: {fault.filename}: {fault.strerror}")
    print(path)


if __name__ == "__main__":
    main()
