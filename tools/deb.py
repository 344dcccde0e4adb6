#!/usr/bin/env python3
"""deb.py FOLDER: the Debian package homerange_VERSION_amd64.deb in a folder: the released programs, their manual pages,
the package for Python with its commands, and the documents. Two calls write the same bytes. Needs dpkg-deb."""

import gzip
import os
import re
import shutil
import subprocess
import sys
import tempfile
import tomllib
from pathlib import Path

TOP = Path(__file__).resolve().parents[1]
sys.path.insert(0, str(TOP / "python"))

from homerange import __version__
from homerange.commands.options import Options

MODULES = "usr/lib/python3/dist-packages"
TIME = "1767225600"  # that of each file: the first second of 2026
LEFT = shutil.ignore_patterns("__pycache__")
CONTROL = f"""Package: homerange
Version: {__version__}
Architecture: amd64
Maintainer: Cemavolin maintainers <maintainers@users.noreply.cemavolin.example>
Section: science
Priority: optional
Depends: libc6 (>= 2.34), python3 (>= 3.11)
Recommends: python3-geopandas, python3-matplotlib, python3-pandas, python3-pyproj
Installed-Size: {{size}}
Description: home ranges of tagged animals, by a proved program
 Minimum convex polygons of location fixes, percent polygons, incremental area
 analysis and overlaps. Each function of the program is proved to meet its
 contract, and its numbers are exact integers. With it come the programs
 homerange-split, which makes files of an export, and homerange-page, which
 makes tables and a page of a report, and the package for Python with its
 commands: homerange-ranges makes all that a plan needs, homerange-verify
 checks a folder of evidence.
"""
# Python keeps what it compiled beside the modules.
REMOVE = f"""#!/bin/sh
set -e
find "$DPKG_ROOT/{MODULES}/homerange" "$DPKG_ROOT/{MODULES}/homerange_verifier" -name __pycache__ -exec rm -r {{}} +
"""
COMMAND = """#!/usr/bin/python3
from {module} import {name}

{name}()
"""


def write(path: Path, data: bytes, rights: int = 0o644) -> None:
    path.parent.mkdir(parents=True, exist_ok=True)
    path.write_bytes(data)
    path.chmod(rights)


def listed(folder: str) -> list[str]:
    """The files of a folder of which the release has a checksum."""
    return re.findall(f"  {folder}/(.+)", (TOP / "release/SHA256SUMS").read_text("utf-8"))


def commands() -> dict[str, str]:
    """The commands of the package for Python, each with the place of its function."""
    project = tomllib.loads((TOP / "python/pyproject.toml").read_text("utf-8"))
    return dict(project["project"]["scripts"])


def put_programs(root: Path) -> None:
    """The programs, which the package for Python finds as its own, their lists of releases, and their pages of the manual.
    Each is a command, but for one whose name a command of that package has, such as homerange-split."""
    release = root / MODULES / "homerange" / "release"
    for name in listed("release"):
        if name in commands():
            write(release / name, (TOP / "release" / name).read_bytes(), 0o755)
        else:
            write(root / "usr/bin" / name, (TOP / "release" / name).read_bytes(), 0o755)
            release.mkdir(parents=True, exist_ok=True)
            (release / name).symlink_to(f"../../../../../bin/{name}")
        shutil.copy(TOP / "release" / f"RELEASES{name.removeprefix('homerange')}", release)
    for name in ("SOURCES", "SHA256SUMS"):
        shutil.copy(TOP / "release" / name, release)
    for page in listed("docs"):
        write(root / "usr/share/man/man1" / f"{page}.gz", gzip.compress((TOP / "docs" / page).read_bytes(), mtime=0))


def put_modules(root: Path) -> None:
    """The modules, the scripts of herds that they call, and the commands."""
    for name in ("homerange", "homerange_verifier"):
        shutil.copytree(TOP / "python" / name, root / MODULES / name, ignore=LEFT, dirs_exist_ok=True)
    herd = root / MODULES / "homerange" / "herd"
    herd.mkdir()
    for name in ("plan.sh", "step.sh", "words.sh"):
        shutil.copy(TOP / "tools/herd" / name, herd)
    for command, place in commands().items():
        module, name = place.split(":")
        write(root / "usr/bin" / command, COMMAND.format(module=module, name=name).encode(), 0o755)


def put_documents(root: Path) -> None:
    """The documents, by the names by which they link each other."""
    into = root / "usr/share/doc/homerange"
    top = [TOP / name for name in ("README.md", "CHANGELOG.md", "CITATION.cff", "SECURITY.md")]
    for path in (*top, *sorted((TOP / "docs").glob("*.md")), TOP / "python/README.md"):
        write(into / path.relative_to(TOP), path.read_bytes())


def put_control(root: Path) -> None:
    size = sum(path.stat().st_size for path in root.rglob("*") if path.is_file() and not path.is_symlink())
    write(root / "DEBIAN/control", CONTROL.format(size=size // 1024 + 1).encode())
    write(root / "DEBIAN/prerm", REMOVE.encode(), 0o755)


def build(folder: Path) -> Path:
    """Makes the package; answers its path."""
    path = folder / f"homerange_{__version__}_amd64.deb"
    with tempfile.TemporaryDirectory(prefix="homerange-") as room:
        root = Path(room, "root")
        for put in (put_programs, put_modules, put_documents, put_control):
            put(root)
        for own in (root, *root.rglob("*")):
            if own.is_dir():
                own.chmod(0o755)
        subprocess.run(
            ["dpkg-deb", "--root-owner-group", "-Zxz", "--build", root, path], check=True, stdout=subprocess.DEVNULL,
            env={**os.environ, "SOURCE_DATE_EPOCH": TIME})
    return path


def main() -> None:
    parser = Options("deb.py", __doc__)
    parser.add_argument("folder", metavar="FOLDER", type=Path)
    folder = parser.parse_args().folder
    if not folder.is_dir():
        sys.exit(f"deb.py: there is no folder {folder}")
    if shutil.which("dpkg-deb") is None:
        sys.exit("deb.py: it needs dpkg-deb")
    print(build(folder))


if __name__ == "__main__":
    main()
