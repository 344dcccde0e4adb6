"""Builds the package by setuptools, from a copy of its folder into which the released programs and the scripts of herds are
put. A wheel with the programs is for the machines that they are for; one without them is for all, and that is said.

setuptools and wheel are those of this machine, where it has them, so that nothing has to be fetched."""

from __future__ import annotations

import os
import re
import shutil
import site
import sys
import sysconfig
import tempfile
from contextlib import contextmanager
from importlib.util import find_spec
from pathlib import Path
from typing import Any, Iterator

HERE = Path(__file__).resolve().parents[1]
TAG = "manylinux_2_34_x86_64"  # what the released programs need
HERD = ("plan.sh", "step.sh", "words.sh")
LEFT = shutil.ignore_patterns("__pycache__", "tests", "build", "dist", "*.egg-info", ".*")


def find_tools() -> list[str]:
    """Finds setuptools and wheel, which pip hides from a build that it isolates; answers what has to be fetched."""
    base = sysconfig.get_path("purelib", vars={"base": sys.base_prefix, "platbase": sys.base_prefix})
    sys.path += [sysconfig.get_path("purelib"), base, *site.getsitepackages([sys.base_prefix])]
    return [name for name in ("setuptools", "wheel") if find_spec(name) is None]


def put_programs(package: Path) -> bool:
    """Puts the released programs, with the list of releases of each, their checksums and what they were made from into a copy
    of the package; answers whether it has them then. One that was unpacked from a source distribution has them already."""
    release, own = HERE.parent / "release", package / "release"
    if not own.is_dir() and (release / "homerange").is_file():
        own.mkdir()
        shutil.copy2(release / "SOURCES", own)
        sums = re.findall("(.*  release/(.*)\n)", (release / "SHA256SUMS").read_text("utf-8"))
        for _, name in sums:
            shutil.copy2(release / name, own)
            shutil.copy2(release / f"RELEASES{name.removeprefix('homerange')}", own)
        (own / "SHA256SUMS").write_text("".join(line for line, _ in sums), "utf-8")
    return own.is_dir()


@contextmanager
def staged() -> Iterator[Any]:
    """Works in a copy of the folder, as whole as a wheel is; gives what builds there."""
    find_tools()
    from setuptools import build_meta

    before = os.getcwd()
    with tempfile.TemporaryDirectory(prefix="homerange-") as room:
        top = Path(room, "python")
        shutil.copytree(HERE, top, ignore=LEFT)
        herd, scripts = top / "homerange" / "herd", HERE.parent / "tools" / "herd"
        if not herd.is_dir() and scripts.is_dir():
            herd.mkdir()
            for name in HERD:
                shutil.copy2(scripts / name, herd / name)
        if put_programs(top / "homerange"):
            (top / "setup.cfg").write_text(f"[bdist_wheel]\nplat_name = {TAG}\n", "utf-8")
        else:
            print("homerange: there is no release/homerange: this build has no program, and looks for one where it runs",
                  file=sys.stderr)
        os.chdir(top)
        try:
            yield build_meta
        finally:
            os.chdir(before)


def get_requires_for_build_wheel(config_settings: Any = None) -> list[str]:
    return find_tools()


def get_requires_for_build_sdist(config_settings: Any = None) -> list[str]:
    return find_tools()


def build_wheel(wheel_directory: str, config_settings: Any = None, metadata_directory: str | None = None) -> str:
    into = os.path.abspath(wheel_directory)
    with staged() as build:
        return str(build.build_wheel(into, config_settings))


def build_sdist(sdist_directory: str, config_settings: Any = None) -> str:
    into = os.path.abspath(sdist_directory)
    with staged() as build:
        return str(build.build_sdist(into, config_settings))
