"""The two programs of a comparison: the proved one of a crate, and the plain one of a file in Rust."""

import pathlib
import subprocess

TOP = pathlib.Path(__file__).resolve().parent.parent
REGISTRY = "/usr/share/cargo/registry"  # of Debian's packages of crates
MANIFEST = """
[package]
name = "{name}"
version = "0.0.0"
edition = "2024"

[[bin]]
name = "{name}"
path = "{path}"

[features]
default = ["csv"]
csv = ["dep:csv"]

[dependencies]
csv = {{ version = "1.1", optional = true }}

[profile.release]
opt-level = 3
"""


def output(command, text):
    """What a command prints, on both of its outputs, once it was given the text."""
    done = subprocess.run(command, input=text, capture_output=True, text=True, check=True)
    return done.stdout, done.stderr


def proved(crate, *arguments):
    """The program of a crate, built by `rt`, which runs it once, with these arguments."""
    folder = TOP / "crates" / crate
    command = ["rt", "run", "--", *arguments]
    subprocess.run(command, cwd=folder, stdin=subprocess.DEVNULL, capture_output=True, check=True)
    return folder / "out" / crate


def plain(source, folder):
    """The program of a file beside this one, built by `rustc --edition 2024 -O` into the folder."""
    program = pathlib.Path(folder) / pathlib.Path(source).stem
    subprocess.run(["rustc", "--edition", "2024", "-O", TOP / "bench" / source, "-o", program], check=True)
    return program


def plain_by_csv(source, folder):
    """The same with the feature `csv`, built by `cargo` with the crate of Debian's librust-csv-dev."""
    if not any(pathlib.Path(REGISTRY).glob("csv-1.*")):
        raise SystemExit(f"{REGISTRY} has no crate csv: apt-get install librust-csv-dev")
    room = pathlib.Path(folder) / "by_csv"
    room.mkdir()
    name = pathlib.Path(source).stem
    (room / "Cargo.toml").write_text(MANIFEST.format(name=name, path=TOP / "bench" / source))
    command = ["cargo", "build", "--quiet", "--release", "--offline"]
    for setting in ("crates-io.replace-with='debian'", f"debian.directory='{REGISTRY}'"):
        command += ["--config", f"source.{setting}"]
    subprocess.run(command, cwd=room, check=True)
    return room / "target" / "release" / name
