"""Finds what is wrong on the pages of a repository.

    python3 page_facts.py TOP [NUMBERS]

TOP is the folder of the repository. On each page (`*.md`) a link within the repository has to lead to a file that is there,
and to a heading of it where it names one. Each file that CONTRIBUTING.md names has to be there: a span such as
`src/lines.rt` is the end of a path, and may have a `*`. A number that several files have, or a phrase, has to be the same in
all: they stand below in NUMBERS, or in the file NUMBERS, with a tab between what it is, a file and an expression for it.

Prints each fault with its page. The last line says how many links, files and numbers were held; the status is 0 where
all held, and 1 where one did not, or where there is no link.
"""

import fnmatch
import pathlib
import re
import sys

SKIPPED = {".git", "out", "__pycache__"}
LINK = re.compile(r"\]\(([^()\s]+)\)")
FILE = re.compile(r"`([\w*./-]+\.(?:rt|antt|sh|py|R|md|1|html|csv|txt|edit|toml|rs|qml|cases|cff))`")
NUMBERS = """\
processor seconds of all tests	docs/GATE.md	of which the table has ([0-9,]+)
processor seconds of all tests	tools/progress.py	GATE_SECONDS = ([0-9_]+)
how long sf takes for percent polygons	README.md	sf takes ([0-9]+) times as long for percent polygons
how long sf takes for percent polygons	docs/PERFORMANCE.md	\\| percent polygons \\| [0-9,]+ \\| sf \\| [0-9.]+ \\| [0-9.]+ \\| ([0-9]+) \\|
how long sf takes for overlaps	README.md	and ([0-9]+) times for the overlaps
how long sf takes for overlaps	docs/PERFORMANCE.md	\\| overlaps, eight animals \\| [0-9,]+ \\| sf \\| [0-9.]+ \\| [0-9.]+ \\| ([0-9]+) \\|
memory of a run of a herd	docs/HERDS.md	A run is given ([0-9]+) MB
memory of a run of a herd	docs/HERDS.md	of one core, ([0-9]+) MB and
memory of a run of a herd	tools/herd/slurm.sh	A run gets a minute and ([0-9]+) MB
memory of a run of a herd	tools/herd/slurm.sh	--mem=([0-9]+) --time="\\$\\(\\(runs
memory of a run of a herd	tools/herd/Snakefile	A run gets a minute and\\s+# ([0-9]+) MB
memory of a run of a herd	tools/herd/Snakefile	mem_mb=([0-9]+),\\s+runtime=1,
files of a group of a herd	docs/HERDS.md	put in groups of ([0-9]+)
files of a group of a herd	docs/homerange.1	put in groups of ([0-9]+)
files of a group of a herd	tools/herd/plan.sh	split -l ([0-9]+)
files of a group of a herd	python/homerange/program.py	GROUP = ([0-9]+)
files of a group of a herd	r/R/runs.R	group_size <- ([0-9]+)
bytes of a fix of a walk	docs/PERFORMANCE.md	each further fix of a walk to ([0-9]+) bytes
bytes of a fix of a walk	tools/tests/program_memory.sh	grows 'one walk' [0-9]+ ([0-9]+)
bytes of a fix of eight walks	docs/PERFORMANCE.md	of eight walks to ([0-9]+)
bytes of a fix of eight walks	tools/tests/program_memory.sh	grows 'eight walks' [0-9]+ ([0-9]+)
bytes of a fix of a curve	docs/PERFORMANCE.md	of a curve of corners alone to ([0-9]+)
bytes of a fix of a curve	tools/tests/program_memory.sh	grows 'one curve' [0-9]+ ([0-9]+)
what status 5 means	README.md	fixes of a file were not all handed on (.*) \\|
what status 5 means	docs/homerange.1	fixes of a file were not all handed on (.*)\\.
what status 5 means	crates/range_words/src/help.rt	fixes of a file were not all handed on (.*)
the version	python/homerange/__init__.py	__version__ = "([0-9.]+)"
the version	README.md	homerange_([0-9.]+)_amd64[.]deb
the version	qgis/README.md	homerange-qgis-([0-9.]+)[.]zip
the version	docs/TABLES.md	tool,homerange-split ([0-9.]+) [(]
the version	CITATION.cff	^version: (.*)$
the logic	release/SOURCES	logic ([0-9a-f]+)
the logic	docs/PROOF.md	its logic, `([0-9a-f]+)`
the logic	docs/PROOF.md	sum=([0-9a-f]+)
the logic	docs/EVIDENCE.md	both have `logic ([0-9a-f]+)`
the logic	docs/EVIDENCE.md	proved in the logic ([0-9a-f]+)
"""


def files_of(top):
    """All files of the repository, by their paths in it."""
    files = (path.relative_to(top) for path in top.rglob("*") if path.is_file())
    return [path for path in files if not SKIPPED.intersection(path.parts)]


def anchor_of(heading):
    """By what a link names a heading."""
    return re.sub(r"[^\w -]", "", heading.replace("`", "")).strip().lower().replace(" ", "-")


def prose_of(page):
    """A page without its fenced blocks, in which nothing is a link or a heading."""
    return re.sub(r"^```.*?^```$", "", page.read_text(), flags=re.MULTILINE | re.DOTALL)


def anchors_of(page):
    return {anchor_of(heading) for heading in re.findall(r"^#+ (.*)$", prose_of(page), re.MULTILINE)}


def links_on(top, page):
    """Each link within the repository, and what is wrong with it, if anything."""
    for target in LINK.findall(prose_of(top / page)):
        if re.match(r"[a-z]+:", target):
            continue
        name, _, anchor = target.partition("#")
        file = (top / page).parent / name if name else top / page
        if not file.exists():
            yield target, f"the link to {target} leads nowhere"
        elif anchor and anchor not in anchors_of(file):
            yield target, f"the link to {target}: there is no such heading"
        else:
            yield target, None


def files_on(top, files):
    """Each file that CONTRIBUTING.md names, and what is wrong with it."""
    paths = ["/" + str(path) for path in files]
    for span in FILE.findall(prose_of(top / "CONTRIBUTING.md")):
        if "NAME" not in span:
            yield span, None if fnmatch.filter(paths, "*/" + span) else f"{span} is not there"


def numbers_of(top, table):
    """Each number that several files have, and what is wrong with it."""
    found = {}
    for line in table.splitlines():
        what, file, expression = line.split("\t")
        said = re.findall(expression, (top / file).read_text(), re.MULTILINE) or ["none"]
        found.setdefault(what, []).extend((number.replace(",", "").replace("_", ""), file) for number in said)
    for what, places in found.items():
        same = len({number for number, _ in places}) == 1 and places[0][0] != "none"
        said = ", ".join(f"{number} in {file}" for number, file in places)
        yield what, None if same else f"{what}: {said}"


def main():
    top = pathlib.Path(sys.argv[1])
    table = pathlib.Path(sys.argv[2]).read_text() if sys.argv[2:] else NUMBERS
    files = files_of(top)
    links = [(page, *link) for page in sorted(files) if page.suffix == ".md" for link in links_on(top, page)]
    held = [("CONTRIBUTING.md", *file) for file in files_on(top, files)]
    numbers = [("numbers", *number) for number in numbers_of(top, table)]
    faults = [f"{page}: {fault}" for page, _, fault in [*links, *held, *numbers] if fault]
    print(*faults, sep="\n", end="\n" if faults else "")
    print(f"{len(links)} links, {len(held)} files and {len(numbers)} numbers, {len(faults)} faults")
    raise SystemExit(bool(faults) or not links)


if __name__ == "__main__":
    main()
