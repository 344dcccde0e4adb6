"""Finds what pages quote in the sources, word for word, up to white space.

    python3 quotes.py TOP PAGE ..

TOP is the folder of the repository; its sources are the files of crates/*/src and crates/*/specs. A page quotes

- a piece of code, in a fenced block of `rust` or `antt`. The word behind the language names its file, as in
  ```antt crates/range_run/specs/Run.antt; where none is named, it has to stand in some file of the sources. A line of
  three dots cuts a quote, and its pieces have to stand in the file one after the other.
- a clause of a contract: `run`, clause `report`, or `judge`, clauses `lost` and `judged`, with or without `, in
  `range_run`` behind it. A function of this name has to have it.
- a name of a crate, below **range_run** up to the next empty line, or in the last cell of a table's row that has
  `range_run`. It has to be a word of the sources of a crate that is named there, or one of its must-fail edits.

Prints each quote that is not found, with its line. The last line says how many were; the status is 0 where all were, and
1 where one was not, or where a page quotes nothing.
"""

import pathlib
import re
import sys

CLAUSES = re.compile(r"`([\w:]+)`, clauses? (`\w+`(?:(?:, | and )`\w+`)*)(?:, in `(\w+)`)?")
SPAN = re.compile(r"`([^`]+)`")
NAME = re.compile(r"[A-Za-z_]\w*(?:::\w+)*")
HEADING = re.compile(r"\*\*(\w+)\*\*")


def one_line(text):
    """The words of a text, each with a space on either side of it."""
    return f" {' '.join(text.split())} "


class Sources:
    """The files of the sources, and what stands in them."""

    def __init__(self, top):
        self.top = top
        files = sorted([*top.glob("crates/*/src/**/*.rt"), *top.glob("crates/*/specs/**/*.antt")])
        self.texts = {str(file.relative_to(top)): file.read_text() for file in files}
        self.words = {}
        for file, text in self.texts.items():
            self.words.setdefault(file.split("/")[1], set()).update(re.findall(r"\w+", text))
        for edit in top.glob("crates/*/must-fail/*.edit"):
            self.words.setdefault(edit.parts[-3], set()).add(edit.stem)

    def has_code(self, file, code):
        """Whether the pieces of a quote stand in the file one after the other, or in some file where none is named."""
        pieces = [one_line(piece) for piece in re.split(r"^\s*\.\.\.\s*$", code, flags=re.MULTILINE)]
        if not all(piece.strip() for piece in pieces):
            return False
        files = [file] if file else self.texts
        return any(stand_in_order(pieces, one_line(self.texts.get(name, ""))) for name in files)

    def has_clause(self, function, clause, crate):
        """Whether a function of this name has the clause, in that crate where one is named."""
        return any(
            re.search(rf"\bensures {clause} {{", contract)
            for file, text in self.texts.items()
            if crate in (None, file.split("/")[1])
            for contract in contracts_of(text, function)
        )

    def has_name(self, name, crates):
        """Whether all parts of the name are words of one of the crates."""
        return any(self.words[crate].issuperset(name.split("::")) for crate in crates)


def stand_in_order(pieces, text):
    at = 0
    for piece in pieces:
        found = text.find(piece, at)
        if found < 0:
            return False
        # The space behind a piece may be the one before the next.
        at = found + len(piece) - 1
    return True


def contracts_of(text, function):
    """What stands between the name of each function of this name and its body."""
    for start in re.finditer(rf"\bfn {function.split('::')[-1]}\b", text):
        body = re.compile(r"^\s*{|{$", re.MULTILINE).search(text, start.end())
        yield text[start.end() : body.start() if body else len(text)]


def blocks_of(lines):
    """The fenced blocks: the line where each begins, the words behind its fence, and what it holds."""
    start, held = None, []
    for number, line in enumerate(lines, 1):
        if start is None and line.startswith("```"):
            start, info, held = number, line[3:].split(), []
        elif start is not None and line.startswith("```"):
            yield start, info, "\n".join(held)
            start = None
        elif start is not None:
            held.append(line)


def code_in(lines, sources):
    """Each quoted piece of code: its line, what it is called, and whether it was found."""
    for number, info, held in blocks_of(lines):
        if info[1:] or info in (["rust"], ["antt"]):
            file = info[1] if info[1:] else None
            yield number, f"the code of {file or 'some file'}", sources.has_code(file, held)


def clauses_in(lines, sources):
    """The same of each clause."""
    for number, line in enumerate(lines, 1):
        for function, clauses, crate in CLAUSES.findall(line):
            for clause in SPAN.findall(clauses):
                found = sources.has_clause(function, clause, crate or None)
                yield number, f"clause {clause} of {function}", found


def names_in(lines, sources):
    """The same of each name of a crate."""
    heading = None
    for number, line in enumerate(lines, 1):
        begun = HEADING.match(line)
        if begun or not line:
            heading = begun and begun[1]
        if line.startswith("|"):
            spans = SPAN.findall(line.rstrip("| ").rsplit(" | ", 1)[-1])
            crates = [span for span in SPAN.findall(line) if span in sources.words]
        else:
            spans = SPAN.findall(line)
            crates = [heading] if heading in sources.words else []
        if not crates:
            continue
        for span in spans:
            if NAME.fullmatch(span) and span not in sources.words:
                yield number, f"{span} in {' or '.join(sorted(set(crates)))}", sources.has_name(span, crates)


def main():
    top, *pages = map(pathlib.Path, sys.argv[1:])
    sources = Sources(top)
    missed, counts = 0, []
    for page in pages:
        lines = page.read_text().splitlines()
        quotes = [quote for find in (code_in, clauses_in, names_in) for quote in find(lines, sources)]
        for number, quoted, found in quotes:
            if not found:
                print(f"{page}:{number}: {quoted} is not in the sources")
                missed += 1
        counts.append(len(quotes))
    print(f"{sum(counts) - missed} of {sum(counts)} quotes found")
    raise SystemExit(missed > 0 or not counts or 0 in counts)


if __name__ == "__main__":
    main()
