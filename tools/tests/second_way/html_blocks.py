"""What a page of HTML shows, as a list of pieces of text; and refuses what could show more, or other things: scripts, what
is fetched, comments, and tags or attributes that no page of homerange has."""

from __future__ import annotations

import re
from html.parser import HTMLParser
from typing import NamedTuple, NoReturn

from homerange_verifier.lines import Fault

BLOCKS = {"title", "style", "h1", "h2", "p", "li", "th", "td", "caption", "figcaption"}
VOID = {"meta", "br"}
TAGS = BLOCKS | VOID | set(
    "bdi span b code html head body header section div ul table thead tbody tr figure svg g path circle text".split())
ATTRIBUTES = set(
    "lang charset http-equiv content name class id rowspan colspan scope data-zone data-animal data-field data-other viewbox "
    "role aria-label d x y cx cy r width height font-size text-anchor transform".split())
Attributes = list[tuple[str, str | None]]
BLANKS = re.compile("[ \t\n\r\f]+")
COLOUR = re.compile("(?:.* )?c([0-6])(?: .*)?")


class Block(NamedTuple):
    """A piece of text: its tag, what it is of (in a table the animal and the field), and the text."""

    tag: str
    of: str
    text: str


class Blocks(HTMLParser):
    """The pieces of a page in their order, of whose curves the labels are pieces; and the numbers of animals with those of
    their colours."""

    def __init__(self, text: str, name: str) -> None:
        super().__init__(convert_charrefs=True)
        self.name = name
        self.found: list[Block] = []
        self.colours: list[tuple[str, int]] = []
        self.colour: int | None = None
        self.open: list[str] = []
        self.zone: str | None = None
        self.animal: str | None = None
        self.block: list[str] | None = None
        self.feed(text)
        self.close()
        if self.open:
            self.refuse(f"its {self.open[-1]} is not closed")

    def refuse(self, what: str) -> NoReturn:
        raise Fault(f"{self.name} is no page of homerange: {what}")

    def handle_decl(self, decl: str) -> None:
        if decl != "DOCTYPE html" or self.open or self.found:
            self.refuse("it has another declaration than that of HTML")

    def handle_comment(self, data: str) -> None:
        self.refuse("it has a comment")

    def handle_starttag(self, tag: str, attributes: Attributes) -> None:
        odd = [name for name, _ in attributes if name not in ATTRIBUTES]
        if odd or tag not in TAGS:
            self.refuse(f"it has a {tag}{' with ' if odd else ''}{', '.join(odd)}")
        known = dict(attributes)
        if tag == "meta":
            self.found.append(Block(tag, "", str(attributes)))
        elif tag == "br" and self.block:
            self.block[2] += " "
        elif tag == "tr":
            self.animal = known.get("data-animal")
        elif tag == "table" and known.get("id") == "animals":
            self.zone = known.get("data-zone")
        elif tag == "svg" and (label := known.get("aria-label") or "").startswith("Area"):
            self.found.append(Block(tag, "", label))
        elif tag in BLOCKS:
            self.block = [tag, self.place(tag, known), ""]
        found = COLOUR.fullmatch(known.get("class") or "") if tag in ("td", "th", "b") else None
        self.colour = int(found[1]) if found else self.colour
        if tag not in VOID:
            self.open.append(tag)

    def place(self, tag: str, known: dict[str, str | None]) -> str:
        """What a piece is of."""
        if "data-other" in known:
            return f"the fixes of {known.get('data-animal')} in the range of {known['data-other']}"
        field = known.get("data-field", "name" if tag == "th" and self.animal is not None else "")
        return f"{field} of {self.animal}" if self.animal is not None else field or ""

    def handle_startendtag(self, tag: str, attributes: Attributes) -> None:
        self.handle_starttag(tag, attributes)
        self.open.pop()

    def handle_endtag(self, tag: str) -> None:
        if not self.open or self.open.pop() != tag:
            self.refuse(f"its {tag} closes what is not open")
        if tag == "tr":
            self.animal = None
        if self.block and tag == self.block[0]:
            self.found.append(Block(tag, self.block[1], blanked(self.block[2])))
            self.block = None

    def handle_data(self, text: str) -> None:
        if self.colour is not None:
            self.colours.append((text, self.colour))
            self.colour = None
        if "svg" in self.open:
            return
        if self.block:
            self.block[2] += text
        elif text.strip():
            self.found.append(Block("", "", blanked(text)))


def blanked(text: str) -> str:
    """The text with one blank for several."""
    return BLANKS.sub(" ", text).strip(" ")
