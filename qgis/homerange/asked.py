"""What is asked for in the dialog, and the fixes that come of it."""

from typing import Any, NamedTuple

from .layers import PLACES, TRACK, chosen, crs_of, has_tracks, marked
from .package import FrameError
from .parameters import BOUNDS, LABELS, WORDS
from .program import program
from .words import WordFault, in_dialog

# The columns that ranges are made of.
FIXES = ("animal", "time", "second", "easting", "northing")


class Asked(NamedTuple):
    """What is asked for: packages, layers, what is wished of fixes by the names of arguments, and the rest by its own."""

    package: Any
    pandas: Any
    geopandas: Any
    source: Any
    bounds: Any
    wishes: dict
    levels: list
    months: Any
    hours: Any
    period: Any

    @property
    def has_groups(self):
        return self.period is not None or "by" in self.wishes

    def fixes_of(self, frame, watch):
        """The fixes of a frame of features that are wanted. The points of several tracks of GPX are those of as many animals."""
        own = marked(frame, self.wishes.get("use"))
        reading = {name: wish for name, wish in self.wishes.items() if name not in ("use", "by")}
        if "animal" not in reading and has_tracks(own) and not self.has_animals(own):
            watch.feedback.pushInfo(f"each track of GPX is an animal, named by its number in {TRACK}: name another field as "
                                    f"'{LABELS['animal']}' where that is not so")
            reading["animal"] = TRACK
        wanted = chosen(self.read(own, reading), self.months, self.hours)
        return wanted[[title for title in FIXES if title in wanted]]

    def read(self, frame, reading):
        """The fixes that the package reads of a frame of features."""
        easting, northing = PLACES
        return self.package.read_fixes(
            frame, easting=easting, northing=northing, crs=crs_of(self.source), program=program(), **reading)

    def has_animals(self, frame):
        """Whether a column is that of the animal by its title. Its first fix is asked, since filters may refuse all of one animal."""
        reading = {name: self.wishes[name] for name in ("time", "time_format", "tz") if name in self.wishes}
        try:
            notes = self.read(frame.iloc[:1], reading).reading.notes
        except FrameError:
            return False
        return not any(note.startswith("no column has a usual title for the animal") for note in notes)


def check_options(asked):
    """Refuses filters that cannot be right, each by its label: those that the package refuses whatever the fixes are."""
    one = asked.pandas.DataFrame({"time": ["2024-05-01"], "easting": [500000.0], "northing": [5000000.0]})
    clock = {}
    for name in (*WORDS, *BOUNDS):
        if name not in asked.wishes:
            continue
        wish = {name: asked.wishes[name]}
        try:
            asked.package.read_fixes(one, program=program(), **{**clock, **wish})
        except FrameError as fault:
            if fault.kind == "option":
                text = in_dialog(str(fault))
                raise WordFault(text if LABELS[name] in text else f"'{LABELS[name]}': {text}") from fault
        clock = wish if name == "tz" else clock
