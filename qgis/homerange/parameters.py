"""The parameters of the algorithm: what each is called in the dialog, and what is said of it there."""

from typing import NamedTuple


class Text(NamedTuple):
    """What a parameter is called, and its help."""

    label: str
    help: str


# Fields of the layer, by the argument that they are.
FIELDS = {
    "animal": Text("Field of the animal", "Which animal each fix is of. If left out, it is found by the usual titles, such as "
                   "individual-local-identifier, animal or id; in the track points of several tracks of GPX it is the track."),
    "time": Text("Field of the time", "When each fix was. If left out, it is found by the usual titles, such as timestamp, time or "
                 "date. A layer without one is taken in the order of its features."),
    "use": Text("Field of which fixes are used", "Fixes where it is false or 0 are left out. If left out, outliers are those that "
                "Movebank's fields or a field use mark."),
    "by": Text("Field of the group", "Makes a range of each group of an animal's fixes, such as of a sex, a phase or a burst. Each "
               "fix that is used has to have a group, which is a text or a whole number."),
}
PERIOD = Text("Period of the calendar", "Makes a range of each year, season or month of an animal's fixes, by the clock of the time "
              "zone. Seasons are named by their months, 2024 Jun-Aug, and 2023-2024 Dec-Feb for a December with the months behind "
              "it.")
PERIODS = ("none", "year", "season", "month")
# Further fields, for what few layers need.
FURTHER = {
    "argos": Text("Field of Argos classes", "If left out, it is found by the usual titles, such as argos-lc."),
    "fix": Text("Field of the type of fix", "If left out, it is found by the usual titles, such as gps-fix-type."),
    "dop": Text("Field of the dilution of precision", "If left out, it is found by the usual titles, such as gps-dop or hdop."),
}
# What is typed in, by the argument; the time zone first, since others go by it.
WORDS = {
    "tz": Text("Time zone", "By whose clock days, hours and texts of times are, such as Europe/Ljubljana; UTC if left out."),
    "time_format": Text("Form of the time", "How a text says the time, where it is not as 2024-05-01 00:30:04: %d.%m.%Y %H:%M."),
    "since": Text("First moment or day", "Fixes before it are left out: 2024-05-01, or 2024-05-01 18:00."),
    "until": Text("Last moment or day", "Fixes after it are left out. A day is its last moment."),
    "every": Text("One fix in each piece of time", "The first fix of each piece alone is kept: 2h, or 30min."),
    "sensor": Text("Types of sensors", "Fixes of others are left out: gps, with commas between several."),
    "argos_class": Text("Argos classes", "Fixes of others are left out: 3,2,1."),
    "fix_type": Text("Types of fixes", "Fixes of others are left out: 3D, with commas between several."),
    "na": Text("Word for what is missing", "What stands for a missing value, beside an empty one and NA."),
    "name": Text("Name of the only animal", "What the animal is called where no field says it."),
}
MONTHS = Text("Months", "Fixes of other months are left out: 5,6,7.")
HOURS = Text("Hours of the day", "Fixes before the first and from the second on are left out: 6,18; and 18,6 for the night.")
BOUNDS = {
    "max_dop": Text("Greatest dilution of precision", "Fixes with a greater one, or with none, are left out."),
    "max_speed": Text("Greatest speed in metres a second", "Fixes that the animal could not come to at this speed, from the last that "
                      "is kept, are left out."),
}
UNNAMED = Text("Leave fixes of no animal out", "Where the field of the animal is empty; else such a layer is refused.")
INPUT = Text("Fixes", "Points in a plane reference system in metres, such as a UTM zone. Run Reproject layer first where they are in "
             "degrees.")
LEVELS = Text("Levels in per cent", "Up to eight different whole numbers from 1 to 100, with commas between.")
UNIT = Text("Unit", "Coordinates are rounded to whole metres or decimetres.")
BOUNDARY = Text("Boundary", "Polygons, as of a reserve, in any reference system: ranges get the hectares inside of them, and their "
                "share, and the map of the page shows them.")
TITLE = Text("Title of the page", "What stands above the page.")
OUTPUTS = {
    "RANGES": Text("Ranges", "A polygon for each animal and level, without a shape where it has no area."),
    "CORNERS": Text("Corners", "A point for each corner of each polygon."),
    "CURVE": Text("Area curve", "For each fix the area of the polygon of all fixes up to it."),
    "OVERLAPS": Text("Overlaps", "For each ordered pair how many fixes of the one lie in the range of the other."),
}
PAGE = Text("Page", "One HTML file to read, to print and to hand in. It is of whole ranges, and not of groups.")
# What arguments are called in the dialog.
LABELS = {
    name: text.label for name, text in {
        **FIELDS, **FURTHER, **WORDS, **BOUNDS, "skip_unnamed": UNNAMED, "unit": UNIT, "title": TITLE}.items()}
