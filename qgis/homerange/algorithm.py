"""The algorithm `homerange:ranges`: from a layer of fixes to minimum convex polygon ranges."""

from contextlib import contextmanager
from pathlib import Path

from qgis.core import (
    QgsFeatureSink, QgsProcessing, QgsProcessingAlgorithm, QgsProcessingException,
    QgsProcessingLayerPostProcessorInterface, QgsProcessingParameterBoolean,
    QgsProcessingParameterDefinition, QgsProcessingParameterEnum, QgsProcessingParameterFeatureSink,
    QgsProcessingParameterFeatureSource, QgsProcessingParameterField, QgsProcessingParameterFileDestination,
    QgsProcessingParameterNumber, QgsProcessingParameterString,
)
from qgis.PyQt.QtGui import QIcon

from .asked import Asked, check_options
from .layers import LayerFault, boundary_of, check_boundary, check_fields, check_layer, frame_of, groups_of
from .package import HomeRangeError
from .parameters import (
    BOUNDARY, BOUNDS, FIELDS, FURTHER, HOURS, INPUT, LABELS, LEVELS, MONTHS, OUTPUTS, PAGE, PERIOD, PERIODS, TITLE, UNIT, UNNAMED,
    WORDS,
)
from .program import ProgramFault, load, program
from .sinks import (
    CORNERS, CURVE, OVERLAPS, RANGES, SHAPES, SHARES, corner_features, curve_features, fields_of, overlap_features, range_features,
    rows_of,
)
from .words import WordFault, hours_of, in_dialog, levels_of, months_of, said_of

HERE = Path(__file__).parent
UNITS = ("m", "dm")
COLUMNS = {"RANGES": RANGES, "CORNERS": CORNERS, "CURVE": CURVE, "OVERLAPS": OVERLAPS}
FEATURES = {"CORNERS": corner_features, "CURVE": curve_features, "OVERLAPS": overlap_features}
# How much of the whole is read when reading ends, and made when the program ends.
READ, MADE = 60, 80


@contextmanager
def refusals():
    """Makes of what is refused the line that QGIS shows."""
    try:
        yield
    except HomeRangeError as fault:
        raise QgsProcessingException(in_dialog(str(fault))) from fault
    except (LayerFault, ProgramFault, WordFault) as fault:
        raise QgsProcessingException(str(fault)) from fault


class Cancelled(Exception):
    """The user wants no more of it."""


class Watch:
    """What the user sees of the work, and asks of it."""

    def __init__(self, feedback):
        self.feedback = feedback

    def at(self, share, begin=0, end=READ):
        """Shows a share of a part of the work; ends it where that was asked."""
        if self.feedback.isCanceled():
            raise Cancelled
        self.feedback.setProgress(begin + (end - begin) * share)

    def say(self, ranges):
        """Says what was taken and what was left out of features, and which ranges have no polygon."""
        for line in ranges.notes:
            self.feedback.pushInfo(said_of(line))
        for name, row in rows_of(ranges):
            if row.corners < 3:
                self.feedback.pushInfo(f"{name} has no area at {row.level} %, and so no polygon")


class Styler(QgsProcessingLayerPostProcessorInterface):
    """Draws ranges in QGIS as the package's GeoPackage has them drawn."""

    def postProcessLayer(self, layer, context, feedback):
        layer.loadNamedStyle(str(HERE / "package" / "ranges.qml"))
        layer.triggerRepaint()


# QGIS keeps no hold of it.
STYLER = Styler()


class RangesAlgorithm(QgsProcessingAlgorithm):
    """Minimum convex polygon ranges."""

    def name(self):
        return "ranges"

    def displayName(self):
        return "Minimum convex polygon ranges"

    def tags(self):
        return ["home range", "mcp", "convex hull", "telemetry", "animal", "overlap"]

    def icon(self):
        return QIcon(str(HERE / "icon.svg"))

    def shortHelpString(self):
        return (HERE / "help.html").read_text("utf-8")

    def createInstance(self):
        return RangesAlgorithm()

    def initAlgorithm(self, config=None):
        points, areas = [QgsProcessing.TypeVectorPoint], [QgsProcessing.TypeVectorPolygon]
        self.add(QgsProcessingParameterFeatureSource("INPUT", INPUT.label, points), INPUT)
        self.add_fields(FIELDS)
        self.add(QgsProcessingParameterEnum("PERIOD", PERIOD.label, PERIODS, defaultValue=0), PERIOD)
        self.add(QgsProcessingParameterString("LEVELS", LEVELS.label, "50,95,100"), LEVELS)
        self.add(QgsProcessingParameterEnum("UNIT", UNIT.label, ["metres", "decimetres"], defaultValue=0), UNIT)
        self.add(QgsProcessingParameterFeatureSource("BOUNDARY", BOUNDARY.label, areas, optional=True), BOUNDARY)
        self.add_filters()
        for name, text in OUTPUTS.items():
            kind = QgsProcessing.TypeVectorPoint if name == "CORNERS" else QgsProcessing.TypeVector
            kind = QgsProcessing.TypeVectorPolygon if name == "RANGES" else kind
            self.add(QgsProcessingParameterFeatureSink(
                name, text.label, kind, optional=name != "RANGES", createByDefault=name == "RANGES"), text)
        self.add(QgsProcessingParameterFileDestination(
            "PAGE", PAGE.label, "HTML files (*.html)", optional=True, createByDefault=False), PAGE)

    def add(self, parameter, text, is_advanced=False):
        """Adds a parameter with its help, behind 'Advanced parameters' where few need it."""
        parameter.setHelp(text.help)
        if is_advanced:
            parameter.setFlags(parameter.flags() | QgsProcessingParameterDefinition.FlagAdvanced)
        self.addParameter(parameter)

    def add_fields(self, fields, is_advanced=False):
        """Adds fields of the layer."""
        for name, text in fields.items():
            self.add(QgsProcessingParameterField(name.upper(), text.label, parentLayerParameterName="INPUT", optional=True), text,
                     is_advanced)

    def add_filters(self):
        """Adds what few need."""
        self.add_fields(FURTHER, is_advanced=True)
        for name, text in {**WORDS, "months": MONTHS, "hours": HOURS, "title": TITLE}.items():
            self.add(QgsProcessingParameterString(name.upper(), text.label, optional=True), text, is_advanced=True)
        for name, text in BOUNDS.items():
            self.add(QgsProcessingParameterNumber(
                name.upper(), text.label, QgsProcessingParameterNumber.Double, optional=True, minValue=0), text, is_advanced=True)
        self.add(QgsProcessingParameterBoolean("SKIP_UNNAMED", UNNAMED.label, False), UNNAMED, is_advanced=True)

    def checkParameterValues(self, parameters, context):
        """What can be known before the run: whether it can be right."""
        is_right, text = super().checkParameterValues(parameters, context)
        if not is_right:
            return is_right, text
        try:
            with refusals():
                self.asked(parameters, context)
        except QgsProcessingException as fault:
            return False, str(fault)
        return True, ""

    def asked(self, parameters, context):
        """What is asked for, as far as it can be right before a feature is read."""
        packages = load()
        source, bounds = (self.parameterAsSource(parameters, name, context) for name in ("INPUT", "BOUNDARY"))
        if source is None:
            raise LayerFault(self.invalidSourceError(parameters, "INPUT"))
        check_layer(source, context.project())
        if bounds is not None:
            check_boundary(bounds)
        text = {name: self.parameterAsString(parameters, name.upper(), context) for name in ("levels", "months", "hours")}
        asked = Asked(*packages, source, bounds, self.wishes(parameters, context), levels_of(text["levels"]),
                      months_of(text["months"]), hours_of(text["hours"]), self.period(parameters, context))
        check_fields(source, {LABELS[name]: asked.wishes[name] for name in (*FIELDS, *FURTHER) if name in asked.wishes})
        self.check_groups(asked, parameters, context)
        check_options(asked)
        return asked

    def check_groups(self, asked, parameters, context):
        """Refuses groups of two kinds, and a page of groups."""
        if asked.period is not None and "by" in asked.wishes:
            raise WordFault(f"'{PERIOD.label}' and '{LABELS['by']}' are two kinds of groups: leave one out")
        if asked.has_groups and self.parameterAsFileOutput(parameters, "PAGE", context):
            raise WordFault(f"'{PAGE.label}': the page is of whole ranges: leave it out beside '{LABELS['by']}' and '{PERIOD.label}'")

    def period(self, parameters, context):
        """The period of the calendar that ranges are of; None where they are of none."""
        chosen_one = self.parameterAsEnum(parameters, "PERIOD", context)
        return PERIODS[chosen_one] if chosen_one else None

    def wishes(self, parameters, context):
        """What is wished of fixes, by the names of arguments."""
        wished = {name: self.parameterAsString(parameters, name.upper(), context) for name in (*FIELDS, *FURTHER, *WORDS)}
        found = {name: text for name, text in wished.items() if text}
        for name in BOUNDS:
            if parameters.get(name.upper()) is not None:
                found[name] = self.parameterAsDouble(parameters, name.upper(), context)
        found["skip_unnamed"] = self.parameterAsBoolean(parameters, "SKIP_UNNAMED", context)
        found["unit"] = UNITS[self.parameterAsEnum(parameters, "UNIT", context)]
        return found

    def processAlgorithm(self, parameters, context, feedback):
        try:
            with refusals():
                return self.make(parameters, context, Watch(feedback))
        except Cancelled:
            return {}

    def make(self, parameters, context, watch):
        """Makes all outputs that are wanted."""
        asked = self.asked(parameters, context)
        boundary = None if asked.bounds is None else boundary_of(asked.bounds, asked.geopandas)
        frame = frame_of(asked.source, watch, asked.pandas)
        fixes = asked.fixes_of(frame, watch)
        labels = frame[asked.wishes["by"]] if "by" in asked.wishes else None
        ranges = asked.package.home_range(
            fixes, asked.levels, by=groups_of(fixes, labels, asked.period), program=program(),
            progress=lambda done, of: watch.at(done / of, READ, MADE))
        watch.say(ranges)
        shares = shares_of(asked.package, ranges, boundary)
        made = self.write_layers(parameters, context, ranges, asked.source.sourceCrs(), shares)
        watch.at(1, MADE, 100)
        page = self.parameterAsFileOutput(parameters, "PAGE", context)
        if page:
            title = self.parameterAsString(parameters, "TITLE", context) or None
            asked.package.write_page(
                ranges, page, title=title, reserve=boundary, reserve_name=asked.bounds and asked.bounds.sourceName(),
                overwrite=True)  # the dialog asks before
            made["PAGE"] = page
        return made

    def write_layers(self, parameters, context, ranges, crs, shares):
        """Writes the layers and tables that are wanted."""
        made = {}
        for name in OUTPUTS:
            columns = (*RANGES, *SHARES) if name == "RANGES" and shares else COLUMNS[name]
            fields = fields_of(columns, bool(ranges.groups))
            sink, place = self.parameterAsSink(parameters, name, context, fields, SHAPES[name], crs)
            if sink is None:
                continue
            features = range_features(ranges, fields, shares) if name == "RANGES" else FEATURES[name](ranges, fields)
            for feature in features:
                sink.addFeature(feature, QgsFeatureSink.FastInsert)
            made[name] = place
            if name == "RANGES" and context.willLoadLayerOnCompletion(place):
                context.layerToLoadOnCompletionDetails(place).setPostProcessor(STYLER)
        return made


def shares_of(package, ranges, boundary):
    """The hectares of each range inside of the boundary, and the share, by the name of the range and the level."""
    if boundary is None:
        return {}
    return {(name, level): (row.inside, row.share) for level in ranges.levels
            for name, row in zip(ranges.animals, package.share_inside(ranges, boundary, level).itertuples())}
