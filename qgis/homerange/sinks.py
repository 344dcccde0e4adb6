"""The layers and tables that are made: their fields, and their features."""

import math

from qgis.core import QgsFeature, QgsField, QgsFields, QgsGeometry, QgsPointXY, QgsWkbTypes
from qgis.PyQt.QtCore import QDateTime, Qt, QVariant

TEXT, WHOLE, NUMBER, TIME = QVariant.String, QVariant.Int, QVariant.Double, QVariant.DateTime
RANGES = (
    ("animal", TEXT), ("level", WHOLE), ("fixes", WHOLE), ("kept", WHOLE), ("corners", WHOLE), ("hectares", NUMBER),
    ("first", TIME), ("last", TIME), ("unit", TEXT))
SHARES = (("inside", NUMBER), ("share", NUMBER))
CORNERS = (("animal", TEXT), ("level", WHOLE), ("corner", WHOLE), ("easting", NUMBER), ("northing", NUMBER))
CURVE = (("animal", TEXT), ("n", WHOLE), ("time", TIME), ("corners", WHOLE), ("hectares", NUMBER))
OVERLAPS = (("animal", TEXT), ("other", TEXT), ("count", WHOLE), ("fixes", WHOLE), ("share", NUMBER))


# Behind the column of an animal, where ranges are by groups.
GROUPS = {"animal": ("group", TEXT), "other": ("other_group", TEXT)}


def fields_of(columns, has_groups):
    """The fields of an output, with those of groups where ranges are by them."""
    if has_groups:
        columns = [own for name, kind in columns for own in ((name, kind), GROUPS.get(name)) if own is not None]
    fields = QgsFields()
    for name, kind in columns:
        fields.append(QgsField(name, kind))
    return fields


def feature_of(fields, values, geometry=None):
    feature = QgsFeature(fields)
    feature.setAttributes([None if isinstance(value, float) and math.isnan(value) else value for value in values])
    if geometry is not None:
        feature.setGeometry(geometry)
    return feature


def time_of(moment):
    """A time of pandas, or seconds, as a time of QGIS, in UTC."""
    return QDateTime.fromSecsSinceEpoch(int(moment.timestamp() if hasattr(moment, "timestamp") else moment), Qt.UTC)


def polygon_of(corners):
    """The polygon of some corners; None where they are one or two, since that has no area."""
    if len(corners) < 3:
        return None
    return QgsGeometry.fromPolygonXY([[QgsPointXY(*corner) for corner in (*corners, corners[0])]])


def whose(ranges, name):
    """The animal of a range, and behind it the group where ranges are by groups."""
    return [*ranges.groups[name]] if ranges.groups else [name]


def rows_of(ranges):
    """The rows of the summary, each with the name of its range."""
    names = [name for name in ranges.animals for _ in ranges.levels]
    return zip(names, ranges.summary().itertuples())


def range_features(ranges, fields, shares):
    """A feature for each animal and level, with its polygon; shares have hectares inside of a boundary, and the share."""
    corners = {level: ranges.corners(level) for level in ranges.levels}
    for name, row in rows_of(ranges):
        values = [*whose(ranges, name), row.level, row.fixes, row.kept, row.corners, row.hectares, time_of(row.first),
                  time_of(row.last), ranges.unit, *shares.get((name, row.level), ())]
        yield feature_of(fields, values, polygon_of(corners[row.level][name]))


def corner_features(ranges, fields):
    """A feature for each corner."""
    for level in ranges.levels:
        for name, corners in ranges.corners(level).items():
            for number, (easting, northing) in enumerate(corners, 1):
                place = QgsGeometry.fromPointXY(QgsPointXY(easting, northing))
                yield feature_of(fields, [*whose(ranges, name), level, number, easting, northing], place)


def curve_features(ranges, fields):
    """A row for each fix: the area of the polygon of all up to it."""
    for row in ranges.curve().itertuples():
        own = [row.animal, row.group] if ranges.groups else [row.animal]
        yield feature_of(fields, [*own, row.n, time_of(row.time), row.corners, row.hectares])


def overlap_features(ranges, fields):
    """A row for each ordered pair of ranges: how many fixes of the one lie in the other."""
    counts = ranges.overlap()
    for name in counts.index:
        fixes = int(counts.at[name, name])
        for other in counts.columns:
            if other != name:
                count = int(counts.at[name, other])
                yield feature_of(fields, [*whose(ranges, name), *whose(ranges, other), count, fixes, count / fixes])


# The type of geometry of each output.
SHAPES = {"RANGES": QgsWkbTypes.Polygon, "CORNERS": QgsWkbTypes.Point, "CURVE": QgsWkbTypes.NoGeometry,
          "OVERLAPS": QgsWkbTypes.NoGeometry}
