"""Reads a layer of points into a frame, and a boundary into a shape."""

import datetime

from qgis.core import NULL, QgsCoordinateReferenceSystem, QgsCoordinateTransform, QgsUnitTypes, QgsWkbTypes
from qgis.PyQt.QtCore import QDate, QDateTime, Qt, QVariant

from .parameters import BOUNDARY, FIELDS, HOURS, MONTHS, PERIOD

WHOLE = (QVariant.Int, QVariant.UInt, QVariant.LongLong, QVariant.ULongLong)
# The types of fields that a column may have. A list, a map or bytes are no cell of a table of fixes.
TAKEN = (*WHOLE, QVariant.Double, QVariant.Bool, QVariant.String, QVariant.Date, QVariant.DateTime)

PLACES = ("easting of the point", "northing of the point")
# What OGR has of GPX: the number of the track, and that of the point in its part.
TRACK, TRACK_POINT = "track_fid", "track_seg_point_id"


class LayerFault(Exception):
    """A layer that cannot be taken as it is."""


def utm_of(source, project):
    """The UTM zone of the middle of a layer, as a code: what the remedy of a wrong reference system names."""
    to_degrees = QgsCoordinateTransform(source.sourceCrs(), QgsCoordinateReferenceSystem("EPSG:4326"), project)
    middle = to_degrees.transformBoundingBox(source.sourceExtent()).center()
    zone = min(max(int((middle.x() + 180) // 6) + 1, 1), 60)
    return f"EPSG:{(32600 if middle.y() >= 0 else 32700) + zone}"


def ways_of_axes(source):
    """Where the axes of a layer go, if not east and north. Wants pyproj."""
    from pyproj import CRS

    from .package.read.systems import turned_axes

    return turned_axes(CRS.from_user_input(crs_of(source)))


def check_layer(source, project):
    """Refuses a layer that is not of points in a plane of eastings and northings in metres."""
    if QgsWkbTypes.geometryType(source.wkbType()) != QgsWkbTypes.PointGeometry:
        raise LayerFault("The layer has no points: of GPX take the layer track_points, and of lines run Extract vertices first")
    crs = source.sourceCrs()
    if not crs.isValid():
        raise LayerFault("The layer has no reference system: name it by Layer > Layer CRS > Set Layer CRS")
    name, units = crs.authid() or "a reference system of its own", crs.mapUnits()
    odd = None if units == QgsUnitTypes.DistanceMeters else f"The layer is in {QgsUnitTypes.toString(units)} ({name}) and not in metres"
    odd = f"Areas in Web Mercator ({name}) grow away from the equator" if name == "EPSG:3857" else odd
    ways = ways_of_axes(source) if odd is None else []
    odd = f"The axes of the layer ({name}) go {' and '.join(ways)}, and not east and north" if ways else odd
    if odd is not None:
        raise LayerFault(f"{odd}: run Reproject layer first, to the UTM zone of the fixes ({utm_of(source, project)}) or another plane "
                         "in metres")


def check_boundary(source):
    """Refuses a boundary that cannot be turned to the reference system of the fixes."""
    if not source.sourceCrs().isValid():
        raise LayerFault(f"'{BOUNDARY.label}': the layer has no reference system: name it by Layer > Layer CRS > Set Layer CRS")


def check_fields(source, fields):
    """Refuses fields, by the labels of their parameters, that are not there, or of a type that no column has."""
    for label, name in fields.items():
        at = source.fields().lookupField(name)
        if at < 0:
            raise LayerFault(f"'{label}': the layer has no field '{name}'")
        if source.fields().at(at).type() not in TAKEN:
            raise LayerFault(f"'{label}': the field {name} is neither a truth, a number, a time nor a text")


def is_missing(value):
    return value is None or value == NULL


def value_of(value):
    """A field as a cell. A date-time of a zone is a moment; of others QGIS keeps the clock alone, as of a GeoPackage's, which is
    taken for that of UTC."""
    if is_missing(value):
        return None
    if isinstance(value, QDateTime):
        moment = value if value.timeSpec() == Qt.LocalTime else value.toUTC()
        return moment.toPyDateTime().replace(tzinfo=datetime.timezone.utc)
    return value.toPyDate() if isinstance(value, QDate) else value


def place_of(geometry):
    """The easting and the northing of a point; missing where there is none."""
    if geometry.isNull() or geometry.isEmpty():
        return None, None
    if QgsWkbTypes.isMultiType(geometry.wkbType()):
        points = geometry.asMultiPoint()
        if len(points) != 1:
            raise LayerFault(f"A feature has {len(points)} points: run Multipart to singleparts first")
        return points[0].x(), points[0].y()
    point = geometry.asPoint()
    return point.x(), point.y()


def column_of(values, kind, pandas):
    """A column of the cells of a field."""
    if kind in WHOLE:
        return pandas.array(values, dtype="Int64")
    return pandas.Series(values, dtype="object" if kind in (QVariant.String, QVariant.Bool, QVariant.Date) else None)


def frame_of(source, watch, pandas):
    """The features of a layer as a frame, by their ids, with those of its fields that a table of fixes may have, and behind them
    two columns of the places of its points."""
    fields = [field for field in source.fields() if field.type() in TAKEN]
    places = [source.fields().lookupField(field.name()) for field in fields]
    cells, east, north, ids = [[] for _ in fields], [], [], []
    count = max(source.featureCount(), 1)
    if any(field.type() == QVariant.DateTime for field in fields):
        watch.feedback.pushInfo("date-times are taken as the layer's table shows them, as UTC")
    for done, feature in enumerate(source.getFeatures()):
        if done % 4096 == 0:
            watch.at(done / count)
        own = feature.attributes()
        for column, place in zip(cells, places):
            column.append(value_of(own[place]))
        easting, northing = place_of(feature.geometry())
        ids.append(feature.id())
        east.append(easting)
        north.append(northing)
    if not east:
        raise LayerFault("The layer has no features")
    columns = {field.name(): column_of(own, field.type(), pandas) for field, own in zip(fields, cells)}
    for title, own in zip(PLACES, (east, north)):
        columns[title] = pandas.Series(own, dtype="float64")
    frame = pandas.DataFrame(columns)
    frame.index = ids
    return frame


def marked(frame, use):
    """A frame whose column use says which fixes are used, where a field is named for that; else as it is."""
    if use is None:
        return frame
    # One that is called use then says nothing.
    return frame.drop(columns="use" if "use" in frame and use != "use" else []).rename(columns={use: "use"})


def has_tracks(frame):
    """Whether it is of the points of several tracks of GPX."""
    return TRACK in frame and TRACK_POINT in frame and frame[TRACK].nunique() > 1


def chosen(fixes, months, hours):
    """The fixes of some months, and of the hours from a first one to a second, which is not among them."""
    for wish, text in ((months, MONTHS), (hours, HOURS)):
        if wish is not None:
            check_calendar(fixes, text)
    if months is not None:
        fixes = fixes[fixes["time"].dt.month.isin(months)]
    return fixes if hours is None else fixes[at_hours(fixes["time"].dt.hour, hours)]


def check_calendar(fixes, parameter):
    """Refuses fixes without a calendar, where a parameter goes by it."""
    if "time" not in fixes:
        raise LayerFault(f"'{parameter.label}': the fixes have no calendar, but seconds alone or no time: name the "
                         f"'{FIELDS['time'].label}'")


def groups_of(fixes, labels, period):
    """The group of each fix: what a column says of its feature, or a period of the calendar; None where neither is wished."""
    if period is not None:
        check_calendar(fixes, PERIOD)
        return period
    if labels is None:
        return None
    own = labels.reindex(fixes.index)
    missing = own.index[(own.isna() | (own == "")).to_numpy(dtype=bool)]
    if len(missing):
        raise LayerFault(f"feature {missing[0]} ($id): '{FIELDS['by'].label}' is empty, and of {len(missing)} features in all: run "
                         "Extract by expression first, or fill it")
    return own


def at_hours(own, hours):
    """Which hours are from a first one to a second, over midnight where that is less."""
    first, last = hours
    return (own >= first) & (own < last) if first < last else (own >= first) | (own < last)


def crs_of(source):
    """The reference system of a layer, as geopandas takes it."""
    crs = source.sourceCrs()
    return crs.authid() if crs.authid().startswith("EPSG:") else crs.toWkt(QgsCoordinateReferenceSystem.WKT2_2019)


def boundary_of(source, geopandas):
    """The shapes of a layer, as of a reserve."""
    features = [feature for feature in source.getFeatures() if not feature.geometry().isNull()]
    odd = next((feature.id() for feature in features if not feature.geometry().isGeosValid()), None)
    if odd is not None:
        raise LayerFault(f"'{BOUNDARY.label}': feature {odd} ($id) crosses itself: run Fix geometries first")
    shapes = [bytes(feature.geometry().asWkb()) for feature in features if feature.geometry().area() > 0]
    if not shapes:
        raise LayerFault(f"'{BOUNDARY.label}': no feature has an area")
    return geopandas.GeoSeries.from_wkb(shapes, crs=crs_of(source))
