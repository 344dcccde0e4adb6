"""qgis_layers.py PLUGINS: layers of memory through the plugin for QGIS that lies in the folder PLUGINS, in one QGIS without
a screen: what it takes, what it refuses and with which words, and that it ends when it is told to. Prints a line for each
test, and says in the last how many there were. What is wanted is worked out by hand."""

import sys
import tempfile
import traceback
from pathlib import Path

sys.path[:0] = ["/usr/share/qgis/python", "/usr/share/qgis/python/plugins", sys.argv[1]]

from qgis.core import (
    QgsApplication, QgsFeature, QgsGeometry, QgsProcessingContext, QgsProcessingException, QgsProcessingFeedback,
    QgsProcessingFeatureSourceDefinition, QgsProcessingOutputLayerDefinition, QgsProject, QgsSymbolLayer, QgsVectorLayer,
)
from qgis.PyQt.QtCore import QDateTime, Qt

import geopandas
from shapely.geometry import box

app = QgsApplication([], False)
app.initQgis()
import processing
from processing.core.Processing import Processing

Processing.initialize()
from homerange import classFactory

plugin = classFactory(None)
plugin.initProcessing()
# A square of 100 m and a fix within it; 1 ha.
SQUARE = [(500000, 5000000), (500100, 5000000), (500100, 5000100), (500000, 5000100), (500040, 5000050)]


SQUARE_TEXT = "POINT(500100 5000000)"  # its lower right corner


class Feedback(QgsProcessingFeedback):
    """Keeps what is said, and is cancelled from the beginning where that is wanted."""

    def __init__(self, is_cancelled=False):
        super().__init__(False)
        self.said = []
        if is_cancelled:
            self.cancel()

    def pushInfo(self, text):
        self.said.append(text)


def layer_of(rows, fields="animal:string", crs="EPSG:32633", kind="Point"):
    """A layer of memory with a feature for each row: its well-known text and its fields."""
    columns = "&".join(f"field={field}" for field in fields.split(",") if field)
    layer = QgsVectorLayer(f"{kind}?crs={crs}&{columns}", "fixes", "memory")
    features = []
    for text, *values in rows:
        feature = QgsFeature(layer.fields())
        if text is not None:
            feature.setGeometry(QgsGeometry.fromWkt(text))
        feature.setAttributes(values)
        features.append(feature)
    layer.dataProvider().addFeatures(features)
    layer.updateExtents()
    QgsProject.instance().addMapLayer(layer)
    return layer


def square(*values):
    """A feature for each fix of the square, with the same fields."""
    return [(f"POINT({east} {north})", *values) for east, north in SQUARE]


def algorithm():
    return QgsApplication.processingRegistry().algorithmById("homerange:ranges").create()


def context_of():
    context = QgsProcessingContext()
    context.setProject(QgsProject.instance())
    return context


def tables(layer, feedback=None, **parameters):
    """The rows of each output, an output by its name."""
    context = context_of()
    made = algorithm().run({"INPUT": layer, "RANGES": "memory:", **parameters}, context, feedback or Feedback(), {}, False)[0]
    return {name: rows_of(context.takeResultLayer(place)) for name, place in made.items()}


def rows_of(layer):
    names = [field.name() for field in layer.fields()]
    return [dict(zip(names, feature.attributes()), shape=QgsGeometry(feature.geometry())) for feature in layer.getFeatures()]


def run(layer, feedback=None, **parameters):
    """The rows of the ranges by animal and level, and what was said."""
    feedback = feedback or Feedback()
    rows = tables(layer, feedback, **parameters).get("RANGES", [])
    return {(row["animal"], row["level"]): row for row in rows}, feedback.said


def refusal(layer, **parameters):
    """The line with which a layer is refused."""
    try:
        run(layer, **parameters)
    except QgsProcessingException as fault:
        return str(fault)
    raise AssertionError("not refused")


def test_square_is_one_hectare():
    rows, said = run(layer_of(square("fox")))
    row = rows["fox", 100]
    assert (row["fixes"], row["kept"], row["corners"], row["hectares"]) == (5, 5, 4, 1.0), row
    assert row["shape"].area() == 10_000
    assert any(line.startswith("no column of times") or "in the order of rows" in line for line in said), said


def test_degrees_are_refused_with_the_zone():
    line = refusal(layer_of([(f"POINT({15 + at / 1000} 46)", "fox") for at in range(4)], crs="EPSG:4326"))
    assert "degrees" in line and "Reproject layer" in line and "EPSG:32633" in line, line
    south = refusal(layer_of([(f"POINT({174 + at / 1000} -41)", "kiwi") for at in range(4)], crs="EPSG:4326"))
    assert "EPSG:32760" in south, south


def test_feet_are_refused():
    assert "feet" in refusal(layer_of(square("fox"), crs="EPSG:2263"))


def test_no_reference_system_is_refused():
    layer = layer_of(square("fox"), crs="")
    assert "no reference system" in refusal(layer)


def test_web_mercator_is_refused():
    line = refusal(layer_of(square("fox"), crs="EPSG:3857"))
    assert "equator" in line and "Reproject layer" in line and "EPSG:32631" in line, line


def test_axes_that_go_west_are_refused():
    # Westings and southings of South Africa.
    line = refusal(layer_of([(f"POINT({east} {3_650_000 + east})", "fox") for east in (0, 100, 300)], crs="EPSG:2048"))
    assert line.startswith("The axes of the layer (EPSG:2048) go west and south, and not east and north: run Reproject layer first"), line
    assert "EPSG:32733" in line or "EPSG:32734" in line, line


def test_several_points_are_refused_and_one_is_taken():
    one = [(text.replace("POINT(", "MULTIPOINT((") + ")", *rest) for text, *rest in square("fox")]
    assert run(layer_of(one, kind="MultiPoint"))[0]["fox", 100]["hectares"] == 1.0
    two = [("MULTIPOINT((500000 5000000), (500001 5000000))", "fox")]
    assert "Multipart to singleparts" in refusal(layer_of(two, kind="MultiPoint"))


def test_an_empty_layer_is_refused():
    assert "no features" in refusal(layer_of([]))


def test_missing_places_are_left_out_and_said():
    rows, said = run(layer_of([*square("fox"), (None, "fox")]))
    assert rows["fox", 100]["fixes"] == 5, rows
    assert any("no coordinates" in line for line in said), said


def test_outliers_are_left_out_by_the_marks_of_movebank():
    fields = "individual-local-identifier:string,visible:string"
    far = ("POINT(501000 5001000)", "fox", "false")
    rows, said = run(layer_of([*square("fox", "true"), far], fields=fields))
    assert rows["fox", 100]["hectares"] == 1.0, rows
    assert any("outlier" in line for line in said), said


def test_times_are_sorted_and_filtered():
    fields = "animal:string,timestamp:datetime"
    moments = [QDateTime(2024, 5, day, 12, 0, 0, 0, Qt.UTC) for day in (5, 4, 3, 2, 1)]
    layer = layer_of([(row[0], "fox", moment) for row, moment in zip(square(), moments)], fields=fields)
    row = run(layer)[0]["fox", 100]
    assert row["first"].toUTC().toString("yyyy-MM-dd HH") == "2024-05-01 12", row["first"].toString()
    # Without the first and the last day: the square's corners at the top and one at the right, half of it.
    rows, said = run(layer, SINCE="2024-05-02", UNTIL="2024-05-04")
    assert rows["fox", 100]["hectares"] == 0.5, rows
    assert any("2024-05-02" in line for line in said), said


def test_a_local_time_is_taken_as_it_shows():
    fields = "animal:string,timestamp:datetime"
    moments = [QDateTime(2024, 5, day, 12, 0, 0) for day in range(1, 6)]
    rows, said = run(layer_of([(row[0], "fox", moment) for row, moment in zip(square(), moments)], fields=fields))
    assert rows["fox", 100]["first"].toUTC().toString("yyyy-MM-dd HH") == "2024-05-01 12"
    assert any("as UTC" in line for line in said), said


def test_a_field_of_use_is_obeyed():
    layer = layer_of([*square("fox", 1), ("POINT(501000 5001000)", "fox", 0)], fields="animal:string,wanted:integer")
    assert run(layer, USE="wanted")[0]["fox", 100]["hectares"] == 1.0
    assert run(layer)[0]["fox", 100]["hectares"] > 1.0


def test_months_and_hours_are_chosen_by_the_clock_of_the_zone():
    fields = "animal:string,timestamp:datetime"
    moments = [QDateTime(2024, 5, 31, hour, 30, 0, 0, Qt.UTC) for hour in (8, 12, 16, 20, 23)]
    layer = layer_of([(row[0], "fox", moment) for row, moment in zip(square(), moments)], fields=fields)
    for parameters, fixes in (({"MONTHS": "5"}, 5), ({"MONTHS": "5", "TZ": "Europe/Ljubljana"}, 4), ({"HOURS": "12,17"}, 2),
                              ({"HOURS": "18,6"}, 2), ({"HOURS": "18,6", "TZ": "Europe/Ljubljana"}, 3)):
        assert run(layer, **parameters)[0]["fox", 100]["fixes"] == fixes, parameters
    assert "no calendar" in refusal(layer_of(square("fox")), MONTHS="5")


def test_selected_features_alone_are_taken():
    layer = layer_of([*square("fox"), ("POINT(501000 5001000)", "fox")])
    layer.selectByExpression("$x < 500500")
    source = QgsProcessingFeatureSourceDefinition(layer.id(), True)
    assert run(source)[0]["fox", 100]["hectares"] == 1.0


def test_decimetres():
    rows, _ = run(layer_of([(f"POINT({east / 1000 + 500000} {north / 1000 + 5000000})", "newt")
                            for east, north in ((0, 0), (1000, 0), (1000, 1000), (0, 1000))]), UNIT=1)
    assert rows["newt", 100]["hectares"] == 0.0001 and rows["newt", 100]["unit"] == "dm", rows


def test_two_fixes_have_no_polygon_and_it_is_said():
    rows, said = run(layer_of([*square("fox"), *square("hare")[:2]]))
    assert rows["hare", 100]["shape"].isNull() and rows["hare", 100]["hectares"] == 0.0, rows
    assert any("hare has no area at 100 %" in line for line in said), said


def test_ranges_that_are_shown_are_drawn_as_those_of_the_package():
    context = context_of()
    wished = {"INPUT": layer_of(square("fox")), "RANGES": QgsProcessingOutputLayerDefinition("memory:", context.project())}
    made = algorithm().run(wished, context, Feedback(), {}, False)[0]
    layer = context.getMapLayer(made["RANGES"])
    context.layerToLoadOnCompletionDetails(made["RANGES"]).postProcessor().postProcessLayer(layer, context, Feedback())
    symbol = layer.renderer().symbol().symbolLayer(0)
    assert symbol.dataDefinedProperties().property(QgsSymbolLayer.PropertyStrokeStyle).isActive(), "no style by level"
    assert layer.labelsEnabled()


def test_a_boundary_gives_shares():
    # The western half of the square; once in longitude and latitude, which are projected.
    half = geopandas.GeoSeries([box(500000, 4999990, 500050, 5000110)], crs="EPSG:32633")
    for crs, off in (("EPSG:32633", 1e-9), ("EPSG:4326", 1e-6)):
        boundary = layer_of([(half.to_crs(crs)[0].wkt,)], fields="", crs=crs, kind="Polygon")
        row = run(layer_of(square("fox")), BOUNDARY=boundary)[0]["fox", 100]
        assert abs(row["inside"] - 0.5) < off and abs(row["share"] - 0.5) < off, row


# What cannot be right, by the name of its parameter, and what its label is.
WRONG = (
    ("LEVELS", "50,abc", "Levels in per cent"), ("LEVELS", "0", "Levels in per cent"), ("LEVELS", "95,95", "Levels in per cent"),
    ("LEVELS", "50,", "Levels in per cent"), ("HOURS", "18", "Hours of the day"), ("MONTHS", "13", "Months"),
    ("EVERY", "soon", "One fix in each piece of time"), ("SINCE", "May", "First moment or day"), ("TZ", "Ljubljana", "Time zone"),
    ("MAX_SPEED", 1e9, "Greatest speed in metres a second"), ("ANIMAL", "nobody", "Field of the animal"))


def test_words_that_cannot_be_right_are_refused_by_the_label_of_their_parameter():
    layer = layer_of(square("fox"))
    for name, value, label in WRONG:
        line = refusal(layer, **{name: value})
        assert f"'{label}'" in line and "\n" not in line, (name, line)


def checked(layer, **parameters):
    """What the dialog says before it runs: whether it may, and why not."""
    return algorithm().checkParameterValues({"INPUT": layer, "RANGES": "memory:", **parameters}, context_of())


def test_the_dialog_says_before_the_run_what_cannot_be_right():
    layer = layer_of(square("fox"))
    assert checked(layer, SINCE="2024-05-01", MONTHS="5,6", HOURS="18,6", MAX_SPEED=2) == (True, "")
    for name, value, label in WRONG:
        is_right, line = checked(layer, **{name: value})
        assert not is_right and label in line, (name, line)
    for layer, words in ((layer_of(square("fox"), crs="EPSG:2263"), "feet"), (layer_of(square("fox"), crs=""), "no reference system"),
                         (layer_of([], kind="LineString"), "no points")):
        is_right, line = checked(layer)
        assert not is_right and words in line, line


def test_each_parameter_has_a_help():
    own = algorithm()
    found = own.parameterDefinitions()
    assert len(found) > 25 and [one.name() for one in found if len(one.help()) < 20] == []


def test_a_refusal_names_the_feature():
    """The third feature that was added has the id 3 in a layer of memory."""
    rows = square("fox", "true", "2024-05-01 12:00:00")
    fields = "animal:string,visible:string,timestamp:string"
    for at, cell, words in (
            (2, "maybe", "feature 3 ($id): visible is 'maybe'"),
            (1, None, "and 'Leave fixes of no animal out' leaves such records out"),
            (3, "01.05.2024 12:00", "as by 'Form of the time' = '%d.%m.%Y %H:%M'")):
        own = [[*row] for row in rows]
        own[2][at] = cell
        line = refusal(layer_of(own, fields=fields))
        assert line.startswith("feature 3 ($id): ") and words in line, line


def test_what_is_said_names_features_and_parameters():
    """At half past two the clocks of Ljubljana went back to two."""
    rows = square("fox", "2024-10-27 02:30:00")
    rows[0] = (rows[0][0], "fox", "2024-10-27 12:00:00")
    said = run(layer_of(rows, fields="animal:string,timestamp:string"), TZ="Europe/Ljubljana")[1]
    assert any(line.endswith("comes twice in Europe/Ljubljana: features 2, 3, 4, 5") for line in said), said
    line = refusal(layer_of(square("fox", "3"), fields="animal:string,lc:string"))
    assert line == "field 'lc' may have Argos classes: name it, as by 'Field of Argos classes' = 'lc', or rename or remove it", line
    line = refusal(layer_of(square("fox", "2024-10-27", "pm"), fields="animal:string,timestamp:string,half:string"))
    assert "join it to the time, as by Field calculator with %p in 'Form of the time', or remove it" in line, line


def test_groups_have_ranges_of_their_own():
    """The square's first three corners are half of it, 0.5 ha; the others with one of these 0.25 ha: a triangle of 100 by 50 m."""
    groups = ("wet", "wet", "wet", "dry", "dry")
    rows = [(*row, "fox", group) for row, group in zip(square(), groups)] + [(SQUARE_TEXT, "hare", "dry")]
    found = tables(layer_of([*rows, ("POINT(500100 5000100)", "fox", "dry")], fields="animal:string,season:string"), LEVELS="100",
                   BY="season", CORNERS="memory:", CURVE="memory:", OVERLAPS="memory:")
    assert {(row["animal"], row["group"]): (row["fixes"], row["hectares"]) for row in found["RANGES"]} == {
        ("fox", "wet"): (3, 0.5), ("fox", "dry"): (3, 0.25), ("hare", "dry"): (1, 0.0)}
    assert [*found["RANGES"][0]][:3] == ["animal", "group", "level"]
    corners = {(row["easting"], row["northing"]) for row in found["CORNERS"] if (row["animal"], row["group"]) == ("fox", "wet")}
    assert corners == {*SQUARE[:3]}, corners
    assert [(row["animal"], row["group"], row["n"]) for row in found["CURVE"]][:3] == [("fox", "wet", 1), ("fox", "wet", 2), (
        "fox", "wet", 3)]
    overlaps = {(row["animal"], row["group"], row["other"], row["other_group"]): row["count"] for row in found["OVERLAPS"]}
    # The upper right corner is of both triangles; the other two fixes of each lie outside of the other's. The hare is at a corner.
    assert overlaps["fox", "dry", "fox", "wet"] == 1 and overlaps["fox", "wet", "fox", "dry"] == 1, overlaps
    assert overlaps["hare", "dry", "fox", "wet"] == 1 and len(overlaps) == 6, overlaps


def test_ranges_of_a_period_go_by_the_clock_of_the_zone():
    moments = [QDateTime(2024, month, day, 23, 0, 0, 0, Qt.UTC) for month, day in ((5, 30), (5, 31), (6, 1), (6, 2), (7, 1))]
    layer = layer_of([(row[0], "fox", moment, moment.date().month()) for row, moment in zip(square(), moments)],
                     fields="animal:string,timestamp:datetime,month:integer")
    for zone, counts in (("", {"2024-05": 2, "2024-06": 2, "2024-07": 1}),
                         ("Europe/Ljubljana", {"2024-05": 1, "2024-06": 3, "2024-07": 1})):
        rows = tables(layer, PERIOD=3, LEVELS="100", TZ=zone)["RANGES"]
        assert {row["group"]: row["fixes"] for row in rows} == counts, (zone, rows)
    line = refusal(layer_of(square("fox")), PERIOD=1)
    assert line.startswith("'Period of the calendar': the fixes have no calendar") and "'Field of the time'" in line, line


def test_groups_that_cannot_be_right_are_refused():
    rows = [(*row, "fox", group) for row, group in zip(square(), ("wet", None, "wet", "", "wet"))]
    layer = layer_of(rows, fields="animal:string,season:string")
    assert refusal(layer, BY="season").startswith("feature 2 ($id): 'Field of the group' is empty, and of 2 features in all"), layer
    assert "'Field of the group'" in refusal(layer_of(square("fox", 1.5), fields="animal:string,season:double"), BY="season")
    assert "are two kinds of groups: leave one out" in refusal(layer, BY="season", PERIOD=2)
    with tempfile.TemporaryDirectory() as folder:
        page = Path(folder) / "page.html"
        assert "the page is of whole ranges" in refusal(layer, BY="animal", PAGE=str(page)) and not page.exists()


def gpx_of(folder, tracks):
    """A GPX of some tracks, each with its points in degrees."""
    points = "".join(
        "<trk><trkseg>" + "".join(f'<trkpt lat="{lat}" lon="{lon}"><time>2024-05-01T0{at}:00:00Z</time></trkpt>'
                                  for at, (lon, lat) in enumerate(track)) + "</trkseg></trk>" for track in tracks)
    path = Path(folder) / "three.gpx"
    path.write_text(f'<gpx version="1.1" creator="test" xmlns="http://www.topografix.com/GPX/1/1">{points}</gpx>')
    return path


def test_the_tracks_of_gpx_are_as_many_animals():
    tracks = [[(15 + step / 1000, 46 + at / 100) for step in range(count)] for at, count in enumerate((3, 4, 5))]
    with tempfile.TemporaryDirectory() as folder:
        path = gpx_of(folder, tracks)
        points = QgsVectorLayer(f"{path}|layername=track_points", "points", "ogr")
        assert "Reproject layer" in refusal(points)
        assert "track_points" in refusal(QgsVectorLayer(f"{path}|layername=tracks", "tracks", "ogr"))
        layer = processing.run("native:reprojectlayer", {"INPUT": points, "TARGET_CRS": "EPSG:32633", "OUTPUT": "memory:"})["OUTPUT"]
        QgsProject.instance().addMapLayer(layer)
        rows, said = run(layer, LEVELS="100")
        assert {animal: row["fixes"] for (animal, _), row in rows.items()} == {"0": 3, "1": 4, "2": 5}, rows
        assert any("each track of GPX is an animal" in line and "'Field of the animal'" in line for line in said), said
        named = processing.run("native:fieldcalculator", {
            "INPUT": layer, "FIELD_NAME": "animal", "FIELD_TYPE": 2, "FORMULA": "if(track_fid < 2, 'fox', 'owl')",
            "OUTPUT": "memory:"})["OUTPUT"]
        QgsProject.instance().addMapLayer(named)
        assert {animal: row["fixes"] for (animal, _), row in run(named, LEVELS="100")[0].items()} == {"fox": 7, "owl": 5}


def test_a_boundary_that_cannot_be_right_is_refused():
    for text, crs, words in (("POLYGON((0 0, 9 9, 9 0, 0 9, 0 0))", "EPSG:32633", "feature 1 ($id) crosses itself: run Fix geometries"),
                             (None, "EPSG:32633", "no feature has an area"),
                             ("POLYGON((0 0, 9 9, 9 0, 0 0))", "", "no reference system")):
        line = refusal(layer_of(square("fox")), BOUNDARY=layer_of([(text,)], fields="", crs=crs, kind="Polygon"))
        assert line.startswith("'Boundary': ") and words in line, line


def test_a_missing_package_is_named():
    kept, sys.modules["pyproj"] = sys.modules["pyproj"], None
    try:
        line = refusal(layer_of(square("fox")))
    finally:
        sys.modules["pyproj"] = kept
    assert "needs pyproj" in line and "apt-get install python3-geopandas" in line, line


def test_cancelled_work_makes_nothing():
    rows, _ = run(layer_of(square("fox")), feedback=Feedback(is_cancelled=True))
    assert rows == {}, rows


def main():
    tests = [(name, test) for name, test in globals().items() if name.startswith("test_")]
    failed = 0
    for name, test in tests:
        try:
            test()
            print(f"passed: {name[5:]}")
        except Exception:
            failed += 1
            print(f"failed: {name[5:]}: {' '.join(traceback.format_exc().split())}")
    print(f"{len(tests) - failed} passed, {failed} failed")
    sys.stdout.flush()
    plugin.unload()
    return failed > 0


status = main()
app.exitQgis()
sys.exit(status)
