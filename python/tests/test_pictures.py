"""Pictures: what is drawn, that nothing covers it, and that an animal looks the same in each."""
import re

import pytest
from exact import cloud, hull
from frames import frame_of

matplotlib = pytest.importorskip("matplotlib")
matplotlib.use("Agg")
from matplotlib import pyplot  # noqa: E402

from homerange import FrameError, home_range, plot_curve, plot_ranges, write_page  # noqa: E402
from homerange.write.plot_style import COLOURS  # noqa: E402

HERD = {"vixen": cloud(1, 60), "_boar": cloud(2, 40), "a$b$": cloud(3, 30), "NA": cloud(4, 1)}
SQUARE = [(0, 0), (20_000, 0), (20_000, 20_000), (0, 20_000)]


@pytest.fixture(autouse=True)
def closed():
    yield
    pyplot.close("all")


def herd(count, fixes=5):
    return home_range(frame_of(**{f"deer {number}": cloud(number, fixes) for number in range(1, count + 1)}))


def labels(axes):
    return [text.get_text() for text in axes.get_legend().get_texts()]


def numbers(axes):
    """The numbers that stand at polygons or curves."""
    return sorted(int(text.get_text()) for text in axes.texts if text.get_text().isdigit())


def lines(axes):
    """The curves or polygons, without what leads to numbers."""
    return [line for line in axes.get_lines() if line.get_color() != "#888888"]


def boxes(axes):
    """Of axes, their legend and their figure, once it was drawn."""
    axes.figure.canvas.draw()
    return axes.get_window_extent(), axes.get_legend().get_window_extent(), axes.figure.bbox


def is_beside(axes):
    """Whether the legend is beside the axes and within the figure."""
    own, legend, figure = boxes(axes)
    return own.x1 <= legend.x0 and legend.x1 <= figure.x1 and figure.y0 <= legend.y0


def test_each_animal_has_a_curve():
    found = home_range(frame_of(**HERD))
    axes = plot_curve(found)
    assert (axes.get_xlabel(), axes.get_ylabel()) == ("Fixes", "Area of the minimum convex polygon (ha)")
    assert labels(axes) == ["1 vixen", "2 \u200b_boar", r"3 a\$b\$", "4 NA"]
    curve = found.curve()
    for line, name in zip(lines(axes), HERD):
        own = curve[curve["animal"] == name]
        areas = dict(zip(own["n"], own["hectares"]))
        drawn = dict(zip(line.get_xdata(), line.get_ydata()))
        # Only fixes at which the area stays as it was are left out.
        kept = [n for n in areas if n in (1, len(areas)) or areas[n] != areas[n - 1]]
        assert drawn == {n: areas[n] for n in kept}
        assert line.get_drawstyle() == "steps-post"
    assert lines(axes)[3].get_marker() == "o"
    assert is_beside(axes)


def test_a_curve_by_date_and_as_a_share():
    found = home_range(frame_of(vixen=SQUARE, boar=SQUARE[:3]), tz="Europe/Ljubljana")
    axes = plot_curve(found, by="date", share=True)
    assert axes.get_xlabel() == "Date (Europe/Ljubljana)"
    assert axes.get_ylabel() == "Area of the minimum convex polygon (% of the final one)"
    first, second = lines(axes)
    assert first.get_ydata().tolist() == [0, 50, 100] and second.get_ydata().tolist() == [0, 100]
    assert str(first.get_xdata()[0]).startswith("2024-03-01 01:00")
    own_start = frame_of(vixen=SQUARE)
    own_start["second"] = [0, 86_400, 172_800, 216_000]
    axes = plot_curve(home_range(own_start.drop(columns="timestamp")), by="date")
    assert axes.get_xlabel() == "Days from the files' start"
    assert lines(axes)[0].get_xdata().tolist() == [0, 2, 2.5]


def test_ranges_are_drawn_over_fixes():
    axes = plot_ranges(home_range(frame_of(**HERD)), level=100)
    assert (axes.get_xlabel(), axes.get_ylabel()) == ("Easting (m)", "Northing (m)")
    assert axes.get_aspect() == 1
    for line, fixes, points in zip(lines(axes), axes.collections, HERD.values()):
        corners = hull(points)
        assert [tuple(corner) for corner in line.get_xydata()] == [*corners, corners[0]]
        for place in fixes.get_offsets():
            # What is drawn of fixes in one place of the drawing is the first of them.
            assert min(abs(place[0] - east) + abs(place[1] - north) for east, north in points) < 1e-6
    assert lines(axes)[3].get_marker() == "+"
    assert "100 % of the fixes" in axes.get_title("left")
    assert "reference system not known" in axes.get_title("left")
    assert numbers(axes) == [1, 2, 3, 4]
    assert is_beside(axes)


def test_wide_ranges_are_in_kilometres():
    found = home_range(frame_of(wolf=SQUARE))
    axes = plot_ranges(found)
    assert axes.get_xlabel() == "Easting (km)"
    assert labels(axes) == ["wolf, 40,000 ha"]
    assert lines(axes)[0].get_xydata().max() == 20
    assert "5 km" in [text.get_text() for text in axes.texts]
    assert lines(plot_curve(found))[0].get_ydata().max() == 400


def test_the_least_ranges_are_in_square_metres_and_their_axes_tell_places_apart():
    newt = [(5_134_000.0, 5_134_000.0), (5_134_000.8, 5_134_000.0), (5_134_000.8, 5_134_000.8)]
    found = home_range(frame_of(newt=newt), unit="dm")
    axes = plot_curve(found)
    assert axes.get_ylabel() == "Area of the minimum convex polygon (m²)"
    assert lines(axes)[0].get_ydata().max() == pytest.approx(0.32)
    axes = plot_ranges(found)
    assert labels(axes) == ["newt, 0.32 m²"]
    axes.figure.canvas.draw()
    for axis in (axes.xaxis, axes.yaxis):
        texts = [tick.label1.get_text() for tick in axis.get_major_ticks()]
        assert len({*texts}) == len(texts) > 2


def test_levels_have_lines_of_their_own():
    axes = plot_ranges(home_range(frame_of(**HERD)), level=(50, 95, 100))
    assert labels(axes)[:3] == ["100 %", "95 %", "50 %"]
    kinds = [(line.get_linestyle(), line.get_linewidth()) for line in lines(axes)[::len(HERD)]]
    assert len({*kinds}) == 3
    assert "100, 95, 50 % of the fixes" in axes.get_title("left")


def test_axes_of_ones_own():
    figure, own = pyplot.subplots(1, 2)
    found = home_range(frame_of(**HERD))
    assert plot_curve(found, own[0]) is own[0]
    assert plot_ranges(found, ax=own[1], level=95) is own[1]
    assert pyplot.get_fignums() == [figure.number]


def test_an_animal_has_its_number_and_colour_in_each_picture():
    found = herd(9)
    whole = lines(plot_curve(found))
    for draw in (plot_curve, plot_ranges):
        axes = draw(found, animals=["deer 3", "deer 9"])
        assert [line.get_color() for line in lines(axes)] == [whole[2].get_color(), whole[8].get_color()]
        assert numbers(axes) == [3, 9]
        assert [text[:2] for text in labels(axes)] == ["3 ", "9 "]
    panel = plot_curve(found, facets=True)[2]
    assert lines(panel)[0].get_color() == whole[2].get_color()


def test_colours_are_those_of_the_page(tmp_path):
    write_page(herd(1), tmp_path / "page.html")
    assert re.findall(r"\.c[0-6] \{ color: (#[0-9a-f]{6}); \}", (tmp_path / "page.html").read_text("utf-8")) == [*COLOURS]


def test_colours_of_ones_own():
    found = herd(3)
    assert {line.get_color() for line in lines(plot_curve(found, colours="red"))} == {"red"}
    assert [line.get_color() for line in lines(plot_curve(found, colours=["red", "blue"]))] == ["red", "blue", "red"]
    assert {line.get_color() for line in lines(plot_curve(found, colours=[(1, 0, 0)]))} == {"#ff0000"}
    for odd, text in (({"wolf": "red"}, "there is no animal 'wolf'"), ([], "there is none")):
        with pytest.raises(FrameError, match=f"^colours: {text}$"):
            plot_curve(found, colours=odd)
    named = [line.get_color() for line in lines(plot_ranges(found, colours={"deer 2": "red"}))]
    assert named == [COLOURS[0], "red", COLOURS[2]]


@pytest.mark.parametrize("count", [30, 200])
def test_of_many_animals_each_has_a_number_and_a_name(count):
    found = herd(count)
    names = [f"{number} deer {number}, " for number in range(1, count + 1)]
    axes = plot_ranges(found)
    assert all(label.startswith(name) for label, name in zip(labels(axes), names)) and len(labels(axes)) == count
    assert numbers(axes) == [*range(1, count + 1)]
    own, legend, figure = boxes(axes)
    assert own.x1 <= legend.x0 or legend.y1 <= own.y0, "the key covers the map"
    assert legend.x1 <= figure.x1 and figure.y0 <= legend.y0, "the key leaves the picture"
    assert own.width > 0.4 * figure.width, "the key leaves the map no room"
    assert len(labels(plot_curve(found))) == count


def test_long_names_leave_the_map_its_room():
    axes = plot_ranges(home_range(frame_of(**{"W" * 32: cloud(1, 9), "x" * 32: cloud(2, 9)})))
    assert labels(axes)[0].startswith("1 " + "W" * 21 + "..., ")
    own, legend, figure = boxes(axes)
    assert own.width > 0.5 * figure.width and legend.x1 <= figure.x1


def test_facets_have_a_panel_for_each_animal():
    found = herd(30)
    for draw in (plot_curve, plot_ranges):
        panels = draw(found, facets=True)
        assert [panel.get_title("left").split(",")[0] for panel in panels] == [f"{n} deer {n}" for n in range(1, 31)]
        assert len({panel.figure for panel in panels}) == 1
        assert all(len(lines(panel)) == 1 for panel in panels)


def test_fixes_are_thinned_or_left_out():
    found = home_range(frame_of(vixen=cloud(1, 30_000)))
    assert not plot_ranges(found, fixes=False).collections
    drawn = sum(len(fixes.get_offsets()) for fixes in plot_ranges(found).collections)
    assert 100 < drawn <= 20_000


def test_a_boundary_is_drawn_and_named():
    geometry = pytest.importorskip("shapely.geometry")
    axes = plot_ranges(home_range(frame_of(wolf=SQUARE)), over=geometry.box(-2000, -2000, 9000, 9000), over_name="Kočevje")
    assert labels(axes) == ["Kočevje", "wolf, 40,000 ha"]
    assert lines(axes)[0].get_xydata().min() == -2
    assert axes.get_xlim()[0] <= -2


def test_what_a_boundary_is_called():
    geometry = pytest.importorskip("shapely.geometry")
    ranges, over = home_range(frame_of(wolf=SQUARE)), geometry.box(-2000, -2000, 9000, 9000)
    assert labels(plot_ranges(ranges, over=over))[0] == labels(plot_ranges(ranges, over=over, over_name=""))[0] == "boundary"
    for wrong, said in (({"over_name": "x"}, "over_name is the name of no boundary: give its shape as over"),
                        ({"over": over, "over_name": 5}, "over_name=5 is no text"), ({"over_name": 5}, "over_name=5 is no text"),
                        ({"over": over, "over_name": "x", "facets": True}, "over_name stands in a key, which facets do not have: leave it out")):
        with pytest.raises(FrameError, match=f"^{re.escape(said)}$"):
            plot_ranges(ranges, **wrong)


def test_panels_have_the_boundary():
    geometry = pytest.importorskip("shapely.geometry")
    for panel in plot_ranges(herd(2), over=geometry.box(-30, -20, 9000, 9000), facets=True):
        corners = lines(panel)[0].get_xydata()
        scale = 1 if panel.get_xlim()[1] > 100 else 1000
        assert (corners.min(axis=0) * scale).tolist() == [-30, -20] and (corners.max(axis=0) * scale).tolist() == [9000, 9000]


def test_a_reference_system_is_named_and_not_written_out():
    crs = pytest.importorskip("pyproj").CRS.from_epsg(3035).to_wkt()
    found = home_range(frame_of(wolf=[(4_400_000 + east, 2_600_000 + north) for east, north in SQUARE]), crs=crs)
    title = plot_ranges(found).get_title("left")
    assert "LAEA" in title and len(title) < 120


@pytest.mark.parametrize("wrong, text", [
    ({"animals": ["wolf"]}, "there is no animal 'wolf'"), ({"animals": []}, "there is none"),
    ({"by": "day"}, "neither 'fix' nor 'date'"), ({"facets": True, "ax": 1}, "leave ax out")])
def test_what_cannot_be_drawn_is_refused(wrong, text):
    with pytest.raises(FrameError, match=re.escape(text)):
        plot_curve(herd(2), **wrong)
    if "by" not in wrong:
        with pytest.raises(FrameError, match=re.escape(text)):
            plot_ranges(herd(2), **wrong)


@pytest.mark.parametrize("kind", ["3d", "polar", "mollweide"])
def test_axes_of_another_projection_are_refused(kind):
    ranges, axes = herd(2), pyplot.figure().add_subplot(projection=kind)
    for draw in (plot_ranges, plot_curve):
        with pytest.raises(FrameError, match=f"^ax are axes of the projection '{kind}', and plain ones are wanted, as those of pyplot.subplots"):
            draw(ranges, axes)
        draw(ranges, pyplot.subplots()[1])
