"""The map and the curves of the page: where things are drawn, and what is drawn apart."""
import re

import pytest
from exact import cloud, hull
from frames import frame_of

from homerange import FrameError, home_range, write_page


def square(east, north, side):
    return [(east + side * x, north + side * y) for x, y in ((0, 0), (1, 0), (1, 1), (0, 1))]


def drawings(folder, animals, **options):
    """The maps of the page of some animals."""
    write_page(home_range(frame_of(**animals), 100, zone="33N", **options), folder / "page.html")
    return re.findall('<svg class="map.*?\n</svg>.*?\n</svg>', (folder / "page.html").read_text("utf-8"), re.S)


def places(path):
    """The places of a path of lines."""
    return [(float(x), float(y)) for x, y in re.findall(r"(-?[0-9.]+) (-?[0-9.]+)", path)]


def bar_of(drawing):
    """How many places wide a metre is, by the bar of scale."""
    length = float(re.search('class="bar" d="M[0-9.]+ [0-9.]+v5h([0-9.]+)', drawing)[1])
    number, unit = re.search(">([0-9.,]+) (k?m)</text>\n<path class=\"arrow", drawing).groups()
    return length / float(number.replace(",", "")) / (1000 if unit == "km" else 1)


@pytest.mark.parametrize("side", [100, 1000, 2500, 90_000])
def test_the_bar_of_scale_and_the_grid_are_those_of_the_polygon(tmp_path, side):
    (drawn,) = drawings(tmp_path, {"a": square(462_000, 5_134_000, side)})
    outline = places(re.search('class="l0 c0" d="(.*?)"', drawn)[1])
    assert (outline[1][0] - outline[0][0]) / side == pytest.approx(bar_of(drawn), rel=0.01)
    labels = [(float(x), float(text.replace(",", "")))
              for x, text in re.findall('<text x="([0-9.]+)" y="[0-9.]+" text-anchor="middle">([0-9.,]+)</text>', drawn)]
    (x, east), (other_x, other_east), *_ = labels
    assert (other_x - x) / (other_east - east) == pytest.approx(bar_of(drawn), rel=0.01)
    assert outline[0][0] + 15 == pytest.approx(x + (462_000 - east) * bar_of(drawn), abs=2)


def test_what_is_far_is_drawn_apart(tmp_path):
    near = {"a": square(400_000, 5_134_000, 3000), "b": square(402_000, 5_136_000, 3000)}
    assert len(drawings(tmp_path, near)) == 1
    found = drawings(tmp_path, {**near, "c": square(600_000, 5_134_000, 1000)})
    assert [re.search('aria-label="(.*?)"', text)[1] for text in found] == [
        "Map of all ranges", "Map of the ranges 1, 2", "Map of the ranges 3"]
    assert "Too small to be seen" not in (tmp_path / "page.html").read_text("utf-8")
    scattered = {f"{number:02}": square(300_000 + 30_000 * number, 5_134_000, 20) for number in range(1, 12)}
    assert len(drawings(tmp_path, scattered)) == 1
    numbers = ", ".join(map(str, range(1, 12)))
    assert f"Too small to be seen beside the others: {numbers}." in (tmp_path / "page.html").read_text("utf-8")


def test_one_place_has_a_map(tmp_path):
    (drawn,) = drawings(tmp_path, {"a": [(562_000, 5_134_000)]})
    assert drawn.count("flat c0") == 1 and drawn.count("h0") == 1


def test_of_many_fixes_some_are_drawn(tmp_path):
    (drawn,) = drawings(tmp_path, {"a": cloud(4, 20_000, 3000)})
    assert 1000 < drawn.count("h0") <= 15_000


def test_a_boundary_is_drawn(tmp_path):
    geopandas = pytest.importorskip("geopandas")
    from shapely.geometry import MultiPolygon, Polygon, box

    points = cloud(1, 50)
    ranges = home_range(frame_of(a=points), crs="EPSG:32633")
    west, south, east, north = 561_000, 5_133_000, 563_000, 5_135_000
    holed = Polygon(box(west, south, east, north).exterior.coords, [box(562_100, 5_134_100, 562_200, 5_134_200).exterior.coords])
    reserve = geopandas.GeoSeries([MultiPolygon([holed, box(0, 0, 1, 1)])], crs=32633)
    write_page(ranges, tmp_path / "a.html", reserve=reserve.to_crs(4326), reserve_name="Kolpa & <park>")
    text = (tmp_path / "a.html").read_text("utf-8")
    assert "<bdi>Kolpa &amp; &lt;park&gt;</bdi>" in text
    assert re.search('class="boundary" d="(.*?)"/>\n', text)[1].count("M") == 3
    assert "lies outside this map" not in text
    write_page(ranges, tmp_path / "far.html", reserve=box(west + 90_000, south, east + 90_000, north))
    assert "The boundary lies outside this map." in (tmp_path / "far.html").read_text("utf-8")
    with pytest.raises(FrameError, match="reserve is neither"):
        write_page(ranges, tmp_path / "b.html", reserve="kolpa.gpkg")
    assert not (tmp_path / "b.html").exists()


def test_polygons_of_the_page_are_those_of_the_ranges(tmp_path):
    points = cloud(2, 80)
    write_page(home_range(frame_of(a=points), [50, 100]), tmp_path / "a.html")
    text = (tmp_path / "a.html").read_text("utf-8")
    drawn = places(re.search('class="l0 c0" d="(M[^"]*)"/>\n<path class="l1', text)[1])
    wanted = hull(points)
    scale = bar_of(text)
    assert len(drawn) == len(wanted)
    for (x, y), (east, north) in zip(drawn, wanted):
        assert (x - drawn[0][0], drawn[0][1] - y) == pytest.approx(
            ((east - wanted[0][0]) * scale, (north - wanted[0][1]) * scale), abs=1.5)
