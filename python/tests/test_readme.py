"""The examples of README.md, which are run as they stand there."""
import re
import warnings
from pathlib import Path

import pytest

from homerange import HomeRangeNote

PAGE = Path(__file__).parents[1] / "README.md"


def test_the_examples_run(tmp_path, monkeypatch, capsys, splitter):
    geopandas = pytest.importorskip("geopandas")
    pytest.importorskip("matplotlib").use("Agg")
    (tmp_path / "examples").symlink_to(PAGE.parents[1] / "examples")
    monkeypatch.chdir(tmp_path)
    first, second = re.findall("```python\n(.*?)```", PAGE.read_text("utf-8"), re.DOTALL)
    exec(first, {})
    assert "hectares" in capsys.readouterr().out
    with warnings.catch_warnings():
        warnings.simplefilter("ignore", HomeRangeNote)
        exec(second, {})
    said = capsys.readouterr().out
    assert said.startswith("8 fixes of 2 animals, from 2024-05-01 to 2024-05-01 in UTC") and "2024 Mar-May" in said
    assert {path.name for path in tmp_path.iterdir()} == {"examples", "curve.png", "ranges.png", "ranges.gpkg"}
    assert geopandas.read_file("ranges.gpkg", layer="ranges")["kept"].tolist() == [600, 1140, 1200]  # of 1200 fixes
