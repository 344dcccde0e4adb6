"""The page in Chromium without a window: how many sheets it prints to, that it is drawn, and that nothing is said of
faults."""
import re
import shutil
import subprocess

import pytest
from exact import cloud
from frames import frame_of

from homerange import home_range, write_page

CHROMIUM = shutil.which("chromium")
pytestmark = pytest.mark.skipif(not CHROMIUM or not shutil.which("pdfinfo"), reason="the page in print: no chromium or pdfinfo")
HERD = {"Bor": cloud(1, 250), "Vesna": cloud(2, 280, 700, 562800), "<script>alert(1)</script>": cloud(3, 40, 300)}


def chromium(folder, *options):
    """A run of Chromium over the page of a folder; what its console has is a fault."""
    command = [
        CHROMIUM, "--headless", "--no-sandbox", "--disable-gpu", "--enable-logging=stderr", "--v=0",
        f"--user-data-dir={folder / 'profile'}", *options, f"file://{folder / 'report.html'}"]
    run = subprocess.run(command, capture_output=True, text=True, timeout=120)
    assert run.returncode == 0, run.stderr
    assert [line for line in run.stderr.split("\n") if "CONSOLE" in line] == []


def sheets(folder):
    """How many sheets the page prints to, and the size of one in points."""
    chromium(folder, "--no-pdf-header-footer", f"--print-to-pdf={folder / 'report.pdf'}")
    said = subprocess.run(["pdfinfo", folder / "report.pdf"], capture_output=True, text=True, check=True).stdout
    size = re.search(r"Page size: +([0-9.]+) x ([0-9.]+)", said)
    return int(re.search("Pages: +([0-9]+)", said)[1]), [round(float(side)) for side in size.groups()]


@pytest.mark.parametrize("animals, most", [(1, 3), (3, 3), (30, 8)])
def test_it_prints_to_a4(tmp_path, animals, most):
    herd = dict([*HERD.items(), *((f"deer {n}", cloud(n, 50, 500, 560000 + 700 * n)) for n in range(27))][:animals])
    write_page(home_range(frame_of(**herd), zone="33N"), tmp_path / "report.html", title="Ranges & more", study="Kolpa")
    pages, size = sheets(tmp_path)
    assert pages == 3 if most == 3 else 3 < pages <= most
    assert size == [595, 842]


def test_it_is_drawn(tmp_path):
    write_page(home_range(frame_of(**HERD), zone="33N"), tmp_path / "report.html")
    chromium(tmp_path, "--window-size=900,1400", f"--screenshot={tmp_path / 'report.png'}")
    pixels = pytest.importorskip("matplotlib.image").imread(tmp_path / "report.png")[:, :, :3]
    assert pixels.shape == (1400, 900, 3)
    blue = (abs(pixels - [0, 0x72 / 255, 0xb2 / 255]) < 0.02).all(axis=2)
    assert blue.sum() > 300  # lines of the first animal


def test_a_script_in_a_name_is_not_run(tmp_path):
    herd = {"<img src=x onerror=console.error(1)>": cloud(1, 20), "<script>console.error(2)</script>": cloud(2, 20)}
    write_page(home_range(frame_of(**herd)), tmp_path / "report.html", title="</title><script>console.error(3)</script>")
    chromium(tmp_path, f"--screenshot={tmp_path / 'report.png'}")


def test_the_console_would_be_seen(tmp_path):
    (tmp_path / "report.html").write_text("<script>console.error('seen')</script>")
    with pytest.raises(AssertionError, match="seen"):
        chromium(tmp_path, f"--screenshot={tmp_path / 'report.png'}")
