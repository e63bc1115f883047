"""The sample mesh, against the closed form of its section: a rectangle of 6 x 4 less a polygon of 32 sides."""
from pathlib import Path

import matplotlib
import numpy as np
import pytest

import cicelybeam
import pictures
import sample
from cicelybeam.command import record_in_words

ROOT = Path(__file__).resolve().parents[2]


@pytest.mark.parametrize("normal", [(0, 0, 1), (0.1, 0.05, 1), (0, -0.1, 1), (0.05, 0.1, 1)])
def test_area(normal):
    cut = cicelybeam.cut_plane(sample.plate(), (0, 0, 0.4), normal)
    flat = 24 - 16 * np.sin(2 * np.pi / 32)
    assert cut.record.area == pytest.approx(flat * np.linalg.norm(normal), rel=1e-12)
    assert cut.record.all_drawn and cut.record.all_cut
    assert set(cut.record.cells_by_type) == {"hexahedron", "wedge", "tetra"}


def test_groups():
    areas = cicelybeam.cut_plane(sample.plate(), (0, 0, 0.4), (0, 0, 1)).area_by("group")
    assert areas == pytest.approx({"plate": 16 - 16 * np.sin(2 * np.pi / 32), "right strip": 4, "left strip": 4})


def test_record_in_the_readme():
    """The README shows what ./demo prints."""
    text = (ROOT / "README.md").read_text()
    shown = text.split("<!-- record -->")[1].split("```")[1]
    cut = cicelybeam.cut_plane(cicelybeam.of_meshio(sample.plate(), "build/plate.msh"), (0, 0, 0.4), (0.05, 0.1, 1))
    assert shown.split() == record_in_words(cut).split()


@pytest.mark.skipif(matplotlib.__version__ != "3.6.3", reason="another version of matplotlib draws otherwise")
def test_pictures_of_the_documentation(tmp_path):
    """They are what the package draws today."""
    pictures.draw(tmp_path)
    for name in ("plate.svg", "undrawn.svg", "traces.svg"):
        assert (tmp_path / name).read_bytes() == (ROOT / "docs" / name).read_bytes(), f"run python/pictures.py: docs/{name} has changed"
        assert any(f"docs/{name}" in (ROOT / place).read_text() for place in ("README.md", "python/README.md"))


def test_broken_sample():
    """Four bricks of it lose area, about as much as the whole one has more."""
    whole, broken = (cicelybeam.cut_plane(mesh, (0, 0, 0.4), (0.05, 0.1, 1)).record for mesh in (sample.plate(), sample.broken()))
    assert len(broken.lost_cells) == 4 and broken.reasons[0][0] == 3
    assert broken.area + broken.lost_area == pytest.approx(whole.area, rel=1e-3)
