"""The examples in python/README.md are run as they stand, one after the other."""
import re
from pathlib import Path

import pytest

import cicelybeam
import sample

README = Path(__file__).resolve().parents[1] / "README.md"


def test_examples(tmp_path, monkeypatch, capsys):
    text = README.read_text().split("<!-- examples")[1].split("<!-- end of examples -->")[0]
    blocks = re.findall(r"```python\n(.*?)```", text, flags=re.DOTALL)
    assert len(blocks) >= 7
    sample.write(sample.plate(), tmp_path / "part.msh")
    monkeypatch.chdir(tmp_path)
    names: dict = {}
    for block in blocks:
        exec(compile(block, str(README), "exec"), names)  # noqa: S102
    said = capsys.readouterr().out
    assert "with a total area of" in said and "is not finite" in said
    assert {p.name for p in tmp_path.iterdir()} == {"part.msh", "part.pdf", "part.html", "part.json", "part.vtp", "line.csv", "line.svg",
                                                    "traces.csv", "traces.svg", "broken.svg"}
    assert names["volume"] == pytest.approx(names["cut"].record.area, rel=1e-9)  # it is a prism, of height 1


def test_representations_are_short():
    plane = cicelybeam.cut_plane(sample.plate(), (0, 0, 0.4), (0, 0, 1))
    line = cicelybeam.cut_line(sample.plate(), (0, 0.3, 0.4), (1, 0, 0))
    mesh = cicelybeam.of_meshio(sample.plate(), "plate.msh")
    for thing in (plane, line, mesh, plane.traces()):
        assert len(repr(thing)) < 120 and "\n" not in repr(thing)
    assert "area 20.8785" in repr(plane) and "plate.msh" in repr(mesh)


@pytest.mark.parametrize("wrong", [
    lambda mesh, path: cicelybeam.cut_plane(mesh, (0, 0, float("inf")), (0, 0, 1)),
    lambda mesh, path: cicelybeam.cut_plane(mesh, (0, 0, 0), (0, float("nan"), 1)),
    lambda mesh, path: cicelybeam.cut_plane(mesh, (0, 0, 0), "up"),
    lambda mesh, path: cicelybeam.cut_plane(mesh, (0, 0, 0), None),
    lambda mesh, path: cicelybeam.cut_plane(mesh, (0, 0), (0, 0, 1)),
    lambda mesh, path: cicelybeam.cut_plane(mesh, (0, 0, 0), (0, 0, 1), float("nan")),
    lambda mesh, path: cicelybeam.cut_plane(mesh, (0, 0, 0), (0, 0, 1), "small"),
    lambda mesh, path: cicelybeam.cut_plane("part.msh", (0, 0, 0), (0, 0, 1)),
    lambda mesh, path: cicelybeam.cut_line(mesh, (0, 0, float("inf")), (0, 0, 1)),
    lambda mesh, path: cicelybeam.cut_line(None, (0, 0, 0), (0, 0, 1)),
    lambda mesh, path: cicelybeam.read(path / "none.msh"),
    lambda mesh, path: cicelybeam.read(path),
    lambda mesh, path: cicelybeam.cut_plane(mesh, (0, 0, 0.4), (0, 0, 1)).write(path / "a.txt"),
    lambda mesh, path: cicelybeam.cut_plane(mesh, (0, 0, 0.4), (0, 0, 1)).write(path / "nowhere" / "a.json"),
    lambda mesh, path: cicelybeam.cut_plane(mesh, (0, 0, 0.4), (0, 0, 1)).write(path),
    lambda mesh, path: cicelybeam.cut_plane(mesh, (0, 0, 0.4), (0, 0, 1)).draw(path / "a.svg", colour="heat"),
    lambda mesh, path: cicelybeam.cut_plane(mesh, (0, 0, 0.4), (0, 0, 1)).draw(path / "a.svg", color="type"),
    lambda mesh, path: cicelybeam.cut_plane(mesh, (0, 0, 0.4), (0, 0, 1)).area_by("heat"),
    lambda mesh, path: cicelybeam.cut_plane(mesh, (0, 0, 0.4), (0, 0, 1)).traces().write(path / "a.json"),
    lambda mesh, path: cicelybeam.cut_line(mesh, (0, 0, 0.4), (1, 0, 0)).draw(path / "a.svg", show="traces"),
    lambda mesh, path: cicelybeam.cut_line(mesh, (0, 0, 0.4), (1, 0, 0)).area_by("type"),
    lambda mesh, path: cicelybeam.cut_line(mesh, (0, 0, 0.4), (1, 0, 0)).write(path / "a.vtp"),
])
def test_every_error_is_told_in_a_sentence(tmp_path, wrong):
    with pytest.raises(cicelybeam.CicelybeamError) as told:
        wrong(sample.plate(), tmp_path)
    assert len(str(told.value).split()) > 3 and not list(tmp_path.iterdir())
