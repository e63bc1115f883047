"""The auditor's page: it stands by itself, has every fact, and renders on screen and on paper."""
import hashlib
import json
import re
import shutil
import subprocess
from html import unescape
from html.parser import HTMLParser
from pathlib import Path

import meshio
import numpy as np
import pytest
from conftest import CUBE, box
from test_files import OPEN_BRICK, grouped, run

import cicelybeam

PLANE = ["--origin", "0,0,0.5", "--normal", "z"]
EMPTY = {"meta", "img", "br", "hr", "path", "use"}


class Tags(HTMLParser):
    """Every tag closed in its order, and what refers to something."""

    def __init__(self) -> None:
        super().__init__()
        self.open: list[str] = []
        self.names: list[str] = []
        self.references: list[str] = []
        self.ids: set[str] = set()

    def handle_starttag(self, tag, attributes) -> None:
        self.names.append(tag)
        self.references += [value for name, value in attributes if name in ("href", "src", "xlink:href")]
        self.ids.update(value for name, value in attributes if name == "id")
        if tag not in EMPTY:
            self.open.append(tag)

    def handle_startendtag(self, tag, attributes) -> None:
        self.handle_starttag(tag, attributes)
        if tag not in EMPTY:
            self.open.pop()

    def handle_endtag(self, tag) -> None:
        if tag not in EMPTY:
            assert self.open.pop() == tag


def parsed(text: str) -> Tags:
    tags = Tags()
    tags.feed(text)
    assert not tags.open
    return tags


def words(text: str) -> str:
    return " ".join(unescape(re.sub(r"<[^>]*>", " ", text)).split())


@pytest.fixture
def broken(tmp_path) -> Path:
    """A whole brick, an open one, and a name that would be a tag."""
    points = np.concatenate([CUBE, CUBE + [2, 0, 0]])
    whole = [*OPEN_BRICK, [4, 5, 6, 7], [3, 0, 4, 7]]
    cells = [[np.array(f) for f in OPEN_BRICK], [8 + np.array(f) for f in whole]]
    meshio.Mesh(points, [("polyhedron8", cells)]).write(tmp_path / "<b>part.vtu")
    return tmp_path / "<b>part.vtu"


@pytest.fixture
def whole(tmp_path) -> Path:
    mesh = grouped(3)
    mesh.field_data = {"steel & <co>": np.array([1, 3]), "air": np.array([2, 3])}
    mesh.write(tmp_path / "box.msh", file_format="gmsh22")
    return tmp_path / "box.msh"


def test_it_stands_by_itself(whole, tmp_path):
    assert run("plane", whole, *PLANE, "--report", tmp_path / "a.html", "--colour", "group", "--quiet") == 0
    tags = parsed((tmp_path / "a.html").read_text())
    assert "svg" in tags.names and not {"script", "link", "iframe", "object", "embed"} & set(tags.names)
    for reference in tags.references:
        assert reference.startswith("#") and reference[1:] in tags.ids, reference
    assert "@import" not in (tmp_path / "a.html").read_text() and "url(http" not in (tmp_path / "a.html").read_text()


def test_it_has_every_fact(whole, tmp_path):
    out = tmp_path / "a.html"
    arguments = ["plane", whole, *PLANE, "--report", out, "--quiet"]
    assert run(*arguments) == 0
    said = words(out.read_text())
    cut = cicelybeam.cut_plane(cicelybeam.read(whole), (0, 0, 0.5), (0, 0, 1))
    assert cut.record.sentence() in said and "Area by group" in said and "steel & <co>" in said
    assert hashlib.sha256(whole.read_bytes()).hexdigest() in said
    assert "cicelybeam plane " in said and "--normal z" in said and f"cicelybeam {cicelybeam.__version__}" in said
    assert re.search(r"\b20\d\d-\d\d-\d\dT", said)
    assert said.count("docs/CLAIMS.md, ") == 4 and "Tested, not proved:" in said and "Not proved:" in said
    assert "The auditor's two questions" in said and f"numpy {np.__version__}" in said


def test_json_has_the_same_facts(whole, tmp_path):
    assert run("plane", whole, *PLANE, "--report", tmp_path / "a.json", "--quiet") == 0
    found = json.loads((tmp_path / "a.json").read_text())
    made = found["made_by"]
    assert made["mesh_sha256"] == hashlib.sha256(whole.read_bytes()).hexdigest() and len(made["library_sha256"]) == 64
    assert {"command", "date", "versions"} <= set(made) and made["versions"]["meshio"] == meshio.__version__
    assert len(found["proved"]) == 5 and "missing" in found and "area_by_group" in found


def test_what_is_missing_is_listed(broken, tmp_path, monkeypatch):
    monkeypatch.chdir(tmp_path)
    assert run("plane", broken.name, *PLANE, "--report", "a.html", "--quiet") == 3
    text = (tmp_path / "a.html").read_text()
    parsed(text)
    said = words(text)
    assert "Not whole: 1 cell with area lost" in said and "(exit status 3)" in said
    assert "0 polyhedron8 area lost: edges not drawn 1 (0.5, 0.5, 0.5)" in said
    assert "<b>part" not in text and "Section of <b>part.vtu" in said


def test_cells_that_are_not_cut_are_listed(tmp_path):
    mesh = cicelybeam.of_meshio(box(1))
    mesh.others, mesh.other_first = [("odd cell", 3, 2, np.array([[0, 1, 6], [1, 3, 5]]))], [1]
    cut = cicelybeam.cut_plane(mesh, (0, 0, 0.5), (0, 0, 1))
    cut.write(tmp_path / "a.html")
    said = words((tmp_path / "a.html").read_text())
    assert said.count("cells of this type are not cut") == said.count("1 odd cell cells of this type are not cut") == 1
    assert "(exit status 4)" in said


def test_touched_cells_are_listed_apart(tmp_path):
    cut = cicelybeam.cut_plane(box(2, "tetra"), (0, 0, 0.5), (0, 0, 1))
    cut.write(tmp_path / "a.html")
    text = (tmp_path / "a.html").read_text()
    said = words(text)
    assert "Of the cells that the cut reaches all were cut, no area is lost, and no crossing is guessed." in said and said.count("touched: ") == cut.record.touching_cells > 0
    assert "not known: the mesh was not read from a file" in said and "cicelybeam.cut_plane(" in said


def test_thousands_of_touched_cells_spare_the_paper(tmp_path):
    cut = cicelybeam.cut_plane(box(12, "tetra"), (0, 0, 0.5), (0, 0, 1))
    cut.write(tmp_path / "a.html")
    text = (tmp_path / "a.html").read_text()
    parsed(text)
    assert cut.record.touching_cells > 500 and words(text).count("touched: ") == cut.record.touching_cells
    assert f'<p class="paper">{cut.record.touching_cells} cells' in text


def test_a_mesh_that_has_changed_is_told(whole, tmp_path):
    mesh = cicelybeam.read(whole)
    whole.write_bytes(whole.read_bytes() + b"\n")
    cicelybeam.cut_plane(mesh, (0, 0, 0.4), (0, 0, 1)).write(tmp_path / "a.json")
    assert "not as it was" in json.loads((tmp_path / "a.json").read_text())["made_by"]["mesh_sha256"]


def test_line_cuts_have_pages_too(whole, tmp_path):
    assert run("line", whole, "--origin", "0,0.3,0.4", "--direction", "x", "--report", tmp_path / "a.html", "--quiet") == 0
    parsed((tmp_path / "a.html").read_text())


def test_many_polygons_are_a_bitmap(tmp_path):
    cut = cicelybeam.cut_plane(box(30, "tetra"), (0.1, 0.2, 0.5), (0.3, 0.2, 3))
    cut.write(tmp_path / "a.html")
    assert len(cut) > 4000 and parsed((tmp_path / "a.html").read_text()).references[0].startswith("data:image/png;base64,")


def browser(*arguments) -> str:
    done = subprocess.run(["chromium", "--headless", "--no-sandbox", "--disable-gpu", "--disable-dev-shm-usage",
                           "--enable-logging=stderr", *map(str, arguments)], capture_output=True, text=True, timeout=120)
    assert done.returncode == 0
    return done.stdout + "".join(line for line in done.stderr.splitlines(True) if "CONSOLE" in line or "ERROR:" in line and "html" in line)


needs_chromium = pytest.mark.skipif(not shutil.which("chromium"), reason="chromium is not installed")


@needs_chromium
def test_it_renders_without_an_error(whole, broken, tmp_path):
    for mesh, name in ((whole, "a.html"), (broken, "b.html")):
        run("plane", mesh, *PLANE, "--report", tmp_path / name, "--quiet")
        said = browser("--dump-dom", (tmp_path / name).as_uri())
        assert "CONSOLE" not in said and "ERROR:" not in said and "<svg" in said and "</html>" in said


@needs_chromium
@pytest.mark.skipif(not shutil.which("pdftotext"), reason="pdftotext is not installed")
def test_on_paper_it_fits_the_page(whole, tmp_path):
    """Every word lies within an A4 page's margins, and the claims are not printed."""
    run("plane", whole, *PLANE, "--report", tmp_path / "a.html", "--quiet")
    browser(f"--print-to-pdf={tmp_path / 'a.pdf'}", "--no-pdf-header-footer", (tmp_path / "a.html").as_uri())
    subprocess.run(["pdftotext", "-bbox", tmp_path / "a.pdf", tmp_path / "a.txt"], check=True)
    text = (tmp_path / "a.txt").read_text()
    pages = re.findall(r'<page width="([\d.]+)" height="([\d.]+)"', text)
    assert pages and all(float(w) == pytest.approx(595, abs=2) and float(h) == pytest.approx(842, abs=2) for w, h in pages)
    boxes = np.array(re.findall(r'xMin="([\d.-]+)" yMin="([\d.-]+)" xMax="([\d.-]+)" yMax="([\d.-]+)"', text), dtype=float)
    assert len(boxes) > 100 and (boxes[:, :2] > 30).all() and (boxes[:, 2] < 565).all() and (boxes[:, 3] < 812).all()
    assert "IEEE" not in text
