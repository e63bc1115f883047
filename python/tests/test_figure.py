"""The figure: names and coordinates of its axes, legend, shades, edges, sizes and formats."""
import re
import warnings

import meshio
import numpy as np
import pytest
from conftest import CUBE, box, stack
from matplotlib import image
from matplotlib.colors import to_rgb
from test_files import OPEN_BRICK, grouped

import cicelybeam
import sample
from cicelybeam import picture
from cicelybeam.picture import HATCHES, SHADES, Look, shades

LUMINANCES = {"Rec. 601": (0.299, 0.587, 0.114), "Rec. 709": (0.2126, 0.7152, 0.0722)}


def luminance(colour: str, weights: tuple[float, ...]) -> float:
    return 255 * float(np.dot(to_rgb(colour), weights))


def figure(cut, **look):
    with picture.matplotlib.rc_context({**picture.matplotlib.rcParamsDefault, **picture.STYLE}):
        found = picture.figure_of(cut, Look(**look))
        found.canvas.draw()
        return found


@pytest.mark.parametrize("weights", LUMINANCES.values(), ids=LUMINANCES)
@pytest.mark.parametrize("count", [1, 2, 3, 5, 8, 9, 20, 32])
def test_classes_stay_apart_in_greyscale(weights, count):
    """At least 20 of 255 steps of luminance between any two, or another hatch; and none is as light as paper."""
    chosen = shades(count)
    assert len(set(chosen)) == count
    for k, (fill, hatch) in enumerate(chosen):
        assert luminance(fill, weights) <= 255 - 18
        for other, other_hatch in chosen[:k]:
            assert hatch != other_hatch or abs(luminance(fill, weights) - luminance(other, weights)) >= 20


def test_shades_in_a_picture(tmp_path):
    """Eight groups side by side, as a grey picture of them has it: the greys most seen are 20 steps apart."""
    mesh = box(8)
    group = 1 + np.floor(8 * mesh.points[mesh.cells[0].data].mean(axis=1)[:, 0]).astype(int)
    mesh.cell_data = {"gmsh:physical": [group]}
    cicelybeam.cut_plane(mesh, (0, 0, 0.44), (0, 0, 1)).draw(tmp_path / "a.png", colour="group", dpi=100)
    for weights in LUMINANCES.values():
        grey = np.round(255 * image.imread(tmp_path / "a.png")[:, :, :3] @ np.array(weights)).astype(int)
        values, counts = np.unique(grey, return_counts=True)
        greys = np.sort(values[np.argsort(-counts)][:9])
        assert (np.diff(greys) >= 20 - 1).all() and greys[-1] == 255


SECTIONS = {
    "wide": lambda: cicelybeam.cut_plane(box(4, "hexahedron", (100, 1, 1)), (0, 0, 0.4), (0, 0, 1)),
    "tall": lambda: cicelybeam.cut_plane(box(4, "wedge", (1, 30, 1)), (0, 0, 0.4), (0, 0, 1)),
    "tiny": lambda: cicelybeam.cut_plane(box(3, "tetra", (3e-7, 2e-7, 1e-7)), (0, 0, 0.4e-7), (0, 0, 1)),
    "far": lambda: cicelybeam.cut_plane(meshio.Mesh(1e-3 * box(2).points + [123456.7, -9876.5, 1000], box(2).cells),
                                        (123456.7, -9876.5, 1000.0004), (0, 0, 1)),
    "one cell": lambda: cicelybeam.cut_plane(box(1), (0, 0, 0.5), (0, 1, 1)),
    "plate": lambda: cicelybeam.cut_plane(sample.plate(), (0, 0, 0.4), (0.05, 0.1, 1)),
    "touched": lambda: cicelybeam.cut_plane(box(2, "tetra"), (0, 0, 0.5), (0, 0, 1)),
    "empty": lambda: cicelybeam.cut_plane(box(1), (0, 0, 7), (0, 0, 1)),
    "line": lambda: cicelybeam.cut_line(sample.plate(), (0, 0.3, 0.4), (1, 0.2, 0)),
    "line far away": lambda: cicelybeam.cut_line(meshio.Mesh(box(1).points + [1e7, 0, 0], box(1).cells), (1e7, 1e-9, 0.5), (1, -1, 0)),
    "line in a plane": lambda: cicelybeam.cut_line(meshio.Mesh(CUBE[:4, :2], [("quad", [[0, 1, 2, 3]])]), (0, 0.5), (1, 0.1)),
}
LOOKS = [{}, {"colour": "cell"}, {"size": (85,)}, {"size": (120, 90), "title": "a title that is rather long " * 4}]


@pytest.mark.parametrize("look", LOOKS, ids=str)
@pytest.mark.parametrize("name", SECTIONS)
def test_nothing_is_over_anything_else(name, look):
    """Legend, title, labels and scale stand clear of one another and within the figure."""
    with warnings.catch_warnings():
        warnings.simplefilter("error")
        found = figure(SECTIONS[name](), **look)
    draw = found.canvas.get_renderer()
    parts = [*found.legends, *(text for text in found.texts if text.get_text())]
    boxes = [part.get_window_extent(draw) for part in parts] + [axes.get_tightbbox(draw) for axes in found.axes]
    page = found.bbox
    for k, a in enumerate(boxes):
        assert a.x0 > page.x0 - 2 and a.x1 < page.x1 + 2 and a.y0 > page.y0 - 2 and a.y1 < page.y1 + 2, (name, look)
        for b in boxes[:k]:
            wide, high = min(a.x1, b.x1) - max(a.x0, b.x0), min(a.y1, b.y1) - max(a.y0, b.y0)
            assert wide < 2 or high < 2, (name, look, wide, high)
    if "size" in look:
        assert found.get_size_inches()[0] * 25.4 == pytest.approx(look["size"][0])
    axes = found.axes[0]
    if name not in ("line", "line far away", "empty"):  # the same scale along both axes
        scale = axes.get_window_extent().width / np.ptp(axes.get_xlim()), axes.get_window_extent().height / np.ptp(axes.get_ylim())
        assert scale[0] == pytest.approx(scale[1])


@pytest.mark.parametrize("normal,names,across", [
    ((0, 0, 1), ("x", "y"), (0, 1)), ((0, 0, -2), ("x", "y"), (0, 1)), ((0, 1, 0), ("x", "z"), (0, 2)), ((-1, 0, 0), ("y", "z"), (1, 2))])
def test_axes_of_the_mesh(normal, names, across):
    """Upright, by name, in the mesh's own coordinates: what is drawn reaches as far as the mesh."""
    mesh = box(2, "hexahedron", (1.0, 2.0, 4.0))
    mesh.points += [10, 20, 30]
    axes = figure(cicelybeam.cut_plane(mesh, (10.3, 20.3, 30.3), normal)).axes[0]
    assert (axes.get_xlabel(), axes.get_ylabel()) == names
    drawn = np.concatenate([path.vertices for patch in axes.collections for path in patch.get_paths()])
    low, high = mesh.points.min(axis=0), mesh.points.max(axis=0)
    assert drawn.min(axis=0) == pytest.approx(low[list(across)]) and drawn.max(axis=0) == pytest.approx(high[list(across)])
    assert axes.get_xlim()[0] < axes.get_xlim()[1] and axes.get_ylim()[0] < axes.get_ylim()[1]


def test_axes_of_an_inclined_plane():
    cut = cicelybeam.cut_plane(box(1), (0.5, 0.5, 0.5), (1, 2, 3))
    axes = figure(cut).axes[0]
    assert axes.get_xlabel().startswith("u, along (") and axes.get_ylabel().startswith("v, along (")
    assert cut.record.as_dict()["u"] == list(cut.frame.u) and "u along" in str(cut.record)


def test_labels_that_are_too_long_are_names_alone():
    cut = cicelybeam.cut_plane(box(1), (0.5, 0.5, 0.5), (1, 2, 3))
    axes = figure(cut, size=(60, 45)).axes[0]
    assert (axes.get_xlabel(), axes.get_ylabel()) == ("u", "v")


@pytest.mark.parametrize("direction,label", [((0, -1, 0), "y"), ((1, 1, 0), "s, along (0.7071, 0.7071, 0) from (0.3, 0.3, 0.3)")])
def test_axes_of_a_line(direction, label):
    cut = cicelybeam.cut_line(box(2), (0.3, 0.3, 0.3), direction)
    axes = figure(cut).axes[0]
    assert axes.get_xlabel() == label
    ends = np.concatenate([path.vertices for lines in axes.collections for path in lines.get_paths()])[:, 0]
    if label == "y":
        assert (ends.min(), ends.max()) == pytest.approx((0, 1))
    else:
        assert ends.max() == pytest.approx(0.7 * np.sqrt(2))


def legend_of(found) -> list[str]:
    return [text.get_text() for legend in found.legends for text in legend.get_texts()]


def test_groups_are_classes_with_names():
    for colour in ("group", "gmsh:physical"):
        found = figure(cicelybeam.cut_plane(grouped(), (0, 0, 0.3), (0, 0, 1)), colour=colour)
        assert legend_of(found) == ["left side", "right side"] and len(found.axes) == 1


def test_values_that_are_not_finite_are_in_the_legend():
    mesh = box(2)
    mesh.cell_data = {"stress": [np.array([1.0, np.nan, 3.0, np.inf, 5.0, 6.0, 7.0, 8.0])]}
    found = figure(cicelybeam.cut_plane(mesh, (0, 0, 0.3), (0, 0, 1)), colour="stress")
    assert legend_of(found) == [] and len(found.axes) == 2
    found = figure(cicelybeam.cut_plane(mesh, (0, 0, 0.7), (0, 0, 1)), colour="stress")
    assert legend_of(found) == ["not a finite value"]


def test_what_is_not_drawn_is_in_the_legend():
    points = np.concatenate([CUBE, CUBE + [2, 0, 0]])
    cells = [("polyhedron8", [[np.array(face) for face in OPEN_BRICK]]), ("hexahedron", [list(range(8, 16))])]
    mesh = cicelybeam.of_meshio(meshio.Mesh(points, cells))
    mesh.others, mesh.other_first = [("odd cell", 3, 1, np.array([[8, 9, 14]]))], [2]
    cut = cicelybeam.cut_plane(mesh, (0, 0, 0.5), (0, 0, 1))
    assert {"area lost: 1 cell", "not cut: 1 cell"} <= set(legend_of(figure(cut)))
    touched = cicelybeam.cut_plane(box(2, "tetra"), (0, 0, 0.5), (0, 0, 1))
    assert f"touched, no area lost: {touched.record.touching_cells} cells" in legend_of(figure(touched))


def test_holes_stay_empty(tmp_path):
    """A square ring as one polyhedron: its middle is as white as paper."""
    outer, inner = np.array([[0, 0], [3, 0], [3, 3], [0, 3]]), np.array([[1, 1], [2, 1], [2, 2], [1, 2]])
    points = np.array([[*xy, z] for z in (0.0, 1.0) for xy in np.concatenate([outer, inner])])
    walls = [[k, (k + 1) % 4, 8 + (k + 1) % 4, 8 + k] for k in range(4)] + [[4 + k, 4 + (k + 1) % 4, 12 + (k + 1) % 4, 12 + k] for k in range(4)]
    caps = [[k, (k + 1) % 4, 4 + (k + 1) % 4, 4 + k] for k in range(4)] + [[8 + k, 8 + (k + 1) % 4, 12 + (k + 1) % 4, 12 + k] for k in range(4)]
    cut = cicelybeam.cut_plane(meshio.Mesh(points, [("polyhedron16", [[np.array(f) for f in walls + caps]])]), (0, 0, 0.5), (0, 0, 1))
    assert cut.record.area == pytest.approx(8) and cut.record.holes == 1
    for colour in ("type", "cell"):
        cut.draw(tmp_path / "a.png", colour=colour, title="", dpi=50)
        found = image.imread(tmp_path / "a.png")
        axes = figure(cut, colour=colour, title="")
        x, y = axes.axes[0].transData.transform((1.5, 1.5)) / axes.dpi * 50
        assert found[len(found) - 1 - int(y), int(x), :3].min() == 1


def test_what_lies_below_is_seen(tmp_path):
    """Bricks on both sides of the plane draw their faces; whichever comes first in the mesh, those below are on top."""
    for below in (1, 2):
        mesh = stack(2, 3)
        mesh.cell_data = {"gmsh:physical": [np.repeat([below, 3 - below], [4, 9])]}
        patches = figure(cicelybeam.cut_plane(mesh, (0, 0, 0), (0, 0, 1)), colour="group").axes[0].collections
        top = max(patches, key=lambda patch: patch.get_zorder())
        assert np.allclose(top.get_facecolor()[0][:3], to_rgb(shades(2)[below - 1][0]))
        assert sum(len(path.vertices) for path in top.get_paths()) == 4 * 5


def test_edges_are_thinned():
    """Each picture's edges are as thin as its cells are small; on and off are what they say."""
    def width(n: int, **look) -> float:
        patch = figure(cicelybeam.cut_plane(box(n), (0, 0, 0.501), (0, 0, 1)), **look).axes[0].collections[0]
        return 0.0 if patch.get_edgecolor().tolist() == patch.get_facecolor().tolist() else patch.get_linewidth()[0]

    widths = [width(n) for n in (2, 30, 60, 90)]
    assert widths[0] == 0.4 and all(a > b > 0 for a, b in zip(widths[1:], widths[2:]))
    assert width(30, edges="on") == 0.4 and width(2, edges="off") == 0


@pytest.mark.parametrize("edges", ["on", "off"])
def test_hatches_stay_without_edges(edges):
    mesh = box(4)
    mesh.cell_data = {"gmsh:physical": [np.arange(1, 65)]}
    patches = figure(cicelybeam.cut_plane(mesh, (0, 0, 0.4), (0, 0, 1)), colour="group", edges=edges).axes[0].collections
    assert len(patches) == 16 and sum(bool(patch.get_hatch()) for patch in patches) == 8
    for patch in patches:
        same = patch.get_edgecolor().tolist() == patch.get_facecolor().tolist()
        assert same == (edges == "off" and not patch.get_hatch())


def test_many_cells_are_not_black(tmp_path):
    """Over 12,000 polygons: the fill is still seen."""
    cut = cicelybeam.cut_plane(box(42, "tetra"), (0.1, 0.2, 0.5), (0.3, 0.2, 3))
    cut.draw(tmp_path / "a.png", dpi=150)
    found = image.imread(tmp_path / "a.png")[:, :, :3]
    inside = found[len(found) // 3 : len(found) // 2, found.shape[1] // 3 : found.shape[1] // 2]
    assert len(cut) > 12000 and 150 < 255 * inside.mean() < 225


def test_size_and_dots_per_inch(tmp_path):
    cut = cicelybeam.cut_plane(box(2), (0, 0, 0.3), (0, 0, 1))
    cut.draw(tmp_path / "a.png", size=(90, 60), dpi=254)
    assert image.imread(tmp_path / "a.png").shape[:2] == (600, 900)
    cut.draw(tmp_path / "b.svg", size=90)
    cut.draw(tmp_path / "a.svg", size=(90, 60))
    text = (tmp_path / "a.svg").read_text()
    assert float(re.search(r'width="([\d.]+)pt"', text)[1]) == pytest.approx(90 / 25.4 * 72, abs=0.01)


def test_text_is_text(tmp_path):
    cut = cicelybeam.cut_plane(grouped(), (0, 0, 0.3), (0, 0, 1))
    cut.draw(tmp_path / "a.svg", colour="group", title="Section A-A")
    text = (tmp_path / "a.svg").read_text()
    for word in ("Section A-A", "left side", ">x<", ">y<"):
        assert word in text
    cut.draw(tmp_path / "a.pdf")
    assert b"/Type3" not in (tmp_path / "a.pdf").read_bytes()
    cut.draw(tmp_path / "a.eps")
    contents = (tmp_path / "a.eps").read_bytes()
    cut.draw(tmp_path / "a.eps")
    assert contents.startswith(b"%!PS-Adobe-3.0 EPSF-3.0") and contents == (tmp_path / "a.eps").read_bytes()


def test_names_are_no_formulas(tmp_path):
    mesh = grouped()
    mesh.field_data = {r"a $\frac$ b": np.array([1, 3]), "_50 $ \u94a2": np.array([2, 3])}
    cut = cicelybeam.cut_plane(mesh, (0, 0, 0.3), (0, 0, 1))
    with warnings.catch_warnings():
        warnings.simplefilter("error")
        cut.draw(tmp_path / "a.svg", colour="group")
    assert "_50 $ \u94a2" in (tmp_path / "a.svg").read_text() and r"a $\frac$ b" in (tmp_path / "a.svg").read_text()


@pytest.mark.parametrize("look,words", [
    ({"title": r"$\nosuch$"}, "cannot be set"), ({"size": (1,)}, "20 to 2000 millimetres"), ({"size": (30, 20)}, "too small"),
    ({"size": "wide"}, "20 to 2000 millimetres"), ({"dpi": "fine"}, "from 20 to 2400"), ({"dpi": 1}, "from 20 to 2400"), ({"edges": "red"}, "on, off or auto"), ({"colour": "heat"}, "no cell field 'heat'"),
])
def test_looks_that_are_refused(tmp_path, look, words):
    cut = cicelybeam.cut_plane(box(2), (0, 0, 0.3), (0, 0, 1))
    with pytest.raises(cicelybeam.CicelybeamError, match=words):
        cut.draw(tmp_path / "a.svg", **look)
    with pytest.raises(cicelybeam.CicelybeamError, match=words):
        cut.write(tmp_path / "a.html", **look)
    assert not list(tmp_path.iterdir())


HUGE = {  # cuts of meshes at this x
    "plane": lambda x: cicelybeam.cut_plane(meshio.Mesh(np.array([[-2e300, -2, -1], [2e300, 0, 1], [0, 2, 1], [0, 0, 1]]) + [x, 0, 0],
                                                        [("tetra", [[0, 1, 2, 3]])]), (0, 0, 0), (0, 0, 1), 0),
    "line": lambda x: cicelybeam.cut_line(meshio.Mesh(CUBE * [1e300, 1, 1] + [x, 0, 0], [("hexahedron", [list(range(8))])]), (0, 0.5, 0.5), (1, 0, 0), 0),
    "line in a plane": lambda x: cicelybeam.cut_line(meshio.Mesh(CUBE[:4, :2] * [1e300, 1] + [x, 0], [("quad", [[0, 1, 2, 3]])]), (0, 0.5), (1, 0), 0),
}


@pytest.mark.parametrize("name", HUGE)
def test_coordinates_that_are_too_large_to_draw(tmp_path, name):
    """The message speaks of them, and of no title; smaller ones are drawn."""
    with warnings.catch_warnings():
        warnings.simplefilter("error")
        for file in ("a.svg", "a.png", "a.html"):
            with pytest.raises(cicelybeam.CicelybeamError, match=r"^coordinates as large as 1\.6e\+308 cannot be drawn; scale the mesh$"):
                HUGE[name](1.6e308).write(tmp_path / file) if file == "a.html" else HUGE[name](1.6e308).draw(tmp_path / file)
        assert not list(tmp_path.iterdir())
        HUGE[name](1e306).draw(tmp_path / "a.svg")
        with pytest.raises(cicelybeam.CicelybeamError, match="title .* cannot be set"):
            HUGE[name](1e290).draw(tmp_path / "b.svg", title=r"$\nosuch$")


def test_title():
    cut = cicelybeam.cut_plane(box(1), (0, 0, 0.5), (0, 0, 1))
    assert [text.get_text() for text in figure(cut).texts] == ["1 polygon, area 1"]
    assert [text.get_text() for text in figure(cut, title="A").texts] == ["A"]
    assert not figure(cut, title="").texts
    assert "hexahedron" in legend_of(figure(cut)) and len(SHADES) * len(HATCHES) == 32
