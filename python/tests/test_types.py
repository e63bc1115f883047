"""meshio's types are handed over as the rules have them: corners in order, faces as positions."""
import meshio
import numpy as np
import pytest
from conftest import CUBE

import cicelybeam
from cicelybeam.celltypes import IN_PLANE, IN_SPACE

# Corners by meshio's documentation, on the unit cube: each type's solid, and its section's area at z = 0.25.
def prism(sides: int) -> np.ndarray:
    angles = 2 * np.pi * np.arange(sides) / sides
    base = np.c_[np.cos(angles), np.sin(angles), np.zeros(sides)]
    return np.concatenate([base, base + [0, 0, 1]])


SOLIDS = {
    "tetra": (CUBE[[0, 1, 3, 4]], 0.75**2 / 2),
    "wedge": (CUBE[[0, 1, 3, 4, 5, 7]], 0.5),
    "hexahedron": (CUBE, 1.0),
    "pyramid": (CUBE[[0, 1, 2, 3, 4]], 0.75**2),
    "penta_prism": (prism(5), 2.5 * np.sin(2 * np.pi / 5)),
    "hexa_prism": (prism(6), 3 * np.sin(np.pi / 3)),
}
VTK = {"TETRAHEDRON": "tetra", "HEXAHEDRON": "hexahedron", "WEDGE": "wedge", "PYRAMID": "pyramid"}


def solid(name: str) -> tuple[np.ndarray, float]:
    return SOLIDS[VTK.get(name.rpartition("_")[2], name.rstrip("0123456789"))]


# Of each type the number of its nodes: by its name, else that of its corners, or some more for VTK's of any order.
NODES = {name: int(digits) if (digits := name[len(name.rstrip("0123456789")) :]) else len(solid(name)[0]) + 7 * name.startswith("VTK")
         for name in IN_SPACE}


def with_mid_nodes(corners: np.ndarray, nodes: int) -> np.ndarray:
    """More nodes than corners, which are far away and must not matter."""
    return np.concatenate([corners, np.full((nodes - len(corners), corners.shape[1]), 99.0)])


def test_types_that_are_cut():
    """Those of which the README says so."""
    assert {"tetra", "tetra10", "hexahedron", "hexahedron20", "hexahedron24", "hexahedron27", "wedge", "wedge12", "wedge15", "wedge18",
            "pyramid", "pyramid13", "pyramid14", "penta_prism", "hexa_prism"} <= set(IN_SPACE)


@pytest.mark.parametrize("name", NODES)
def test_space_type(name):
    corners, area = solid(name)
    points = with_mid_nodes(corners, NODES[name])
    mesh = meshio.Mesh(points, [(name, [list(range(len(points)))])])
    cut = cicelybeam.cut_plane(mesh, (0, 0, 0.25), (0, 0, 1), 1e-12)
    assert cut.record.area == pytest.approx(area, abs=1e-14)
    assert cut.record.all_drawn and cut.record.polygons == 1
    curved = len(points) > len(corners)
    assert cut.record.straightened == curved and ("mid-side nodes" in cut.record.sentence()) == curved


@pytest.mark.parametrize("name", NODES)
@pytest.mark.parametrize("normal", [(1, 0, 0), (0, 1, 0), (1, 2, 3), (3, -1, 2)])
def test_section_is_that_of_the_convex_hull(name, normal):
    """A wrong order of corners would give a solid with twisted faces, and another area."""
    corners, _ = solid(name)
    points = with_mid_nodes(corners, NODES[name])
    mesh = meshio.Mesh(points, [(name, [list(range(len(points)))])])
    origin = corners.mean(axis=0) + 0.01
    cut = cicelybeam.cut_plane(mesh, origin, normal, 1e-12)
    assert cut.record.area == pytest.approx(hull_section_area(corners, origin, cut.frame), abs=1e-12)


def hull_section_area(corners, origin, frame) -> float:
    """The section of a convex hull: the hull of the crossings of all pairs of corners."""
    away = (corners - origin) @ np.array(frame.normal)
    found = []
    for a in range(len(corners)):
        for b in range(a):
            if away[a] * away[b] < 0:
                t = away[a] / (away[a] - away[b])
                p = corners[a] + t * (corners[b] - corners[a]) - origin
                found.append((p @ np.array(frame.u), p @ np.array(frame.v)))
    hull = convex_hull(sorted(set(found)))
    return 0.5 * abs(sum(a[0] * b[1] - b[0] * a[1] for a, b in zip(hull, hull[1:] + hull[:1])))


def convex_hull(points):
    def half(points):
        chain = []
        for p in points:
            while len(chain) > 1 and (
                (chain[-1][0] - chain[-2][0]) * (p[1] - chain[-2][1]) - (chain[-1][1] - chain[-2][1]) * (p[0] - chain[-2][0]) <= 0
            ):
                chain.pop()
            chain.append(p)
        return chain[:-1]

    return half(points) + half(points[::-1])


def test_polyhedron():
    faces = [[0, 3, 2, 1], [4, 5, 6, 7], [0, 1, 5, 4], [2, 3, 7, 6], [1, 2, 6, 5], [3, 0, 4, 7]]
    mesh = meshio.Mesh(CUBE, [("polyhedron8", [[np.array(face) for face in faces]])])
    cut = cicelybeam.cut_plane(mesh, (0, 0, 0.5), (0, 0, 1))
    assert (cut.record.area, cut.record.listed) == (1.0, 4)


def test_polyhedra_from_a_file(tmp_path):
    """A cube and a tetrahedron above it, which meshio puts into blocks by their numbers of nodes."""
    cube = [[0, 3, 2, 1], [4, 5, 6, 7], [0, 1, 5, 4], [2, 3, 7, 6], [1, 2, 6, 5], [3, 0, 4, 7]]
    tetra = [[4, 5, 8], [5, 7, 8], [7, 4, 8], [4, 7, 5]]
    cells = [(f"polyhedron{n}", [[np.array(face) for face in faces]]) for n, faces in ((8, cube), (4, tetra))]
    meshio.Mesh(np.concatenate([CUBE, [[0, 0, 2]]]), cells).write(tmp_path / "a.vtu")
    mesh = cicelybeam.read(tmp_path / "a.vtu")
    assert cicelybeam.cut_plane(mesh, (0, 0, 0.5), (0, 0, 1)).record.area == 1.0
    above = cicelybeam.cut_plane(mesh, (0, 0, 1.5), (0, 0, 1))
    assert (above.record.area, above.record.handed_over) == (0.125, 1)
    one, two = (cicelybeam.cut_plane(mesh, (0.3, 0.3, 1.0), (1, 2, 9), leave_out=way) for way in (True, False))
    assert np.array_equal(one.points, two.points) and one.record.all_drawn and one.record.crossed == 2


def test_polyhedron_with_small_faces_and_without_faces():
    """A face of under three nodes is dropped, and its nodes are never read."""
    faces = [[0, 3, 2, 1], [4, 5, 6, 7], [0, 1, 5, 4], [2, 3, 7, 6], [1, 2, 6, 5], [3, 0, 4, 7], [88, 99]]
    cells = [[], [np.array(face) for face in faces]]
    record = cicelybeam.cut_plane(meshio.Mesh(CUBE, [("polyhedron8", cells)]), (0, 0, 0.5), (0, 0, 1)).record
    assert record.area == 1.0 and record.polygons == 1


SQUARE = CUBE[:4, :2]
PLANE_NODES = {"triangle": 3, "triangle6": 6, "triangle7": 7, "quad": 4, "quad8": 8, "quad9": 9, "pixel": 4}


def test_every_plane_type_has_a_case():
    assert set(PLANE_NODES) == set(IN_PLANE)


@pytest.mark.parametrize("name", PLANE_NODES)
def test_plane_type(name):
    corners = {"triangle": SQUARE[[0, 1, 3]], "quad": SQUARE, "pixel": SQUARE[[0, 1, 3, 2]]}[name.rstrip("0123456789")]
    points = with_mid_nodes(corners, PLANE_NODES[name])
    cut = cicelybeam.cut_line(meshio.Mesh(points, [(name, [list(range(len(points)))])]), (0, 0.25), (1, 0), 1e-12)
    assert cut.record.length == pytest.approx(0.75 if name.startswith("triangle") else 1.0)


def test_polygon():
    angles = 2 * np.pi * np.arange(6) / 6
    points = np.stack([np.cos(angles), np.sin(angles)], -1)
    cut = cicelybeam.cut_line(meshio.Mesh(points, [("polygon", [list(range(6))])]), (0, 0), (1, 0))
    assert cut.record.length == pytest.approx(2)


def write(mesh: meshio.Mesh, path) -> None:
    """By the suffix; .msh is also the suffix of another format, which meshio would choose."""
    mesh.write(path, file_format="gmsh" if path.suffix == ".msh" else None)


@pytest.mark.parametrize("suffix", [".vtu", ".vtk", ".msh", ".inp", ".med", ".xdmf"])
@pytest.mark.parametrize("kind", ["tetra", "wedge", "hexahedron", "pyramid"])
def test_formats(tmp_path, suffix, kind):
    """The same cut after a file was written and read, as node orders differ between formats."""
    from conftest import box

    if (kind, suffix) == ("pyramid", ".inp"):
        pytest.skip("meshio does not write pyramids for Abaqus")
    mesh = box(2, kind)
    path = tmp_path / f"mesh{suffix}"
    write(mesh, path)
    cut = cicelybeam.cut_plane(cicelybeam.read(path), (0.1, 0.2, 0.4), (1, 2, 5))
    assert cut.record.area == pytest.approx(cicelybeam.cut_plane(mesh, (0.1, 0.2, 0.4), (1, 2, 5)).record.area, rel=1e-12)
    assert cut.record.all_drawn and cut.record.polygons and not cut.record.warnings


EDGES = {
    "tetra10": [(0, 1), (1, 2), (0, 2), (0, 3), (1, 3), (2, 3)],
    "hexahedron20": [(0, 1), (1, 2), (2, 3), (3, 0), (4, 5), (5, 6), (6, 7), (7, 4), (0, 4), (1, 5), (2, 6), (3, 7)],
    "wedge15": [(0, 1), (1, 2), (2, 0), (3, 4), (4, 5), (5, 3), (0, 3), (1, 4), (2, 5)],
}


@pytest.mark.parametrize("name,suffix", [
    *(("tetra10", suffix) for suffix in (".vtu", ".vtk", ".msh", ".inp", ".med")),
    *(("hexahedron20", suffix) for suffix in (".vtu", ".vtk", ".msh", ".inp", ".med")),
    ("wedge15", ".vtu"), ("wedge15", ".inp"),
])
def test_formats_with_mid_side_nodes(tmp_path, name, suffix):
    corners, area = SOLIDS[name.rstrip("0123456789")]
    points = np.concatenate([corners, [(corners[a] + corners[b]) / 2 for a, b in EDGES[name]]])
    path = tmp_path / f"mesh{suffix}"
    write(meshio.Mesh(points, [(name, np.arange(len(points))[None])]), path)
    record = cicelybeam.cut_plane(cicelybeam.read(path), (0, 0, 0.25), (0, 0, 1)).record
    assert record.area == pytest.approx(area, abs=1e-12) and record.all_drawn and record.cells_by_type == {name: 1}


@pytest.mark.parametrize("name", SOLIDS)
@pytest.mark.parametrize("normal", [(1, 2, 3), (3, -1, 2), (-2, 3, 1)])
def test_faces_are_the_types_own(name, normal):
    """A polyhedron of the faces in the table is cut exactly as the type is."""
    corners, _ = SOLIDS[name]
    faces = [np.array(face) for face in IN_SPACE[name].faces]
    origin = corners.mean(axis=0) + 0.01
    one = cicelybeam.cut_plane(meshio.Mesh(corners, [(name, [list(range(len(corners)))])]), origin, normal)
    two = cicelybeam.cut_plane(meshio.Mesh(corners, [(f"polyhedron{len(corners)}", [faces])]), origin, normal)
    assert np.array_equal(one.points, two.points) and np.array_equal(one.nodes, two.nodes)
    assert np.array_equal(one.counts, two.counts)


def test_polygons_from_a_file(tmp_path):
    """Polygons of several lengths, which meshio puts into blocks of one length each."""
    points = np.array([[0, 0, 0], [1, 0, 0], [1.5, 0.8, 0], [0.5, 1.5, 0], [-0.5, 0.8, 0], [2, 0, 0], [2.5, 1, 0], [2, 2, 0], [1, 2, 0]])
    cells = [("polygon", np.array([[0, 1, 2, 3, 4]])), ("polygon", np.array([[1, 5, 6, 7, 8, 2]]))]
    meshio.Mesh(points, cells).write(tmp_path / "a.vtu")
    record = cicelybeam.cut_line(cicelybeam.read(tmp_path / "a.vtu"), (0, 0.5), (1, 0)).record
    assert record.cells_by_type == {"polygon": 2} and record.covered == pytest.approx(2.5625) and record.all_drawn
