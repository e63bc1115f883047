"""Areas by others: VTK's cutter and gmsh's own geometries where they are installed, and volumes everywhere."""
import gzip
import shutil
import subprocess
from pathlib import Path

import meshio
import numpy as np
import pytest
from conftest import CUBE, box, stack
from hypothesis import given
from hypothesis import strategies as st

import cicelybeam
from cicelybeam.celltypes import IN_SPACE


def moved(mesh: meshio.Mesh, part: float, inner: bool = True) -> meshio.Mesh:
    """With its nodes moved at random, those on the outside only if asked for."""
    step = np.random.default_rng(7).uniform(-part, part, mesh.points.shape)
    if inner:
        step[((mesh.points == 0) | (mesh.points == 1)).any(axis=1)] = 0
    mesh.points = mesh.points + step
    return mesh


def ball() -> meshio.Mesh:
    from test_plane import ball as parts

    points, cells = parts()
    return meshio.Mesh(points, [("tetra", np.array(cells))])


def plate() -> meshio.Mesh:
    import sample

    return sample.plate()


MESHES = {
    "tetrahedra": lambda: moved(box(5, "tetra"), 0.05, inner=False),
    "bricks": lambda: moved(box(5), 0.03),
    "bricks, all nodes moved": lambda: moved(box(4), 0.02, inner=False),
    "wedges": lambda: moved(box(4, "wedge"), 0.03),
    "pyramids": lambda: moved(box(4, "pyramid"), 0.02),
    "plate": plate,
    "ball": ball,
    "sides that do not match": lambda: stack(3, 4, 1.3),
}


@pytest.mark.parametrize("name", MESHES)
def test_vtk(name):
    """Ten planes in general position."""
    import by_vtk

    mesh = MESHES[name]()
    low, high = mesh.points.min(axis=0), mesh.points.max(axis=0)
    rng = np.random.default_rng(len(name))
    for _ in range(10):
        origin, normal = low + rng.uniform(0.2, 0.8, 3) * (high - low), rng.normal(size=3)
        cut = cicelybeam.cut_plane(mesh, origin, normal)
        assert cut.record.reasons == []
        assert cut.record.area == pytest.approx(by_vtk.area(mesh, origin, normal), rel=1e-12)


GMSH = Path("/usr/share/doc/gmsh-doc/doc/gmsh")
TUTORIALS = {"t3": "tutorial/t3.geo", "t5": "tutorial/t5.geo", "t20": "tutorial/t20.geo", "piece": "demos/simple_geo/piece.geo"}


@pytest.fixture(scope="module", params=TUTORIALS)
def tutorial(request, tmp_path_factory) -> meshio.Mesh:
    if not shutil.which("gmsh") or not GMSH.is_dir():
        pytest.skip("gmsh and gmsh-doc are not installed")
    folder = tmp_path_factory.mktemp("gmsh")
    for name in (TUTORIALS[request.param], "tutorial/t1.geo", "tutorial/t20_data.step"):  # t3 includes t1, t20 reads the other
        found = GMSH / name
        packed = found.with_name(found.name + ".gz")
        (folder / found.name).write_bytes(gzip.decompress(packed.read_bytes()) if packed.exists() else found.read_bytes())
    geometry = Path(TUTORIALS[request.param]).name
    subprocess.run(["gmsh", "-3", "-format", "msh2", "-o", "a.msh", geometry], cwd=folder, check=True, capture_output=True)
    return meshio.read(folder / "a.msh")


@pytest.mark.parametrize("axis", range(3))
def test_gmsh(tutorial, axis):
    """Through the middle and a quarter, where planes of symmetry and nodes are: after a shift the area is VTK's."""
    import by_vtk

    mesh = cicelybeam.of_meshio(tutorial)
    low, high = map(np.array, mesh.extent)
    normal = np.eye(3)[axis]
    for part in (0.25, 0.5):
        origin = low + part * (high - low)
        record = cicelybeam.cut_plane(mesh, origin, normal).record
        shifted = cicelybeam.cut_plane(mesh, origin, normal, shift=True).record
        assert shifted.reasons == [] and shifted.all_drawn
        assert shifted.area == pytest.approx(by_vtk.area(tutorial, origin + shifted.shift * normal, normal), rel=1e-5)
        if record.lost_cells:
            limits = [cicelybeam.cut_plane(mesh, origin + step * normal, normal).record.area for step in (1e-9, -1e-9)]
            assert record.area + record.lost_area == pytest.approx(max(limits), rel=1e-5)


BRICKS_UNDER_TETRAHEDRA = """
Point(1) = {0, 0, 0, 0.3}; Point(2) = {1, 0, 0, 0.3}; Point(3) = {1, 1, 0, 0.3}; Point(4) = {0, 1, 0, 0.3};
Line(1) = {1, 2}; Line(2) = {2, 3}; Line(3) = {3, 4}; Line(4) = {4, 1};
Curve Loop(1) = {1, 2, 3, 4}; Plane Surface(1) = {1}; Transfinite Surface {1}; Recombine Surface {1};
low[] = Extrude {0, 0, 1} { Surface{1}; Layers{4}; Recombine; };
high[] = Extrude {0, 0, 1} { Surface{low[0]}; };
"""


def test_pyramids_that_gmsh_makes(tmp_path):
    """Between bricks and tetrahedra: every cell is cut, and the area is that of the block, also along the bricks' top."""
    if not shutil.which("gmsh"):
        pytest.skip("gmsh is not installed")
    (tmp_path / "a.geo").write_text(BRICKS_UNDER_TETRAHEDRA)
    subprocess.run(["gmsh", "-3", "-format", "msh2", "-o", "a.msh", "a.geo"], cwd=tmp_path, check=True, capture_output=True)
    mesh = cicelybeam.read(tmp_path / "a.msh")
    assert {"tetra", "hexahedron", "pyramid"} <= set(mesh.types())
    for height in (0.25, 0.5, 1.0, 1.01, 1.1, 1.5):
        record = cicelybeam.cut_plane(mesh, (0.1, 0.2, height), (0, 0, 1)).record
        assert record.area == pytest.approx(1, rel=1e-11) and record.reasons == []


def tetra_volume(a, b, c, d) -> float:
    return float(np.linalg.det(np.array([b - a, c - a, d - a]))) / 6


def volume(points: np.ndarray, faces) -> tuple[float, float]:
    """The volume within faces cut into triangles from their first corners, and how much that choice may matter for faces that
    are not flat: the volume between it and any other surface within the hull of each face's corners."""
    middle = points.mean(axis=0)
    total = doubt = 0.0
    for face in faces:
        corners = points[list(face)]
        total += sum(tetra_volume(middle, corners[0], b, c) for b, c in zip(corners[1:], corners[2:]))
        doubt += sum(abs(tetra_volume(corners[0], corners[1], c, d)) for c, d in zip(corners[2:], corners[3:]))
    return abs(total), doubt


CORNERS = {"tetra": CUBE[[0, 1, 3, 4]], "hexahedron": CUBE, "wedge": CUBE[[0, 1, 3, 4, 5, 7]], "pyramid": CUBE[[0, 1, 2, 3, 4]]}


@given(st.sampled_from(sorted(CORNERS)), st.integers(0, 2**32 - 1), st.sampled_from([0.0, 0.1, 0.25]))
def test_areas_add_up_to_the_volume(kind, seed, part):
    """A random cell cut by a fine stack of planes in a random direction. Between two corners' heights the area is a polynomial
    of second degree, so that three planes there give its integral. The cell's own volume is that of its faces: exactly where
    they are flat, else within the hulls of their corners, where the rule's straight traces are."""
    rng = np.random.default_rng(seed)
    points = CORNERS[kind] @ rng.normal(size=(3, 3)) + rng.normal(size=3)
    points += rng.uniform(-part, part, points.shape) * np.ptp(points, axis=0) * (part > 0)
    normal = rng.normal(size=3)
    normal /= np.linalg.norm(normal)
    heights = np.sort(points @ normal)
    mesh = cicelybeam.of_meshio(meshio.Mesh(points, [(kind, [list(range(len(points)))])]))
    total = 0.0
    for low, high in zip(heights, heights[1:]):
        if high - low > 1e-9:
            for place, weight in ((0.5 - 0.15**0.5, 5 / 18), (0.5, 8 / 18), (0.5 + 0.15**0.5, 5 / 18)):
                cut = cicelybeam.cut_plane(mesh, (low + place * (high - low)) * normal, normal)
                assert cut.record.reasons == []
                total += weight * (high - low) * cut.record.area
    expected, doubt = volume(points, IN_SPACE[kind].faces)
    if part == 0 or kind == "tetra":
        assert total == pytest.approx(expected, rel=1e-9)
    elif not mesh_is_inside_out(points, IN_SPACE[kind].faces):
        assert abs(total - expected) <= doubt + 1e-9


def mesh_is_inside_out(points: np.ndarray, faces) -> bool:
    """Whether a part of the surface, seen from the middle, is turned the other way: then even-odd is not the volume by signs."""
    middle = points.mean(axis=0)
    parts = [tetra_volume(middle, points[f[0]], points[b], points[c]) for f in faces for b, c in zip(f[1:], f[2:])]
    return min(parts) < 0 < max(parts)


@given(st.sampled_from(sorted(CORNERS)), st.integers(0, 2**32 - 1), st.floats(0.05, 0.95))
def test_area_is_that_of_the_traces(kind, seed, height):
    """A random cell: the region inside an odd number of times of the straight traces of its faces, by shapely alone."""
    from shapely.geometry import LineString, Point
    from shapely.ops import polygonize, unary_union

    rng = np.random.default_rng(seed)
    points = CORNERS[kind] + rng.uniform(-0.3, 0.3, CORNERS[kind].shape)
    low, high = np.sort(points[:, 2])[[0, -1]]
    z = low + height * (high - low)
    if np.abs(points[:, 2] - z).min() < 1e-6:
        return
    lines = []
    for face in IN_SPACE[kind].faces:
        crossings = []
        for a, b in zip(face, (*face[1:], face[0])):
            if (points[a, 2] > z) != (points[b, 2] > z):
                t = (z - points[a, 2]) / (points[b, 2] - points[a, 2])
                crossings.append((points[a, 2] > z, tuple((points[a] + t * (points[b] - points[a]))[:2].round(12))))
        if crossings and not crossings[0][0]:
            crossings = crossings[1:] + crossings[:1]
        lines += [LineString([crossings[k][1], crossings[k + 1][1]]) for k in range(0, len(crossings), 2)]
    area = 0.0
    for part in polygonize(unary_union(lines)):
        inner = part.representative_point()
        ray = LineString([inner, Point(inner.x + 100, inner.y + 1e-3)])
        area += part.area * (sum(line.intersects(ray) for line in lines) % 2)
    cut = cicelybeam.cut_plane(meshio.Mesh(points, [(kind, [list(range(len(points)))])]), (0, 0, z), (0, 0, 1))
    assert cut.record.area == pytest.approx(area, abs=1e-9)
