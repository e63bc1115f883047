"""The plane cut: areas against closed forms, counts, and the cells that are left out."""
import meshio
import numpy as np
import pytest
from conftest import CUBE, box
from hypothesis import given, settings
from hypothesis import strategies as st
from test_calls import one_call

import cicelybeam
from cicelybeam import place
from cicelybeam.library import Section, library
from cicelybeam.undrawn import findings

small = st.floats(-1, 1, allow_nan=False)
vectors = st.tuples(small, small, small).filter(lambda v: np.linalg.norm(v) > 0.1)
inner = st.tuples(*3 * [st.floats(0.2, 0.8)])
kinds = st.sampled_from(["hexahedron", "wedge", "tetra"])


@given(kinds, st.integers(1, 3), st.tuples(*3 * [st.floats(0.5, 3)]), st.floats(0.01, 0.99))
def test_boxes(kind, n, size, height):
    cut = cicelybeam.cut_plane(box(n, kind, size), (0, 0, size[2] * height), (0, 0, 2))
    assert cut.record.area == pytest.approx(size[0] * size[1], rel=1e-9)
    assert cut.record.nothing_lost


@given(st.integers(3, 12), st.floats(0.05, 0.95), st.floats(0.5, 2))
def test_prisms(sides, height, radius):
    """A prism over a regular polygon, of wedges around its axis; its section by an inclined plane is base / cosine."""
    angles = 2 * np.pi * np.arange(sides) / sides
    base = np.concatenate([[[0, 0]], radius * np.stack([np.cos(angles), np.sin(angles)], -1)])
    points = np.concatenate([np.c_[base, np.zeros(sides + 1)], np.c_[base, np.ones(sides + 1)]])
    around = [(0, 1 + k, 1 + (k + 1) % sides) for k in range(sides)]
    wedges = [[*row, *(sides + 1 + k for k in row)] for row in around]
    tilt = 0.01 * min(height, 1 - height)
    cut = cicelybeam.cut_plane(meshio.Mesh(points, [("wedge", wedges)]), (0, 0, height), (tilt, 0, 1))
    area = 0.5 * sides * radius**2 * np.sin(2 * np.pi / sides) * np.hypot(1, tilt)
    assert cut.record.area == pytest.approx(area, rel=1e-9)


def ball() -> tuple[np.ndarray, list[list[int]]]:
    """A polyhedron in the unit ball, an octahedron with each triangle cut into four, as tetrahedra around its centre."""
    points = [(0.0, 0.0, 0.0)]

    def node(p) -> int:
        p = tuple(np.array(p) / np.linalg.norm(p))
        if p not in points:
            points.append(p)
        return points.index(p)

    cells = []
    for x, y, z in np.ndindex(2, 2, 2):
        a, b, c = np.diag([1.0 - 2 * x, 1.0 - 2 * y, 1.0 - 2 * z])
        ab, bc, ca = a + b, b + c, c + a
        cells += [[0, *map(node, t)] for t in ((a, ab, ca), (ab, b, bc), (ca, bc, c), (ab, bc, ca))]
    return np.array(points), cells


@given(vectors, st.floats(-0.8, 0.8))
def test_ball_of_tetrahedra(normal, offset):
    """Its section is the hull of the crossings of all pairs of its corners, as it is convex."""
    from test_types import hull_section_area

    points, cells = ball()
    unit = np.array(normal) / np.linalg.norm(normal)
    origin = unit * offset + 1e-4
    cut = cicelybeam.cut_plane(meshio.Mesh(points, [("tetra", cells)]), origin, normal)
    if np.abs((points - origin) @ unit).min() > 1e-9:
        assert cut.record.area == pytest.approx(hull_section_area(points[1:], origin, cut.frame), abs=1e-9)
        assert cut.record.all_drawn


@given(st.integers(2, 4), st.integers(0, 2**32 - 1), inner, vectors)
def test_random_tetrahedra(n, seed, origin, normal):
    """A box of tetrahedra with its inner nodes moved at random: the area is that of the box's own section."""
    from test_types import hull_section_area

    mesh = box(n, "tetra")
    moved = ((mesh.points > 0) & (mesh.points < 1)).all(axis=1)
    mesh.points[moved] += np.random.default_rng(seed).uniform(-0.15 / n, 0.15 / n, (moved.sum(), 3))
    cut = cicelybeam.cut_plane(mesh, origin, normal)
    if np.abs(place.distances(mesh.points, origin, place.unit(normal))).min() > 1e-9:
        assert cut.record.area == pytest.approx(hull_section_area(CUBE, np.array(origin), cut.frame), abs=1e-9)
        assert cut.record.all_drawn and not cut.record.coincident_polygons


@given(kinds, inner, vectors, st.sampled_from([None, 0.0, 1e-3]))
def test_same_answer_without_leaving_out(kind, origin, normal, tol):
    mesh = box(3, kind)
    a = cicelybeam.cut_plane(mesh, origin, normal, tol)
    b = cicelybeam.cut_plane(mesh, origin, normal, tol, leave_out=False)
    for name in ("points", "nodes", "ends", "polygon_cell", "cells", "counts"):
        assert np.array_equal(getattr(a, name), getattr(b, name)), name
    assert a.record.handed_over <= b.record.handed_over == len(mesh.cells[0].data)
    assert a.record.crossed_without_edge == b.record.crossed_without_edge
    assert a.record.crossed_face_without_segment == b.record.crossed_face_without_segment


@given(vectors, vectors, st.lists(vectors, min_size=1, max_size=8))
def test_distances_are_the_rules(origin, normal, points):
    """Bit for bit the sum of (p - origin) times normal, from plus zero, left to right."""
    found = place.distances(np.array(points), origin, normal)
    for p, d in zip(points, found):
        rule = 0.0 + (p[0] - origin[0]) * normal[0] + (p[1] - origin[1]) * normal[1] + (p[2] - origin[2]) * normal[2]
        assert rule.hex() == float(d).hex()


@given(kinds, inner, vectors)
def test_counts_are_the_librarys(kind, origin, normal):
    """Each cell cut alone, by a call with its own buffers."""
    mesh = cicelybeam.of_meshio(box(2, kind))
    cut = cicelybeam.cut_plane(mesh, origin, normal)
    o, n = np.array(cut.near.origin), np.array(normal)
    counts = {}
    block = mesh.blocks[0]
    for k in range(len(block)):
        cell, _ = block.handed(np.array([k]))
        numbers, nodes, ends = np.empty(144), np.empty(36, np.uint32), np.empty(12, np.uint32)
        s: Section = library().cicelybeam_plane(
            block.kind.number, cell.ctypes.data, cell.size, mesh.points.ctypes.data, mesh.points.size, o.ctypes.data, 3, n.ctypes.data, 3,
            cut.asked.scaled, False, cut.record.tolerance, numbers.ctypes.data, 144, nodes.ctypes.data, 36, ends.ctypes.data, 12)
        if s.listed:
            counts[k] = [s.listed, s.in_loops, s.pinched, s.flat, s.open]
    assert counts == dict(zip(cut.cells.tolist(), cut.counts.tolist()))


def test_a_cell_with_a_point_and_no_edge_before_another():
    """The ends of its segment become one point; the other cell's polygon keeps its own points."""
    face = np.array([[-0.11, -0.08, 0.04], [0.02, -0.08, 0.11], [-0.08, 0, -0.09]])
    mesh = meshio.Mesh(np.concatenate([face, CUBE + [3, 3, -0.5]]), [("polyhedron3", [[np.arange(3)]]), ("hexahedron", [list(range(3, 11))])])
    cut = cicelybeam.cut_plane(cicelybeam.of_meshio(mesh), (0, 0, 0), (0, 0, 1), 0.1)
    assert one_call(cut.mesh, 18, np.arange(3), cut.near.origin, (0, 0, 1), 0.1)[0].points == 1 and cut.cells.tolist() == [1]
    assert cut.polygon(0).tolist() == [[3, 3], [4, 3], [4, 4], [3, 4]] and cut.record.area == 1


def test_plane_along_shared_faces():
    record = cicelybeam.cut_plane(box(4), (0, 0, 0.5), (0, 0, 1)).record
    assert (record.polygons, record.coincident_polygons) == (32, 32)
    assert record.area == pytest.approx(1) and record.repeated_area == pytest.approx(1)


def test_cells_that_are_only_touched():
    record = cicelybeam.cut_plane(box(2, "tetra"), (0, 0, 0.5), (0, 0, 1)).record
    assert record.open == record.touching_cells > 0 and not record.all_drawn and record.nothing_lost
    assert record.area == pytest.approx(1) and record.reasons == []


def test_tolerance_zero_is_told():
    mesh = box(4, "tetra")
    record = cicelybeam.cut_plane(mesh, (0.1, 0.2, 0.5), (1, 2, 3), 0).record
    assert record.crossed_without_edge and record.crossed_face_without_segment
    assert not record.all_drawn
    assert any("below the mesh's own" in warning for warning in record.warnings)
    assert cicelybeam.cut_plane(mesh, (0.1, 0.2, 0.5), (1, 2, 3)).record.all_drawn


def test_smallest_unseen_cell():
    """docs/CLAIMS.md: the counts are 0 0 0 0, though the plane passes through."""
    mesh = meshio.Mesh(CUBE[[0, 1, 3, 4]], [("tetra", [[0, 1, 2, 3]])])
    record = cicelybeam.cut_plane(mesh, (0.125, 0, 0), (2, 2, 3), 0).record
    assert (record.listed, record.crossed_without_edge) == (0, [0])


def test_undrawn_edges_have_points():
    """A brick without its top's neighbours: a polyhedron that lacks a face gives an open piece."""
    faces = [[0, 3, 2, 1], [0, 1, 5, 4], [2, 3, 7, 6], [1, 2, 6, 5]]
    mesh = meshio.Mesh(CUBE, [("polyhedron8", [[np.array(face) for face in faces]])])
    cut = cicelybeam.cut_plane(mesh, (0, 0, 0.5), (0, 0, 1))
    assert (cut.record.open, cut.record.polygons) == (3, 0)
    assert cut.record.undrawn[0].cell == 0 and len(cut.record.undrawn[0].points) == 4
    assert "not drawn" in cut.record.sentence() and "AREA LOST" in str(cut)


def test_nan_coordinates():
    mesh = box(2)
    mesh.points[0, 0] = np.nan
    record = cicelybeam.cut_plane(mesh, (0, 0, 0.25), (0, 0, 1)).record
    assert record.not_finite == [0] and not record.all_drawn


def test_edges_of_cells_with_nan_are_not_said_to_bound_no_area():
    """Whether they do is not known. The cell is marked at the mean of its other corners."""
    mesh = box(2)
    mesh.points[(mesh.points == [0.0, 0.5, 0.0]).all(axis=1)] = np.nan  # a corner of two cells, which the plane passes through
    cut = cicelybeam.cut_plane(mesh, (0, 0, 0.25), (0, 0, 1))
    record = cut.record
    assert record.open == 4 and len(record.not_finite) == record.with_undrawn == 2 and not record.undrawn and not record.nothing_lost
    assert "4 open edges in 2 cells are not drawn; " in record.sentence() and "bound no area" not in record.sentence()
    assert np.isfinite([finding.near for finding in findings(cut)]).all()
    assert [finding.cell for finding in findings(cut)] == 2 * record.not_finite  # its crossings are guessed as well


def test_polyhedron_without_a_face():
    """Faces of under three nodes are dropped, and here no other is left."""
    mesh = meshio.Mesh(CUBE, [("polyhedron8", [[np.array([0, 1]), np.array([2])]])])
    cut = cicelybeam.cut_plane(mesh, (0, 0, 0.5), (0, 0, 1))
    assert (cut.record.area, cut.record.listed, len(cut.traces())) == (0, 0, 0)
    assert cut.record.warnings == ["no cell that is cut has a face of three nodes or more: there is nothing that the plane could meet"]


def with_unknown_cell(mesh: meshio.Mesh) -> cicelybeam.Mesh:
    """The mesh, with one cell that fills space and that the package does not know."""
    found = cicelybeam.of_meshio(mesh)
    found.others.append(("hexahedron9", 3, 1, np.array([[0, 1, 2, 3, 4, 5, 6, 7, 0]])))
    return found


def test_types_that_are_not_cut_are_counted():
    mesh = with_unknown_cell(box(1))
    record = cicelybeam.cut_plane(mesh, (0, 0, 0.5), (0, 0, 1)).record
    assert record.not_cut == {"hexahedron9": 1} and record.not_cut_reached == {"hexahedron9": 1}
    assert not record.all_cut and "1 hexahedron9" in str(record) and [status for status, _ in record.reasons] == [4]
    assert cicelybeam.cut_plane(mesh, (0, 0, 2), (0, 0, 1)).record.all_cut


@pytest.mark.parametrize("normal,number", [((0, 0, 0), 6), ((0, 1), 5)])
def test_planes_that_are_refused(cube, normal, number):
    with pytest.raises(cicelybeam.Refused) as told:
        cicelybeam.cut_plane(cube, (0, 0, 0.5), normal)
    assert told.value.number == number


@pytest.mark.parametrize("node", [-1, 8, 2**40])
def test_node_that_is_no_row(node):
    mesh = meshio.Mesh(CUBE, [("tetra", [[0, 1, 2, 5], [0, 1, 2, node]])])
    with pytest.raises(cicelybeam.Refused, match=r"mesh: cell 1 \(tetra\): the node number"):
        cicelybeam.cut_plane(mesh, (0, 0, 0.5), (0, 0, 1))


def test_polyhedron_with_too_many_entries():
    mesh = meshio.Mesh(CUBE, [("polyhedron8", [[np.array([0, 1, 6])] * 80])])
    with pytest.raises(cicelybeam.Refused, match="256 entries"):
        cicelybeam.cut_plane(mesh, (0, 0, 0.5), (0, 0, 1))


def test_numbers_are_not_copied():
    found = box(2, "tetra")
    mesh = cicelybeam.of_meshio(found)
    assert np.shares_memory(mesh.points, found.points)
    assert np.shares_memory(mesh.blocks[0].nodes, found.cells[0].data)


axes = st.sampled_from([(0, 0, 1), (0, 0, -3), (0, 7, 0), (-0.3, 0, 0), (1, 1, 0), (1, 0, -1)])


@settings(max_examples=150)
@given(kinds, st.integers(-3, 3), st.sampled_from([-1.0, 1.0]), axes, st.sampled_from([0.0, 1e-12, 0.25]))
def test_leaving_out_next_to_the_tolerance(kind, steps, side, normal, tol):
    """Faces of cells at the tolerance from the plane, give or take a few of the last digits."""
    mesh = box(3, kind)
    unit = np.array(place.unit(normal))
    offset = tol
    for _ in range(abs(steps)):
        offset = np.nextafter(offset, np.sign(steps) * np.inf)
    origin = mesh.points[21] + side * offset * unit
    a = cicelybeam.cut_plane(mesh, origin, normal, tol)
    b = cicelybeam.cut_plane(mesh, origin, normal, tol, leave_out=False)
    assert np.array_equal(a.cells, b.cells) and np.array_equal(a.counts, b.counts) and np.array_equal(a.points, b.points)


def test_many_tetrahedra():
    """215,622 tetrahedra, over 5,000 of them cut, in under three seconds."""
    import time

    mesh = box(33, "tetra")
    start = time.perf_counter()
    record = cicelybeam.cut_plane(mesh, (0.1, 0.2, 0.5), (0.3, 0.2, 3)).record
    assert time.perf_counter() - start < 3
    assert record.with_edges > 5000 and record.all_drawn


@pytest.mark.parametrize("origin,normal,tol", [
    ((0, 0, 0.5), (0, 0, 1), float("nan")), ((0, 0, 0.5), (0, 0, 1), -1.0), ((0, 0, 0.5), (0, 0, 1), float("inf")),
    ((0, 0, 0.5), (float("nan"), 0, 1), None), ((float("inf"), 0, 0), (0, 0, 1), None), ("far", (0, 0, 1), None),
])
def test_numbers_that_are_refused(cube, origin, normal, tol):
    """As the command refuses them."""
    with pytest.raises(cicelybeam.CicelybeamError, match="number"):
        cicelybeam.cut_plane(cube, origin, normal, tol)


def test_node_far_away_makes_the_tolerance_large():
    """The mesh's own tolerance is then larger than its cells, and no cell has a section."""
    mesh = box(2)
    mesh.points = np.concatenate([mesh.points, [[1e15, 0, 0]]])
    record = cicelybeam.cut_plane(mesh, (0, 0, 0.3), (0, 0, 1)).record
    assert record.listed == 0 and len(record.within_tolerance) == 8 and not record.all_drawn
    assert any("wholly within the tolerance" in warning for warning in record.warnings)
    assert cicelybeam.cut_plane(mesh, (0, 0, 0.3), (0, 0, 1), 1e-12).record.all_drawn


def test_infinite_coordinates():
    mesh = box(2)
    mesh.points[0, 0] = np.inf
    with pytest.raises(cicelybeam.MeshError, match="infinite"):
        cicelybeam.cut_plane(mesh, (0, 0, 0.3), (0, 0, 1))
    assert cicelybeam.cut_plane(mesh, (0, 0, 0.3), (0, 0, 1), 1e-12).record.not_finite == [0]


@pytest.mark.parametrize("length", [1e200, 1e-160])
def test_vectors_that_do_not_become_unit(cube, length):
    """A normal is scaled, where that is not left out; a direction is not."""
    with pytest.raises(cicelybeam.CicelybeamError, match="too large or too small: its squares cannot be added up; leave scaled=False out, or scale it to about 1"):
        cicelybeam.cut_plane(cube, (0, 0, 0.5), (0, 0, length), scaled=False)
    with pytest.raises(cicelybeam.CicelybeamError, match="too large or too small: its squares cannot be added up; scale it to about 1"):
        cicelybeam.cut_line(cube, (0, 0, 0.5), (0, 0, length))


@pytest.mark.parametrize("nodes,area", [
    ([0, 1, 2, 2, 4, 5, 6, 6], 0.5),  # a wedge
    ([0, 1, 2, 3, 4, 4, 4, 4], 0.25),  # a pyramid
    ([0, 1, 2, 2, 4, 4, 4, 4], 0.125),  # a tetrahedron
])
def test_collapsed_bricks(nodes, area):
    """Other cells are often written as bricks with repeated nodes."""
    record = cicelybeam.cut_plane(meshio.Mesh(CUBE, [("hexahedron", [nodes])]), (0, 0, 0.5), (0, 0, 1)).record
    assert record.area == pytest.approx(area) and record.all_drawn


def test_cell_with_two_open_edges_is_not_only_touched():
    """A base that is not flat has three corners in the plane: a piece with an area is not drawn."""
    points = CUBE.copy()
    points[3, 2] = 0.5
    record = cicelybeam.cut_plane(meshio.Mesh(points, [("hexahedron", [list(range(8))])]), (0, 0, 0), (0, 0, 1)).record
    assert (record.crossed, record.open, record.touching_cells) == (0, 2, 0) and not record.nothing_lost


@pytest.mark.parametrize("shift", [-0.25, 0.0, 0.25])
@pytest.mark.parametrize("place_of_first", [(0.0, 0.0), (4.0, 0.0), (4.0, 4.0), (3.9, 8.0)])
def test_coinciding_polygons(place_of_first, shift):
    """Squares less than the tolerance apart coincide wherever they are, and others do not."""
    from cicelybeam.coincident import coinciding

    tol = 1.0
    square = 1000 * np.array([[-1, -1], [1, -1], [1, 1], [-1, 1]]) + np.array(place_of_first)
    points = np.concatenate([square, square + shift, square + 10])
    assert coinciding(points, np.arange(12), np.array([4, 8, 12]), np.zeros(3, int), tol).tolist() == [0, 0, 2]


def test_plane_that_misses_the_mesh(cube):
    """A user sees where the mesh is; all was cut, and nothing is missing."""
    record = cicelybeam.cut_plane(cube, (0, 0, 7), (0, 0, 1)).record
    assert record.all_drawn and record.all_cut and record.extent == [[0, 0, 0], [1, 1, 1]]
    assert record.missed_by == 6 and record.warnings == [
        "the plane meets no cell that is cut: it misses the nearest corner by 6; the mesh extends over (0, 0, 0) to (1, 1, 1)"]


def test_plane_through_a_corner_alone(cube):
    record = cicelybeam.cut_plane(cube, (0, 0, 0), (1, 1, 1)).record
    assert record.missed_by == 0 and record.warnings == ["the plane has no edge in any cell that is cut; the mesh extends over (0, 0, 0) to (1, 1, 1)"]


@pytest.mark.parametrize("far,told", [(100.0, False), (1e6, True), (1e300, True)])
def test_origin_far_away(cube, far, told):
    """Coordinates in the plane, told from it, lose digits; those in space and the area do not."""
    cut = cicelybeam.cut_plane(cube, (far, 0, 0.5), (0, 0, 1))
    assert cut.record.area == 1 and sorted(map(tuple, cut.in_space().tolist())) == [(0, 0, 0.5), (0, 1, 0.5), (1, 0, 0.5), (1, 1, 0.5)]
    assert any("so far from the mesh" in warning and "rounded to steps of" in warning for warning in cut.record.warnings) == told


def test_origin_from_which_coordinates_overflow(cube):
    cut = cicelybeam.cut_plane(cube, (1.7e308, -1.7e308, 0.5), (1, 1, 1))
    assert cut.record.area == pytest.approx(3**0.5 / 8) and np.isfinite(cut.in_space()).all() and not np.isfinite(cut.points).all()
    assert ["so far from the mesh" in warning and "too large for numbers" in warning for warning in cut.record.warnings] == [True]
