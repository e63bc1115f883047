"""The area told: simple rings and the even-odd rule, each place once, and an origin far away."""
import meshio
import numpy as np
import pytest
from conftest import CUBE, box, stack
from hypothesis import given, settings
from hypothesis import strategies as st

import cicelybeam
from cicelybeam.cells import Loops
from cicelybeam.rings import cut_at_repeated_points, simple_rings

SADDLE = np.array([(0, 0, -0.1), (1, 0, 0), (1, 1, -0.1), (0, 1, 0.2), (0, 0, 1), (1, 0, 1), (1, 1, 1), (0, 1, 1)])


def brick(points: np.ndarray) -> meshio.Mesh:
    return meshio.Mesh(points, [("hexahedron", [list(range(8))])])


def ring_area(points: np.ndarray) -> float:
    x, y = points.T
    return 0.5 * float(np.sum(x * np.roll(y, -1) - np.roll(x, -1) * y))


def test_polygon_through_a_point_twice():
    """Two triangles of 1/6 that meet in a corner; as one polygon they have an area of 0."""
    cut = cicelybeam.cut_plane(brick(SADDLE), (0, 0, 0), (0, 0, 1))
    assert cut.record.area == pytest.approx(1 / 3, abs=1e-12)
    assert (cut.record.self_touching, cut.record.polygons, cut.record.holes) == (1, 2, 0)
    assert cut.polygon_area == pytest.approx([1 / 6, 1 / 6]) and not cut.hole.any()
    assert [ring_area(p) for p in cut.polygons()] == pytest.approx([1 / 6, 1 / 6])
    assert "1 polygon through a point twice" in str(cut)


def loops_of(*rings) -> Loops:
    """Rings of points, equal ones one point, as the loops of one cell."""
    known: dict[tuple, int] = {}
    nodes = [known.setdefault(tuple(p), len(known)) for ring in rings for p in ring]
    ends = np.cumsum([len(ring) for ring in rings])
    cell = np.zeros(len(rings), dtype=np.int64)
    return Loops(np.array(list(known), dtype=float), np.array(nodes), ends, cell, np.array([0]), np.zeros((1, 4)), np.zeros((1, 2)))


def square(x: float, y: float, size: float) -> list[tuple[float, float]]:
    return [(x, y), (x + size, y), (x + size, y + size), (x, y + size)]


@pytest.mark.parametrize("rings,area,holes", [
    ([square(0, 0, 4), square(1, 1, 2)], 12, 1),
    ([square(1, 1, 2), square(0, 0, 4)], 12, 1),
    ([square(0, 0, 4), square(5, 0, 1)], 17, 0),
    ([square(0, 0, 6), square(1, 1, 4), square(2, 2, 2)], 24, 1),  # an island in a hole
    ([square(0, 0, 4), square(1, 1, 1), square(2.5, 2.5, 1)], 14, 2),
    ([square(0, 0, 4), [(0, 0), (2, 1), (1, 2)]], 16 - 1.5, 1),  # a hole that touches the outer ring
    ([square(0, 0, 2), square(2, 2, 1)], 5, 0),  # side by side, with one point in common
    ([[(0, 0), (2, 0), (2, 2), (4, 2), (4, 4), (2, 4), (2, 2), (0, 2)]], 8, 0),  # one loop through a point twice
    ([[(0, 0), (4, 0), (4, 4), (0, 4), (0, 0), (1, 2), (2, 1)]], 16 - 1.5, 1),
    ([[(0, 0), (2, 2), (2, 0), (0, 2)]], 2, 0),  # crosses itself in no point of its own
    ([square(0, 0, 2), square(1, 1, 2)], 6, 1),  # two that cross: the part inside both does not count
])
def test_even_odd(rings, area, holes):
    found = simple_rings(loops_of(*rings), 1e-12)
    assert found.area.sum() == pytest.approx(area)
    if len(rings) < 2 or rings[1] != square(1, 1, 2) or rings[0] != square(0, 0, 2):
        assert found.hole.sum() == holes
    assert ((found.area < 0) == found.hole).all()
    assert (found.outer[~found.hole] == np.flatnonzero(~found.hole)).all() and not found.hole[found.outer].any()
    starts = np.concatenate([[0], found.ends[:-1]])
    for first, after in zip(starts, found.ends):
        assert len(set(found.nodes[first:after].tolist())) == after - first >= 3


@pytest.mark.parametrize("height,crossing", [(1e-13, 0), (1e-3, 1)])
def test_crossing_within_the_tolerance_is_rounding(height, crossing):
    """A bow-tie that is not wider than the tolerance stays as it is."""
    found = simple_rings(loops_of([(0, 0), (1, 0), (0, height), (1, height)]), 1e-12)
    assert found.crossing == crossing and len(found.ends) == 1 + crossing
    assert np.abs(found.area).sum() == pytest.approx(crossing * height / 2, abs=1e-12)


def test_narrow_neighbours_do_not_coincide():
    """Strips as wide as the tolerance, side by side: each is within two tolerances of the next, and they are not one."""
    from cicelybeam.coincident import coinciding

    strips = [[(0, y), (1, y), (1, y + 1e-12), (0, y + 1e-12)] for y in np.arange(4) * 1e-12]
    assert coinciding(np.concatenate(strips), np.arange(16), np.arange(1, 5) * 4, np.zeros(4, int), 1e-12).tolist() == [0, 1, 2, 3]
    wide = [[(0, 0), (1, 0), (1, 1), (0, 1)]] * 2
    assert coinciding(np.concatenate(wide).astype(float), np.arange(8), np.array([4, 8]), np.zeros(2, int), 1e-12).tolist() == [0, 0]


@given(st.lists(st.integers(0, 6), min_size=3, max_size=12))
def test_cut_at_repeated_points_keeps_every_step(row):
    """The rings have together the steps of the walk, each once, and no ring has a point twice."""
    rings = cut_at_repeated_points(row)
    steps = sorted((a, b) for a, b in zip(row, row[1:] + row[:1]))
    assert sorted((a, b) for ring in rings for a, b in zip(ring, ring[1:] + ring[:1])) == steps
    assert all(len(set(ring)) == len(ring) for ring in rings)


def tube() -> meshio.Mesh:
    """A square block with a square hole through it, as one polyhedron: sides without and within, and eight faces on top and below."""
    outer, inner = np.array([(0, 0), (4, 0), (4, 4), (0, 4)]), np.array([(1, 1), (3, 1), (3, 3), (1, 3)])
    points = np.array([(x, y, z) for z in (0, 1) for ring in (outer, inner) for x, y in ring], dtype=float)
    faces = []
    for k in range(4):
        n = (k + 1) % 4
        faces += [[k, n, 8 + n, 8 + k], [4 + k, 12 + k, 12 + n, 4 + n], [k, 4 + k, 4 + n, n], [8 + k, 8 + n, 12 + n, 12 + k]]
    return meshio.Mesh(points, [("polyhedron16", [[np.array(face) for face in faces]])])


def test_polyhedron_with_a_hole_through_it():
    cut = cicelybeam.cut_plane(tube(), (0, 0, 0.5), (0, 0, 1))
    assert cut.record.area == pytest.approx(12) and (cut.record.polygons, cut.record.holes) == (1, 1)
    (cell, outside, holes), = cut.shapes()
    assert cell == 0 and ring_area(outside) == pytest.approx(16) and ring_area(holes[0]) == pytest.approx(-4)
    assert cut.cell_area() == pytest.approx([12]) and "with 1 hole" in str(cut)


def test_cell_that_fills_a_hole_of_another():
    """It has the ring that bounds the hole, and is no second cell in the same place; a second such cell is."""
    around = tube()
    brick = [4, 5, 6, 7, 12, 13, 14, 15]
    for bricks, coincident in (1, 0), (2, 2):
        cut = cicelybeam.cut_plane(meshio.Mesh(around.points, [*around.cells, ("hexahedron", bricks * [brick])]), (0, 0, 0.5), (0, 0, 1))
        assert cut.record.area == pytest.approx(16) and cut.record.coincident_polygons == coincident
        assert cut.record.repeated_area == pytest.approx(4 * (bricks - 1))


def cells_of_walls(*cells) -> meshio.Mesh:
    """Each cell is a polyhedron of walls over its outlines, given after the heights of its base and its top."""
    points, blocks = [], []
    for low, high, *outlines in cells:
        faces = []
        for outline in outlines:
            first, n = len(points), len(outline)
            points += [(x, y, z) for z in (low, high) for x, y in outline]
            faces += [np.array([first + k, first + (k + 1) % n, first + n + (k + 1) % n, first + n + k]) for k in range(n)]
        blocks.append((f"polyhedron{sum(2 * len(outline) for outline in outlines)}", [faces]))
    return meshio.Mesh(np.array(points, dtype=float), blocks)


LARGE, HOLE, OTHER = square(0, 0, 6), square(1, 1, 2), square(4, 4, 1)


@pytest.mark.parametrize("one,other,area,repeated,coincident", [
    ([LARGE, HOLE], [LARGE], 36, 32, 0),
    ([LARGE, HOLE], [LARGE, HOLE], 32, 32, 4),
    ([LARGE, HOLE], [LARGE, OTHER], 36, 31, 0),  # another hole
    ([LARGE, HOLE], [LARGE, HOLE, OTHER], 32, 31, 0),  # one hole more
    ([LARGE, HOLE, OTHER], [LARGE, OTHER, HOLE], 31, 31, 6),
    ([LARGE, HOLE], [square(-1, -1, 8), HOLE], 60, 32, 0),  # the same hole in a larger square
    ([LARGE, HOLE], [HOLE], 36, 0, 0),
])
@pytest.mark.parametrize("turned", [False, True])
def test_sides_with_holes(one, other, area, repeated, coincident, turned):
    """Cells below the plane and above it that it touches."""
    below, above = (other, one) if turned else (one, other)
    for cells in ((-1, 0, *below), (0, 1, *above)), ((0, 1, *above), (-1, 0, *below)):
        record = cicelybeam.cut_plane(cells_of_walls(*cells), (0, 0, 0), (0, 0, 1)).record
        assert [record.area, record.repeated_area] == pytest.approx([area, repeated]) and record.coincident_polygons == coincident
        assert record.listed == record.in_loops and record.reasons == []


def test_cells_with_holes_that_are_there_twice():
    """They count once, and one with another hole in the same square does not make them one."""
    record = cicelybeam.cut_plane(cells_of_walls(*2 * [(0, 1, LARGE, HOLE)]), (0, 0, 0.5), (0, 0, 1)).record
    assert [record.area, record.repeated_area] == pytest.approx([32, 32]) and (record.coincident_polygons, record.doubled_polygons) == (4, 2)
    sides = [(-1, 0, LARGE, OTHER), *2 * [(0, 1, LARGE, HOLE)]]
    for cells in sides, sides[::-1]:
        record = cicelybeam.cut_plane(cells_of_walls(*cells), (0, 0, 0), (0, 0, 1)).record
        assert record.area == pytest.approx(36) and record.coincident_polygons == 4


@pytest.mark.parametrize("cells,area,coincident", [
    ([*2 * [(-1, 0, LARGE)], (0, 1, square(0, 0, 3))], 36, 2),
    ([*2 * [(-1, 0, square(0, 0, 3))], (0, 1, LARGE)], 36, 2),
    ([*2 * [(-1, 0, LARGE)], *2 * [(0, 1, square(3, 3, 6))]], 36 + 36 - 9, 4),
    ([*2 * [(-1, 0, LARGE)], (0, 1, LARGE)], 36, 3),
    ([*2 * [(-1, 1, LARGE)], (0, 1, square(0, 0, 3))], 36, 2),
    ([(-1, 1, LARGE), *2 * [(0, 1, square(0, 0, 3))]], 36, 2),
    ([(0, 1, LARGE), *2 * [(-1, 1, LARGE)], (-1, 0, square(0, 0, 3))], 36, 3),
])
def test_cells_that_are_there_twice_and_others_over_them(cells, area, coincident):
    for order in cells, cells[::-1]:
        record = cicelybeam.cut_plane(cells_of_walls(*order), (0, 0, 0), (0, 0, 1)).record
        assert record.area == pytest.approx(area) and record.coincident_polygons == coincident


@settings(max_examples=60)
@given(st.integers(2, 4), st.floats(0.05, 0.3), st.integers(0, 2**32 - 1), st.integers(0, 2), st.booleans())
def test_grids_with_nodes_moved(n, part, seed, axis, all_nodes):
    """By a plane through a node's height, the area is that just above and just below, or it is told that it is not."""
    mesh = box(n)
    rng = np.random.default_rng(seed)
    moved = rng.uniform(-part / n, part / n, mesh.points.shape)
    if not all_nodes:
        moved[((mesh.points == 0) | (mesh.points == 1)).any(axis=1)] = 0
    mesh.points += moved
    node = mesh.points[rng.integers(len(mesh.points))]
    normal = np.eye(3)[axis]
    record = cicelybeam.cut_plane(mesh, node, normal).record
    above, below = (cicelybeam.cut_plane(mesh, node + step * normal, normal).record.area for step in (1e-9, -1e-9))
    if record.nothing_lost and record.area > 0.1 and node[axis] not in (0, 1):
        assert record.area == pytest.approx(above, rel=1e-6) and record.area == pytest.approx(below, rel=1e-6)
    if not all_nodes and 0.1 < node[axis] < 0.9:
        assert record.area + record.lost_area == pytest.approx(1, rel=1e-6) and not record.jump_area


def test_jump_is_told():
    """The plane through a corner of a face that is not flat, on the outside: just above it the area is another."""
    record = cicelybeam.cut_plane(brick(SADDLE), (0, 0, 0), (0, 0, 1)).record
    above, below = (cicelybeam.cut_plane(brick(SADDLE), (0, 0, z), (0, 0, 1)).record.area for z in (1e-9, -1e-9))
    assert record.jump_area == pytest.approx(above - below, rel=1e-6) and record.jump_cells == [0]
    (status, why), = record.reasons
    assert status == 3 and "jumps by about 0.444" in why and "jumps" in record.sentence()


def test_no_jump_where_another_cell_has_the_face():
    below = np.concatenate([SADDLE, SADDLE[:4] * [1, 1, 0] - [0, 0, 1]])
    record = cicelybeam.cut_plane(meshio.Mesh(below, [("hexahedron", [list(range(8)), [8, 9, 10, 11, 0, 1, 2, 3]])]), (0, 0, 0), (0, 0, 1)).record
    assert record.jump_area == 0 and record.reasons == [] and record.area == pytest.approx(1)


@pytest.mark.parametrize("kind", ["hexahedron", "wedge", "tetra", "pyramid"])
def test_interface_counts_once(kind):
    cut = cicelybeam.cut_plane(box(2, kind), (0, 0, 0.5), (0, 0, 1))
    assert cut.record.area == pytest.approx(1) and cut.record.repeated_area == pytest.approx(cut.polygon_area.sum() - 1)
    assert cut.record.nothing_lost
    if kind != "pyramid":
        assert cut.polygon_area[cut.side == 1].sum() == pytest.approx(1) == cut.polygon_area[cut.side == -1].sum()


@pytest.mark.parametrize("below,above,width,area", [(2, 3, 1.0, 1.0), (2, 3, 0.7, 1.0), (3, 2, 1.5, 1.5), (4, 4, 1.0, 1.0), (5, 7, 1.25, 1.25)])
def test_sides_that_do_not_match(below, above, width, area):
    """Bricks under others of another size, wider or narrower along x: the union of both sides."""
    cut = cicelybeam.cut_plane(stack(below, above, width), (0, 0, 0), (0, 0, 1))
    assert cut.record.area == pytest.approx(area, rel=1e-12)
    assert cut.record.repeated_area == pytest.approx(1 + width - area, rel=1e-12) and cut.record.reasons == []
    assert f"{cut.record.area:.12g}" in cut.record.sentence() and "counted once only" in cut.record.sentence()
    assert cut.record.as_dict()["area"] == cut.record.area


@pytest.mark.parametrize("height", [0.0, 1.0])
def test_one_side_alone_is_counted(height):
    record = cicelybeam.cut_plane(box(3), (0, 0, height), (0, 0, 1)).record
    assert (record.area, record.repeated_area) == (pytest.approx(1), 0) and record.reasons == []


def test_touched_cell_over_one_that_is_passed_through():
    """A brick below with a corner of its top raised draws the whole square; of a wedge on the flat half nothing is added."""
    points = np.concatenate([CUBE - [0, 0, 1], [[0, 0, 1], [1, 0, 1], [1, 1, 1]]])
    points[7, 2] = 0.5
    mesh = meshio.Mesh(points, [("hexahedron", [list(range(8))]), ("wedge", [[4, 5, 6, 8, 9, 10]])])
    cut = cicelybeam.cut_plane(mesh, (0, 0, 0), (0, 0, 1))
    assert cut.side.tolist() == [0, 1] and cut.record.area == pytest.approx(1) and cut.record.repeated_area == pytest.approx(0.5)


def test_cells_that_are_there_twice():
    mesh = box(2)
    mesh.cells[0] = meshio.CellBlock("hexahedron", np.concatenate([mesh.cells[0].data, mesh.cells[0].data[:3]]))
    record = cicelybeam.cut_plane(mesh, (0, 0, 0.3), (0, 0, 1)).record
    assert record.area == pytest.approx(1) and record.doubled_polygons == 2
    assert any("the mesh has cells twice" in warning for warning in record.warnings)


@pytest.mark.parametrize("far", [1e3, 1e6, 1e9])
def test_origin_far_away(far):
    """A point of the plane that far away: the same area, and coordinates from it."""
    mesh, normal = box(6, "tetra"), (0.0, 3.0, 4.0)
    near = cicelybeam.cut_plane(mesh, (0.5, 0.5, 0.5), normal)
    origin = (far, 0.5 - 4 * far, 0.5 + 3 * far)
    cut = cicelybeam.cut_plane(mesh, origin, normal)
    assert cut.record.area == pytest.approx(near.record.area, rel=1e-12) and cut.record.reasons == []
    assert tuple(cut.record.origin) == origin == cut.frame.origin
    assert cut.in_space() == pytest.approx(near.in_space(), abs=1e-15 * far)
    assert cut.frame.in_space(cut.points) == pytest.approx(near.in_space(), abs=1e-14 * far)
    assert (cut.points - near.points).ptp(axis=0) == pytest.approx(0, abs=1e-14 * far)


def test_quadratic_cells_are_told():
    """The number of those that the plane reaches, in record, JSON and sentence."""
    points = np.concatenate([CUBE[[0, 1, 3, 4]], np.full((6, 3), 0.5), CUBE[[0, 1, 3, 4]] + [0, 0, 5], np.full((6, 3), 5.5)])
    mesh = meshio.Mesh(points, [("tetra10", np.arange(20).reshape(2, 10))])
    record = cicelybeam.cut_plane(mesh, (0, 0, 0.25), (0, 0, 1)).record
    assert record.straightened == record.as_dict()["straightened"] == 1
    assert "1 cell with mid-side nodes was cut as straight between corners" in record.sentence()
    assert cicelybeam.cut_plane(box(2), (0, 0, 0.3), (0, 0, 1)).record.straightened == 0
