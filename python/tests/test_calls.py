"""The loop over cells in C, and the faces that are not asked for: both against one call each."""
import meshio
import numpy as np
import pytest
from conftest import CUBE, box
from hypothesis import given, settings
from hypothesis import strategies as st

import cicelybeam
from cicelybeam import cells, place
from cicelybeam.buffers import Growing
from cicelybeam.cells import Cutter
from cicelybeam.library import Section, library

kinds = st.sampled_from(["hexahedron", "wedge", "tetra", "pyramid"])
small = st.integers(-3, 3)
normals = st.tuples(small, small, small).filter(any)
places = st.tuples(*3 * [st.sampled_from([0.25, 0.5, 1 / 3, 0.4, 0.7])])


def one_call(mesh, number, conn, origin, normal, tol, strict=False, scaled=True) -> tuple[Section, np.ndarray, np.ndarray, np.ndarray]:
    o, n, conn = np.array(origin, dtype=float), np.array(normal, dtype=float), np.ascontiguousarray(conn)
    numbers, nodes, ends = np.empty(6 * 256), np.empty(384, np.uint32), np.empty(128, np.uint32)
    s = library().cicelybeam_plane(number, conn.ctypes.data, conn.size, mesh.points.ctypes.data, mesh.points.size, o.ctypes.data, 3,
                                   n.ctypes.data, 3, scaled, strict, tol, numbers.ctypes.data, numbers.size, nodes.ctypes.data, nodes.size,
                                   ends.ctypes.data, ends.size)
    return s, numbers[: 2 * s.points], nodes[: s.nodes], ends[: s.loops]


@given(kinds, places, normals, st.sampled_from([None, 0.0, 1e-3]))
def test_loop_is_one_call_each(kind, origin, normal, tol):
    """Bit by bit: counts, points, nodes and ends of every cell."""
    mesh = cicelybeam.of_meshio(box(2, kind))
    tol = cicelybeam.slice_tolerance(mesh.points) if tol is None else tol
    block = mesh.blocks[0]
    cutter = Cutter(mesh, origin, normal, tol)
    told = cutter.cut(block, np.arange(len(block)))
    numbers, nodes, ends = (buffer.written() for buffer in cutter.written)
    at = [0, 0, 0]
    for k in range(len(block)):
        conn, _ = block.handed(np.array([k]))
        s, *alone = one_call(mesh, block.kind.number, conn, origin, normal, tol)
        assert told[k].tolist() == tuple(getattr(s, name) for name, _ in Section._fields_)
        for written, own, j in zip((numbers, nodes, ends), alone, range(3)):
            assert written[at[j] : at[j] + len(own)].tobytes() == own.tobytes()
            at[j] += len(own)
    assert at == [len(numbers), len(nodes), len(ends)]


def test_buffers_that_are_full():
    """The loop stops at a cell that lacks room, and goes on from it."""
    mesh = cicelybeam.of_meshio(box(8, "tetra"))
    whole = Cutter(mesh, (0, 0, 0.45), (0, 0, 1), 1e-12)
    whole.cut(mesh.blocks[0], np.arange(3072))
    short = Cutter(mesh, (0, 0, 0.45), (0, 0, 1), 1e-12)
    short.written = [Growing(buffer.array.dtype.type, 8) for buffer in short.written]
    short.cut(mesh.blocks[0], np.arange(3072))
    for a, b in zip(whole.written, short.written):
        assert a.used == b.used and np.array_equal(a.written(), b.written())


def test_refusal_names_the_cell(monkeypatch):
    """A refusal in the midst of the loop."""
    mesh = cicelybeam.of_meshio(box(2))
    mesh.blocks[0].nodes = mesh.blocks[0].nodes.copy()
    mesh.blocks[0].nodes[5, 2] = 999
    with pytest.raises(cicelybeam.Refused, match=r"cell 5 \(hexahedron, number 5 of its block\)") as told:
        Cutter(mesh, (0, 0, 0.5), (0, 0, 1), 1e-12).cut(mesh.blocks[0], np.arange(8))
    assert told.value.number == 4


def gaps_by_calls(mesh, cut) -> list[int]:
    """Cells with edges and a crossed face that lists none, each face asked for alone."""
    sides = place.sides(mesh.points, cut.near.origin, cut.near.normal, cut.record.tolerance)
    found = []
    for cell in cut.cells.tolist():
        block = mesh.block_of(cell)
        for face in block.faces(cell - block.first):
            bits = sides.of_node[face]
            if (bits == 1).any() and (bits == 2).any() and len(set(face.tolist())) > 2:
                s, *_ = one_call(mesh, 18, face, cut.near.origin, cut.asked.normal, cut.record.tolerance)
                if not s.listed:
                    found.append(cell)
                    break
    through = set(np.concatenate([b.first + np.flatnonzero(sides.met(b) == 3) for b in mesh.blocks]).tolist())
    return [cell for cell in found if cell in through]


@settings(max_examples=120)
@given(kinds, places, normals, st.sampled_from([None, 0.0, 1e-15, 1e-3, 0.05]), st.integers(0, 2**32 - 1), st.sampled_from([0.0, 1e-12, 1e-3, 0.1]))
def test_gaps_are_those_of_the_calls(kind, origin, normal, tol, seed, moved):
    """Planes through nodes, near them and between them, tolerances below and above the mesh's own."""
    mesh = box(3, kind)
    mesh.points += np.random.default_rng(seed).uniform(-moved, moved, mesh.points.shape)
    mesh = cicelybeam.of_meshio(mesh)
    cut = cicelybeam.cut_plane(mesh, origin, normal, tol)
    assert cut.record.crossed_face_without_segment == gaps_by_calls(mesh, cut)


@settings(max_examples=60)
@given(kinds, st.integers(0, 2**32 - 1), st.floats(-8, 8), st.booleans())
def test_gaps_next_to_the_tolerance(kind, seed, tolerances, inclined):
    """Corners a few tolerances from the plane."""
    mesh = cicelybeam.of_meshio(box(3, kind))
    rng = np.random.default_rng(seed)
    normal = rng.normal(size=3) if inclined else np.eye(3)[rng.integers(3)]
    tol = cicelybeam.slice_tolerance(mesh.points)
    origin = mesh.points[rng.integers(len(mesh.points))] + tolerances * tol * np.array(place.unit(tuple(normal)))
    cut = cicelybeam.cut_plane(mesh, origin, normal)
    assert cut.record.crossed_face_without_segment == gaps_by_calls(mesh, cut)


near_tol = st.floats(-9, 9)
spread = st.sampled_from([0.3, 2.0, 30.0, 1e6, 1e11])


@settings(max_examples=300)
@given(st.integers(3, 5), st.lists(st.tuples(near_tol, st.floats(-1, 1), st.floats(-1, 1)), min_size=5, max_size=5), spread, st.booleans())
def test_faces_that_surely_have_a_segment(n, corners, width, far_below):
    """Faces a few tolerances high and some wide, down to spikes narrower than one: what is called sure is so by a call."""
    tol = cicelybeam.slice_tolerance(np.array([[1.0, 1.0, 1.0], [-1, -1, -1]]))
    points = np.array([(width * x * tol, width * y * tol, z * tol) for z, x, y in corners[:n]])
    points[:, 2] -= 1e10 * tol * far_below * (points[:, 2] < 0)
    mesh = cicelybeam.of_meshio(meshio.Mesh(np.concatenate([points, [[1, 1, 1], [-1, -1, -1]]]), [("tetra", [[0, 1, 2, n]])]))
    cutter = Cutter(mesh, (0, 0, 0), (0, 0, 1), tol, tol)
    bits = place.sides(mesh.points, (0, 0, 0), (0, 0, 1), tol).of_node
    faces = np.arange(n)[None]
    if (bits[:n] == 1).any() and (bits[:n] == 2).any() and cells._surely(cutter, faces, bits[faces])[0]:
        assert cutter.edges_of_faces(faces)[0] > 0


@pytest.mark.parametrize("heights,number", [
    ((1, 1, 1, 1, -1, -1, -1, -1), 4),
    ((1, -1, 1, 1, -1, -1, -1, -1), 5),
    ((1, -1, 1, -1, 1, 1, 1, 1), -1),  # a face with four changes of side
    ((1, 0, 1, 1, -1, -1, -1, -1), -1),  # a corner in the plane
    ((1, float("nan"), 1, 1, -1, -1, -1, -1), -1),
])
def test_when_no_face_has_two_segments(heights, number):
    points = CUBE.copy()
    points[:, 2] = heights
    mesh = cicelybeam.of_meshio(meshio.Mesh(points, [("hexahedron", [list(range(8))])]))
    sides = place.sides(mesh.points, (0.5, 0.5, 0), (0, 0, 1), 1e-12)
    assert cells._segments_at_most(mesh.blocks[0], np.array([0]), sides).tolist() == [number]


def test_few_faces_are_asked_for(monkeypatch):
    """In general position none, and where the plane passes through many nodes few."""
    asked = []
    inner = Cutter.edges_of_faces
    monkeypatch.setattr(Cutter, "edges_of_faces", lambda self, faces: asked.append(len(faces)) or inner(self, faces))
    mesh = cicelybeam.of_meshio(box(10, "tetra"))
    record = cicelybeam.cut_plane(mesh, (0.5, 0.5, 0.512345), (0.3, 0.2, 1)).record
    assert record.with_edges > 500 and sum(asked) == 0
    cicelybeam.cut_plane(mesh, (0.5, 0.5, 0.5), (0.3, 0.2, 1))
    assert sum(asked) < 20


def test_pyramid_is_handed_over_by_its_faces():
    mesh = cicelybeam.of_meshio(meshio.Mesh(CUBE, [("pyramid", [[0, 1, 2, 3, 4]])]))
    conn, starts = mesh.blocks[0].handed(np.array([0]))
    assert conn.tolist() == [0, 3, 2, 1, -1, 0, 1, 4, -1, 1, 2, 4, -1, 2, 3, 4, -1, 3, 0, 4] and starts.tolist() == [0, 20]


@given(kinds, places, normals)
def test_bits_of_cells(kind, origin, normal):
    """The fold over a row of corners, by one number a row or column by column."""
    mesh = cicelybeam.of_meshio(box(2, kind))
    sides = place.sides(mesh.points, origin, place.unit(normal), 1e-12)
    block = mesh.blocks[0]
    rows = sides.of_node[block.corners()]
    assert np.array_equal(sides.met(block), np.bitwise_or.reduce(rows, axis=1))
    assert np.array_equal(sides.reached(block), np.bitwise_and.reduce(rows, axis=1) == 0)
    assert cells.AT_ONCE > 1
