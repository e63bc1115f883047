"""The traces of a plane on faces: against the whole cell's segments, the rules and the polygons; the files, the record and the picture."""
import csv
import json
import warnings
from pathlib import Path

import meshio
import numpy as np
import pytest
from conftest import CUBE, box
from hypothesis import given, settings
from hypothesis import strategies as st
from matplotlib import image
from test_calls import one_call
from test_figure import SECTIONS, figure, legend_of, test_nothing_is_over_anything_else as nothing_is_over_anything_else
from test_files import OPEN_BRICK, grouped, parts, run
from test_types import NODES, solid, with_mid_nodes

import cicelybeam
import sample
from cicelybeam import cells, place, plane
from cicelybeam.celltypes import POLYHEDRON, prism_faces
from cicelybeam.cells import Cutter
from cicelybeam.library import Line, Section, library
from cicelybeam.mesh import Faces
from cicelybeam.picture import THINNEST
from cicelybeam.undrawn import face_segments

PLANE = ["--origin", "0.1,0.2,0.4", "--normal", "-1,2,5"]
BRICK = [[0, 3, 2, 1], [4, 5, 6, 7], [0, 1, 5, 4], [2, 3, 7, 6], [1, 2, 6, 5], [3, 0, 4, 7]]


def polyhedron(faces, points=CUBE) -> meshio.Mesh:
    return meshio.Mesh(points, [("polyhedron8", [[np.array(face) for face in faces]])])


def gather_call(mesh, number, conn, origin, normal, tol, room=6 * 256, scaled=True) -> tuple[Line, np.ndarray]:
    """One call of cicelybeam_gather."""
    o, n, conn = np.array(origin, dtype=float), np.array(normal, dtype=float), np.ascontiguousarray(conn, dtype=np.int64)
    numbers = np.full(room, 7.0)
    told = library().cicelybeam_gather(number, conn.ctypes.data, conn.size, mesh.points.ctypes.data, mesh.points.size, o.ctypes.data, 3,
                                       n.ctypes.data, 3, scaled, tol, numbers.ctypes.data, numbers.size)
    assert (numbers[4 * told.segments :] == 7.0).all()
    return told, numbers[: 4 * told.segments]


def stitch_call(segments, tol, strict=False) -> tuple[Section, np.ndarray, np.ndarray, np.ndarray]:
    numbers, nodes, ends = np.empty(4 * 384), np.empty(384, np.uint32), np.empty(128, np.uint32)
    s = library().cicelybeam_stitch(segments.ctypes.data, segments.size, strict, tol, numbers.ctypes.data, numbers.size, nodes.ctypes.data,
                                    nodes.size, ends.ctypes.data, ends.size)
    return s, numbers[: 2 * s.points], nodes[: s.nodes], ends[: s.loops]


def from_origin(cut, numbers: np.ndarray) -> np.ndarray:
    """What the library wrote, with the plane's coordinates from the origin given."""
    with np.errstate(all="ignore"):
        return numbers.reshape(-1, 2, 2) + cut.frame.in_plane(np.array([cut.near.origin]))


def by_the_rules(cut, face) -> np.ndarray:
    """A face's segments worked out in Python, in the plane."""
    corners = [tuple(corner) for corner in cut.mesh.points[face].tolist()]
    near = cut.near
    found = [[[place.dot(tuple(x - o for x, o in zip(end, near.origin)), axis) for axis in (near.u, near.v)] for end in segment]
             for segment in face_segments(corners, near, cut.asked.tol)]
    return np.array(found).reshape(-1, 4)


def check(cut) -> None:
    """Bit by bit: a cell's traces are those of the whole cell, a face's those of the face alone and of the rules, and stitched they are
    the plane cut, but for `defaulted`, which gathering tells."""
    traces, at = cut.traces(), 0
    for block in cut.mesh.blocks:
        for k in range(len(block)):
            conn, _ = block.handed(np.array([k]))
            call, way = (cut.near.origin, cut.asked.normal, cut.asked.tol), {"scaled": cut.asked.scaled}
            told, numbers = gather_call(cut.mesh, block.kind.number, conn, *call, **way)
            assert told.refusal == 0
            mine = slice(at, at + told.segments)
            assert traces.ends[mine].tobytes() == from_origin(cut, numbers).tobytes()
            assert (traces.cell[mine] == block.first + k).all()
            at += told.segments
            every = block.cells[k] if hasattr(block, "cells") else block.faces(k)
            for number, face in enumerate(every):
                own = traces.ends[mine][traces.face[mine] == number]
                _, alone = gather_call(cut.mesh, POLYHEDRON, face, *call, **way)
                assert own.tobytes() == from_origin(cut, alone).tobytes()
                if len(face) > 2 and np.isfinite(cut.mesh.points[face]).all():
                    assert alone.tobytes() == by_the_rules(cut, face).ravel().tobytes()
            s, *stitched = stitch_call(numbers, cut.asked.tol)
            t, *whole = one_call(cut.mesh, block.kind.number, conn, *call, **way)
            others = [name for name, _ in Section._fields_ if name != "defaulted"]
            assert [getattr(s, name) for name in others] == [getattr(t, name) for name in others]
            assert (s.defaulted, t.defaulted) == (0, told.defaulted)
            assert [a.tobytes() for a in stitched] == [a.tobytes() for a in whole]
    assert at == len(traces)
    order = np.lexsort((traces.face, traces.cell))
    assert (order == np.arange(len(traces))).all()  # lexsort keeps the order of equals


def on_the_plane(cut) -> None:
    """Within the tolerance and the rounding of the way back into space."""
    space = cut.traces().in_space().reshape(-1, 3)
    away = place.distances(space, cut.near.origin, cut.near.normal)
    assert (np.abs(away) <= max(cut.asked.tol, cut.asked.own)).all()


def test_brick_at_half_its_height():
    cut = cicelybeam.cut_plane(box(1), (0, 0, 0.5), (0, 0, 1))
    traces = cut.traces()
    assert traces.cell.tolist() == [0, 0, 0, 0] and traces.face.tolist() == [2, 3, 4, 5]
    corners = {"00": [0, 0], "10": [1, 0], "11": [1, 1], "01": [0, 1]}
    mesh = cicelybeam.of_meshio(box(1))
    for face, ends in zip(traces.face, traces.ends.tolist()):  # on each face its own side of the square
        on_face = mesh.points[mesh.blocks[0].faces(0)[face]][:, :2].tolist()
        assert ends[0] != ends[1] and all(end in on_face and end in corners.values() for end in ends)
    assert traces.ends.tolist() == [[[0, 0], [1, 0]], [[1, 1], [0, 1]], [[1, 0], [1, 1]], [[0, 1], [0, 0]]]
    assert traces.in_space()[:, :, 2].tolist() == 4 * [[0.5, 0.5]] and traces.in_space()[:, :, :2].tolist() == traces.ends.tolist()
    assert len(traces) == 4 and repr(traces) == "<Traces of mesh: 4 on the faces of 1 cell>" and isinstance(traces, cicelybeam.Traces)


tolerances = st.sampled_from([None, 0.0, 1e-9, 1e-3, 0.1])
ways = st.sampled_from(["any", "through a corner", "through two corners", "along a face", "near a corner"])


def plane_for(way: str, corners: np.ndarray, face, rng) -> tuple[np.ndarray, np.ndarray]:
    a, b, c = corners[list(face[:3])]
    normal = rng.normal(size=3)
    if way == "any":
        return corners.mean(axis=0) + rng.uniform(-0.3, 0.3, 3), normal
    if way == "along a face":
        return a, np.cross(b - a, c - a)
    if way == "through two corners":
        return a, np.cross(b - a, normal)
    return (a if way == "through a corner" else a + 1e-12 * rng.normal(size=3)), normal


@settings(max_examples=250)
@given(st.sampled_from([*NODES, "polyhedron"]), ways, tolerances, st.integers(0, 2**32 - 1), st.sampled_from([0.0, 0.05, 0.4]))
def test_cells_of_every_type(name, way, tol, seed, moved):
    rng = np.random.default_rng(seed)
    if name == "polyhedron":
        points = CUBE + rng.uniform(-moved, moved, CUBE.shape)
        mesh = cicelybeam.of_meshio(polyhedron(BRICK, points))
    else:
        corners = solid(name)[0]
        points = with_mid_nodes(corners + rng.uniform(-moved, moved, corners.shape), NODES[name])
        mesh = cicelybeam.of_meshio(meshio.Mesh(points, [(name, [list(range(len(points)))])]))
    face = mesh.blocks[0].faces(0)[0]
    origin, normal = plane_for(way, points, face, rng)
    if np.linalg.norm(normal) > 1e-6:
        cut = cicelybeam.cut_plane(mesh, origin, normal, 1e-12 if tol is None else tol)
        check(cut)
        on_the_plane(cut)


@settings(max_examples=60)
@given(st.sampled_from(["hexahedron", "wedge", "tetra", "pyramid"]), st.tuples(*3 * [st.sampled_from([0.0, 0.25, 0.5, 1.0, 0.4])]),
       st.tuples(*3 * [st.integers(-2, 2)]).filter(any), tolerances)
def test_meshes(kind, origin, normal, tol):
    cut = cicelybeam.cut_plane(box(2, kind), origin, normal, tol)
    check(cut)
    on_the_plane(cut)


def test_types_side_by_side():
    """Cells keep their numbers over blocks, with cells between them that are not cut."""
    mesh = box(1, "tetra")
    points = np.concatenate([mesh.points, CUBE + [2, 0, 0], CUBE + [4, 0, 0]])
    brick = [[8 + k for k in face] for face in BRICK]
    cut = cicelybeam.cut_plane(meshio.Mesh(points, [
        ("tetra", mesh.cells[0].data), ("triangle", [[0, 1, 2]]), ("polyhedron8", [[np.array(face) for face in brick]]),
        ("hexahedron", [list(range(16, 24))])]), (0, 0, 0.3), (0.01, 0, 1))
    traces = cut.traces()
    assert set(traces.cell.tolist()) == {*range(6), 7, 8} and traces.face[traces.cell == 7].tolist() == [2, 3, 4, 5]
    assert cut.mesh.type_of(traces.cell)[-1] == "hexahedron"
    check(cut)


def test_faces_keep_the_numbers_of_the_mesh():
    """A face of under three nodes is dropped by the library, and those after it keep their numbers."""
    faces = [[5], *BRICK[:2], [0, 6], *BRICK[2:4], [], *BRICK[4:]]
    cut = cicelybeam.cut_plane(polyhedron(faces), (0, 0, 0.5), (0, 0, 1))
    assert cut.traces().face.tolist() == [4, 5, 7, 8]
    whole = cicelybeam.cut_plane(polyhedron(BRICK), (0, 0, 0.5), (0, 0, 1)).traces()
    assert cut.traces().ends.tobytes() == whole.ends.tobytes() and whole.face.tolist() == [2, 3, 4, 5]
    check(cut)


def test_a_face_with_two_traces():
    """A face that the plane crosses four times: its traces have one number, in the order of the library."""
    comb = np.array([[0, 0], [4, 0], [4, 2], [3, 2], [2, 0.5], [1, 2], [0, 2]])
    points = np.concatenate([np.c_[comb[:, 0], np.full(7, y), comb[:, 1]] for y in (0.0, 1.0)])
    cut = cicelybeam.cut_plane(meshio.Mesh(points, [("polyhedron14", [[np.array(f) for f in prism_faces(7)]])]), (0, 0, 1), (0, 0, 1))
    assert np.bincount(cut.traces().face, minlength=9).tolist()[:2] == [2, 2]
    check(cut)


def test_pyramids_and_prisms_by_their_faces():
    for name, most in (("pyramid", 5), ("penta_prism", 7), ("hexa_prism", 8)):
        corners = solid(name)[0]
        cut = cicelybeam.cut_plane(meshio.Mesh(corners, [(name, [list(range(len(corners)))])]), (0.1, 0.1, 0.4), (0, 0, 1))
        assert cut.traces().face.tolist() == [*range(1 if name == "pyramid" else 2, most)]
        check(cut)


@given(st.sampled_from(["hexahedron", "wedge", "tetra"]), st.tuples(*3 * [st.sampled_from([0.3, 0.5, 0.41])]),
       st.tuples(*3 * [st.integers(-2, 2)]).filter(any))
def test_traces_of_cells_that_are_drawn_run_along_their_polygons(kind, origin, normal):
    cut = cicelybeam.cut_plane(box(2, kind), origin, normal)
    traces, reach = cut.traces(), cut.asked.tol * (1 + 1e-9) + 1e-15
    drawn = cut.cells[(cut.counts[:, 2:] == 0).all(axis=1)]
    assert len(drawn) or not len(traces) or len(cut.cells)
    edges: dict[int, list] = {}
    for cell, ring in zip(cut.polygon_cell.tolist(), cut.polygons()):
        edges.setdefault(cell, []).extend(zip(ring, np.roll(ring, -1, axis=0)))
    for cell, (a, b) in zip(traces.cell.tolist(), traces.ends):
        if cell in drawn:
            assert any(max(np.linalg.norm(a - p), np.linalg.norm(b - q)) <= reach or max(np.linalg.norm(a - q), np.linalg.norm(b - p)) <= reach
                       for p, q in edges[cell])


def test_corners_of_polygons_are_ends_of_traces():
    """Bit by bit, in the plane and in space: a point of a section is the first end that became it."""
    cut = cicelybeam.cut_plane(sample.plate(), (0, 0, 0.4), (0.05, 0.1, 1))
    traces = cut.traces()
    assert {*map(tuple, cut.points[cut.nodes].tolist())} <= {*map(tuple, traces.ends.reshape(-1, 2).tolist())}
    assert {*map(tuple, cut.in_space()[cut.nodes].tolist())} <= {*map(tuple, traces.in_space().reshape(-1, 3).tolist())}
    assert len(traces) == cut.record.listed  # a general plane: no trace is welded away, and none is there twice


def test_shifted_plane():
    cut = cicelybeam.cut_plane(box(2, "tetra"), (0.1, 0.2, 0.5), (0, 0, 1), shift=True)
    assert cut.record.shift
    assert cut.traces().in_space()[:, :, 2] == pytest.approx(0.5 + cut.record.shift, abs=1e-16)
    check(cut)
    unshifted = cicelybeam.cut_plane(box(2, "tetra"), (0.1, 0.2, 0.5), (0, 0, 1)).traces()
    assert (unshifted.in_space()[:, :, 2] == 0.5).all() and set(unshifted.cell) != set(cut.traces().cell)


def test_origin_far_away():
    near, far = (cicelybeam.cut_plane(box(2, "tetra"), origin, (0, 0, 1)) for origin in ((0, 0, 0.4), (1e6, -3e6, 0.4)))
    assert (far.traces().in_space() == near.traces().in_space()).all() and (far.in_space() == near.in_space()).all()
    assert far.traces().ends == pytest.approx(near.traces().ends - [1e6, -3e6], abs=1e-9)
    assert (far.traces().in_space()[:, :, 2] == 0.4).all() and (far.traces().face == near.traces().face).all()
    check(far)


def test_cells_left_out_or_not():
    a, b = (cicelybeam.cut_plane(box(3, "wedge"), (0.1, 0.2, 1 / 3), (0, 0.1, 1), leave_out=way).traces() for way in (True, False))
    assert a.ends.tobytes() == b.ends.tobytes() and (a.cell == b.cell).all() and (a.face == b.face).all()


def test_a_trace_whose_ends_become_one_point(tmp_path):
    """It is on a face, and no edge is listed for it: projected, its ends are no longer further apart than the tolerance."""
    points = [[-0.11, -0.08, 0.04], [0.02, -0.08, 0.11], [-0.08, 0, -0.09], [0, 0, 9], [9, 0, 9], [0, 9, 9]]
    cut = cicelybeam.cut_plane(meshio.Mesh(points, [("polyhedron6", [[np.array([0, 1, 2])]])]), (0, 0, 0), (0, 0, 1), 0.1)
    check(cut)
    cut.traces().write(tmp_path / "a.vtp")
    data = parts(tmp_path / "a.vtp")["CellData"]
    assert data["cell"].tolist() == [0] and data["listed"].tolist() == [0]
    assert cut.record.traces == cut.record.with_traces == 1 and cut.record.with_edges == 0
    found = figure(cut, show="traces")  # the axes reach over it, though nothing else is there
    for limits, along in zip((found.axes[0].get_xlim(), found.axes[0].get_ylim()), lines_of(found).reshape(-1, 2).T):
        assert limits[0] < along.min() and along.max() < limits[1]


def test_points_whose_sums_overflow():
    """numpy says nothing of them on the way into space and back."""
    frame = place.plane((1.7e308, 1.7e308, 1.7e308), (1.0, 2.0, 3.0), True)
    with warnings.catch_warnings():
        warnings.simplefilter("error")
        assert not np.isfinite(frame.in_space(np.full((1, 2), 1.7e308))).all()
        assert not np.isfinite(frame.in_plane(np.full((1, 3), -1.7e308))).all()


@pytest.mark.parametrize("bad", [np.nan, np.inf, -np.inf])
def test_coordinates_that_are_not_finite(bad, tmp_path):
    mesh = box(2)
    mesh.points[13, 0] = bad
    with warnings.catch_warnings():
        warnings.simplefilter("error")
        cut = cicelybeam.cut_plane(mesh, (0.1, 0.2, 0.3), (0.1, 0.2, 1), 1e-9)
        traces = cut.traces()
        check(cut)
        assert len(traces) and traces.in_space().shape == (len(traces), 2, 3)
        for name in ("a.csv", "a.vtp"):
            traces.write(tmp_path / name)
        cut.draw(tmp_path / "a.svg", show="traces")
    assert cut.record.not_finite


def test_ends_that_are_not_finite_are_left_out_of_the_picture(tmp_path):
    cut = cicelybeam.cut_plane(box(2), (0, 0, 0.3), (0, 0, 1))
    ends = cut.traces().near_ends
    ends[0, 0, 0], ends[1, 1, 1] = np.nan, np.inf
    with warnings.catch_warnings():
        warnings.simplefilter("error")
        found = figure(cut, show="traces")
        cut.draw(tmp_path / "a.png", show="traces")
        for name in ("a.csv", "a.vtp"):
            cut.traces().write(tmp_path / name)
    assert "trace on a face (2 not finite)" in legend_of(found)
    assert len(list(csv.DictReader((tmp_path / "a.csv").open()))) == 16


def test_buffers_that_are_full(monkeypatch):
    """More traces than the buffer holds at first: the loop goes on from the face that lacked room."""
    mesh = cicelybeam.of_meshio(box(6, "tetra"))
    whole = cicelybeam.cut_plane(mesh, (0, 0, 0.45), (0.1, 0, 1)).traces()
    rooms = []

    class Short(cells.Growing):
        def __init__(self, dtype, room) -> None:
            super().__init__(dtype, 1)

        def lend(self, needed):
            return self.base + self.used * self.array.itemsize, self.array.size - self.used

        def grow(self, more=0) -> None:
            rooms.append(self.array.size)
            super().grow(more)

    cut = cicelybeam.cut_plane(mesh, (0, 0, 0.45), (0.1, 0, 1))
    monkeypatch.setattr(cells, "Growing", Short)
    short = cut.traces()
    assert len(rooms) > 5 and short.ends.tobytes() == whole.ends.tobytes() and len(short) > 500


def test_refusal_names_what_was_handed_over():
    mesh = cicelybeam.of_meshio(box(1))
    faces = Faces(np.array([0, 0]), np.array([0, 1]), np.array([0, 3, 2, 1, 4, 5, 999, 7]), np.array([0, 4, 8]))
    with pytest.raises(cicelybeam.Refused, match="face 1 of a cell: the node number") as told:
        Cutter(mesh, (0, 0, 0.5), (0, 0, 1), 1e-12).gathered(faces, lambda k: f"face {faces.number[k]} of a cell")
    assert told.value.number == 4


def test_what_one_call_refuses():
    mesh = cicelybeam.of_meshio(box(1))
    conn = np.arange(8)
    for number, nodes, normal, room, refusal in (
            (5, conn, (0, 0, 1), 144, 1), (14, conn[:7], (0, 0, 1), 144, 2), (14, conn + 1, (0, 0, 1), 144, 4), (14, conn, (0, 0, 0), 144, 6),
            (14, conn, (0, 0, 1), 143, 7), (14, conn, (0, 0, 1), 144, 0)):
        assert gather_call(mesh, number, nodes, (0, 0, 0.5), normal, 0.0, room)[0].refusal == refusal


def test_gathered_once(tmp_path, monkeypatch):
    times = []
    inner = plane.gather
    monkeypatch.setattr(plane, "gather", lambda cut: times.append(1) or inner(cut))
    box(2).write(tmp_path / "box.vtu")
    assert run("plane", tmp_path / "box.vtu", *PLANE, "--traces", tmp_path / "t.csv", "--show", "traces", "--picture", tmp_path / "a.svg",
               "--report", tmp_path / "a.html") == 0
    assert len(times) == 1
    assert run("plane", tmp_path / "box.vtu", *PLANE, "--picture", tmp_path / "a.svg", "--report", tmp_path / "a.html", "--quiet") == 0
    assert len(times) == 1  # they were not asked for


# ---- the record


def test_record_tells_of_traces_that_were_gathered():
    cut = cicelybeam.cut_plane(box(2), (0, 0, 0.3), (0, 0, 1))
    before, found = str(cut.record), cut.record.as_dict()
    assert found["traces"] is None and found["with_traces"] is None and "traces " not in before
    cut.traces()
    lines = str(cut.record).split("\n")
    assert lines.pop(lines.index("traces            16 on the faces of 4 cells")) and "\n".join(lines) == before
    assert (cut.record.as_dict()["traces"], cut.record.as_dict()["with_traces"]) == (16, 4)
    assert cut.record.as_dict()["summary"] == found["summary"]


@pytest.mark.parametrize("more,number", [([], None), (["--show", "traces"], 24), (["--show", "polygons"], None)])
def test_record_of_the_command(tmp_path, capsys, more, number):
    box(2).write(tmp_path / "box.vtu")
    assert run("plane", tmp_path / "box.vtu", *PLANE, *more) == 0
    said = capsys.readouterr().out
    assert (f"\ntraces            {number} on the faces of " in said) == (number is not None) == ("\ntraces " in said)
    assert run("plane", tmp_path / "box.vtu", *PLANE, *more, "--report", "-") == 0
    assert json.loads(capsys.readouterr().out)["traces"] == number


# ---- the files


@pytest.fixture
def path(tmp_path) -> Path:
    grouped().write(tmp_path / "box.msh", file_format="gmsh22")
    return tmp_path / "box.msh"


def traces_of(path: Path) -> cicelybeam.Traces:
    return cicelybeam.cut_plane(cicelybeam.read(path), (0.1, 0.2, 0.4), (-1, 2, 5)).traces()


def test_csv(path, tmp_path):
    assert run("plane", path, *PLANE, "--traces", tmp_path / "t.csv", "--quiet") == 0
    with (tmp_path / "t.csv").open() as file:
        rows = csv.DictReader(file)
        found = list(rows)
    traces = traces_of(path)
    assert rows.fieldnames == "cell type group face u1 v1 u2 v2 x1 y1 z1 x2 y2 z2".split()
    assert [int(row["cell"]) for row in found] == traces.cell.tolist() and [int(row["face"]) for row in found] == traces.face.tolist()
    assert {row["type"] for row in found} == {"tetra"} and {row["group"] for row in found} == {"left side", "right side"}
    in_plane = np.array([[float(row[name]) for name in ("u1", "v1", "u2", "v2")] for row in found])
    in_space = np.array([[float(row[name]) for name in ("x1", "y1", "z1", "x2", "y2", "z2")] for row in found])
    assert in_plane.tobytes() == traces.ends.tobytes() and in_space.tobytes() == traces.in_space().tobytes()


def test_vtp(path, tmp_path):
    assert run("plane", path, *PLANE, "--traces", tmp_path / "t.vtp", "--quiet") == 0
    found, traces = parts(tmp_path / "t.vtp"), traces_of(path)
    assert found["Points"]["points"].tobytes() == traces.in_space().tobytes()
    assert found["Lines"]["connectivity"].tolist() == list(range(2 * len(traces)))
    assert found["Lines"]["offsets"].tolist() == list(range(2, 2 * len(traces) + 1, 2)) and not len(found["Polys"]["offsets"])
    assert np.stack([found["PointData"]["u"], found["PointData"]["v"]], axis=1).tobytes() == traces.ends.tobytes()
    data = found["CellData"]
    assert (data["cell"] == traces.cell).all() and (data["face"] == traces.face).all() and (data["stress"] == traces.cell).all()
    assert (data["listed"] == data["in_loops"]).all() and set(data["gmsh:physical"].tolist()) == {1, 2}
    assert (data["listed"] == [np.sum(traces.cell == cell) for cell in traces.cell]).all()


def test_a_field_of_the_name_face_is_carried_over(tmp_path):
    mesh = box(1, "tetra")
    mesh.cell_data = {"face": [np.arange(6.0)], "area": [np.arange(6.0)], "mesh:face": [np.arange(6.0) + 7]}
    cut = cicelybeam.cut_plane(mesh, (0, 0, 0.3), (0, 0, 1))
    cut.traces().write(tmp_path / "t.vtp")
    cut.write(tmp_path / "a.vtp")
    data, polygons = (parts(tmp_path / name)["CellData"] for name in ("t.vtp", "a.vtp"))
    assert (data["mesh:mesh:face"] == data["cell"]).all() and (data["mesh:face"] == data["cell"] + 7).all() and (data["face"] == cut.traces().face).all() and (data["area"] == data["cell"]).all()
    assert (polygons["face"] == polygons["cell"]).all() and "mesh:area" in polygons


def test_vtp_read_by_vtk(path, tmp_path):
    vtk = pytest.importorskip("vtkmodules.vtkIOXML")
    from vtkmodules.util.numpy_support import vtk_to_numpy

    traces = traces_of(path)
    for name, number in (("t.vtp", len(traces)), ("none.vtp", 0)):
        (traces if number else cicelybeam.cut_plane(box(1), (0, 0, 7), (0, 0, 1)).traces()).write(tmp_path / name)
        reader = vtk.vtkXMLPolyDataReader()
        reader.SetFileName(str(tmp_path / name))
        reader.Update()
        found = reader.GetOutput()
        assert (found.GetNumberOfLines(), found.GetNumberOfPoints(), found.GetNumberOfPolys()) == (number, 2 * number, 0)
        if number:
            assert vtk_to_numpy(found.GetCellData().GetArray("face")).tolist() == traces.face.tolist()
            for k, ends in enumerate(traces.in_space()):
                assert vtk_to_numpy(found.GetCell(k).GetPoints().GetData()).tolist() == ends.tolist()


def test_a_plane_that_misses_the_mesh(path, tmp_path, capsys):
    """Files with nothing in them, and a record that says so."""
    for name in ("t.csv", "t.vtp"):
        assert run("plane", path, "--origin", "0,0,7", "--normal", "z", "--traces", tmp_path / name, "--picture", tmp_path / "t.svg",
                   "--show", "traces") == 0
    assert "traces            0 on the faces of 0 cells\n" in capsys.readouterr().out
    assert (tmp_path / "t.csv").read_text() == "cell,type,group,face,u1,v1,u2,v2,x1,y1,z1,x2,y2,z2\n"
    found = parts(tmp_path / "t.vtp")
    assert found["Points"]["points"].shape == (0, 3) and not len(found["Lines"]["offsets"]) and not len(found["CellData"]["face"])
    assert "0 polygons, 0 traces" in (tmp_path / "t.svg").read_text()


@pytest.mark.parametrize("name,words", [
    ("t.txt", "a file of traces is a .csv or .vtp file"), ("t", "a file of traces is a"), ("-", "a file of traces is a"),
    ("no/t.csv", "make it first"),
    ("box.msh.csv/..", "a file of traces is a"), ("same.csv", "two outputs have this name")])
def test_names_that_are_refused_before_the_work(path, tmp_path, capsys, monkeypatch, name, words):
    monkeypatch.setattr("cicelybeam.command.meshes.read", lambda path: pytest.fail("the mesh was read"))
    place_of = name if name == "-" else tmp_path / name
    assert run("plane", path, *PLANE, "--traces", place_of, "--table", tmp_path / "same.csv") == 1
    assert words in capsys.readouterr().err and {p.name for p in tmp_path.iterdir()} == {"box.msh"}


def test_a_folder_that_cannot_be_written_to(path, tmp_path, capsys, monkeypatch):
    monkeypatch.setattr("os.access", lambda *_: False)
    assert run("plane", path, *PLANE, "--traces", tmp_path / "t.vtp") == 1
    assert "cannot be written to; give another place" in capsys.readouterr().err and {p.name for p in tmp_path.iterdir()} == {"box.msh"}


def test_the_mesh_is_never_overwritten(tmp_path, capsys):
    mesh = tmp_path / "box.vtp"
    mesh.write_text("mesh")
    assert run("plane", mesh, *PLANE, "--traces", mesh) == 1
    assert "not overwritten" in capsys.readouterr().err and mesh.read_text() == "mesh"


@pytest.mark.parametrize("name", ["t.json", "nowhere/t.csv", "."])
def test_names_that_are_refused_in_python(tmp_path, name):
    traces = cicelybeam.cut_plane(box(1), (0, 0, 0.5), (0, 0, 1)).traces()
    with pytest.raises(cicelybeam.CicelybeamError):
        traces.write(tmp_path / name)
    assert not list(tmp_path.iterdir())


# ---- the picture


def lines_of(found) -> np.ndarray:
    """The lines of a picture with traces, as pairs of ends."""
    drawn = [patch for patch in found.axes[0].collections if patch.get_zorder() == 3]
    return np.concatenate([path.vertices for patch in drawn for path in patch.get_paths()]).reshape(-1, 2, 2)


def test_every_trace_is_a_line_with_dots():
    cut = cicelybeam.cut_plane(box(2), (0, 0, 0.3), (0, 0, 1))
    found = figure(cut, show="traces")
    assert lines_of(found) == pytest.approx(cut.traces().ends)
    (dots,) = found.axes[0].lines
    assert len(dots.get_xdata()) == 9 and dots.get_markersize() > 1.5  # once for each place
    assert legend_of(found) == ["hexahedron", "trace on a face"]
    assert [text.get_text() for text in found.texts] == ["4 polygons, 16 traces, area 1"]
    fills = [patch for patch in found.axes[0].collections if patch.get_zorder() < 2]
    assert fills and all(patch.get_edgecolor().tolist() == patch.get_facecolor().tolist() for patch in fills)
    assert not any(patch.get_zorder() == 3 for patch in figure(cut).axes[0].collections)


def test_traces_where_no_polygon_is_drawn():
    """An open brick has three traces and no polygon; they are in the picture, and the axes reach over them."""
    cut = cicelybeam.cut_plane(polyhedron(OPEN_BRICK), (0, 0, 0.5), (0, 0, 1))
    found = figure(cut, show="traces")
    assert len(cut) == 0 and len(lines_of(found)) == 3 and {"trace on a face", "area lost: 1 cell"} <= set(legend_of(found))
    (low, high) = found.axes[0].get_xlim()
    assert low < 0 and high > 1


@pytest.mark.parametrize("colour", ["type", "cell"])
def test_lines_are_seen_on_every_fill(colour):
    found = figure(cicelybeam.cut_plane(sample.plate(), (0, 0, 0.4), (0.05, 0.1, 1)), show="traces", colour=colour)
    fills = [fill for patch in found.axes[0].collections for fill in patch.get_facecolor()]
    assert len(fills) > 2
    luminance = np.array(fills)[:, :3] @ (0.299, 0.587, 0.114)
    assert luminance.min() > 0.125 + 0.3  # the lines have 0.125
    if colour == "type":
        shown = {patch.get_facecolor() for legend in found.legends for patch in legend.get_patches()}
        assert shown == {tuple(fill) for fill in fills}


def test_the_legend_has_dots_where_the_picture_has():
    def dots(n: int) -> tuple[bool, str]:
        found = figure(cicelybeam.cut_plane(box(n), (0, 0, 0.501), (0, 0, 1)), show="traces")
        (line,) = [line for legend in found.legends for line in legend.get_lines()]
        return bool(found.axes[0].lines), line.get_marker()

    assert dots(2) == (True, "o") and dots(60) == (False, "none")


def test_traces_are_thinned():
    """As thin as traces are short; dots are left out where they would be too small or too many."""
    def widths(n: int, **look) -> tuple[float, int]:
        found = figure(cicelybeam.cut_plane(box(n), (0, 0, 0.501), (0, 0, 1)), show="traces", **look)
        (lines,) = [patch for patch in found.axes[0].collections if patch.get_zorder() == 3]
        return lines.get_linewidth()[0], sum(len(line.get_xdata()) for line in found.axes[0].lines)

    several = [widths(n) for n in (2, 30, 60, 90)]
    assert several[0] == (0.7, 9) and several[1][1] == 31**2 and several[2][1] == several[3][1] == 0
    assert several[0][0] > several[1][0] > several[2][0] > several[3][0] > THINNEST
    assert widths(30, edges="on")[0] == 0.7 and widths(30, edges="off")[0] == several[1][0]
    assert widths(70, edges="on") == (0.7, 0)


def test_traces_of_an_inclined_plane_in_its_own_coordinates():
    cut = cicelybeam.cut_plane(box(2, "tetra"), (0.5, 0.5, 0.5), (1, 2, 3))
    assert lines_of(figure(cut, show="traces")) == pytest.approx(cut.traces().ends, abs=1e-12)


@pytest.mark.parametrize("suffix", [".svg", ".png", ".pdf", ".eps", ".html"])
def test_pictures(path, tmp_path, suffix):
    option = "--report" if suffix == ".html" else "--picture"
    for name, show in (("a", "traces"), ("b", "traces"), ("c", "polygons")):
        assert run("plane", path, *PLANE, option, tmp_path / (name + suffix), "--show", show, "--colour", "group", "--quiet") == 0
    a, b, c = ((tmp_path / (name + suffix)).read_bytes() for name in "abc")
    if suffix == ".html":
        assert b"trace on a face" in a and b"traces</th><td>" in a and b"trace on a face" not in c
    else:
        assert a == b != c and len(a) > 1000
    if suffix == ".png":
        assert image.imread(tmp_path / "a.png")[:, :, :3].mean() < 1


@pytest.mark.parametrize("look", [{}, {"colour": "cell", "size": (85,)}], ids=str)
@pytest.mark.parametrize("name", [name for name in SECTIONS if not name.startswith("line")])
def test_pictures_are_laid_out(name, look):
    nothing_is_over_anything_else(name, {**look, "show": "traces"})


def test_page_has_traces_from_python(tmp_path):
    cut = cicelybeam.cut_plane(box(2), (0, 0, 0.3), (0, 0, 1))
    cut.write(tmp_path / "a.html", show="traces")
    text = (tmp_path / "a.html").read_text()
    assert "trace on a face" in text and "16 on the faces of 4 cells" in text
    assert "each face handed over alone, are those that its section is stitched from" in text
    cicelybeam.cut_plane(box(2), (0, 0, 0.3), (0, 0, 1)).write(tmp_path / "b.html")
    assert "handed over alone, are those" not in (tmp_path / "b.html").read_text()


def test_a_line_cut_has_no_traces(tmp_path, capsys):
    line = cicelybeam.cut_line(box(2), (0, 0.3, 0.3), (1, 0, 0))
    for name in ("a.svg", "a.html"):
        with pytest.raises(cicelybeam.CicelybeamError, match="a line cut has no traces on faces; cut by a plane"):
            line.write(tmp_path / name, show="traces")
    assert not list(tmp_path.iterdir())
    line.draw(tmp_path / "a.svg", show="polygons")
    for option in (["--show", "traces"], ["--traces", "t.csv"]):
        with pytest.raises(SystemExit) as told:
            run("line", tmp_path / "none.msh", "--origin", "0,0,0", "--direction", "x", *option)
        assert told.value.code == 2


def test_what_else_cannot_be_shown(tmp_path, capsys):
    cut = cicelybeam.cut_plane(box(1), (0, 0, 0.5), (0, 0, 1))
    with pytest.raises(cicelybeam.CicelybeamError, match="polygons or traces, not 'loops'"):
        cut.draw(tmp_path / "a.svg", show="loops")
    with pytest.raises(SystemExit):
        run("plane", tmp_path / "none.msh", *PLANE, "--show", "loops")
    assert "polygons" in capsys.readouterr().err


def test_help_names_them(capsys):
    with pytest.raises(SystemExit):
        run("plane", "--help")
    said = capsys.readouterr().out
    assert "--traces FILE" in said and "--show {polygons,traces}" in said and "\n  trace     " in said
