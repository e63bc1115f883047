"""Crossings that lie in the middle by default: against a plain model, cell by cell and face by face; and wherever they are told."""
import json
import math

import meshio
import numpy as np
import pytest
from conftest import CUBE, box
from hypothesis import given, settings
from hypothesis import strategies as st
from test_calls import one_call
from test_figure import figure, legend_of
from test_files import OPEN_BRICK, parts, run
from test_page import parsed, words
from test_traces import gather_call, stitch_call

import cicelybeam
import sample
from cicelybeam import place, report
from cicelybeam.library import Line, library
from cicelybeam.onpoints import point_values
from cicelybeam.section import Asked, Section
from cicelybeam.shift import LOOKED_AT, Drawn
from cicelybeam.undrawn import face_segments, findings

LEAST = 2.0**-1022
TETRA = np.array([[0.0, 0, 0], [1, 0, 0], [0, 1, 0], [0, 0, 1]])
LOW = np.array([[-2, -2, -3e-310], [2, 0, 1e-310], [0, 2, 1e-310], [0, 0, 1e-310]])  # the plane z = 0 divides three edges at 3/4, by default at 1/2


def tetra(*cells) -> meshio.Mesh:
    """Tetrahedra by their corners, none of them shared."""
    return meshio.Mesh(np.concatenate(cells), [("tetra", np.arange(4 * len(cells)).reshape(-1, 4))])


def spoilt(value: float, node: int = 3, axis: int = 2) -> np.ndarray:
    points = TETRA - [0, 0, 0.25]
    points[node, axis] = value
    return points


def by_default(corners, origin, normal, tol: float) -> int:
    """How many crossings of a polygon lie in the middle by default, in plain Python."""
    away = []
    for corner in corners:
        total = 0.0
        for x, o, n in zip(map(float, corner), origin, normal):
            total = total + (x - o) * n
        away.append(total)
    above, below = any(d > tol for d in away), any(d < -tol for d in away)
    if len(away) < 3 or not (above or below):
        return 0
    away = [d if above else -d for d in away]
    pairs = [(a, b) for a, b in zip(away, away[1:] + away[:1]) if (a >= -tol) != (b >= -tol)]
    return sum(not abs(a - b) > LEAST for a, b in pairs)


def by_faces(mesh: cicelybeam.Mesh, origin, normal, tol: float) -> dict[tuple[int, int], int]:
    """The same of each cell and face."""
    found = {}
    for block in mesh.blocks:
        for k in range(len(block)):
            for number, face in enumerate(block.faces(k)):
                count = by_default(mesh.points[face], origin, normal, tol)
                if count:
                    found[block.first + k, number] = count
    return found


def check(cut) -> None:
    """Against the plain model, at every call that tells the number."""
    expected = by_faces(cut.mesh, cut.near.origin, cut.near.normal, cut.asked.tol)
    by_cell: dict[int, int] = {}
    for (cell, _), count in expected.items():
        by_cell[cell] = by_cell.get(cell, 0) + count
    traces = cut.traces()
    assert cut.defaulted_by_cell == by_cell and traces.defaulted_by_face == expected
    assert cut.defaulted == cut.record.defaulted == traces.defaulted == sum(expected.values())
    assert [(each.cell, each.defaulted) for each in cut.record.defaulted_cells] == sorted(by_cell.items())
    for block in cut.mesh.blocks:
        for k in range(len(block)):
            conn, _ = block.handed(np.array([k]))
            call = cut.mesh, block.kind.number, conn, cut.near.origin, cut.asked.normal, cut.asked.tol
            told, numbers = gather_call(*call)
            assert told.defaulted == one_call(*call)[0].defaulted == by_cell.get(block.first + k, 0)
            assert stitch_call(numbers, cut.asked.tol)[0].defaulted == 0  # stitching alone has no crossing


# ---- cells in space


def test_a_crossing_is_guessed():
    """The corners of the section lie in the middle of three edges, each an edge of two faces."""
    cut = cicelybeam.cut_plane(tetra(LOW), (0, 0, 0), (0, 0, 1), 0)
    assert sorted(cut.points.tolist()) == [[-1, -1], [-1, 0], [0, -1]] and cut.record.area == 0.5
    assert cut.defaulted_by_cell == {0: 6} and cut.traces().defaulted_by_face == {(0, 0): 2, (0, 2): 2, (0, 3): 2}
    check(cut)


def test_a_field_of_nodes_at_a_guessed_point():
    mesh = tetra(LOW)
    mesh.point_data["f"] = np.array([0.0, 1.0, 1.0, 1.0])
    cut = cicelybeam.cut_plane(mesh, (0, 0, 0), (0, 0, 1), 0)
    assert point_values(cut)["f"].tolist() == [0.5, 0.5, 0.5]  # divided, it would be 3/4


@pytest.mark.parametrize("upper,most,number", [(2.0**-1024, 0.0, 6), (np.nextafter(2.0**-1024, 1), 1.0, 0)])
def test_the_greatest_difference_that_is_guessed(upper, most, number):
    """It is 2^-1022; where the distances differ by a last digit more, the crossing is divided."""
    cell = LOW * [1, 1, 0] + [[0, 0, -3 * 2.0**-1024], *3 * [[0, 0, upper]]]
    assert (upper + 3 * 2.0**-1024 == LEAST) == bool(number)
    cut = cicelybeam.cut_plane(tetra(cell), (0, 0, 0), (0, 0, 1), 0)
    assert cut.traces().ends.max() == pytest.approx(most, rel=1e-12) and cut.defaulted == number
    check(cut)


def test_a_crossing_whose_point_is_skipped():
    """The squares of distances between points underflow, so that of all points of a face the first alone is kept."""
    for tol in (None, 0):
        cut = cicelybeam.cut_plane(tetra(TETRA * 1e-310), (0, 0, 0.25e-310), (0, 0, 1), tol)
        assert cut.record.listed == len(cut.traces()) == 0 and cut.defaulted == 6
        check(cut)


@pytest.mark.parametrize("cell,number", [
    (spoilt(np.nan), 6),  # the other corners are on one side, so that three faces have two crossings each
    (spoilt(np.nan, axis=0), 6),  # 0 times NaN is NaN
    (spoilt(np.inf), 0),  # the difference is infinite, by which is divided
    (spoilt(np.inf, axis=0), 6), (spoilt(-np.inf, axis=1), 6),  # 0 times infinity is NaN
    (TETRA * [1, 1, 0] + [[0, 0, -np.inf], [0, 0, np.inf], [0, 0, np.inf], [0, 0, np.inf]], 0),  # infinity less its negative is infinity
    (TETRA * [1, 1, 0] + [[np.inf, 0, -np.inf], [0, 0, 1], [0, 0, np.inf], [0, 0, 1]], 6),
], ids=str)
def test_coordinates_that_are_not_finite(cell, number):
    cut = cicelybeam.cut_plane(tetra(cell), (0, 0, 0), (0, 0, 1), 0)
    check(cut)
    assert cut.defaulted == number
    assert cut.record.not_finite == [0] and dict(cut.record.reasons)[3] and ("by default" in cut.record.sentence()) == bool(number)


@pytest.mark.parametrize("normal,tol", [((0, 0, 1), 0), ((0, 0, -3), 1e-9), ((1, 2, 3), 0), ((1, 0, 0), 0.05)])
def test_ordinary_meshes_have_none(normal, tol):
    for mesh in (box(2), box(2, "tetra"), sample.plate(), sample.broken()):
        cut = cicelybeam.cut_plane(mesh, (0.1, 0.2, 0.3), normal, tol)
        assert len(cut.traces()) and cut.defaulted == cut.traces().defaulted == 0
        assert cut.defaulted_by_cell == cut.traces().defaulted_by_face == {} and cut.record.defaulted_cells == []


numbers = st.sampled_from([0.0, 1.0, -1.0, 0.4, 1e-310, -3e-310, 2.0**-1023, -(2.0**-1023), LEAST, -3 * LEAST, 5e-324, np.nan, np.inf, -np.inf, 1e308, -1e308])
normals = st.sampled_from([(0, 0, 1), (0, -2, 0), (1, 0, 0), (1, 2, 3), (-1, 0, 1)])


@settings(max_examples=400)
@given(st.sampled_from(["tetra", "wedge", "hexahedron", "pyramid"]), st.lists(numbers, min_size=24, max_size=24), normals,
       st.sampled_from([0.0, 0.0, 1e-310, LEAST, 0.5, 1e300]), st.booleans(), st.integers(0, 1))
def test_any_cells(kind, given_numbers, normal, tol, all_odd, leave_out):
    """A cell with any numbers, or with some amid a mesh."""
    mesh = box(1, kind)
    odd = np.array(given_numbers).reshape(8, 3)
    mesh.points = odd if all_odd else np.where(np.isin(np.arange(8), (1, 6))[:, None], odd, mesh.points)
    cut = cicelybeam.cut_plane(mesh, (0, 0, 0), normal, tol, leave_out=bool(leave_out))
    check(cut)


@given(st.lists(st.integers(0, 11), min_size=0, max_size=9), st.lists(numbers, min_size=12, max_size=12))
def test_faces_of_any_length(face, heights):
    """Also those of under three nodes, which are dropped, and those that pass through a node twice."""
    angles = np.arange(12) * math.pi / 6
    mesh = meshio.Mesh(np.stack([np.cos(angles), np.sin(angles), heights], axis=1), [("polyhedron12", [[np.array(face, dtype=int), np.array([0, 4, 8])]])])
    cut = cicelybeam.cut_plane(cicelybeam.of_meshio(mesh), (0, 0, 0), (0, 0, 1), 0)
    found = by_default(cut.mesh.points[face], (0, 0, 0), (0, 0, 1), 0) + by_default(cut.mesh.points[[0, 4, 8]], (0, 0, 0), (0, 0, 1), 0)
    assert cut.defaulted == cut.traces().defaulted == found == one_call(
        cut.mesh, 18, cut.mesh.blocks[0].handed(np.array([0]))[0], cut.near.origin, (0, 0, 1), 0)[0].defaulted


def test_types_side_by_side():
    """Cells keep their numbers over blocks, with cells between them that are not cut."""
    faces = [8 + np.array(face) for face in ([0, 1, 3], [1, 2, 3], [2, 0, 3], [0, 2, 1])]
    cut = cicelybeam.cut_plane(meshio.Mesh(np.concatenate([CUBE + [5, 0, -0.5], LOW]), [
        ("hexahedron", [list(range(8))]), ("triangle", [[8, 9, 10]]), ("tetra", [[8, 9, 10, 11]]), ("polyhedron4", [faces])]), (0, 0, 0), (0, 0, 1), 0)
    assert cut.defaulted_by_cell == {2: 6, 3: 6} and [cell.type for cell in cut.record.defaulted_cells] == ["tetra", "polyhedron4"]
    check(cut)


def test_the_most_that_a_cell_can_have():
    """As many as it has face corners, 256 for one face of them."""
    heights = np.tile([1e-310, -1e-310], 128)
    points = np.stack([np.cos(np.arange(256) / 41), np.sin(np.arange(256) / 41), heights], axis=1)
    cut = cicelybeam.cut_plane(meshio.Mesh(points, [("polyhedron256", [[np.arange(256)]])]), (0, 0, 0), (0, 0, 1), 0)
    assert cut.defaulted_by_cell == {0: 256}


def test_a_plane_that_guesses_does_not_draw_all():
    """So no shift leads to it, though every edge is drawn."""
    mesh = cicelybeam.of_meshio(tetra(LOW))
    found = Section(mesh, Asked((0.0, 0.0, 0.0), (0.0, 0.0, 1.0), 0.0, cicelybeam.slice_tolerance(mesh.points)))
    assert not len(found.doubtful) and found.drawn(LOOKED_AT) == Drawn.NOT_ALL
    above = tetra(LOW + [[0, 0, -1], *3 * [[0, 0, 1]]])
    assert Section(cicelybeam.of_meshio(above), found.asked).drawn(LOOKED_AT) == Drawn.ALL


# ---- lines


def quad(y: float) -> meshio.Mesh:
    return meshio.Mesh(np.array([[0, -3 * y], [1, -3 * y], [1, y], [0, y]]), [("quad", [[0, 1, 2, 3]])])


@pytest.mark.parametrize("by,way", [("direction", (1, 0)), ("normal", (0, 2))])
@pytest.mark.parametrize("points,number", [
    (quad(1e-310).points, 2), (quad(1.0).points, 0), (quad(1e-310).points * 1e-3, 2), ([[0, 0], [1, -1], [1, np.nan], [0, 1]], 1),
    ([[0, -np.inf], [1, -1], [1, np.inf], [0, 1]], 0), ([[np.inf, -1], [1, -1], [1, 1], [0, 1]], 1)], ids=str)
def test_cells_in_the_plane(by, way, points, number):
    """By one call each, by direction and by normal. Of two crossings each, some are divided."""
    points = np.ascontiguousarray(points, dtype=float)
    origin, given, conn, written = np.zeros(2), np.array(way, dtype=float), np.arange(4), np.empty(24)
    ways = (True,) if by == "normal" else ()
    told: Line = getattr(library(), f"cicelybeam_plane_cell_by_{by}")(
        8, conn.ctypes.data, 4, points.ctypes.data, 8, origin.ctypes.data, 2, given.ctypes.data, 2, *ways, 0.0, written.ctypes.data, 24)
    assert (told.refusal, told.defaulted) == (0, number) and number == by_default(points, (0, 0), (0, 1), 0)


@given(st.lists(numbers, min_size=12, max_size=12), st.sampled_from([(1, 0), (0, -1), (1, 1)]), st.sampled_from([0.0, 1e-310, 0.5]))
def test_plane_meshes(given_numbers, direction, tol):
    """The sum over the cells."""
    mesh = meshio.Mesh(np.array(given_numbers).reshape(6, 2), [("quad", [[0, 1, 2, 3]]), ("triangle", [[3, 4, 5], [1, 0, 4]])])
    cut = cicelybeam.cut_line(mesh, (0, 0), direction, tol)
    with np.errstate(all="ignore"):  # as in the cut itself
        near = place.nearest_on_line((0.0, 0.0), tuple(map(float, direction)), cut.mesh.centre() or (0.0, 0.0))
    normal = place.normal_of_line(tuple(map(float, direction)))
    found = {k: by_default(cut.mesh.points[cell], near, normal, tol) for k, cell in enumerate(([0, 1, 2, 3], [3, 4, 5], [1, 0, 4]))}
    assert cut.defaulted_by_cell == {k: count for k, count in found.items() if count}
    assert cut.defaulted == cut.record.defaulted == sum(found.values())
    assert [(each.cell, each.type) for each in cut.record.defaulted_cells] == [(k, ("quad", "triangle", "triangle")[k]) for k in found if found[k]]


@pytest.mark.parametrize("y,faces", [(1.0, 0), (1e-310, 6)])
@pytest.mark.parametrize("z,loops", [(1.0, 0), (1e-310, 2)])
def test_a_line_in_space_counts_both_kinds(y, faces, z, loops):
    """Six crossings of the faces with the plane y = 0 that holds the line, and two of the section's loop with the line."""
    cell = np.array([[0, -3 * y, 0], [2, y, -4 * z], [4, y, 6 * z], [6, y, -2 * z]])
    line = cicelybeam.cut_line(tetra(cell), (0, 0, 0), (1, 0, 0), 0)
    assert line.defaulted == line.record.defaulted == faces + loops and line.defaulted_by_cell == ({0: faces + loops} if faces + loops else {})
    section = cicelybeam.cut_plane(tetra(cell), (0, 0, 0), (0, -1, 0), 0)
    assert section.defaulted == faces and section.record.polygons == 1
    ring = section.in_space()[section.nodes]
    assert by_default(ring[:, [0, 2]], (0, 0), (0, 1), 0) == loops and len(line) == 1


@settings(max_examples=200)
@given(st.sampled_from(["tetra", "wedge", "hexahedron"]), st.lists(numbers, min_size=24, max_size=24), st.sampled_from([(1, 0, 0), (0, 0, -2), (1, 2, 3)]),
       st.sampled_from([0.0, 1e-310, 0.5]), st.booleans(), st.sampled_from([0.0, -2.0]))
def test_any_cells_by_a_line(kind, given_numbers, direction, tol, all_odd, beside):
    """The faces' crossings, and those of the loops that their segments are stitched to; also where the line passes beside a cell."""
    mesh = box(1, kind, (1.0, 1.0, 3e-310))
    odd = np.array(given_numbers).reshape(8, 3)
    mesh.points = odd if all_odd else np.where(np.isin(np.arange(8), (1, 6))[:, None], odd, mesh.points)
    along = tuple(map(float, direction))
    origin = tuple(beside * x for x in place.plane_of_line((0.0, 0.0, 0.0), along).v)
    cut = cicelybeam.cut_line(mesh, origin, direction, tol)
    with np.errstate(all="ignore"):  # as in the cut itself
        frame = place.plane_of_line(place.nearest_on_line(origin, along, cut.mesh.centre() or origin), along)
    for k in range(cut.mesh.total):
        faces = [[tuple(corner) for corner in cut.mesh.points[face].tolist()] for face in cut.mesh.blocks[0].faces(k)]
        ends = [[place.dot(tuple(x - o for x, o in zip(end, frame.origin)), axis) for axis in (frame.u, frame.v)]
                for face in faces for segment in face_segments(face, frame, tol) for end in segment]
        _, points, nodes, lasts = stitch_call(np.array(ends, dtype=float).reshape(-1), tol)
        loops = [points.reshape(-1, 2)[loop] for loop in np.split(nodes, lasts[:-1]) if len(loop)]
        assert cut.defaulted_by_cell.get(k, 0) == (sum(by_default(face, frame.origin, frame.normal, tol) for face in faces)
                                                   + sum(by_default(loop, (0, 0), (0, 1), tol) for loop in loops))
        away = [place.dot(tuple(x - o for x, o in zip(corner, frame.origin)), frame.v) for face in faces for corner in face]
        clear = all(d > tol for d in away) or all(d < -tol for d in away)  # on one side, where the line does not reach
        assert (k in [each.cell for each in cut.record.defaulted_reached]) == (k in cut.defaulted_by_cell and not clear)
    assert cut.defaulted == cut.record.defaulted == sum(cut.defaulted_by_cell.values())


# ---- what a reader is told


def three() -> meshio.Mesh:
    """A cell with crossings that are guessed, an ordinary one, and one with a corner that is NaN."""
    return tetra(LOW, TETRA + [4, 0, -0.25], spoilt(np.nan) + [8, 0, 0])


@pytest.fixture
def path(tmp_path):
    three().write(tmp_path / "three.vtu")
    return tmp_path / "three.vtu"


PLANE = ["--origin", "0,0,0", "--normal", "z", "--tolerance", 0]
WHY = "12 crossings lie in the middle by default, in 2 cells: 0, 2"
SENTENCE = ("; 12 crossings in 2 cells lie in the middle of their edges by default, because the distances of an edge's ends from the plane differ by "
            "NaN or by no more than 2^-1022, so that their places are guesses.")
MEND = ("12 crossings lie in the middle by default, as the distances of an edge's ends differ by NaN or by no more than 2^-1022: scale the mesh where "
        "coordinates are as small as 1e-308 or so large that their differences are not finite, and mend nodes that are NaN or infinite")


def lines_of(record) -> dict[str, str]:
    return {line[:18].strip(): line[18:] for line in str(record).split("\n\n")[0].split("\n")}


def test_the_record():
    cut = cicelybeam.cut_plane(three(), (0, 0, 0), (0, 0, 1), 0)
    text = str(cut.record)
    names = [line[:18].strip() for line in text.split("\n")]
    assert names[names.index("edges") + 1 : names.index("drawn")] == ["guessed"] and f"\nguessed           {WHY}\n" in text
    assert f"WARNING           {MEND}" in text.split("\n") and cut.record.sentence().endswith(SENTENCE)
    assert [why for why in cut.record.reasons if "by default" in why[1]] == [(3, WHY)] and not cut.record.nothing_lost
    assert {cell.cell: cell.defaulted for cell in cut.record.defaulted_cells} == {0: 6, 2: 6}


def test_a_single_crossing_is_told_in_the_singular():
    record = cicelybeam.cut_plane(meshio.Mesh([[0, 0, 0], [1, 0, -1], [1, 1, np.nan], [0, 1, 1]], [("polyhedron4", [[np.arange(4)]])]), (0, 0, 0), (0, 0, 1), 0).record
    assert lines_of(record)["guessed"] == "1 crossing lies in the middle by default, in 1 cell: 0"
    assert "; 1 crossing in 1 cell lies in the middle of its edge by default, because " in record.sentence()
    assert record.sentence().endswith(", so that its place is a guess.")


def test_coordinates_whose_differences_are_not_finite():
    """Each is finite, and they are too far apart: the warning says so, and a smaller mesh has none."""
    points = np.array([[-0.85e308, 0, -1], [-0.85e308, 1, -1], [-0.85e308, 0, 1], [1.6e308, 0.5, 1]])
    record = cicelybeam.cut_plane(tetra(points), (0, 0, 0), (0, 0, 1), 1e-9).record
    assert record.defaulted == 4 and not record.not_finite
    assert any("or so large that their differences are not finite" in warning for warning in record.warnings)
    assert cicelybeam.cut_plane(tetra(points * [1e-300, 1, 1]), (0, 0, 0), (0, 0, 1), 1e-9).defaulted == 0


def test_the_record_names_eight_cells_and_the_report_all():
    cut = cicelybeam.cut_plane(tetra(*(LOW + [5 * k, 0, 0] for k in range(9))), (0, 0, 0), (0, 0, 1), 0)
    assert lines_of(cut.record)["guessed"] == "54 crossings lie in the middle by default, in 9 cells: 0, 1, 2, 3, 4, 5, 6, 7, ..."
    found = report.as_dict(cut)
    assert [each["cell"] for each in found["defaulted_cells"]] == [each["cell"] for each in found["missing"]] == list(range(9))


def test_where_guessed_cells_are():
    """Near what the cut gives for each, though others stand between them; where it gives nothing, near the corners."""
    cells = [LOW, TETRA + [5, 0, -0.25], LOW + [10, 0, 0], spoilt(np.nan, axis=0) + [15, 0, 0], LOW + [20, 0, 0], LOW + [25, 0, 0]]
    nodes = np.arange(24).reshape(-1, 4)
    cut = cicelybeam.cut_plane(meshio.Mesh(np.concatenate(cells), [("tetra", nodes[:3]), ("triangle", [[0, 1, 2]]), ("tetra", nodes[3:])]),
                               (0, 0, 0), (0, 0, 1), 0)
    found = {each.cell: each.near for each in findings(cut) if each.reason.startswith("guessed")}
    assert list(found) == [0, 2, 4, 5, 6] and 4 not in cut.cells
    for cell, x in ((0, 0), (2, 10), (5, 20), (6, 25)):
        assert found[cell] == pytest.approx([x - 2 / 3, -2 / 3, 0], abs=1e-9)
    assert found[4] == pytest.approx([15 + 1 / 3, 1 / 3, -0.25])


def test_a_place_near_the_largest_number():
    """The sum of the points is too large for a number, and their mean is not; likewise of the corners, for a line without a segment."""
    far = tetra(LOW * [1e300, 1, 1] + [1.6e308, 0, 0])
    (found,) = findings(cicelybeam.cut_plane(far, (0, 0, 0), (0, 0, 1), 0))
    assert found.near == pytest.approx([1.6e308, -2 / 3, 0])
    line = cicelybeam.cut_line(tetra(low_along(1.6e308)), (0, 0, 0), (1, 0, 0), 0)
    (found,) = findings(line)
    assert len(line) == 0 and found.near == pytest.approx([1.6e308, 0, 0], abs=1e-9)


def test_other_places_near_the_largest_number():
    """Of a cell that is not whole, and of one that is not cut."""
    points = CUBE * [1e300, 1, 1] + [1.6e308, -0.5, -0.5]
    mesh = cicelybeam.of_meshio(meshio.Mesh(np.concatenate([points, points]), [("polyhedron8", [[np.array(face) for face in OPEN_BRICK]])]))
    mesh.others.append(("hexahedron9", 3, 1, np.arange(8, 16)[None]))
    mesh.other_first.append(1)
    found = findings(cicelybeam.cut_plane(mesh, (0, 0, 0), (0, 0, 1), 0))
    assert sorted(each.cell for each in found) == [0, 1] and np.isfinite([each.near for each in found]).all()


def test_a_record_without_any():
    """The line says so, and nothing else speaks of it."""
    cut = cicelybeam.cut_plane(box(2), (0, 0, 0.3), (0, 0, 1))
    line = cicelybeam.cut_line(box(2), (0, 0.3, 0.3), (1, 0, 0))
    for record in (cut.record, line.record):
        assert lines_of(record)["guessed"] == "0 crossings lie in the middle by default" and str(record).count("default") == 1
        assert record.defaulted == 0 and record.defaulted_cells == [] and record.reasons == record.warnings == []
        assert not any(word in record.sentence() for word in ("default", "guess"))
    assert cut.record.sentence().endswith("with a total area of 1, and no listed edge is left undrawn.") and not findings(cut) + findings(line)


def test_the_command(path, capsys):
    """The line, the warning, the reason with its status, and the option that accepts it; with traces the same."""
    for more in ([], ["--show", "traces"]):
        assert run("plane", path, *PLANE, *more) == 3
        said = capsys.readouterr()
        assert f"\nguessed           {WHY}\n" in said.out and f"\nWARNING           {MEND}\n" in said.out and said.out.endswith(SENTENCE + "\n")
        assert f"cicelybeam: exit status 3: {WHY} (--allow-undrawn accepts it)\n" in said.err
    assert run("plane", path, *PLANE, "--allow-undrawn", "--quiet") == 0
    assert f"cicelybeam: {MEND}\n" in capsys.readouterr().err


def test_the_only_reason(tmp_path, capsys):
    """All edges are drawn, and the area rests on a guess."""
    tetra(LOW, TETRA + [4, 0, -0.25], LOW + [8, 0, 0]).write(tmp_path / "a.vtu")
    assert run("plane", tmp_path / "a.vtu", *PLANE) == 3
    said = capsys.readouterr()
    assert "\nedges             9 listed: 9 in loops, 0 flat, 0 open\n" in said.out and f"\nguessed           {WHY}\n" in said.out
    assert said.err.split("\n")[0] == f"cicelybeam: exit status 3: {WHY} (--allow-undrawn accepts it)" and said.err.count("exit status") == 1
    assert "with a total area of 1.28125, and no listed edge is left undrawn" + SENTENCE in said.out
    assert run("plane", tmp_path / "a.vtu", *PLANE, "--allow-undrawn") == 0


def test_json(path, tmp_path):
    assert run("plane", path, *PLANE, "--report", tmp_path / "a.json", "--quiet") == 3
    found = json.loads((tmp_path / "a.json").read_text())
    assert found["defaulted"] == 12 and found["defaulted_cells"] == [{"cell": k, "type": "tetra", "defaulted": 6} for k in (0, 2)]
    assert [(row["cell"], row["listed"], row["defaulted"]) for row in found["by_cell"]] == [(0, 3, 6), (1, 3, 0)]
    assert [3, WHY] in found["reasons"] and found["summary"].endswith(SENTENCE) and found["nothing_lost"] is False and found["all_cut"] is True
    assert [(each["cell"], each["reason"]) for each in found["missing"] if "default" in each["reason"]] == [
        (k, "guessed: 6 crossings lie in the middle by default") for k in (0, 2)]
    assert any("middle of their edges by default is that of the rules" in sentence for sentence in found["proved"])


def test_json_without_any(tmp_path):
    for cut in (cicelybeam.cut_plane(box(1), (0, 0, 0.5), (0, 0, 1)), cicelybeam.cut_line(box(1), (0, 0.5, 0.5), (1, 0, 0))):
        cut.write(tmp_path / "a.json")
        found = json.loads((tmp_path / "a.json").read_text())
        assert (found["defaulted"], found["defaulted_cells"], found["missing"]) == (0, [], [])
        assert not any("by default" in sentence for sentence in found["proved"])
    assert [row["defaulted"] for row in report.as_dict(cicelybeam.cut_plane(box(1), (0, 0, 0.5), (0, 0, 1)))["by_cell"]] == [0]


def test_fields_of_files(tmp_path):
    """A cell's number, with its counts; a field of the mesh that has the name is carried over."""
    mesh = three()
    mesh.cell_data = {"defaulted": [np.array([7.0, 8.0, 9.0])]}
    cut = cicelybeam.cut_plane(mesh, (0, 0, 0), (0, 0, 1), 0)
    cut.write(tmp_path / "a.vtp")
    cut.write(tmp_path / "a.vtu")
    cut.traces().write(tmp_path / "t.vtp")
    for name in ("a.vtp", "t.vtp"):
        data = parts(tmp_path / name)["CellData"]
        assert set(zip(data["cell"].tolist(), data["defaulted"].tolist(), data["mesh:defaulted"].tolist())) == {(0, 6, 7), (1, 0, 8)}
    assert sorted(np.concatenate(meshio.read(tmp_path / "a.vtu").cell_data["defaulted"]).tolist()) == [0, 6]


def test_the_page(path, tmp_path):
    assert run("plane", path, *PLANE, "--report", tmp_path / "a.html", "--quiet") == 3
    text = (tmp_path / "a.html").read_text()
    parsed(text)
    said = words(text)
    assert f"Not whole: {WHY} (exit status 3)." in said and f"guessed {WHY} " in said and SENTENCE[2:] in said
    assert said.count("guessed: 6 crossings lie in the middle by default") == 2 and "is that of the rules of the port" in said
    cicelybeam.cut_plane(box(1), (0, 0, 0.5), (0, 0, 1)).write(tmp_path / "b.html")
    assert "is that of the rules of the port" not in words((tmp_path / "b.html").read_text())
    cicelybeam.cut_line(box(1), (0, 0.5, 0.5), (1, 0, 0)).write(tmp_path / "c.html")
    assert "no piece is known to be missing, and no crossing is guessed." in words((tmp_path / "c.html").read_text())


def test_the_picture():
    cut = cicelybeam.cut_plane(three(), (0, 0, 0), (0, 0, 1), 0)
    for show in ("polygons", "traces"):
        found = figure(cut, show=show)
        assert "crossing guessed: 2 cells" in legend_of(found) and found.texts[0].get_text().endswith(", 12 crossings guessed")
        (marks,) = [line for line in found.axes[0].lines if line.get_marker() == "D"]
        assert np.stack(marks.get_data(), axis=1) == pytest.approx(np.array([[-2 / 3, -2 / 3], cut.mesh.middle(2)[:2]]))  # the first has a section
    whole = figure(cicelybeam.cut_plane(box(1), (0, 0, 0.5), (0, 0, 1)))
    assert not any("guessed" in text for text in [*legend_of(whole), whole.texts[0].get_text()])


def low_along(x: float = 0.0, z: float = 0.0) -> np.ndarray:
    """A tetrahedron by whose faces the line along x passes, with all crossings of the plane y = 0 guessed."""
    return np.array([[0, -3e-310, 0], [2, 1e-310, -4], [4, 1e-310, 6], [6, 1e-310, -2]]) + [x, 0, z]


def three_along_a_line() -> meshio.Mesh:
    """A cell whose crossings are guessed, an open brick that the line passes through, and a whole one."""
    points = np.concatenate([low_along(), CUBE + [10, -0.5, -0.5], CUBE + [20, -0.5, -0.5]])
    faces = [[0, 3, 2, 1], [0, 1, 5, 4], [2, 3, 7, 6], [1, 2, 6, 5], [4, 5, 6, 7], [3, 0, 4, 7]]
    return meshio.Mesh(points, [("polyhedron4", [[np.array(f) for f in ([0, 1, 3], [1, 2, 3], [2, 0, 3], [0, 2, 1])]]),
                                ("polyhedron8", [[k + np.array(f) for f in kept] for k, kept in ((4, faces[:4]), (12, faces))])])


def test_the_line_command(tmp_path, capsys):
    three_along_a_line().write(tmp_path / "a.vtu")
    command = ["line", tmp_path / "a.vtu", "--origin", "0,0,0", "--direction", "x", "--tolerance", 0]
    assert run(*command, "--report", tmp_path / "a.html", "--picture", tmp_path / "a.svg") == 3
    said = capsys.readouterr()
    why = "6 crossings lie in the middle by default, in 1 cell: 0"
    assert f"\nguessed           {why}\n" in said.out and f"\nWARNING           {MEND.replace('12', '6')}\n" in said.out
    assert ("; 6 crossings in 1 cell lie in the middle of their edges by default, because the distances of an edge's ends from the line or from the plane "
            "that holds it differ by NaN or by no more than 2^-1022, so that their places are guesses.\n") in said.out
    assert f"cicelybeam: exit status 3: {why} (--allow-undrawn accepts it)\n" in said.err
    assert f"Not whole: {why} (exit status 3)." in words((tmp_path / "a.html").read_text()) and "crossing guessed: 1 cell" in (tmp_path / "a.svg").read_text()
    assert run(*command, "--allow-undrawn", "--report", "-") == 0
    found = json.loads(capsys.readouterr().out)
    assert found["defaulted"] == 6 and found["defaulted_cells"] == [{"cell": 0, "type": "polyhedron4", "defaulted": 6}]
    assert {each["cell"]: each["reason"] for each in found["missing"]} == {
        1: "its section is not whole", 0: "guessed: 6 crossings lie in the middle by default"}


def test_where_guessed_cells_of_a_line_are():
    """Each near its own segment."""
    cut = cicelybeam.cut_line(tetra(low_along(), TETRA + [10, -0.25, -0.25], low_along(20), low_along(30)), (0, 0, 0), (1, 0, 0), 0)
    found = {each.cell: each.near for each in findings(cut)}
    assert cut.segment_cell.tolist() == [0, 1, 2, 3] and list(found) == [0, 2, 3]
    for cell, near in found.items():
        assert near == cut.segments[cell].mean(axis=0).tolist() and 10 * cell < near[0] < 10 * cell + 6


def test_cells_that_the_line_cannot_reach(tmp_path, capsys):
    """Their guessed crossings are counted, and are no reason: no piece of the line rests on them."""
    brick, far = CUBE + [0, -0.5, -0.5], low_along(z=1000)
    for cells in ([far], [low_along(10), far]):
        corners = np.arange(8, 8 + 4 * len(cells)).reshape(-1, 4)
        meshio.Mesh(np.concatenate([brick, *cells]), [("hexahedron", [list(range(8))]), ("tetra", corners)]).write(tmp_path / "a.vtu")
        cut = cicelybeam.cut_line(cicelybeam.read(tmp_path / "a.vtu"), (0, 0, 0), (1, 0, 0), 0)
        record, last, near = cut.record, len(cells), [1] if len(cells) > 1 else []
        assert cut.defaulted_by_cell == {**dict.fromkeys(near, 6), last: 6} and record.defaulted == cut.defaulted
        assert [each.cell for each in record.defaulted_cells] == [*near, last] and [each.cell for each in record.defaulted_reached] == near
        why = "6 crossings lie in the middle by default, in 1 cell: 1"
        assert record.reasons == ([(3, why)] if near else []) and [each.cell for each in findings(cut)] == near
        assert record.nothing_lost == record.as_dict()["nothing_lost"] == (not near)
        assert ("6 crossings in 1 cell lie in the middle" in record.sentence()) == bool(near) and "12 crossings" not in record.sentence()
        assert [warning for warning in record.warnings if "default" in warning] == ([MEND.replace("12", "6")] if near else [])
        assert ("crossing guessed: 1 cell" in legend_of(figure(cut))) == bool(near)
        assert run("line", tmp_path / "a.vtu", "--origin", "0,0,0", "--direction", "x", "--tolerance", 0) == (3 if near else 0)
        told = "12 crossings lie in the middle by default, in 2 cells: 1, 2 (6 in cells that the line may reach)" if near else (
            f"{why} (0 in cells that the line may reach)")
        assert f"\nguessed           {told}\n" in capsys.readouterr().out


def test_whether_anything_is_lost_of_a_line():
    """As exit status 0 says, with `all_cut`."""
    for cut, whole in ((cicelybeam.cut_line(box(2), (0, 0.3, 0.3), (1, 0, 0)), True), (cicelybeam.cut_line(quad(1e-310), (0, 0), (1, 0), 0), False),
                       (cicelybeam.cut_line(three_along_a_line(), (0, 0, 0), (1, 0, 0), 0), False)):
        assert cut.record.nothing_lost == (not cut.record.reasons) == whole and cut.record.all_cut


def test_a_plane_mesh_is_told_of_the_line_alone():
    record = cicelybeam.cut_line(quad(1e-310), (0, 0), (1, 0), 0).record
    assert lines_of(record)["guessed"] == "2 crossings lie in the middle by default, in 1 cell: 0"
    assert "because the distances of an edge's ends from the line differ by NaN" in record.sentence() and (3, lines_of(record)["guessed"]) in record.reasons


def test_marks_of_a_profile_stand_at_their_cells():
    """Marks of two kinds, each at the height of its own cell."""
    cut = cicelybeam.cut_line(three_along_a_line(), (0, 0, 0), (1, 0, 0), 0)
    found = figure(cut, colour="cell")
    marks = {line.get_marker(): (line.get_xdata().tolist(), line.get_ydata().tolist()) for line in found.axes[0].lines}
    assert marks["D"] == ([pytest.approx(cut.segments[0, :, 0].mean())], [0.0]) and marks["x"] == ([cut.mesh.middle(1)[0]], [1.0])


@pytest.mark.parametrize("command,cut", [("plane", "the plane"), ("line", "the line, or in space from the plane that holds it,")])
def test_help_names_it(command, cut, capsys):
    with pytest.raises(SystemExit):
        run(command, "--help")
    said = capsys.readouterr().out
    assert "\n  guessed   crossings that lie in the middle of their edges by default: " in said and "or a crossing is guessed" in said
    assert f" of an edge's ends from {cut} differ by NaN or by no more than 2^-1022 " in " ".join(said.split())
    assert "no area is lost, and no crossing is guessed\n" in said
