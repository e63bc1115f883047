"""What is not drawn: touched or lost, how much, the shift that helps, and every reason told."""
import meshio
import numpy as np
import pytest
from conftest import CUBE, box
from hypothesis import given, settings
from hypothesis import strategies as st

import cicelybeam
from cicelybeam.command import main

OPEN_BRICK = [[0, 3, 2, 1], [4, 5, 6, 7], [0, 1, 5, 4], [2, 3, 7, 6], [1, 2, 6, 5]]
RAISED = CUBE + [[0, 0, 0.5 * (k == 3)] for k in range(8)]  # three corners of the base in the plane z = 0, one above it


def raised() -> meshio.Mesh:
    return meshio.Mesh(RAISED, [("hexahedron", [list(range(8))])])


def without(faces: list[list[int]]) -> meshio.Mesh:
    return meshio.Mesh(CUBE, [("polyhedron8", [[np.array(face) for face in faces]])])


@pytest.mark.parametrize("kind", ["tetra", "wedge", "pyramid"])
@pytest.mark.parametrize("axis", range(3))
def test_touched_along_edges(kind, axis):
    """No area is lost, and the exit status is 0."""
    record = cicelybeam.cut_plane(box(2, kind), (0.5, 0.5, 0.5), np.eye(3)[axis]).record
    assert record.nothing_lost and record.lost_area == 0 and record.reasons == []
    assert all(cell.reason == "touching" and cell.lost_area == 0 for cell in record.undrawn)
    assert record.touching_cells == len(record.undrawn) and record.area == pytest.approx(1)


def test_area_lost():
    record = cicelybeam.cut_plane(raised(), (0, 0, 0), (0, 0, 1)).record
    cell, = record.undrawn
    assert (cell.reason, cell.what, cell.open) == ("area lost", "edges not drawn", 2) and cell.lost_area == pytest.approx(0.5)
    assert record.area == 0 and record.lost_area == pytest.approx(0.5) and record.lost_share == pytest.approx(1)
    (status, why), = record.reasons
    assert status == 3 and "1 cell with area lost, about 0.5 or 100 % of the whole" in why
    assert "an area of about 0.5 is lost in 1 cell" in record.sentence() and "AREA LOST         cell 0" in str(record)


def test_what_another_cell_draws_is_not_lost():
    """The same brick on one that has its base as its top, and draws the whole square."""
    points = np.concatenate([RAISED, CUBE[:4] - [0, 0, 1]])
    mesh = meshio.Mesh(points, [("hexahedron", [list(range(8)), [8, 9, 10, 11, 0, 1, 2, 3]])])
    record = cicelybeam.cut_plane(mesh, (0, 0, 0), (0, 0, 1)).record
    assert record.undrawn[0].reason == "touching" and record.reasons == [] and record.area == pytest.approx(1)


@pytest.mark.parametrize("wide", [10.0, 100.0])
def test_slivers_are_not_lost(wide):
    """The upper brick gets wide quickly: 4 tolerances above the plane it is many of them wider than what is drawn below it."""
    upper = RAISED.copy()
    upper[4:, :2] += wide * (2 * CUBE[4:, :2] - 1)
    points = np.concatenate([upper, CUBE[:4] - [0, 0, 1]])
    mesh = meshio.Mesh(points, [("hexahedron", [list(range(8)), [8, 9, 10, 11, 0, 1, 2, 3]])])
    record = cicelybeam.cut_plane(mesh, (0, 0, 0), (0, 0, 1)).record
    assert [cell.reason for cell in record.undrawn] == ["touching"] and record.nothing_lost and record.area == pytest.approx(1)


def test_edge_between_shallow_faces():
    """Touched along an edge from which the faces rise by a hundredth."""
    points = np.array([[0, 0, 0], [1, 0, 0], [0.5, 1, 0.01], [0.5, -1, 0.01]])
    record = cicelybeam.cut_plane(meshio.Mesh(points, [("tetra", [[0, 1, 2, 3]])]), (0, 0, 0), (0, 0, 1)).record
    assert (record.open, record.touching_cells, record.lost_area, record.reasons) == (1, 1, 0, [])


def test_area_lost_twice_counts_once():
    """Bricks above and below the plane with three corners each in it, and none draws."""
    points = np.concatenate([RAISED, CUBE[:4] - [0, 0, 1], [[0, 1, -0.5]]])
    mesh = meshio.Mesh(points, [("hexahedron", [list(range(8)), [8, 9, 10, 11, 0, 1, 2, 12]])])
    record = cicelybeam.cut_plane(mesh, (0, 0, 0), (0, 0, 1)).record
    assert [cell.lost_area for cell in record.undrawn] == pytest.approx([0.5, 0.5])
    assert record.lost_area == pytest.approx(0.5)


def test_never_drawn_whole():
    """A polyhedron that lacks a face: the hull of its points stands for what is lost."""
    record = cicelybeam.cut_plane(without(OPEN_BRICK), (0, 0, 0.5), (0, 0, 1)).record
    assert record.lost_area == pytest.approx(1) and record.undrawn[0].reason == "area lost"


@pytest.mark.parametrize("height", [1, 1e-4, 3e-5, 1e-5, 7e-6])
@pytest.mark.parametrize("tol", [2e-7, 1e-6])
def test_never_drawn_whole_where_parallel_planes_leave_it(height, tol):
    """The same polyhedron, so low that the further parallel planes, or all of them, do not meet it."""
    mesh = without(OPEN_BRICK)
    mesh.points = mesh.points * [1, 1, height]
    record = cicelybeam.cut_plane(mesh, (0, 0, height / 2), (0, 0, 1), tol).record
    assert (record.area, record.open) == (0, 3) and record.lost_area == pytest.approx(1) and [status for status, _ in record.reasons] == [3]


def test_a_small_cell_in_a_large_mesh():
    """Its size is that of the distance of the parallel planes, with the mesh's own tolerance."""
    points = np.concatenate([1e-5 * CUBE, 8 * CUBE + 20])
    mesh = meshio.Mesh(points, [("polyhedron8", [[np.array(face) for face in OPEN_BRICK]]), ("hexahedron", [list(range(8, 16))])])
    record = cicelybeam.cut_plane(mesh, (0, 0, 0.5e-5), (0, 0, 1)).record
    assert record.lost_area == pytest.approx(1e-10) and [cell.reason for cell in record.undrawn] == ["area lost"]


@pytest.mark.parametrize("side", [1, -1])
@pytest.mark.parametrize("width,height", [(1, 1), (1, 1e-5), (1, 2e-6), (1e-3, 1), (1e-6, 1), (1e-6, 2e-6)])
def test_touched_where_parallel_planes_leave_it(width, height, side):
    """Touched along an edge, also where the cell is lower than the distance of the nearest parallel plane, or too narrow to be drawn."""
    points = np.array([[0, 0, 0], [1, 0, 0], [0.5, width, side * height], [0.5, -width, side * height]])
    record = cicelybeam.cut_plane(meshio.Mesh(points, [("tetra", [[0, 1, 2, 3]])]), (0, 0, 0), (0, 0, 1), 1e-6).record
    assert (record.open + record.flat, record.touching_cells, record.lost_area, record.reasons) == (1, 1, 0, [])


@settings(max_examples=60)
@given(st.sampled_from([("hexahedron", 0.3), ("wedge", 0.15), ("tetra", 0.15)]), st.integers(1, 3), st.integers(0, 2**32 - 1),
       st.floats(0.05, 1), st.integers(0, 2), st.booleans())
def test_estimate_of_what_is_lost(kind, n, seed, part, axis, level):
    """Inner nodes moved at random, some of them within the plane alone: what is drawn and what is lost are the whole, and
    after a shift all is drawn."""
    name, most = kind
    mesh = box(2 * n, name)
    inner = ((mesh.points > 0) & (mesh.points < 1)).all(axis=1)
    rng = np.random.default_rng(seed)
    inner &= rng.random(len(inner)) < 0.5
    step = rng.uniform(-1, 1, (inner.sum(), 3)) * part * most / (2 * n)
    step[rng.random(len(step)) < 0.5 * level, axis] = 0
    mesh.points[inner] += step
    record = cicelybeam.cut_plane(mesh, (0.5, 0.5, 0.5), np.eye(3)[axis]).record
    assert record.area + record.lost_area == pytest.approx(1, abs=1e-9)
    shifted = cicelybeam.cut_plane(mesh, (0.5, 0.5, 0.5), np.eye(3)[axis], shift=True).record
    assert shifted.area == pytest.approx(1, abs=1e-9) and shifted.reasons == [] and abs(shifted.shift) <= 1e-6


def test_gaps_of_tolerance_zero_have_an_area():
    import sample

    record = cicelybeam.cut_plane(sample.plate(), (0, 0, 0.4), (0.05, 0.1, 1), 0).record
    whole = cicelybeam.cut_plane(sample.plate(), (0, 0, 0.4), (0.05, 0.1, 1)).record
    assert record.area + record.lost_area == pytest.approx(whole.area, rel=1e-9)
    assert {cell.what for cell in record.lost_cells} == {"no edge", "a face without a segment"}


def test_corner_a_little_over_the_tolerance():
    """The plane passes through a cell by a corner 1.5 tolerances high: no edge is found, and no area is lost."""
    tol = cicelybeam.slice_tolerance(CUBE)
    mesh = meshio.Mesh(CUBE[[0, 1, 3, 4]], [("tetra", [[0, 1, 2, 3]])])
    record = cicelybeam.cut_plane(mesh, (0, 0, 1 - 1.5 * tol), (1e-3, 1e-3, 1)).record
    assert record.crossed == 1 and record.area < 1e-18 and record.reasons == []


def test_flat_cells_between_others():
    """Cells without height between two bricks, as at a joint: the bricks draw the place."""
    points = np.concatenate([CUBE - [0, 0, 1], CUBE])
    mesh = meshio.Mesh(points, [("hexahedron", [list(range(8)), list(range(8, 16)), [4, 5, 6, 7, 8, 9, 10, 11]])])
    record = cicelybeam.cut_plane(mesh, (0, 0, 0), (0, 0, 1)).record
    assert record.within_tolerance == [2] and record.area == pytest.approx(1) and record.reasons == []


def test_cells_within_a_large_tolerance_are_lost():
    mesh = box(2)
    mesh.points = np.concatenate([mesh.points, [[1e15, 0, 0]]])
    record = cicelybeam.cut_plane(mesh, (0, 0, 0.3), (0, 0, 1)).record
    assert record.lost_area == pytest.approx(1) and [status for status, _ in record.reasons] == [3]


@pytest.mark.parametrize("normal", [(0, 0, 1), (0, 0, -2.5)])
def test_shift(normal):
    """The nearest plane by which everything is drawn is inside the brick."""
    cut = cicelybeam.cut_plane(raised(), (0.2, 0.1, 0), normal, shift=True)
    record = cut.record
    assert abs(record.shift) == pytest.approx(2 * record.tolerance, abs=0) and record.shift * normal[2] > 0
    assert record.area == pytest.approx(0.5) and record.all_drawn and record.origin == [0.2, 0.1, 0]
    assert cut.in_space()[:, 2] == pytest.approx(2 * record.tolerance, rel=1e-3)
    assert f"shifted by {record.shift:.3g} along it" in record.sentence() and "shift " in str(record)
    assert record.as_dict()["shift"] == record.shift


def test_shift_to_the_larger_section():
    """Where the part gets narrower above the plane and tetrahedra are touched along it, the plane goes to the wider part."""
    mesh = box(2, "tetra")
    low = (mesh.points[mesh.cells[0].data].mean(axis=1)[:, 2] < 0.5) | (mesh.points[mesh.cells[0].data].mean(axis=1)[:, 0] < 0.5)
    mesh = meshio.Mesh(mesh.points, [("tetra", mesh.cells[0].data[low])])
    plain, shifted = (cicelybeam.cut_plane(mesh, (0, 0, 0.5), (0, 0, 1), shift=way).record for way in (False, True))
    assert plain.area == pytest.approx(1) == shifted.area and plain.touching_cells and shifted.shift < 0 and shifted.all_drawn


def test_shift_where_none_is_needed(cube):
    record = cicelybeam.cut_plane(cube, (0, 0, 0.5), (0, 0, 1), shift=True).record
    assert record.shift == 0 and "shifted" not in record.sentence() and record.shift_most is None


def test_shift_that_is_not_found():
    cut = cicelybeam.cut_plane(without(OPEN_BRICK), (0, 0, 0.5), (0, 0, 1), shift=True)
    assert cut.record.shift == 0 and cut.record.shift_that_draws_all is None and cut.record.reasons
    assert cut.record.advice == "no parallel plane up to 1e-06 away does better; --shift-most looks further"


def test_shift_does_not_leave_the_mesh():
    """At the top of a brick that lacks a side every plane inside is open, and one outside draws nothing."""
    record = cicelybeam.cut_plane(without(OPEN_BRICK), (0, 0, 1), (0, 0, 1), shift=True).record
    assert record.shift == 0 and record.lost_area == pytest.approx(1) and record.reasons


def test_shift_most():
    """A brick that is open below z = 0.75: a plane further up draws all."""
    points = np.concatenate([CUBE, CUBE * [1, 1, 0.75]])
    lower, upper = [[8, 9, 13, 12], [10, 11, 15, 14], [9, 10, 14, 13], [8, 11, 10, 9]], [[12, 13, 5, 4], [14, 15, 7, 6], [13, 14, 6, 5], [15, 12, 4, 7], [4, 5, 6, 7]]
    mesh = meshio.Mesh(points, [("polyhedron12", [[np.array(face) for face in lower + upper]])])
    assert cicelybeam.cut_plane(mesh, (0, 0, 0.5), (0, 0, 1), shift=True).record.shift == 0
    record = cicelybeam.cut_plane(mesh, (0, 0, 0.5), (0, 0, 1), shift=True, shift_most=0.4).record
    assert 0.25 < record.shift <= 0.4 and record.area == pytest.approx(1)


def test_look_for_shift_tells():
    cut = cicelybeam.cut_plane(raised(), (0, 0, 0), (0, 0, 1))
    assert cut.look_for_shift() == cut.record.shift_that_draws_all == pytest.approx(2 * cut.record.tolerance)
    assert cut.record.area == 0 and "--shift takes it" in cut.record.advice


@pytest.fixture
def path(tmp_path):
    raised().write(tmp_path / "a.vtu")
    return str(tmp_path / "a.vtu")


def test_command_names_the_shift(path, capsys):
    assert main(["plane", path, "--origin", "0,0,0", "--normal", "z"]) == 3
    said = capsys.readouterr().err
    assert "exit status 3: 1 cell with area lost, about 0.5" in said and "shifted by 2.02842e-12" in said and "--shift takes it" in said
    assert main(["plane", path, "--origin", "0,0,0", "--normal", "z", "--shift"]) == 0
    assert "shift             2.02842e-12" in capsys.readouterr().out
    assert main(["plane", path, "--origin", "0,0,0", "--normal", "z", "--shift", "--shift-most", "1e-3"]) == 0
    assert main(["plane", path, "--origin", "0,0,0", "--normal", "z", "--allow-undrawn"]) == 0


@pytest.mark.parametrize("more", [["--shift-most", "0"], ["--shift-most", "-1"], ["--shift", "--shift"], ["--shift-most", "1", "--shift-most", "2"]])
def test_wrong_shifts(path, more, capsys):
    with pytest.raises(SystemExit) as told:
        main(["plane", path, "--origin", "0,0,0", "--normal", "z", *more])
    assert told.value.code == 2


@pytest.mark.parametrize("more", [["--allow-touching"]])
def test_options_that_are_gone(path, more, capsys):
    with pytest.raises(SystemExit):
        main(["plane", path, "--origin", "0,0,0", "--normal", "z", *more])


def test_every_reason_is_told():
    """A cell that loses area, one with a NaN, and one of a type that is not cut."""
    points = np.concatenate([RAISED, CUBE + [3, 0, -0.5], CUBE + [6, 0, -0.5]])
    points[8, 0] = np.nan
    mesh = cicelybeam.of_meshio(meshio.Mesh(points, [("hexahedron", [list(range(8)), list(range(8, 16))])]))
    mesh.others.append(("hexahedron9", 3, 1, np.arange(16, 24)[None]))
    reasons = cicelybeam.cut_plane(mesh, (0, 0, 0), (0, 0, 1)).record.reasons
    assert [status for status, _ in reasons] == [3, 3, 3, 4]
    assert [word in why for word, (_, why) in zip(("area lost", "not finite", "by default", "1 hexahedron9"), reasons)] == [True] * 4


@pytest.mark.parametrize("origin,normal,distance", [((0, 0, 7), (0, 0, 1), 6), ((9, 9, -2), (0, 0, 5), 2), ((3, 0, 0), (1, 1, 0), 0.5**0.5)])
def test_plane_that_meets_nothing_says_by_how_far(cube, origin, normal, distance):
    record = cicelybeam.cut_plane(cube, origin, normal).record
    assert record.missed_by == pytest.approx(distance)
    assert record.warnings and f"misses the nearest corner by {distance:.6g}" in record.warnings[0]
    assert f"misses the mesh by {distance:.6g}" in record.sentence() and record.reasons == []
