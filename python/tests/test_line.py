"""The line cut: lengths against closed forms."""
import meshio
import numpy as np
import pytest
from conftest import CUBE, box
from hypothesis import given
from hypothesis import strategies as st

import cicelybeam

places = st.floats(0.05, 0.95)


@given(st.sampled_from(["hexahedron", "wedge", "tetra", "pyramid"]), places, places, st.integers(0, 2))
def test_box_along_an_axis(kind, a, b, axis):
    origin, direction = np.insert([a, b], axis, 0.3), np.eye(3)[axis] * 2.5
    record = cicelybeam.cut_line(box(2, kind), origin, direction).record
    assert record.covered == pytest.approx(1, rel=1e-9)
    assert record.length >= record.covered - 1e-9


@given(st.sampled_from(["hexahedron", "wedge", "tetra", "pyramid"]), places, places)
def test_same_answer_without_leaving_out(kind, a, b):
    mesh = box(2, kind)
    one = cicelybeam.cut_line(mesh, (a, b, 0.3), (b, 0.2, a))
    two = cicelybeam.cut_line(mesh, (a, b, 0.3), (b, 0.2, a), leave_out=False)
    assert np.array_equal(one.segments, two.segments) and np.array_equal(one.segment_cell, two.segment_cell)


@given(places, st.floats(0.1, 3))
def test_square_of_triangles(height, slope):
    points = CUBE[:4, :2]
    mesh = meshio.Mesh(points, [("triangle", [[0, 1, 2], [0, 2, 3]])])
    one = cicelybeam.cut_line(mesh, (0, height), (1, 0))
    assert one.record.covered == pytest.approx(1)
    two = cicelybeam.cut_line(mesh, (0, height), (1, 0), leave_out=False)
    assert np.array_equal(one.segments, two.segments)


def test_plane_mesh_with_third_coordinate():
    """gmsh writes three coordinates for plane meshes too."""
    mesh = meshio.Mesh(CUBE[:4], [("quad", [[0, 1, 2, 3]]), ("line", [[0, 1]])])
    record = cicelybeam.cut_line(mesh, (0, 0.5), (1, 0)).record
    assert (record.covered, record.not_cut, record.all_cut) == (1.0, {"line": 1}, True)


def test_plane_along_an_edge_covers_once():
    mesh = meshio.Mesh([[0, 0], [1, 0], [1, 1], [0, 1], [0, 2], [1, 2.0]], [("quad", [[0, 1, 2, 3], [3, 2, 5, 4]])])
    record = cicelybeam.cut_line(mesh, (0, 1), (1, 0)).record
    assert (record.length, record.covered, record.segments) == (2.0, 1.0, 2)


def test_refusals(cube):
    with pytest.raises(cicelybeam.Refused, match="no direction"):
        cicelybeam.cut_line(cube, (0, 0, 0), (0, 0, 0))
    with pytest.raises(cicelybeam.Refused, match="as many numbers"):
        cicelybeam.cut_line(cube, (0, 0), (1, 0))
    with pytest.raises(cicelybeam.MeshError, match="no cell is of a type that is cut"):
        cicelybeam.cut_line(meshio.Mesh(CUBE, [("triangle", [[0, 1, 6]])]), (0, 0, 0), (1, 0, 0))


def test_other_types_are_told():
    from test_plane import with_unknown_cell

    mesh = with_unknown_cell(meshio.Mesh(CUBE, [("tetra", [[0, 1, 2, 5]])]))
    record = cicelybeam.cut_line(mesh, (0, 0, 0), (1, 0, 0), 0).record
    assert not record.all_cut and len(record.warnings) == 2 and "1 hexahedron9" in str(record)


OPEN_BRICK = [[0, 3, 2, 1], [4, 5, 6, 7], [0, 1, 5, 4], [2, 3, 7, 6], [1, 2, 6, 5]]


@pytest.mark.parametrize("height,status", [(0.5, [0]), (1.5, [])])
def test_a_section_that_does_not_close_is_told(height, status):
    """A polyhedron that lacks a face: its section is open, so the line has no segment in it, and that is told."""
    mesh = meshio.Mesh(CUBE, [("polyhedron8", [[np.array(face) for face in OPEN_BRICK]])])
    record = cicelybeam.cut_line(mesh, (0, 0.5, height), (1, 0, 0)).record
    assert (record.segments, record.undrawn) == (0, status)
    assert record.all_drawn == (not status) and ("may be missing" in str(record)) == bool(status)


def test_a_section_that_is_open_far_from_the_line_is_not_told():
    """The plane that holds the line passes through both cells; the line only through the whole one."""
    whole = [*OPEN_BRICK, [3, 0, 4, 7]]
    points = np.concatenate([CUBE, CUBE + [0, 0, 5]])
    cells = [[np.array(face) for face in whole], [8 + np.array(face) for face in OPEN_BRICK]]
    record = cicelybeam.cut_line(meshio.Mesh(points, [("polyhedron8", cells)]), (0, 0.5, 0.4), (1, 0, 0)).record
    assert record.all_drawn and record.covered == pytest.approx(1)


def test_tolerance_zero_is_told():
    mesh = box(3, "tetra")
    record = cicelybeam.cut_line(mesh, (0.1, 0.2, 0.3), (1, 2, 3), 0).record
    assert not record.all_drawn and record.undrawn and "may be missing" in str(record)
    assert cicelybeam.cut_line(mesh, (0.1, 0.2, 0.3), (1, 2, 3)).record.all_drawn


def test_plane_cell_without_segment_is_told():
    """With this tolerance all corners of the small cell are on the line, and it has no segment."""
    mesh = meshio.Mesh([[0, 0], [1, 0], [1, 1], [0, 1.0]], [("quad", [[0, 1, 2, 3]])])
    record = cicelybeam.cut_line(mesh, (0, 0.5), (1, 0), 5.0).record
    assert record.without_segment == [0] and not record.all_drawn


def test_stretches_of_the_plate():
    """A line across the hole: the plate from -3 to -1 and from 1 to 3."""
    import sample

    record = cicelybeam.cut_line(sample.plate(), (0, 0, 0.4), (1, 0, 0)).record
    assert np.array(record.stretches) == pytest.approx(np.array([[-3, -1], [1, 3]]))
    assert record.covered == pytest.approx(4)


def test_polygon_that_the_line_crosses_without_a_segment_is_told(cube):
    """With tolerance 0 the section is whole, and the line's crossings of it are rounded off the line."""
    record = cicelybeam.cut_line(cube, (0.5, 0.5, 0.5), (3, -5, 6), 0).record
    assert (record.segments, record.undrawn, record.without_segment) == (0, [], [0]) and not record.all_drawn
    assert cicelybeam.cut_line(cube, (0.5, 0.5, 0.5), (3, -5, 6)).record.all_drawn


def test_quadratic_cells_are_told():
    points = np.concatenate([CUBE[[0, 1, 3, 4]], np.full((6, 3), 0.5)])
    record = cicelybeam.cut_line(meshio.Mesh(points, [("tetra10", np.arange(10)[None])]), (0, 0.2, 0.2), (1, 0, 0)).record
    assert record.straightened == 1 and "1 cell with mid-side nodes was cut as straight" in record.sentence()


def test_touched_cells_are_no_reason():
    """The line's plane runs along edges of tetrahedra: nothing is missing."""
    record = cicelybeam.cut_line(box(2, "tetra"), (0, 0.25, 0.5), (1, 0, 0)).record
    assert record.reasons == [] and record.all_drawn and record.covered == pytest.approx(1)


@pytest.mark.parametrize("far", [1e3, 1e6])
def test_origin_far_away(far):
    record = cicelybeam.cut_line(box(4, "tetra"), (0.5 + 3 * far, 0.375 + far, 0.3), (3, 1, 0)).record
    near = cicelybeam.cut_line(box(4, "tetra"), (0.5, 0.375, 0.3), (3, 1, 0)).record
    assert record.covered == pytest.approx(near.covered, rel=1e-9) and record.segments == near.segments and record.reasons == []
