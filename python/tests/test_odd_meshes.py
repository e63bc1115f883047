"""Meshes that no solver would take: an answer with every cell accounted for, or an error of the package's own."""
import warnings

import numpy as np
import pytest
from conftest import box
from hypothesis import given, settings
from hypothesis import strategies as st

import cicelybeam

SPOILED = ("nan", "infinite", "one far away", "scaled", "collapsed", "random", "any nodes")


def spoil(mesh, how: str, rng) -> None:
    node, axis = rng.integers(len(mesh.points)), rng.integers(3)
    if how == "nan":
        mesh.points[node, axis] = np.nan
    elif how == "infinite":
        mesh.points[node, axis] = rng.choice([np.inf, -np.inf])
    elif how == "one far away":
        mesh.points[node] *= 10.0 ** rng.integers(-30, 200)
    elif how == "scaled":
        mesh.points *= 10.0 ** rng.integers(-200, 150)
    elif how == "collapsed":
        mesh.points = mesh.points.round(1) * rng.integers(0, 2, mesh.points.shape)
    elif how == "random":
        mesh.points = rng.normal(size=mesh.points.shape)
    else:
        mesh.cells[0].data[:] = rng.integers(0, len(mesh.points), mesh.cells[0].data.shape)


@settings(max_examples=120)
@given(st.sampled_from(["hexahedron", "tetra", "wedge", "pyramid"]), st.integers(1, 2), st.sampled_from(SPOILED),
       st.integers(0, 2**32 - 1), st.sampled_from([None, 1e-12, 0.0, 1e-3, 0.3, 1e10]), st.booleans())
def test_an_answer_or_an_error_of_its_own(kind, n, how, seed, tol, shift):
    rng = np.random.default_rng(seed)
    mesh = box(n, kind)
    spoil(mesh, how, rng)
    origin, normal = rng.random(3), rng.choice([0.0, 1.0, -1.0, 0.3], 3) + [0, 0, 1.5]
    with warnings.catch_warnings():
        warnings.simplefilter("error")
        try:
            cut = cicelybeam.cut_plane(mesh, origin, normal, tol, shift=shift)
            traces = cut.traces()
            along = cicelybeam.cut_line(mesh, origin, normal, tol)
        except cicelybeam.CicelybeamError as error:
            assert str(error)
            return
    record = cut.record
    assert record.listed == record.in_loops + record.flat + record.open
    assert record.listed <= record.traces == len(traces) == len(traces.in_space()) and record.with_edges <= record.with_traces
    assert str(cut) and record.as_dict() and len(cut.in_space()) == len(cut.points) and str(along)
    if record.nothing_lost:
        assert 0 <= record.area < np.inf and not record.not_finite
    if how == "nan" and record.not_finite:
        assert [status for status, why in record.reasons if "not finite" in why] == [3]


@pytest.mark.parametrize("normal", [(0, 0, 1), (1, 2, 3)])
def test_a_middle_that_overflows(normal):
    """The mean of two coordinates near the largest number, or the point of the plane or line that is nearest to it."""
    for far in (1.7e308, 0.89e308):
        mesh = box(1)
        mesh.points += far
        for cut in (cicelybeam.cut_plane(mesh, (0, 0, 0), normal, 1.0), cicelybeam.cut_line(mesh, (0, 0, 0), normal, 1.0)):
            assert str(cut) and cut.record.as_dict()


def test_area_that_overflows():
    mesh = box(1)
    mesh.points *= 1e160
    try:
        record = cicelybeam.cut_plane(mesh, (0, 0, 5e159), (0, 0, 1)).record
    except cicelybeam.CicelybeamError:
        return
    assert any("too large" in why for _, why in record.reasons)


@pytest.mark.parametrize("most", [0.0, -1.0, float("nan"), float("inf")])
def test_distances_that_are_refused(cube, most):
    with pytest.raises(cicelybeam.CicelybeamError, match="not a number above 0"):
        cicelybeam.cut_plane(cube, (0, 0, 0.5), (0, 0, 1), shift=True, shift_most=most)


def test_a_squared_tolerance_that_overflows_is_told():
    """All points of a cell become one then, and nothing is drawn: the area 0 is not that of the section."""
    mesh, origin = box(2), np.array([0.0, 0.0, 0.4])
    assert cicelybeam.cut_plane(mesh, origin, (0, 0, 1)).record.reasons == []
    mesh.points *= 1e200
    record = cicelybeam.cut_plane(mesh, 1e200 * origin, (0, 0, 1)).record
    assert record.area == 0.0 and [status for status, _ in record.reasons] == [3]
    assert record.reasons[0][1].endswith("scale the mesh or give a smaller tolerance")
