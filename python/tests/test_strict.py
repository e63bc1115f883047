"""The strict way: a polygon that passes twice through a point is pinched and not drawn, and this is told wherever counts and areas are."""
import json
from dataclasses import asdict

import meshio
import numpy as np
import pytest
from conftest import CUBE, box
from hypothesis import given, settings
from hypothesis import strategies as st
from test_area import SADDLE, brick, square
from test_calls import kinds, normals, one_call, places
from test_comparisons import BRICK, TRIANGLE, without_claims
from test_defaulted import LOW, tetra
from test_figure import figure, legend_of
from test_files import OPEN_BRICK, parts, run
from test_page import parsed
from test_traces import gather_call, stitch_call

import cicelybeam
import sample
from cicelybeam import report
from cicelybeam.cells import COUNTS, Cutter
from cicelybeam.library import Section
from cicelybeam.picture import RED
from cicelybeam.shift import LOOKED_AT, Drawn
from cicelybeam.undrawn import findings, undrawn_edges

MIDDLE = (0, 0, 0.5), (0, 0, 1)
ALONG = ["--origin", "0,0,0.5", "--normal", "z"]
STRICT_WAY = "in its strict way, which draws no polygon that passes twice through a point, by the plane"
TWO = square(0, 0, 1), square(1, 1, 2)  # they share a corner: one walk goes around both, through the corner from one into the other
PINCHED_HOLE = square(-1, -1, 6), *TWO
AROUND_A_HOLE = square(0, 0, 4), square(4, 4, 3), square(1, 1, 1)
ALIKE = square(0, 0, 1), square(1, 1, 1)  # as TWO, but the walk has an area of 0


def walls(*outlines, top: float = 1.0) -> meshio.Mesh:
    """Walls over these outlines from z = 0 to 1, as one polyhedron; at the top the outlines are so many times larger."""
    points, faces = [], []
    for outline in outlines:
        first, n = len(points), len(outline)
        points += [(x * size, y * size, z) for x, y in outline for z, size in ((0, 1.0), (1, top))]
        faces += [first + np.array([2 * k, 2 * after, 2 * after + 1, 2 * k + 1]) for k, after in enumerate([*range(1, n), 0])]
    return meshio.Mesh(np.array(points, dtype=float), [(f"polyhedron{len(points)}", [faces])])


def waist(*outlines) -> meshio.Mesh:
    """Walls as above, of which those over the last outline lean away from the others above z = 0.5 and below it."""
    points, faces = [], []
    for outline in outlines:
        first, n = len(points), len(outline)
        points += [(x + away, y + away, z) for x, y in outline for z, away in ((0, outline is outlines[-1]), (0.5, 0), (1, outline is outlines[-1]))]
        faces += [first + np.array([3 * k + up, 3 * after + up, 3 * after + up + 1, 3 * k + up + 1])
                  for k, after in enumerate([*range(1, n), 0]) for up in (0, 1)]
    return meshio.Mesh(np.array(points, dtype=float), [(f"polyhedron{len(points)}", [faces])])


def together(*meshes: meshio.Mesh) -> meshio.Mesh:
    """Polyhedra side by side, 20 apart."""
    first = np.cumsum([0, *(len(mesh.points) for mesh in meshes)])
    points = np.concatenate([mesh.points + [20 * k, 0, 0] for k, mesh in enumerate(meshes)])
    return meshio.Mesh(points, [(block.type, [[np.array(face) + start for face in cell] for cell in block.data])
                                for mesh, start in zip(meshes, first) for block in mesh.cells])


def both(mesh, origin=MIDDLE[0], normal=MIDDLE[1], *more, **options) -> tuple:
    return tuple(cicelybeam.cut_plane(mesh, origin, normal, *more, strict=strict, **options) for strict in (False, True))


def polygons(s, nodes, ends) -> list[list[int]]:
    return [part.tolist() for part in np.split(nodes, ends[:-1])] if s.loops else []


def check_ways(usual, strict) -> None:
    """What the library tells in the strict way, by what it tells in the usual one."""
    (u, points, nodes, ends), (s, strict_points, *loops) = usual, strict
    for name in ("refusal", "points", "listed", "open", "defaulted", "comparisons"):
        assert getattr(u, name) == getattr(s, name)
    assert points.tobytes() == strict_points.tobytes() and u.pinched == 0
    kept = [row for row in polygons(u, nodes, ends) if len(set(row)) == len(row)]
    assert polygons(s, *loops) == kept and s.in_loops == sum(map(len, kept))
    assert u.in_loops - s.in_loops <= s.pinched and s.flat <= u.flat
    assert s.listed == s.in_loops + s.pinched + s.flat + s.open and u.listed == u.in_loops + u.flat + u.open


# ---- the library


def chain(*points) -> np.ndarray:
    """Segments from each of these points to the next."""
    return np.array([[*a, *b] for a, b in zip(points, points[1:])], dtype=float).ravel()


BOW_TIE = chain((-2, 1), (0, 0), (2, 1), (2, -1), (0, 0), (-2, -1), (-2, 1))
LARGE = chain((0, 0), (1, 0), (1, 1), (1, 3), (3, 3), (3, 1), (1, 1), (0, 1), (0, 0))  # around TWO
TAIL = chain((-1, 0), (0, 0), (1, 0), (1, 1), (0, 0))  # the walk begins at the tail's end, and stops where it passed before


@pytest.mark.parametrize("segments,tol,usual,strict", [
    (BOW_TIE, 0.0, [6, 0, 0, 6, 0], [6, 0, 6, 0, 0]),
    (LARGE, 0.0, [8, 8, 0, 0, 0], [8, 0, 8, 0, 0]),
    (TRIANGLE, 0.0, [3, 3, 0, 0, 0], None),
    (TRIANGLE[:8], 0.0, [2, 0, 0, 0, 2], None),
    (TRIANGLE, np.nan, [3, 0, 0, 0, 3], None),
    (chain((0, 0), (1, 0), (2, 0), (0, 0)), 0.0, [3, 0, 0, 3, 0], None),
    (TAIL, 0.0, [4, 0, 0, 0, 4], None),
    (TRIANGLE[:0], 0.0, [0, 0, 0, 0, 0], None),
    (np.concatenate([BOW_TIE, TRIANGLE + 10, LARGE + 20, TAIL - 10]), 0.0, [21, 11, 0, 6, 4], [21, 3, 14, 0, 4]),
], ids=["bow-tie", "two squares", "triangle", "open", "NaN", "flat", "open with a point twice", "none", "all"])
def test_segments(segments, tol, usual, strict):
    """By stitching alone; any number but 0 asks for the strict way."""
    segments = np.ascontiguousarray(segments)
    found = stitch_call(segments, tol)
    assert [getattr(found[0], name) for name in COUNTS] == usual
    for way in (1, 2, 255):
        told = stitch_call(segments, tol, way)
        assert [getattr(told[0], name) for name in COUNTS] == (strict or usual)
        check_ways(found, told)


def test_a_refusal_tells_nothing():
    assert [stitch_call(BOW_TIE[:-1], 0.0, True)[0].refusal, stitch_call(BOW_TIE[:-1], 0.0, True)[0].pinched] == [8, 0]


def twisted(seed: int) -> meshio.Mesh:
    """A brick with corners at a few heights: many of its sections by z = 0 pass twice through a point."""
    points = CUBE.copy()
    points[:, 2] = np.random.default_rng(seed).choice([-1.0, 0.0, 0.5, 1.0], 8)
    return brick(points)


def test_the_loop_is_one_call_each():
    """Bit by bit in both ways, of bricks of which some are pinched, some flat and some open; and gathered and stitched they are the same."""
    meshes = [twisted(seed) for seed in range(200)]
    points = np.concatenate([mesh.points + [3 * k, 0, 0] for k, mesh in enumerate(meshes)])
    mesh = cicelybeam.of_meshio(meshio.Mesh(points, [("hexahedron", np.arange(1600).reshape(200, 8))]))
    totals = []
    for strict in (False, True):
        cutter = Cutter(mesh, (300, 0, 0), (0, 0, 1), 1e-12, strict=strict)
        told = cutter.cut(mesh.blocks[0], np.arange(200))
        written = [buffer.written().tobytes() for buffer in cutter.written]
        alone = [one_call(mesh, 14, mesh.blocks[0].nodes[k], (300, 0, 0), (0, 0, 1), 1e-12, strict) for k in range(200)]
        assert [row.tolist() for row in told] == [tuple(getattr(s, name) for name, _ in Section._fields_) for s, *_ in alone]
        assert written == [b"".join(part.tobytes() for part in column) for column in list(zip(*alone))[1:]]
        for k, (s, *section) in enumerate(alone):
            _, numbers = gather_call(mesh, 14, mesh.blocks[0].nodes[k], (300, 0, 0), (0, 0, 1), 1e-12)
            t, *stitched = stitch_call(numbers, 1e-12, strict)
            assert [getattr(t, name) for name in COUNTS] == [getattr(s, name) for name in COUNTS]
            assert [part.tobytes() for part in stitched] == [part.tobytes() for part in section]
        totals.append([int((told[name] > 0).sum()) for name in COUNTS])
        if strict:
            for one, other in zip(usual, alone):
                check_ways(one, other)
        usual = alone
    assert totals[0][2] == 0 and min(totals[1]) > 0  # none of the counts is that of no cell


# ---- the cut of a mesh


def test_two_squares_that_share_a_corner():
    usual, strict = both(walls(*TWO))
    assert usual.counts.tolist() == [[8, 8, 0, 0, 0]] and strict.counts.tolist() == [[8, 0, 8, 0, 0]]
    assert (usual.record.area, usual.record.polygons, usual.record.self_touching, usual.record.lost_area) == (5, 2, 1, 0)
    record = strict.record
    assert (record.area, record.polygons, record.self_touching) == (0, 0, 0) and record.lost_area == pytest.approx(5) and record.lost_share == 1
    assert (record.listed, record.in_loops, record.pinched, record.pinched_cells, record.flat, record.open) == (8, 0, 8, [0], 0, 0)
    assert not record.all_drawn and not record.nothing_lost and record.with_undrawn == 1 and record.strict is True
    assert not len(strict) and np.array_equal(strict.points, usual.points) and list(strict.undrawn_points()) == [0]
    (cell,) = record.undrawn
    assert (cell.reason, cell.what, cell.listed, cell.pinched, cell.not_drawn) == ("area lost", "pinched edges", 8, 8, 8)
    assert len(undrawn_edges(strict)) == 8 and len(undrawn_edges(usual)) == 0


def test_a_twisted_brick():
    """Its polygon goes through a corner of it."""
    usual, strict = both(brick(SADDLE), (0, 0, 0))
    assert strict.record.pinched == usual.record.in_loops == strict.record.listed and strict.record.lost_area == pytest.approx(1 / 3)


@given(kinds, places, normals, st.sampled_from([None, 0.0, 1e-3]), st.integers(0, 2**32 - 1), st.sampled_from([0.0, 1e-3, 0.1]))
def test_meshes_without_a_pinched_polygon(kind, origin, normal, tol, seed, moved):
    """Bit by bit the same, and the record but for the way."""
    mesh = box(2, kind)
    mesh.points += np.random.default_rng(seed).uniform(-moved, moved, mesh.points.shape)
    usual, strict = both(mesh, origin, normal, tol)
    if strict.record.pinched:
        return
    for name in ("near_points", "nodes", "ends", "polygon_cell", "polygon_area", "hole", "outer", "side", "cells", "counts", "cell_points"):
        assert getattr(usual, name).tobytes() == getattr(strict, name).tobytes(), name
    assert asdict(strict.record) == {**asdict(usual.record), "strict": True}
    assert strict.record.sentence() == usual.record.sentence().replace(" by the plane", f" {STRICT_WAY}", 1)


def test_the_sample():
    for mesh in (sample.plate(), sample.broken()):
        usual, strict = both(mesh, (0, 0, 0.4), (0.05, 0.1, 1))
        assert len(usual) > 200 and asdict(strict.record) == {**asdict(usual.record), "strict": True}
        assert strict.record.reasons == usual.record.reasons


@pytest.mark.parametrize("given_value,strict", [(True, True), (np.True_, True), (256, True), (False, False), (np.False_, False), (0, False)])
def test_any_true_value(given_value, strict):
    """As of the other options: 256, whose last byte is 0, too. The record has a plain bool."""
    record = cicelybeam.cut_plane(walls(*TWO), *MIDDLE, strict=given_value).record
    assert record.strict is strict and record.pinched == 8 * strict
    json.dumps(record.as_dict())


def test_it_is_keyword_only(cube):
    with pytest.raises(TypeError):
        cicelybeam.cut_plane(cube, *MIDDLE, None, True)
    with pytest.raises(TypeError):
        cicelybeam.cut_line(cube, (0, 0.5, 0.5), (1, 0, 0), strict=True)


# ---- areas


@pytest.mark.parametrize("outlines,area,lost,filled", [
    (TWO, 0, 5, 0),
    (PINCHED_HOLE, 36, 0, 5),  # the hole's polygon is pinched: what is around it is drawn without the hole
    (AROUND_A_HOLE, 1, 24, 1),  # the polygon around the hole is pinched: the hole's own is drawn
    ((square(0, 0, 4), [(0, 0), (2, 1), (1, 2)]), 14.5, 0, 0),  # two polygons that touch, neither of which is pinched
    ((*TWO, square(4, 0, 1)), 1, 5, 0),
])
@pytest.mark.parametrize("tol,top", [(None, 1.0), (0.02, 1.0), (None, 1.5), (1e-3, 1.5), (0, 1.0)])
def test_area_and_what_is_wrong_with_it(outlines, area, lost, filled, tol, top):
    """The area drawn, with what is lost and without what is filled, is that of the usual way: also with a tolerance that parallel planes
    would be far away by, where the section grows with the height."""
    usual, strict = both(walls(*outlines, top=top), *MIDDLE, tol)
    size = ((1 + top) / 2) ** 2
    record = strict.record
    assert [record.area, record.lost_area, record.filled_area] == pytest.approx([size * area, size * lost, size * filled], rel=1e-9)
    assert record.area + record.lost_area - record.filled_area == pytest.approx(usual.record.area, rel=1e-9)
    assert record.lost_share == pytest.approx(size * lost / usual.record.area)
    assert record.filled_cells == ([0] if filled else []) and record.nothing_lost == (not lost and not filled)
    assert (usual.record.filled_area, usual.record.filled_cells) == (0, []) and usual.record.nothing_lost


def test_a_tolerance_below_the_meshs_own():
    """What the usual way draws is that by the tolerance given: by the mesh's own, which a node far away makes large, a small part is flat."""
    mesh = walls(*TWO, [(5, 0), (5 + 1.1e-5, 0), (5 + 0.55e-5, 0.95e-5)])
    mesh.points = np.concatenate([mesh.points, [[1e7, 0, 0]]])
    usual, strict = both(mesh, *MIDDLE, 1e-9)
    assert usual.counts.tolist() == [[11, 11, 0, 0, 0]] and cicelybeam.cut_plane(mesh, *MIDDLE).counts.tolist() == [[11, 8, 0, 3, 0]]
    assert strict.counts.tolist() == [[11, 3, 8, 0, 0]] and strict.record.lost_area == pytest.approx(5, rel=1e-6)


def with_a_free_face(mesh: meshio.Mesh, end: tuple[float, float], half: float) -> meshio.Mesh:
    """Walls with one face more, from this point 0.5 along x, so far above z = 0.5 and below it, which no other face meets: its edge is open."""
    (x, y), n = end, len(mesh.points)
    corners = [(x, y, 0.5 - half), (x + 0.5, y, 0.5 - half), (x + 0.5, y, 0.5 + half), (x, y, 0.5 + half)]
    faces = [*mesh.cells[0].data[0], np.arange(n, n + 4)]
    return meshio.Mesh(np.concatenate([mesh.points, corners]), [(f"polyhedron{n + 4}", [faces])])


def barrel(*outlines) -> meshio.Mesh:
    """Walls that come to a quarter of their width above z = 0.5 and below it."""
    below, above = walls(*outlines), walls(*outlines, top=0.25)
    n = len(below.points)
    below.points[below.points[:, 2] == 0, :2] /= 4
    points = np.concatenate([below.points * [1, 1, 0.5], above.points * [1, 1, 0.5] + [0, 0, 0.5]])
    return meshio.Mesh(points, [(f"polyhedron{2 * n}", [[*below.cells[0].data[0], *(n + np.array(face) for face in above.cells[0].data[0])]])])


def test_lost_as_the_usual_way_draws_it_where_that_is_not_whole():
    """Nearer to the plane than 0.05 a face is open, and further away the section is smaller: what is carried back from there is too little."""
    usual, strict = both(with_a_free_face(barrel(*TWO), (4, 4), 0.05), *MIDDLE, 1e-6)
    assert usual.counts.tolist() == [[9, 8, 0, 0, 1]] and strict.counts.tolist() == [[9, 0, 8, 0, 1]]
    assert usual.record.area == pytest.approx(5) and usual.record.lost_area == 0
    assert strict.record.area == 0 and strict.record.lost_area == pytest.approx(5)


@pytest.mark.parametrize("tol", [None, 1e-6])
def test_pinched_and_open(tol):
    """Two squares side by side, whose common edge is listed once, and a third that lies along an edge of the first: no parallel plane draws them whole."""
    mesh = waist([(-1, 2), (2, 2), (2, 5), (-1, 5)], [(-1, 5), (2, 5), (2, 8), (-1, 8)], [(-2, 2), (-1, 2), (-1, 3), (-2, 3)])
    usual, strict = both(mesh, *MIDDLE, tol)
    assert usual.counts.tolist() == [[11, 10, 0, 0, 1]] and strict.counts.tolist() == [[11, 0, 10, 0, 1]]
    assert usual.record.area == pytest.approx(19) and strict.record.area == 0
    assert strict.record.lost_area == pytest.approx(19 + usual.record.lost_area) and [status for status, _ in strict.record.reasons] == [3]


@pytest.mark.parametrize("tol", [None, 1e-6])
def test_a_hole_is_filled_where_the_usual_way_is_not_whole(tol):
    usual, strict = (cut.record for cut in both(with_a_free_face(walls(*PINCHED_HOLE), (3.5, 3.5), 0.5), *MIDDLE, tol))
    assert (usual.pinched, usual.open, usual.filled_area) == (0, 1, 0) and (strict.pinched, strict.open) == (8, 1)
    assert [usual.area, strict.area, strict.filled_area] == pytest.approx([31, 36, 5])
    assert strict.area + strict.lost_area - strict.filled_area == pytest.approx(usual.area + usual.lost_area)


def test_a_filled_hole_is_told():
    cut = cicelybeam.cut_plane(walls(*PINCHED_HOLE), *MIDDLE, strict=True)
    record = cut.record
    words = ("the area is too large by about 5, that of holes drawn as if they were filled, since a polygon that bounds one or lies around it "
             "is pinched, in 1 cell")
    assert record.reasons == [(3, f"{words}: 0")] and f"; {words}." in record.sentence() and f"\nfilled            {words}: 0\n" in str(record)
    (cell,) = record.undrawn
    assert (cell.reason, cell.lost_area, cell.touching) == ("hole filled", 0, False) and not record.touching_cells
    assert "which bound no area" not in record.sentence()
    (finding,) = findings(cut)
    assert finding.reason.startswith("a hole is filled") and not finding.touched
    found = figure(cut)
    assert "hole filled: 1 cell" in legend_of(found) and "about 5 of it in filled holes" in figure_title(found)


def test_a_cell_in_a_filled_hole_is_lost():
    """A cell in the hole is pinched as well: what is drawn over it does not stand for it."""
    inner, outer = walls(square(0.5, 0.5, 0.5), square(1, 1, 1.5)), walls(*PINCHED_HOLE)
    cells = [(outer.cells[0].type, outer.cells[0].data), (inner.cells[0].type, [[24 + np.array(face) for face in inner.cells[0].data[0]]])]
    usual, strict = both(meshio.Mesh(np.concatenate([outer.points, inner.points]), cells))
    assert usual.record.area == pytest.approx(33.5) and usual.record.reasons == []
    assert [strict.record.area, strict.record.lost_area, strict.record.filled_area] == pytest.approx([36, 2.5, 5])
    assert [cell.reason for cell in strict.record.undrawn] == ["hole filled", "area lost"]


def test_twisted_bricks():
    """The area drawn, what is lost and what is filled make up what they do in the usual way; and the edges not drawn are those counted."""
    seen = []
    for seed in range(300):
        usual, strict = (cut.record for cut in both(twisted(seed), (0, 0, 0)))
        if strict.pinched:
            assert strict.area + strict.lost_area - strict.filled_area == pytest.approx(usual.area + usual.lost_area, abs=1e-9), seed
            assert all(cell.what == "pinched edges" for cell in strict.undrawn) and usual.pinched == 0
            seen += [name for name in ("in_loops", "flat", "open", "filled_area", "crossed_face_without_segment") if getattr(strict, name)]
    assert len(seen) > 3, seen


def test_a_walk_with_no_area_is_lost_as_in_the_usual_way():
    """There it is flat, so the usual way does not tell its area either, and it is estimated as of any cell with flat edges."""
    usual, strict = both(walls(*ALIKE))
    assert usual.counts.tolist() == [[8, 0, 0, 8, 0]] and strict.counts.tolist() == [[8, 0, 8, 0, 0]]
    assert strict.record.lost_area == usual.record.lost_area > 0
    assert (usual.record.undrawn[0].what, strict.record.undrawn[0].what) == ("edges not drawn", "pinched edges")


def test_what_other_cells_draw_is_not_lost():
    """Along the base of walls that touch themselves, over two bricks that draw the two squares."""
    upper = walls(*TWO)
    lower = [walls(outline) for outline in TWO]
    points = np.concatenate([upper.points, *(mesh.points - [0, 0, 1] for mesh in lower)])
    cells = [(mesh.cells[0].type, [[first + np.array(face) for face in mesh.cells[0].data[0]]]) for mesh, first in zip((upper, *lower), (0, 16, 24))]
    usual, strict = both(meshio.Mesh(points, cells), (0, 0, 0))
    assert usual.record.area == pytest.approx(5) and usual.record.repeated_area == pytest.approx(5)
    record = strict.record
    assert record.pinched == 8 and record.area == pytest.approx(5) and record.lost_area == 0 and record.repeated_area == 0
    assert record.reasons == [] and record.touching_cells == 1 and "8 pinched edges in 1 cell are not drawn, which bound no area" in record.sentence()
    assert "touched, no area lost: 1 cell" in legend_of(figure(strict))


def test_shift():
    """To a plane that draws everything in the strict way; where there is none, the plane asked for is cut."""
    record = cicelybeam.cut_plane(brick(SADDLE), (0, 0, 0), (0, 0, 1), strict=True, shift=True).record
    assert record.shift and record.strict and record.all_drawn and record.reasons == [] and not record.pinched
    there = cicelybeam.cut_plane(brick(SADDLE), (0, 0, record.shift), (0, 0, 1)).record
    assert record.area == there.area > 0
    apart = cicelybeam.cut_plane(waist(*TWO), *MIDDLE, strict=True, shift=True).record
    assert apart.shift and not apart.pinched and apart.reasons == [] and apart.area == pytest.approx(5)
    none = cicelybeam.cut_plane(walls(*TWO), *MIDDLE, strict=True, shift=True).record
    assert none.shift == 0 and none.shift_that_draws_all is None and none.pinched == 8
    assert cicelybeam.cut_plane(walls(*TWO), *MIDDLE, shift=True).record.shift == 0  # nothing is looked for


def test_shift_to_the_area_without_what_is_filled():
    """A box ends at the plane: the area asked for is found below, and not above, where everything is drawn as well."""
    ends = walls(square(0, 0, 3))
    ends.points[:, 2] /= 2
    mesh = together(waist(*PINCHED_HOLE), ends)
    record = cicelybeam.cut_plane(mesh, *MIDDLE, strict=True).record
    assert [record.area, record.lost_area, record.filled_area] == pytest.approx([36 + 9, 0, 5])
    shifted = cicelybeam.cut_plane(mesh, *MIDDLE, strict=True, shift=True).record
    assert shifted.shift < 0 and shifted.area == pytest.approx(31 + 9) and shifted.reasons == []


def test_a_plane_that_fills_a_hole_does_not_draw_all():
    from cicelybeam.section import Section as Cut

    cut = cicelybeam.cut_plane(walls(*PINCHED_HOLE), *MIDDLE, strict=True)
    assert Cut(cut.mesh, cut.asked).drawn(LOOKED_AT) == Drawn.NOT_ALL and cut.look_for_shift() is None


# ---- what is told

CELLS = together(walls(*TWO), walls(square(0, 0, 1)), walls(*PINCHED_HOLE), walls(square(0, 0, 1)[:3]))


@pytest.fixture
def path(tmp_path):
    CELLS.write(tmp_path / "a.vtu")
    return tmp_path / "a.vtu"


def lines_of(text: str, name: str) -> list[str]:
    return [line[18:] for line in text.split("\n") if line[:18].strip() == name]


def test_the_record(path, capsys):
    assert run("plane", path, *ALONG) == 0
    usual = capsys.readouterr().out
    assert run("plane", path, *ALONG, "--strict") == 3
    said = capsys.readouterr()
    assert "pinched" not in usual and "strict" not in usual and lines_of(usual, "edges") == ["27 listed: 27 in loops, 0 flat, 0 open"]
    assert lines_of(said.out, "edges") == ["27 listed: 11 in loops, 16 pinched, 0 flat, 0 open"]
    names = [line[:18].strip() for line in said.out.split("\n")]
    assert names[names.index("edges") + 1] == "pinched" and names[names.index("pinched") + 1] == "guessed"
    assert lines_of(said.out, "pinched") == ["16 edges in 2 cells: 0, 2; the strict way draws no polygon that passes twice through a point"]
    assert lines_of(said.out, "AREA LOST") == ["cell 0 (polyhedron16): about 5; pinched edges: 8 pinched, 0 flat and 0 open of 8, near (0, 0, 0.5)"]
    sentence = said.out.split("\n\n")[1]
    assert STRICT_WAY in sentence and ", and 16 pinched edges in 2 cells are not drawn; an area of about 5 is lost in 1 cell, " in sentence
    assert "exit status 3: 1 cell with area lost, about 5 or " in said.err and ": 1 with pinched edges (--allow-undrawn accepts it)\n" in said.err
    assert "exit status 3: the area is too large by about 5, " in said.err
    assert run("plane", path, *ALONG, "--strict", "--allow-undrawn", "--quiet") == 0


def test_the_way_is_told_where_nothing_is_pinched(tmp_path, capsys):
    box(1).write(tmp_path / "cube.vtu")
    assert run("plane", tmp_path / "cube.vtu", *ALONG) == 0
    usual = capsys.readouterr().out
    assert run("plane", tmp_path / "cube.vtu", *ALONG, "--strict") == 0
    said = capsys.readouterr().out
    assert lines_of(said, "pinched") == ["0 edges; the strict way draws no polygon that passes twice through a point"]
    assert said.replace(f"pinched           {lines_of(said, 'pinched')[0]}\n", "").replace("0 pinched, ", "").replace(STRICT_WAY, "by the plane") == usual


@pytest.mark.parametrize("pinched,flat,opened,words", [
    (2, 0, 0, ", and 2 pinched edges in 1 cell are not drawn"), (1, 0, 0, ", and 1 pinched edge in 1 cell is not drawn"),
    (2, 0, 1, ", and 2 pinched edges and 1 open edge in 1 cell are not drawn"),
    (2, 3, 1, ", and 2 pinched edges, 3 flat edges and 1 open edge in 1 cell are not drawn"),
    (0, 3, 1, ", and 3 flat edges and 1 open edge in 1 cell are not drawn"),
])
def test_the_sentence(pinched, flat, opened, words):
    record = cicelybeam.cut_plane(walls(*TWO), *MIDDLE, strict=True).record
    record.pinched, record.flat, record.open = pinched, flat, opened
    assert words in record.sentence()


def test_json(path, tmp_path):
    for more, folder in (([], tmp_path / "usual.json"), (["--strict"], tmp_path / "strict.json")):
        run("plane", path, *ALONG, "--quiet", *more, "--report", folder)
    usual, strict = (json.loads((tmp_path / f"{name}.json").read_text()) for name in ("usual", "strict"))
    assert (usual["strict"], usual["pinched"], usual["pinched_cells"], usual["filled_cells"]) == (False, 0, [], [])
    assert (strict["strict"], strict["pinched"], strict["pinched_cells"], strict["filled_cells"]) == (True, 16, [0, 2], [2])
    assert [[row[name] for name in COUNTS] for row in usual["by_cell"]] == [[8, 8, 0, 0, 0], [4, 4, 0, 0, 0], [12, 12, 0, 0, 0], [3, 3, 0, 0, 0]]
    assert [[row[name] for name in COUNTS] for row in strict["by_cell"]] == [[8, 0, 8, 0, 0], [4, 4, 0, 0, 0], [12, 4, 8, 0, 0], [3, 3, 0, 0, 0]]
    assert [(row["cell"], row["pinched"], row["reason"]) for row in strict["undrawn"]] == [(0, 8, "area lost"), (2, 8, "hole filled")]
    assert [(row["cell"], row["reason"][:16]) for row in strict["missing"]] == [(0, "area lost: pinch"), (2, "a hole is filled")] and usual["missing"] == []
    assert usual["proved"][0] == ("Proved: every polygon that a cell gives is closed by edges of the cut, each of which is used once; and every edge "
                                  "that a cell lists is counted as drawn, flat or open, so that none is lost unseen.")
    assert "used once, and passes no point twice; and every edge that a cell lists is counted as drawn, pinched, flat or open" in strict["proved"][0]


def test_fields_of_files(tmp_path):
    """A cell's number, with its counts, and the edges that are not drawn as lines; a field of the mesh that has the name is carried over."""
    mesh = together(walls(*PINCHED_HOLE), walls(square(0, 0, 1)))
    mesh.cell_data = {"pinched": [np.array([7.0]), np.array([9.0])]}
    for strict in (False, True):
        cut = cicelybeam.cut_plane(mesh, *MIDDLE, strict=strict)
        cut.write(tmp_path / "a.vtp")
        cut.traces().write(tmp_path / "t.vtp")
        for name in ("a.vtp", "t.vtp"):
            data = parts(tmp_path / name)["CellData"]
            assert set(zip(*(data[name].tolist() for name in ("cell", "pinched", "mesh:pinched")))) == {(0, 8 * strict, 7), (1, 0, 9)}
        lines = parts(tmp_path / "a.vtp")["Lines"]["offsets"]
        assert len(lines) == 8 * strict


def test_the_page(path, tmp_path):
    assert run("plane", path, *ALONG, "--quiet", "--strict", "--report", tmp_path / "a.html") == 3
    parsed((tmp_path / "a.html").read_text())
    said = without_claims(tmp_path / "a.html")
    for words in (STRICT_WAY, "Not whole: 1 cell with area lost, about 5", "Not whole: the area is too large by about 5", "11 in loops, 16 pinched, 0 flat",
                  "pinched 16 edges in 2 cells: 0, 2; the strict way", "area lost: pinched edges", "a hole is filled: ", "passes no point twice", "--strict"):
        assert words in said, words


def figure_title(found) -> str:
    return " ".join(text.get_text() for text in found.texts).replace("\n", " ")


@pytest.mark.parametrize("show", ["polygons", "traces"])
def test_the_figure(show):
    """Pinched edges are red where area is lost or a hole is filled."""
    usual, strict = both(CELLS)
    found = figure(strict, show=show)
    (red,) = [c for c in found.axes[0].collections if hasattr(c, "get_segments") and (c.get_color()[:, :3] == [0xD0 / 255, 0, 0]).all()]
    assert RED == "#d00000" and len(red.get_segments()) == strict.record.pinched == 16
    assert {"area lost: 1 cell", "hole filled: 1 cell"} <= set(legend_of(found)) and "about 5 lost" in figure_title(found)
    assert not any("lost" in text or "filled" in text for text in legend_of(figure(usual, show=show)))


def test_the_same_cut_by_what_the_report_tells():
    """The words in Python have the way; those of the usual way are as they were."""
    mesh = cicelybeam.of_meshio(walls(*TWO))
    usual, strict = (report.as_dict(cut)["made_by"]["command"] for cut in both(mesh))
    assert strict == usual[:-1] + ", strict=True)" and usual.startswith("cicelybeam.cut_plane(cicelybeam.read('mesh'), ")
    again = eval(strict.replace("cicelybeam.read('mesh')", "mesh"), {"cicelybeam": cicelybeam, "mesh": mesh})  # noqa: S307
    assert again.record.as_dict() == cicelybeam.cut_plane(mesh, *MIDDLE, strict=True).record.as_dict()


@pytest.mark.parametrize("more", [["--strict"], ["--strict", "--strict"], ["--report", "-", "--strict"]])
def test_a_line_cut_refuses_the_option(path, capsys, more):
    with pytest.raises(SystemExit) as told:
        run("line", path, "--origin", "0,0,0.5", "--direction", "x", *more)
    said = capsys.readouterr()
    assert told.value.code == 2 and said.out == ""
    assert said.err.endswith("error: a line cut has no strict way: leave --strict out, or cut by a plane that holds the line\n")


def test_a_line_through_a_polygon_that_touches_itself():
    """It is cut in the usual way, in the plane y = 0.5."""
    mesh = walls(*TWO)
    mesh.points = mesh.points[:, [0, 2, 1]]
    for z, covered in ((0.5, 1), (2, 2)):
        line = cicelybeam.cut_line(mesh, (0, 0.5, z), (1, 0, 0))
        assert line.record.covered == pytest.approx(covered) and line.record.reasons == []


@pytest.mark.parametrize("command", ["plane", "line"])
def test_help(command, capsys):
    with pytest.raises(SystemExit):
        run(command, "--help")
    said = " ".join(capsys.readouterr().out.split())
    for words in ("[--strict]", "as some journals' tools reject such a polygon", "counted as pinched", "the record says by how much",
                  "pinched with --strict: edges of walks that close and pass twice through a point, not drawn"):
        assert (words in said) == (command == "plane"), words
