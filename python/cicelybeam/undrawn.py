"""Where something is missing or a guess: the edges that were not drawn, and every cell with such edges, with area lost, with a
crossing in the middle by default, or not cut."""
from __future__ import annotations

from dataclasses import asdict, dataclass

import numpy as np

from . import place
from .cells import not_drawn
from .line import LineCut
from .mesh import mean
from .plane import PlaneCut
from .record import DefaultedCell, defaulted_in_words

Pair = tuple[int, int]
Point = place.Vector
Segment = tuple[Point, Point]


@dataclass(frozen=True)
class Finding:
    """A cell where something is missing or a guess: why, and near which point in space."""

    cell: int
    type: str
    reason: str
    lost_area: float | None  # an estimate, where there is one
    near: list[float]

    @property
    def touched(self) -> bool:
        """Whether no area is lost."""
        return self.reason.startswith("touched")

    def as_dict(self) -> dict:
        return asdict(self)


def findings(cut: PlaneCut | LineCut) -> list[Finding]:
    """Every cell where something is missing or a guess, of a line those that it may reach; those that lose no area last."""
    return _of_plane(cut) if isinstance(cut, PlaneCut) else _of_line(cut)


def _of_plane(cut: PlaneCut) -> list[Finding]:
    record = cut.record
    found = [Finding(u.cell, u.type, f"area lost: {u.what}", u.lost_area, _middle(u.points)) for u in record.lost_cells]
    found += [_plain(cut, cell, "a hole is filled: a polygon that bounds it or lies around it is pinched") for cell in record.filled_cells]
    if record.jump_area:
        found += [_plain(cut, cell, "the area jumps: a face that is not flat has a corner in the plane") for cell in record.jump_cells]
    found += [_plain(cut, cell, "a corner coordinate is not finite") for cell in record.not_finite]
    found += _defaulted(cut, record.defaulted_cells) + not_cut(cut)
    return found + [Finding(u.cell, u.type, f"touched: {u.what}", 0.0, _middle(u.points)) for u in record.undrawn if u.touching]


def _of_line(cut: LineCut) -> list[Finding]:
    record = cut.record
    touching = set(record.touching)
    found = [_plain(cut, cell, "its section is not whole") for cell in record.undrawn if cell not in touching]
    found += [_plain(cut, cell, "passed through, and there is no segment") for cell in record.without_segment]
    return found + _defaulted(cut, record.defaulted_reached)


def _defaulted(cut: PlaneCut | LineCut, guessed: list[DefaultedCell]) -> list[Finding]:
    """Cells with crossings in the middle by default, near what the cut gives for them; where that is nothing or not finite, near their corners."""
    if not guessed:
        return []
    if isinstance(cut, PlaneCut):
        points, owner = cut.in_space(), np.repeat(cut.cells, np.diff(cut.cell_points, axis=1).ravel())
    else:
        points, owner = cut.segments.reshape(-1, cut.mesh.dimension), np.repeat(cut.segment_cell, 2)
    cells = np.array([each.cell for each in guessed], dtype=np.int64)
    first, after = (np.searchsorted(owner, cells, side).tolist() for side in ("left", "right"))  # what is given stands in the order of cells
    found = []
    for each, start, end in zip(guessed, first, after):
        given = points[start:end]
        near = mean(given) if len(given) and np.isfinite(given).all() else cut.mesh.middle(each.cell)
        found.append(Finding(each.cell, each.type, f"guessed: {defaulted_in_words(each.defaulted)}", None, near.tolist()))
    return found


def _plain(cut: PlaneCut | LineCut, cell: int, reason: str) -> Finding:
    return Finding(cell, cut.mesh.block_of(cell).name, reason, None, cut.mesh.middle(cell).tolist())


def _middle(points: list[list[float]]) -> list[float]:
    return mean(np.array(points)).tolist() if points else []


def not_cut(cut: PlaneCut) -> list[Finding]:
    """Cells of types that are not cut, which fill space and which the plane may reach."""
    mesh = cut.mesh
    of_node = place.sides(mesh.points, cut.near.origin, cut.near.normal, cut.record.tolerance).of_node
    found = []
    for (name, dimension, _, nodes), first in zip(mesh.others, mesh.other_first):
        if dimension != 3 or nodes is None or nodes.dtype.kind not in "iu":
            continue
        known = np.flatnonzero(((nodes >= 0) & (nodes < len(mesh.points))).all(axis=1))
        reached = known[np.bitwise_and.reduce(of_node[nodes[known]], axis=1) == 0]
        found += [Finding(first + int(k), name, "cells of this type are not cut", None, mean(mesh.points[nodes[k]]).tolist())
                  for k in reached]
    return found


def undrawn_edges(cut: PlaneCut) -> list[tuple[int, Pair]]:
    """The edges that were not drawn, each with its cell, as pairs of points of the cut. A cell of one edge has only its ends."""
    drawn = _drawn_edges(cut)
    space = cut.in_space()
    found = []
    for row in np.flatnonzero(not_drawn(cut.counts)).tolist():
        cell, (first, after) = int(cut.cells[row]), cut.cell_points[row].tolist()
        if cut.counts[row, 0] == 1:
            found.append((cell, (first, first + 1)))
            continue
        edges: dict[Pair, None] = {}
        for ends in _segments_of(cut, cell):
            a, b = sorted(first + _nearest(space[first:after], end) for end in ends)
            if a != b and (a, b) not in drawn:
                edges[a, b] = None
        found += [(cell, edge) for edge in edges]
    return found


def _nearest(points: np.ndarray, point: Point) -> int:
    with np.errstate(all="ignore"):  # numbers so large that their squares overflow
        return int(np.argmin(np.linalg.norm(points - point, axis=1)))


def _drawn_edges(cut: PlaneCut) -> set[Pair]:
    """The edges of the rings of cells with edges that were not drawn."""
    found: set[Pair] = set()
    for k in np.flatnonzero(np.isin(cut.polygon_cell, cut.cells[not_drawn(cut.counts) > 0])):
        ring = cut.nodes[cut.ends[k - 1] if k else 0 : cut.ends[k]].tolist()
        found.update((min(pair), max(pair)) for pair in zip(ring, ring[1:] + ring[:1]))
    return found


def _segments_of(cut: PlaneCut, cell: int) -> list[Segment]:
    block = cut.mesh.block_of(cell)
    faces = [[tuple(corner) for corner in cut.mesh.points[face].tolist()] for face in block.faces(cell - block.first)]
    return [segment for face in faces for segment in face_segments(face, cut.near, cut.record.tolerance)]


def face_segments(corners: list[Point], plane: place.Frame, tol: float) -> list[Segment]:
    """The segments of one face, by the rules (docs/RULES.md, 'The segments of a polygon') in their order of operations.

    The library counts the edges that they become, and tells only those that are drawn.
    """
    away = [_away(corner, plane) for corner in corners]
    if not any(d > tol or d < -tol for d in away):
        return []
    sign = 1.0 if any(d > tol for d in away) else -1.0
    clipped: list[Point] = []
    for k, (a, da) in enumerate(zip(corners, away)):
        b, db = corners[(k + 1) % len(corners)], away[(k + 1) % len(corners)]
        inside_a, inside_b = sign * da >= -tol, sign * db >= -tol
        if inside_a != inside_b:
            _push(clipped, _crossing(a, sign * da, b, sign * db, plane), tol)
        if inside_b:
            _push(clipped, b, tol)
    if len(clipped) > 1 and _dist2(clipped[0], clipped[-1]) <= tol * tol:
        clipped.pop()
    found: list[Segment] = []
    for a, b in zip(clipped, clipped[1:] + clipped[:1]):
        on = abs(_away(a, plane)) <= tol and abs(_away(b, plane)) <= tol and _dist2(a, b) > tol * tol
        if on and not any(_alike(a, b, p, q, tol) or _alike(a, b, q, p, tol) for p, q in found):
            found.append((a, b))
    return found


def _away(point: Point, plane: place.Frame) -> float:
    return place.dot(tuple(x - o for x, o in zip(point, plane.origin)), plane.normal)


def _crossing(a: Point, da: float, b: Point, db: float, plane: place.Frame) -> Point:
    t = da / (da - db) if abs(da - db) > np.finfo(float).tiny else 0.5  # by default, which the library counts
    point = tuple(x + t * (y - x) for x, y in zip(a, b))
    away = _away(point, plane)
    return tuple(x - away * n for x, n in zip(point, plane.normal))


def _dist2(a: Point, b: Point) -> float:
    step = tuple(x - y for x, y in zip(a, b))
    return place.dot(step, step)


def _push(clipped: list[Point], point: Point, tol: float) -> None:
    if not clipped or _dist2(clipped[-1], point) > tol * tol:
        clipped.append(point)


def _alike(a: Point, b: Point, p: Point, q: Point, tol: float) -> bool:
    return _dist2(a, p) <= tol * tol and _dist2(b, q) <= tol * tol
