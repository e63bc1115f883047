"""Cells where something was not drawn: does the plane only touch them, or is area lost, and how much?

A cell is cut once more by parallel planes just above and below, 4 tolerances away, and 16; where it is not drawn whole there,
further away, as long as they meet it. What it has there and nobody draws in the plane itself is missing. A piece along an
edge grows with the distance, so the two are carried back to distance 0, and a sliver vanishes. No area is lost if what is
left is not wider than the tolerance. These cuts are in the usual way.

What a cell with pinched edges has is known where the usual way draws it whole in the plane itself: what it has there and
nobody draws is missing. Where the usual way does not draw it whole, no less is missing than what it draws and nobody else
does. Without a pinched polygon that bounds a hole, or that a hole lies in, the hole is drawn as if it were filled: that
much the area is too large.
"""
from __future__ import annotations

from dataclasses import dataclass
from typing import TYPE_CHECKING

import numpy as np
from shapely.geometry import MultiPoint
from shapely.geometry.base import BaseGeometry

from .cells import Cutter, Loops, not_drawn
from .mesh import Block, Mesh, Polyhedra
from .netarea import near_bounds, ring_shapes
from .place import Frame, Vector, moved
from .rings import Rings, simple_rings
from .shapes import less, neighbours, union

if TYPE_CHECKING:
    from .section import Asked, Reached

LEVELS = 11  # distances of 4, 16, 64 .. tolerances
GROWTH = 4


@dataclass
class Near:
    """Some cells cut by a parallel plane, or by the plane itself, in the usual way: the area of each, whether it lists an edge, whether
    all that it lists is drawn, and the rings."""

    cells: np.ndarray
    area: np.ndarray
    listed: np.ndarray
    whole: np.ndarray
    rings: Rings

    def shape(self, cell: int) -> BaseGeometry:
        return _shape(self.rings, cell)


def _shape(rings: Rings, cell: int) -> BaseGeometry:
    first, after = np.searchsorted(rings.cell, [cell, cell + 1])
    return union([shape for _, shape in ring_shapes(rings, range(first, after))])


@dataclass
class Lost:
    """For each cell looked at: the area that is lost, 0 where the plane only touches it; the area of all together; and for each the
    area of holes that are drawn as if they were filled."""

    cells: np.ndarray
    area: np.ndarray
    total: float
    filled: np.ndarray


def lost_area(mesh: Mesh, frame: Frame, asked: Asked, tol: float, cells: np.ndarray, reached: Reached, usual: Near | None, loops: Loops,
              rings: Rings) -> Lost:
    """Of these cells, sorted. For those that lie wholly within the tolerance their corners stand for their section. `usual` has those
    with pinched edges cut in the plane itself."""
    within = {*reached.within.tolist()}
    if not len(cells):
        return Lost(cells, np.zeros(0), 0.0, np.zeros(0))
    found = _Estimate(mesh, frame, asked, tol, cells)
    pinched = {cell: usual.shape(cell) for cell in usual.cells.tolist()} if usual else {}  # what the usual way draws of them
    known = found.drawn_whole(usual, reached.no_segment) if usual else set()
    drawn = np.zeros(len(cells))
    own = np.isin(rings.cell, cells)
    np.add.at(drawn, np.searchsorted(cells, rings.cell[own]), rings.area[own])
    doubtful = np.flatnonzero(found.beyond(drawn, cells) | found.never | np.isin(cells, [*within, *pinched]))
    shapes = {int(k): (pinched[cells[k]], None) if cells[k] in known else found.shapes(int(k), cells[k] in within, loops) for k in doubtful}
    area, filled, pieces = np.zeros(len(cells)), np.zeros(len(cells)), []
    holes = {cell: less(_shape(rings, cell), [shape]) for cell, shape in pinched.items()}  # drawn as if they were filled
    covered = _Drawn(rings, [shape for pair in (*shapes.values(), pinched.values()) for shape in pair], holes)
    for k, (at, further) in shapes.items():
        piece = covered.less(at)
        missing = piece.area if further is None else (GROWTH * piece.area - covered.less(further).area) / (GROWTH - 1)
        if cells[k] in pinched and cells[k] not in known:
            least = covered.less(pinched[cells[k]])
            if least.area > missing:
                at, piece, missing = pinched[cells[k]], least, least.area
        if missing > (1e-9 * at.area if cells[k] in within else tol * at.length / 2):
            area[k] = missing
            pieces.append(piece)
        if cells[k] in pinched and holes[cells[k]].area > tol * pinched[cells[k]].length / 2:
            filled[k] = holes[cells[k]].area
    return Lost(cells, area, float(union(pieces).area) if pieces else 0.0, filled)


class _Drawn:
    """What the plane's own rings cover near some shapes, less the holes of cells that are drawn as if they were filled."""

    def __init__(self, rings: Rings, shapes: list[BaseGeometry | None], holes: dict[int, BaseGeometry]) -> None:
        boxes = [shape.bounds for shape in shapes if shape is not None and not shape.is_empty]
        self.near = None
        if boxes and len(rings.ends):
            low, high = np.min(boxes, axis=0)[:2], np.max(boxes, axis=0)[2:]
            chosen = near_bounds(rings, np.arange(len(rings.ends)), (*low, *high))
            cells = rings.cell.tolist()
            self.near = neighbours([less(shape, [holes[cells[k]]]) if cells[k] in holes else shape for k, shape in ring_shapes(rings, chosen)])

    def less(self, shape: BaseGeometry) -> BaseGeometry:
        """The part of a shape that is not drawn."""
        return less(shape, self.near(shape)) if self.near else shape


class _Estimate:
    """These cells by planes above and below: the area of each carried back to distance 0, the larger of both sides."""

    def __init__(self, mesh: Mesh, frame: Frame, asked: Asked, tol: float, cells: np.ndarray) -> None:
        self.mesh, self.frame, self.asked, self.tol, self.cells = mesh, frame, asked, tol, cells
        self.size = _sizes(mesh, cells)
        self.level = np.full((2, len(cells)), -1)  # the level from which on a cell is drawn whole, above and below
        self.area = np.full(len(cells), np.nan)
        self.cuts: dict[tuple[int, int], Near] = {}
        for side in (0, 1):
            self._settle(side)
        reached = np.logical_or(*(self.cut(side, 0).listed for side in (0, 1)))
        self.never = (self.level < 0).any(axis=0) | ~reached  # never drawn whole above, or below, or not met by a parallel plane

    def _settle(self, side: int) -> None:
        for level in range(LEVELS - 1):
            one, two = self.cut(side, level), self.cut(side, level + 1)
            new = one.whole & two.whole & (self.level[side] < 0)
            # A plane that has left a cell tells nothing of it; where the nearest does not meet it, it has nothing on that side.
            new &= one.listed & two.listed if level else two.listed | ~one.listed
            self.level[side, new] = level
            back = (GROWTH * one.area - two.area) / (GROWTH - 1)
            self.area[new] = np.fmax(self.area[new], back[new])
            if (self.level[side] >= 0).all():
                return

    def beyond(self, area: np.ndarray, cells: np.ndarray) -> np.ndarray:
        """For each of these cells: whether it has more than this area, or it is not known."""
        at = np.searchsorted(self.cells, cells)
        return ~(self.area[at] - area <= self.tol * self.size[at])

    def drawn_whole(self, usual: Near, gaps: np.ndarray) -> set[int]:
        """The cells that the usual way draws whole: of those with a gap, where they have no more than it draws."""
        whole = usual.whole & ~(np.isin(usual.cells, gaps) & self.beyond(usual.area, usual.cells))
        return set(usual.cells[whole].tolist())

    def cut(self, side: int, level: int) -> Near:
        if (side, level) not in self.cuts:
            away = (1 - 2 * side) * self.tol * GROWTH ** (level + 1)
            origin = moved(self.frame.origin, self.frame.normal, away)
            self.cuts[side, level] = cut_alone(self.mesh, origin, self.asked, self.tol, self.cells)
        return self.cuts[side, level]

    def shapes(self, k: int, flat: bool, loops: Loops) -> tuple[BaseGeometry, BaseGeometry | None]:
        """The section of a cell above and below together, at two distances; of a cell that is never drawn whole, the hull of
        its points in the plane if it has any, and of one within the tolerance, that of its corners."""
        cell = int(self.cells[k])
        if flat:
            return MultiPoint(self.frame.in_plane(self.mesh.points[self.mesh.corners(cell)])).convex_hull, None
        row = np.searchsorted(loops.cells, cell)
        if self.never[k] and row < len(loops.cells) and loops.cells[row] == cell:
            return MultiPoint(loops.points[slice(*loops.cell_points[row])]).convex_hull, None
        known = [(side, self.level[side, k]) for side in (0, 1) if self.level[side, k] >= 0]
        at, further = (union([self.cut(side, level + more).shape(cell) for side, level in known]) for more in (0, 1))
        return at, further


def _by_block(mesh: Mesh, cells: np.ndarray) -> list[tuple[Block | Polyhedra, np.ndarray]]:
    """Each block, with those of these cells that it has, by their places in it."""
    bounds = [np.searchsorted(cells, [block.first, block.first + len(block)]) for block in mesh.blocks]
    return [(block, cells[first:after] - block.first) for block, (first, after) in zip(mesh.blocks, bounds)]


def _sizes(mesh: Mesh, cells: np.ndarray) -> np.ndarray:
    """Of each cell: length, width and height together."""
    sizes = [np.ptp(mesh.points[block.corners(part)], axis=1).sum(axis=1) if isinstance(block, Block)
             else np.array([np.ptp(mesh.points[block.corners(k)], axis=0).sum() for k in part])
             for block, part in _by_block(mesh, cells)]
    return np.concatenate(sizes)


def cut_alone(mesh: Mesh, origin: Vector, asked: Asked, tol: float, cells: np.ndarray) -> Near:
    """These cells, sorted, cut in the usual way by the plane through origin with the normal asked for."""
    cutter = Cutter(mesh, origin, asked.normal, tol, scaled=asked.scaled)
    for block, part in _by_block(mesh, cells):
        cutter.cut(block, part)
    loops = cutter.loops()
    rings = simple_rings(loops, tol)
    area, listed, whole = np.zeros(len(cells)), np.zeros(len(cells), dtype=bool), np.ones(len(cells), dtype=bool)
    np.add.at(area, np.searchsorted(cells, rings.cell), rings.area)
    listed[np.searchsorted(cells, loops.cells)] = True
    whole[np.searchsorted(cells, loops.cells)] = not_drawn(loops.counts) == 0
    return Near(cells, area, listed, whole, rings)
