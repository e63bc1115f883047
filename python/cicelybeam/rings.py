"""Loops cut into simple rings, and which of them bound holes.

A loop may pass through a point twice. It is cut there. No listed edge is in a loop twice (`unrepeated`, docs/CLAIMS.md),
so each part has at least three different points. Over all rings of one cell the even-odd rule decides: a ring inside an odd
number of others bounds a hole, and rings side by side add up. Rings that cross away from their points, as a badly twisted
brick can have, are cut up by shapely at the crossings, which become new points.
"""
from __future__ import annotations

from dataclasses import dataclass

import numpy as np
from shapely.geometry import LinearRing, Point, Polygon
from shapely.ops import polygonize

from .cells import Loops
from .shapes import overlap, union

Row = list[int]  # the points of a ring, by number
NEARLY = 1e-9  # of an area: what two rings may share by rounding without crossing


@dataclass
class Rings:
    """Simple rings, cell by cell, in the form of loops. Holes run clockwise and have negative areas. A ring that is a whole loop
    runs as the library gives it, counter-clockwise but for rounding."""

    points: np.ndarray  # those of the loops, then those where rings cross
    nodes: np.ndarray
    ends: np.ndarray
    cell: np.ndarray
    area: np.ndarray
    hole: np.ndarray
    outer: np.ndarray  # the number of the ring that a ring is a hole of, or its own
    self_touching: int  # loops that pass through a point twice
    crossing: int  # cells with rings that cross


def simple_rings(loops: Loops, tol: float) -> Rings:
    """Loops not wider than the tolerance are left as they are: whether such a one crosses itself is a matter of rounding."""
    around = Around(loops.points, loops.nodes, loops.ends)
    special = _special_cells(loops, around, tol)
    if not len(special):
        count = len(loops.ends)
        return Rings(loops.points, loops.nodes, loops.ends, loops.cell, around.areas(), np.zeros(count, dtype=bool), np.arange(count), 0, 0)
    ordinary = ~np.isin(loops.cell, special)
    lengths = np.diff(loops.ends, prepend=0)
    rings = Rings(loops.points, loops.nodes[np.repeat(ordinary, lengths)], np.cumsum(lengths[ordinary]), loops.cell[ordinary],
                  np.zeros(0), np.zeros(ordinary.sum(), dtype=bool), np.arange(ordinary.sum()), 0, 0)
    _add_special(rings, loops, np.flatnonzero(~ordinary), tol)
    rings.area = Around(rings.points, rings.nodes, rings.ends).areas()
    return rings


class Around:
    """The corners of rings, x and y, each from its ring's first so that a distant origin costs no digits."""

    def __init__(self, points: np.ndarray, nodes: np.ndarray, ends: np.ndarray) -> None:
        self.starts = np.concatenate([[0], ends[:-1]]) if len(ends) else ends
        self.lengths = np.diff(ends, prepend=0)
        self.following = np.arange(1, len(nodes) + 1)
        if len(ends):
            self.following[ends - 1] = self.starts
        first = np.repeat(nodes[self.starts], self.lengths)
        self.x, self.y = (column[nodes] - column[first] for column in (points[:, 0], points[:, 1]))

    def areas(self) -> np.ndarray:
        """The area of each ring, negative where it is clockwise."""
        x, y = self.x[self.following], self.y[self.following]
        return 0.5 * self.each(np.add, self.x * y - x * self.y)

    def each(self, fold: np.ufunc, values: np.ndarray) -> np.ndarray:
        """These values, one for each corner, folded for each ring."""
        return fold.reduceat(values, self.starts) if len(self.starts) else np.zeros(0, dtype=values.dtype)

    def convex(self) -> np.ndarray:
        """For each ring: whether it turns left all around, but for rounding, and goes around once; then it cannot cross itself."""
        dx, dy = (a[self.following] - a for a in (self.x, self.y))
        turn = dx * dy[self.following] - dx[self.following] * dy
        size = self.each(np.maximum, np.maximum(np.abs(self.x), np.abs(self.y)))
        upward = dx > 0
        changes = self.each(np.add, (upward != upward[self.following]).astype(np.int32))
        return (self.each(np.minimum, turn) >= -1e-12 * size**2) & (changes <= 2)


def _special_cells(loops: Loops, around: Around, tol: float) -> np.ndarray:
    """Cells with several loops, with a point that loops pass through twice, or with a loop that crosses itself."""
    several = loops.cell[1:][loops.cell[1:] == loops.cell[:-1]]
    twice = np.flatnonzero(np.bincount(loops.nodes, minlength=1) > 1)
    through = np.repeat(loops.cell, around.lengths)[np.isin(loops.nodes, twice)] if len(twice) else several[:0]
    bent = np.flatnonzero(~around.convex())
    crossing = loops.cell[[k for k in bent if _cross([Polygon(loops.points[_row(loops, k)])], tol)]]
    return np.unique(np.concatenate([several, through, crossing]))


def _row(loops: Loops, k: int) -> np.ndarray:
    return loops.nodes[loops.ends[k - 1] if k else 0 : loops.ends[k]]


def _add_special(rings: Rings, loops: Loops, chosen: np.ndarray, tol: float) -> None:
    """Adds the rings of these loops, all loops of their cells, and puts all rings in the order of cells."""
    rows: list[Row] = []
    cells: list[int] = []
    outer: list[int] = []
    new: list[tuple[float, float]] = []
    owners, first = np.unique(loops.cell[chosen], return_index=True)
    for cell, own in zip(owners.tolist(), np.split(chosen, first[1:])):
        found: list[Row] = []
        for k in own:
            parts = cut_at_repeated_points(_row(loops, k).tolist())
            rings.self_touching += len(parts) > 1
            found += parts
        found, holes_of, crossed = _even_odd(found, loops.points, tol, new)
        rings.crossing += crossed
        outer += [len(rows) + k for k in holes_of]
        rows += found
        cells += [cell] * len(found)
    _merge(rings, rows, cells, outer)
    rings.points = np.concatenate([loops.points, np.array(new).reshape(-1, 2)])


def _merge(rings: Rings, rows: list[Row], cells: list[int], outer: list[int]) -> None:
    before = len(rings.ends)
    lengths = np.concatenate([np.diff(rings.ends, prepend=0), np.array([len(row) for row in rows], dtype=np.int64)])
    cell = np.concatenate([rings.cell, np.array(cells, dtype=np.int64)])
    all_outer = np.concatenate([rings.outer, before + np.array(outer, dtype=np.int64)])
    nodes = np.concatenate([rings.nodes, np.array([k for row in rows for k in row], dtype=np.int64)])
    order = np.argsort(cell, kind="stable")
    place = np.empty_like(order)
    place[order] = np.arange(len(order))
    by_ring = np.argsort(np.repeat(place, lengths), kind="stable")
    rings.nodes, rings.ends, rings.cell = nodes[by_ring], np.cumsum(lengths[order]), cell[order]
    rings.outer = place[all_outer[order]]
    rings.hole = rings.outer != np.arange(len(order))


def cut_at_repeated_points(row: Row) -> list[Row]:
    """
    >>> cut_at_repeated_points([0, 1, 2, 3, 1, 4])
    [[1, 2, 3], [0, 1, 4]]
    """
    rings: list[Row] = []
    walked: Row = []
    place: dict[int, int] = {}
    for point in row:
        if point in place:
            start = place[point]
            rings.append(walked[start:])
            for left in walked[start + 1 :]:
                del place[left]
            del walked[start + 1 :]
        else:
            place[point] = len(walked)
            walked.append(point)
    return [*rings, walked]


def _even_odd(rows: list[Row], points: np.ndarray, tol: float, new: list[tuple[float, float]]) -> tuple[list[Row], list[int], bool]:
    """The rings of one cell, outer ones counter-clockwise and holes clockwise; for each the ring that it is a hole of, or
    itself; and whether rings cross, so that they had to be cut up."""
    shapes = [Polygon(points[row]) for row in rows]
    crossed = _cross(shapes, tol)
    if crossed:
        rows = _cut_at_crossings(rows, points, new)
        known = np.concatenate([points, np.array(new).reshape(-1, 2)])
        shapes = [Polygon(known[row]) for row in rows]
    inner = [shape.representative_point() if shape.is_valid else Point(shape.exterior.coords[0]) for shape in shapes]
    outer = []
    for k, point in enumerate(inner):
        around = [j for j, shape in enumerate(shapes) if (shape.area, j) > (shapes[k].area, k) and shape.contains(point)]
        outer.append(min(around, key=lambda j: shapes[j].area) if len(around) % 2 else k)
    for k, shape in enumerate(shapes):
        if shape.exterior.is_ccw == (outer[k] != k):
            rows[k] = rows[k][::-1]
    return rows, outer, crossed


def _cross(shapes: list[Polygon], tol: float) -> bool:
    """Whether a ring crosses itself, or two rings cross: they share an area that is that of neither."""
    if any(not shape.is_valid and _crosses_itself(shape, tol) for shape in shapes):
        return True
    wide = [shape for shape in shapes if shape.is_valid]
    for k, one in enumerate(wide):
        for other in wide[:k]:
            shared, least = overlap(one, other), min(one.area, other.area)
            if max(NEARLY * least, tol * one.length) < shared < (1 - NEARLY) * least - tol * one.length:
                return True
    return False


def _crosses_itself(shape: Polygon, tol: float) -> bool:
    """Whether the parts around which it runs have together more than its own area, by more than a strip as wide as the tolerance."""
    return sum(part.area for part in polygonize(union([shape.exterior]))) - shape.area > tol * shape.length


def _cut_at_crossings(rows: list[Row], points: np.ndarray, new: list[tuple[float, float]]) -> list[Row]:
    """The rings around the region that is inside an odd number of rings. Points that are not known yet are added to `new`."""
    lines = [LinearRing(points[row]) for row in rows]
    edges = [(points[row], points[np.roll(row, -1)]) for row in rows]
    parts = [part for part in polygonize(union(lines)) if _inside(part.representative_point(), edges)]
    region = union(parts)
    number = {tuple(points[k]): k for row in rows for k in row}
    found: list[Row] = []
    for shape in getattr(region, "geoms", [region]):
        for ring in (shape.exterior, *shape.interiors):
            for xy in ring.coords[:-1]:
                if xy not in number:
                    number[xy] = len(points) + len(new)
                    new.append(xy)
            found.append([number[xy] for xy in ring.coords[:-1]])
    return [part for row in found for part in cut_at_repeated_points(row)]


def _inside(point, edges: list[tuple[np.ndarray, np.ndarray]]) -> bool:
    """Whether a ray to the right of the point crosses an odd number of edges."""
    crossings = 0
    for a, b in edges:
        spans = (a[:, 1] > point.y) != (b[:, 1] > point.y)
        a, b = a[spans], b[spans]
        crossings += int((a[:, 0] + (point.y - a[:, 1]) / (b[:, 1] - a[:, 1]) * (b[:, 0] - a[:, 0]) > point.x).sum())
    return crossings % 2 == 1
