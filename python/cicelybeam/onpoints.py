"""Fields of the mesh's nodes on the points of a section, and points that several cells share.

Each point of a section lies on an edge of its cell, or in a corner. So a field there is its value between the two ends of the
edge. Cells on both sides of an edge give the same value there but for rounding. Mid-side nodes are left out, as in the cut.
"""
from __future__ import annotations

import numpy as np

from . import place
from .mesh import Polyhedra
from .plane import PlaneCut

CHUNK = 1 << 16  # points looked at in one go
NEIGHBOURS = 4  # a point is held against so many less one that follow it in its square


def between_nodes(cut: PlaneCut) -> tuple[np.ndarray, np.ndarray]:
    """For each point of the section: two nodes of the mesh, and how far from the first to the second it is (0 to 1)."""
    ends = np.zeros((len(cut.points), 2), dtype=np.int64)
    part = np.full(len(cut.points), np.nan)
    away = place.distances(cut.mesh.points, cut.near.origin, cut.near.normal)
    space = cut.in_space()
    first, after = cut.cell_points.T
    owner = np.repeat(np.arange(len(cut.cells)), after - first)  # the row of the cell of each point that the library gave
    for block in cut.mesh.blocks:
        low, high = np.searchsorted(cut.cells, (block.first, block.first + len(block)))
        if isinstance(block, Polyhedra):
            groups = [np.flatnonzero(owner == row) for row in range(low, high)]
        else:
            points = np.flatnonzero((owner >= low) & (owner < high))
            groups = [points[start : start + CHUNK] for start in range(0, len(points), CHUNK)]
        for points in groups:
            if len(points):
                pairs = _edges(block, cut.cells[owner[points]] - block.first)
                ends[points], part[points] = _nearest(cut, space[points], pairs, away)
    return ends, part


def _edges(block, cells: np.ndarray) -> np.ndarray:
    """The edges of these cells of a block, as pairs of nodes, and each corner as a pair of itself."""
    if isinstance(block, Polyhedra):
        faces, rows = block.faces(int(cells[0])), None
        nodes = np.unique(np.concatenate(faces))
    else:
        faces, rows = block.kind.faces, block.nodes[cells]
        nodes = np.arange(block.kind.corners)
    pairs = {tuple(sorted((int(a), int(b)))) for face in faces for a, b in zip(face, np.roll(face, -1))}
    table = np.array([*sorted(pairs), *((k, k) for k in nodes.tolist())])
    return np.broadcast_to(table, (len(cells), *table.shape)) if rows is None else rows[:, table]


def _nearest(cut: PlaneCut, space: np.ndarray, pairs: np.ndarray, away: np.ndarray) -> tuple[np.ndarray, np.ndarray]:
    """Of each point's pairs of nodes: the one that meets the plane nearest to it, and where."""
    a, b = pairs[:, :, 0], pairs[:, :, 1]
    da, db = away[a], away[b]
    tol = cut.record.tolerance
    with np.errstate(all="ignore"):
        by_default = (da != db) & (np.abs(da - db) <= np.finfo(float).tiny)  # in the middle, as the library has it
        part = np.where(by_default, 0.5, np.clip(np.nan_to_num(da / (da - db)), 0.0, 1.0))
        meets = (np.minimum(da, db) <= tol) & (np.maximum(da, db) >= -tol)
        place_of = cut.mesh.points[a] + part[:, :, None] * (cut.mesh.points[b] - cut.mesh.points[a])
        apart = np.where(meets, np.linalg.norm(place_of - space[:, None], axis=2), np.inf)
    best = np.argmin(np.nan_to_num(apart, nan=np.inf), axis=1)
    rows = np.arange(len(pairs))
    return pairs[rows, best], part[rows, best]


def point_values(cut: PlaneCut) -> dict[str, np.ndarray]:
    """The mesh's fields of nodes on each point of the section. A point where rings cross lies on no edge and has NaN."""
    if not cut.mesh.point_fields or not len(cut.points):
        return {name: np.zeros((0, *values.shape[1:])) for name, values in cut.mesh.point_fields.items()}
    ends, part = between_nodes(cut)
    found = {}
    for name, values in cut.mesh.point_fields.items():
        t = part if values.ndim == 1 else part[:, None]
        one, other = values[ends[:, 0]], values[ends[:, 1]]
        found[name] = np.where(t == 0, one, np.where(t == 1, other, one + t * (other - one)))
    return found


def welded(points: np.ndarray, within: float) -> tuple[np.ndarray, np.ndarray]:
    """Points no further apart than this become one: the first of each, by number, and for each point the number of its first.

    Neighbours in sorted order in one square of a grid are held against each other. Points closer than half a square share a
    square in one of four grids, shifted by half a square along each axis or not.
    """
    leader = np.arange(len(points))
    if within > 0 and len(points):
        for shift in ((0.0, 0.0), (0.5, 0.0), (0.0, 0.5), (0.5, 0.5)):
            square = np.floor(points / (2 * within) + shift)
            order = np.lexsort((points[:, 1], points[:, 0], square[:, 1], square[:, 0]))
            for step in range(1, NEIGHBOURS):
                a, b = order[:-step], order[step:]
                near = (square[a] == square[b]).all(axis=1) & (np.hypot(*(points[a] - points[b]).T) <= within)
                leader = _joined(leader, a[near], b[near])
    firsts, number = np.unique(leader, return_inverse=True)
    return firsts, number


def _joined(leader: np.ndarray, a: np.ndarray, b: np.ndarray) -> np.ndarray:
    """The least number of all that are joined, over these pairs and those before."""
    while (leader[a] != leader[b]).any():
        least = np.minimum(leader[a], leader[b])
        found = leader.copy()
        for ends in (a, b):
            np.minimum.at(found, leader[ends], least)
            np.minimum.at(found, ends, least)
        leader = found[found]
    return leader
