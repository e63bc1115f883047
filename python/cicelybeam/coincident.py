"""Rings that coincide, as where the plane runs along a face that two cells share and both draw it."""
from __future__ import annotations

import numpy as np

# A direction in which the means of rings of a regular grid do not line up, so that few others are held against each ring.
ACROSS = np.array([0.7548776662466927, 0.5698402909980532])
# A ring is held against this many that follow it: more can only be where rings are not wider than the tolerance.
NEIGHBOURS = 16


def coinciding(points: np.ndarray, nodes: np.ndarray, ends: np.ndarray, holes: np.ndarray, tol: float) -> np.ndarray:
    """For each ring the first one that it coincides with, or its own number. `holes` is how many holes each ring has, or -1 where it
    bounds one.

    Rings coincide if they have the same number of points, each within twice the tolerance of one of the other's, and as many
    holes, or bound holes both: a cell that fills a hole of another draws what that one does not. Then their means are about as
    close, so they are looked for among neighbours in one direction. Rings that are not wider than some tolerances do not
    count: neighbours among them are as close.
    """
    first = np.arange(len(ends))
    if len(ends) < 2:
        return first
    starts = np.concatenate([[0], ends[:-1]])
    lengths = ends - starts
    place = np.add.reduceat((points @ ACROSS)[nodes], starts) / lengths
    order = np.argsort(place)
    for step in range(1, min(NEIGHBOURS, len(order))):
        a, b = order[:-step], order[step:]
        near = place[b] - place[a] <= 4 * tol
        if not near.any():
            break
        pairs = np.stack([a, b], axis=1)[near & (lengths[a] == lengths[b]) & (holes[a] == holes[b])]
        for one, other in pairs[_match(points, nodes, starts, lengths, pairs, 2 * tol)].tolist():
            _join(first, one, other)
    for k in np.flatnonzero(first != np.arange(len(first))):
        first[k] = _root(first, int(k))
    return first


def _match(points: np.ndarray, nodes: np.ndarray, starts: np.ndarray, lengths: np.ndarray, pairs: np.ndarray, within: float) -> np.ndarray:
    """For each pair of rings of one length: whether each point of one is near a point of the other."""
    found = np.zeros(len(pairs), dtype=bool)
    for length in np.unique(lengths[pairs[:, 0]]):
        chosen = np.flatnonzero(lengths[pairs[:, 0]] == length)
        a, b = (points[nodes[starts[pairs[chosen, k]][:, None] + np.arange(length)]] for k in (0, 1))
        near = np.linalg.norm(a[:, :, None] - b[:, None], axis=3) <= within
        found[chosen] = near.any(axis=1).all(axis=1) & near.any(axis=2).all(axis=1) & _wide(a, 4 * within)
    return found


def _wide(rings: np.ndarray, width: float) -> np.ndarray:
    """For each ring of one length, as rows of corners: whether its area is more than that of a strip of this width."""
    x, y = (rings - rings[:, :1]).transpose(2, 0, 1)
    area = 0.5 * (x * np.roll(y, -1, axis=1) - np.roll(x, -1, axis=1) * y).sum(axis=1)
    return np.abs(area) > width * np.maximum(np.ptp(x, axis=1), np.ptp(y, axis=1))


def _root(first: np.ndarray, k: int) -> int:
    while first[k] != k:
        k = int(first[k])
    return k


def _join(first: np.ndarray, a: int, b: int) -> None:
    a, b = _root(first, a), _root(first, b)
    first[max(a, b)] = min(a, b)
