"""The area of a section where the plane runs along faces, so that cells on both sides draw the same place.

Rings of cells that the plane passes through count as they are. Rings of cells that it only touches are kept by side, above
or below; what counts is their union, less what cells that are passed through draw of it. Rings that coincide count once.
The rest goes through shapely, so that sides that do not match are right too.
"""
from __future__ import annotations

from collections.abc import Iterable
from dataclasses import dataclass

import numpy as np
from shapely.geometry import Polygon
from shapely.geometry.base import BaseGeometry

from .coincident import coinciding
from .rings import Rings
from .shapes import neighbours, overlap, union


ROUNDING = 1e-13  # of the area: what neighbours overlap by rounding


@dataclass(frozen=True)
class NetArea:
    """The area of the section, what the rings' areas have beyond it, and how many rings coincide with another one."""

    area: float
    repeated: float
    coincident: int
    doubled: int  # of these, rings of cells that the plane passes through: cells that are in the mesh twice


def net_area(rings: Rings, side: np.ndarray, tol: float) -> NetArea:
    first = _first_alike(rings, tol)
    again = first != np.arange(len(first))
    alone = ~again
    alone[first[again & (side != side[first])]] = False  # where cells are in the mesh twice, one of them is held against the other side
    through = np.flatnonzero(side == 0)
    through = through[np.sort(np.unique(first[through], return_index=True)[1])]
    total = float(rings.area.sum())
    repeated = float(rings.area[again].sum()) + _repeated(rings, side, alone & (side != 0), through)
    if repeated <= ROUNDING * total:
        repeated = 0.0
    coincident = len(np.union1d(np.flatnonzero(again), first[again]))
    return NetArea(total - repeated, repeated, coincident, int((again & (side == 0)).sum()))


def _first_alike(rings: Rings, tol: float) -> np.ndarray:
    """For each ring the first one that it coincides with, or its own number; a ring with holes and these coincide only all together."""
    bounding = np.flatnonzero(rings.hole)
    holes = np.bincount(rings.outer[bounding], minlength=len(rings.ends))
    holes[bounding] = -1
    first = coinciding(rings.points, rings.nodes, rings.ends, holes, tol)
    found = np.where(holes == 0, first, np.arange(len(first)))
    bounding = bounding[np.lexsort((first[bounding], rings.outer[bounding]))]
    outers, starts = np.unique(rings.outer[bounding], return_index=True)
    known: dict[tuple[int, ...], np.ndarray] = {}
    for outer, own in zip(outers, np.split(bounding, starts[1:])):
        whole = np.array([outer, *own])
        found[whole] = known.setdefault(tuple(first[whole].tolist()), whole)
    return found


def _repeated(rings: Rings, side: np.ndarray, touched: np.ndarray, through: np.ndarray) -> float:
    """What touched rings that coincide with none of the other side have in common with that side's, and with what is passed through."""
    above, below = (np.flatnonzero(touched & (side == way)) for way in (1, -1))
    if not (len(above) and len(below)) and not ((len(above) or len(below)) and len(through)):
        return 0.0
    chosen = np.concatenate([above, below])
    both = union([shape for _, shape in ring_shapes(rings, chosen)])
    beneath = _over(both, [shape for _, shape in ring_shapes(rings, near_bounds(rings, through, both.bounds))])
    return float(rings.area[chosen].sum()) - both.area + beneath


def near_bounds(rings: Rings, chosen: np.ndarray, bounds: tuple[float, float, float, float]) -> np.ndarray:
    """Of these rings, those with a corner's x and y range that reaches into the bounds."""
    if not len(chosen):
        return chosen
    starts = np.concatenate([[0], rings.ends[:-1]])
    corners = rings.points[rings.nodes]
    low, high = np.minimum.reduceat(corners, starts)[chosen], np.maximum.reduceat(corners, starts)[chosen]
    return chosen[(high[:, 0] >= bounds[0]) & (high[:, 1] >= bounds[1]) & (low[:, 0] <= bounds[2]) & (low[:, 1] <= bounds[3])]


def _over(both: BaseGeometry, shapes: list[BaseGeometry]) -> float:
    """The area of the union of both sides that these shapes cover; they do not overlap."""
    near = neighbours(list(getattr(both, "geoms", [both])))
    return sum(overlap(part, shape) for shape in shapes for part in near(shape))


def ring_shapes(rings: Rings, chosen: Iterable[int]) -> list[tuple[int, BaseGeometry]]:
    """The outer rings among these with all of their holes, as shapely's polygons, by the number of the outer ring."""
    outer = {int(k): [] for k in chosen if not rings.hole[k]}
    for k in np.flatnonzero(rings.hole):
        if int(rings.outer[k]) in outer:
            outer[int(rings.outer[k])].append(ring_points(rings, int(k)))
    shapes = [(k, Polygon(ring_points(rings, k), holes)) for k, holes in outer.items()]
    return [(k, shape if shape.is_valid else shape.buffer(0)) for k, shape in shapes]


def ring_points(rings: Rings, k: int) -> np.ndarray:
    return rings.points[rings.nodes[rings.ends[k - 1] if k else 0 : rings.ends[k]]]
