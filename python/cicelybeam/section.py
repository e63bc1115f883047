"""One plane through a mesh: the calls for the cells that it may meet, and what is made of their answers."""
from __future__ import annotations

from dataclasses import dataclass, replace
from functools import cached_property

import numpy as np

from . import place
from .cells import PINCHED, Cutter, Loops, Progress, cells_with_gaps, not_drawn
from .jumps import JUMP, Jumps, find_jumps
from .lost import Lost, cut_alone, lost_area
from .mesh import Block, Mesh, Polyhedra
from .netarea import NetArea, net_area
from .place import ABOVE, BELOW, Vector
from .rings import Rings, simple_rings
from .shift import Drawn


@dataclass(frozen=True)
class Asked:
    """What a cut was asked for: the plane as given, the tolerance and the mesh's own, the ways, and a distance along the unit normal."""

    origin: Vector
    normal: Vector
    tol: float
    own: float
    scaled: bool = True
    strict: bool = False
    shift: float = 0.0


@dataclass
class Reached:
    """The cells of the mesh that were not left out, by what the plane does to them."""

    handed_over: int
    through: np.ndarray  # cells with a corner above the tolerance and one below its negative
    above: np.ndarray  # cells with corners above and none below
    within: np.ndarray  # cells with all corners within the tolerance of the plane
    not_finite: np.ndarray  # cells with a corner coordinate that is NaN or infinite
    curved: int  # cells with mid-side nodes
    no_edge: np.ndarray  # cells that the plane passes through and that list no edge
    no_segment: np.ndarray  # cells that list edges, with a face that has corners on both sides and no segment


class Section:
    """The cells of a mesh cut by one plane."""

    def __init__(self, mesh: Mesh, asked: Asked, leave_out: bool = True, progress: Progress | None = None) -> None:
        self.mesh, self.asked = mesh, asked
        given = place.plane(asked.origin, asked.normal, asked.scaled)
        near = place.nearest_in_plane(asked.origin, place.taken(asked.normal, asked.scaled), mesh.centre() or asked.origin)
        self.frame, self.near = (replace(given, origin=place.moved(origin, given.normal, asked.shift)) for origin in (asked.origin, near))
        self.sides = place.sides(mesh.points, self.near.origin, self.near.normal, asked.tol)
        # of each node, or None where all are: a sum tells quickly, but for one that overflows
        self.finite = None if np.isfinite(mesh.points.sum()) else np.isfinite(mesh.points).all(axis=1)
        self.cutter = Cutter(mesh, self.near.origin, asked.normal, asked.tol, asked.own, asked.scaled, asked.strict)
        self.reached = self._cut(leave_out, progress)
        self.loops: Loops = self.cutter.loops()
        self.rings: Rings = simple_rings(self.loops, self.tol)

    def _cut(self, leave_out: bool, progress: Progress | None) -> Reached:
        """Cuts the cells that may have a segment."""
        chosen = [np.flatnonzero(self.sides.reached(block)) for block in self.mesh.blocks]
        handed = chosen if leave_out else [np.arange(len(block)) for block in self.mesh.blocks]
        total, done, parts = sum(map(len, handed)), 0, []
        for block, kept, cells in zip(self.mesh.blocks, chosen, handed):
            step = progress and (lambda k, done=done: progress(done + k, total))
            listed = self.cutter.cut(block, cells, step)["listed"][np.searchsorted(cells, kept)]
            done += len(cells)
            parts.append(self._told_apart(block, kept, listed))
        found = {name: np.concatenate([part[name] for part in parts]) for name in parts[0]}
        curved = sum(len(kept) for block, kept in zip(self.mesh.blocks, chosen) if block.kind.curved)
        return Reached(handed_over=total, curved=curved, **found)

    def _told_apart(self, block: Block | Polyhedra, kept: np.ndarray, listed: np.ndarray) -> dict[str, np.ndarray]:
        """The cells of a block that the plane may reach, by what it does to them; `listed` is the number of edges of each."""
        met = self.sides.met(block, kept)
        through = met == ABOVE | BELOW
        edges = through & (listed > 0)
        odd = np.zeros(len(kept), dtype=bool) if self.finite is None else ~block.folded(np.logical_and, self.finite, kept)
        found = {
            "through": kept[through], "above": kept[met == ABOVE], "within": kept[met == 0], "not_finite": kept[odd],
            "no_edge": kept[through & (listed == 0)],
            "no_segment": cells_with_gaps(self.cutter, block, kept[edges], listed[edges], self.sides),
        }
        return {name: block.first + part for name, part in found.items()}

    @property
    def tol(self) -> float:
        """The tolerance, or the mesh's own where that is larger and finite: what is closer cannot be told apart."""
        return max(self.asked.own, self.asked.tol) if self.asked.own < np.inf else self.asked.tol

    @cached_property
    def side(self) -> np.ndarray:
        """Of each ring: 0 where the plane passes through its cell, 1 where the cell lies above and is touched, -1 below."""
        found = np.where(np.isin(self.rings.cell, self.reached.above), 1, -1).astype(np.int8)
        found[np.isin(self.rings.cell, self.reached.through)] = 0
        return found

    @cached_property
    def net(self) -> NetArea:
        return net_area(self.rings, self.side, self.tol)

    @cached_property
    def jumps(self) -> Jumps:
        found = find_jumps(self.mesh, self.near, self.sides, np.setdiff1d(self.reached.through, self.reached.not_finite))
        return found if found.area > JUMP * self.net.area else Jumps([], 0.0)

    @cached_property
    def pinched(self) -> np.ndarray:
        """The cells with pinched edges, which are in the strict way alone."""
        return self.loops.cells[self.loops.counts[:, PINCHED] > 0]

    @cached_property
    def doubtful(self) -> np.ndarray:
        """The cells where something was not drawn."""
        undrawn = self.loops.cells[not_drawn(self.loops.counts) > 0]
        found = np.unique(np.concatenate([undrawn, self.reached.no_edge, self.reached.no_segment, self.reached.within]))
        return np.setdiff1d(found, self.reached.not_finite)

    @cached_property
    def lost(self) -> Lost:
        pinched = np.intersect1d(self.pinched, self.doubtful)
        usual = cut_alone(self.mesh, self.near.origin, self.asked, self.asked.tol, pinched) if len(pinched) else None
        return lost_area(self.mesh, self.near, self.asked, self.tol, self.doubtful, self.reached, usual, self.loops, self.rings)

    def drawn(self, looked_at: int) -> Drawn:
        """How much is drawn. Where something is not drawn in more cells than are to be looked at, area counts as lost."""
        if self.jumps.area or len(self.reached.not_finite) or self.loops.defaulted_by_cell:
            return Drawn.NOT_ALL
        if not len(self.doubtful):
            return Drawn.ALL
        return Drawn.AREA if len(self.doubtful) <= looked_at and not (self.lost.area.any() or self.lost.filled.any()) else Drawn.NOT_ALL
