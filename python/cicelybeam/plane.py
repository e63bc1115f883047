"""A mesh cut by a plane."""
from __future__ import annotations

import math
from collections.abc import Iterator
from dataclasses import dataclass, field, replace
from functools import cached_property

import meshio
import numpy as np

from . import place
from .cells import Progress, not_drawn
from .library import slice_tolerance
from .mesh import Mesh, of_meshio
from .place import Frame
from .publish import Published
from .record import PlaneRecord, counted, plane_record, number
from .refusal import CicelybeamError, MeshError
from .section import Asked, Section
from .shift import LOOKED_AT, MOST, Drawn, Wanted, extent_of, nearest_shift
from .traces import Traces, gather


@dataclass(repr=False)
class PlaneCut(Published):
    """The polygons of a cut, and the account of every listed edge.

    Points are in the plane, from its origin; `in_space()` gives them in space. Polygons are simple rings: ring k has the
    points nodes[ends[k - 1]:ends[k]] (from 0 for the first), counter-clockwise, or clockwise where it bounds a hole; of a
    very thin ring rounding decides it. `shapes()` puts outer rings and holes together.
    """

    mesh: Mesh
    frame: Frame
    near_points: np.ndarray  # x and y of each point in the plane, from near's origin
    nodes: np.ndarray  # points of ring after ring
    ends: np.ndarray  # number of nodes up to and with each ring
    polygon_cell: np.ndarray  # the cell of each ring
    polygon_area: np.ndarray  # negative for a hole
    hole: np.ndarray  # whether a ring bounds a hole of its cell's section
    outer: np.ndarray  # the ring that a ring is a hole of, or its own number
    side: np.ndarray  # 0: the plane passes through the ring's cell; 1: the cell lies above and is touched; -1: below
    cells: np.ndarray  # the cells that list an edge
    counts: np.ndarray  # for each of them: listed, in loops, pinched, flat, open
    cell_points: np.ndarray  # for each of them: the first of its points, and the one after the last
    defaulted_by_cell: dict[int, int]  # crossings that lie in the middle by default, of each cell with any, also of one that lists no edge
    compared: np.ndarray  # the cells with a comparison of points, also one that lists no edge
    compared_counts: np.ndarray  # for each of them: how many
    near: Frame  # the same plane, from the point of it that is nearest the mesh's middle; cells are cut from there
    asked: Asked
    record: PlaneRecord
    _traces: Traces | None = field(default=None, init=False)

    def __len__(self) -> int:
        return len(self.ends)

    def __repr__(self) -> str:
        return f"<PlaneCut of {self.mesh.source}: {number(len(self), 'ring')}, area {self.record.area:.12g}>"

    def polygon(self, k: int) -> np.ndarray:
        """The points of ring k."""
        return self.points[self.nodes[self.ends[k - 1] if k else 0 : self.ends[k]]]

    def polygons(self) -> Iterator[np.ndarray]:
        return (self.polygon(k) for k in range(len(self)))

    def shapes(self) -> Iterator[tuple[int, np.ndarray, list[np.ndarray]]]:
        """For each outer ring: its cell, its points, and those of its holes."""
        holes: dict[int, list[np.ndarray]] = {}
        for k in np.flatnonzero(self.hole).tolist():
            holes.setdefault(int(self.outer[k]), []).append(self.polygon(k))
        for k in np.flatnonzero(~self.hole).tolist():
            yield int(self.polygon_cell[k]), self.polygon(k), holes.get(k, [])

    @cached_property
    def points(self) -> np.ndarray:
        """x and y of each point, from the plane's origin."""
        with np.errstate(all="ignore"):  # as in the cut itself
            return self.near_points + self.offset

    @property
    def offset(self) -> np.ndarray:
        """Where near's origin is in the plane."""
        return self.frame.in_plane(np.array([self.near.origin]))

    def in_space(self) -> np.ndarray:
        """The points in space, three numbers each; an origin far away costs them no digit."""
        return self.near.in_space(self.near_points)

    @property
    def defaulted(self) -> int:
        """How many crossings lie in the middle of their edge by default, in all cells."""
        return sum(self.defaulted_by_cell.values())

    def defaulted_of(self, cells: np.ndarray) -> np.ndarray:
        """How many crossings each of these cells has that lie in the middle of their edge by default."""
        return np.array([self.defaulted_by_cell.get(cell, 0) for cell in cells.tolist()], dtype=np.int64)

    @property
    def comparisons(self) -> int:
        """How many comparisons of points welding made, in all cells, of this cut alone: those of planes that were tried are not in it."""
        return int(self.compared_counts.sum(dtype=np.int64))

    @property
    def comparisons_by_cell(self) -> dict[int, int]:
        """How many each cell with any has, also one that lists no edge."""
        return dict(zip(self.compared.tolist(), self.compared_counts.tolist()))

    def comparisons_of(self, cells: np.ndarray) -> np.ndarray:
        """How many comparisons of points each of these cells has."""
        at = np.searchsorted(self.compared, cells)
        return np.where(np.append(self.compared, -1)[at] == cells, np.append(self.compared_counts, 0)[at], 0)

    def cell_area(self) -> np.ndarray:
        """The area drawn for each of `cells`."""
        found = np.zeros(len(self.cells))
        np.add.at(found, np.searchsorted(self.cells, self.polygon_cell), self.polygon_area)
        return found

    def cell_middle(self) -> np.ndarray:
        """The mean of the points that the cut gives for each of `cells`."""
        return self._cell_means(self.points)

    def cell_middle_in_space(self) -> np.ndarray:
        """The same in space, three numbers each; an origin far away costs it no digit."""
        return self.near.in_space(self._cell_means(self.near_points))

    def _cell_means(self, points: np.ndarray) -> np.ndarray:
        first, after = self.cell_points.T
        if not len(self.cells):
            return np.zeros((0, 2))
        return np.add.reduceat(points[: after[-1]], first, axis=0) / (after - first)[:, None]

    def undrawn_points(self) -> dict[int, np.ndarray]:
        """For each cell with edges that were not drawn: the points that the cut gives for it."""
        rows = np.flatnonzero(not_drawn(self.counts))
        return {int(self.cells[k]): self.points[slice(*self.cell_points[k])] for k in rows}

    def traces(self) -> Traces:
        """The traces of the plane on the faces of cells: the segments of the cut before they are stitched, not welded.

        They are gathered at the first call and kept, and the record tells their number from then on.

        >>> cube = meshio.Mesh([[0, 0, 0], [1, 0, 0], [1, 1, 0], [0, 1, 0], [0, 0, 1], [1, 0, 1], [1, 1, 1], [0, 1, 1.0]],
        ...                    [("hexahedron", [[0, 1, 2, 3, 4, 5, 6, 7]])])
        >>> traces = cut_plane(cube, (0, 0, 0.5), (0, 0, 1)).traces()
        >>> traces.face.tolist(), traces.ends[0].tolist()
        ([2, 3, 4, 5], [[0.0, 0.0], [1.0, 0.0]])
        """
        if self._traces is None:
            with np.errstate(all="ignore"):  # as in the cut itself
                self._traces = gather(self)
            self.record.traces, self.record.with_traces = len(self._traces), len(np.unique(self._traces.cell))
        return self._traces

    def look_for_shift(self, most: float | None = None) -> float | None:
        """How far the nearest parallel plane is by which everything is drawn, along the normal or against it.

        Where there is none and this plane loses area, the nearest that loses none; None where there is neither. The record
        keeps it, and how far was looked: by default 1e-6 of the mesh's extent.
        """
        record = self.record
        record.shift_most = MOST * extent_of(self.mesh) if most is None else most
        if self.asked.tol < self.asked.own:  # gaps are everywhere then, and a shift does not close them
            return None
        enough = Drawn.ALL if record.nothing_lost else Drawn.AREA

        def drawn_at(mesh: Mesh, shift: float) -> tuple[Drawn, float]:
            found = Section(mesh, replace(self.asked, shift=shift))
            return found.drawn(LOOKED_AT if enough == Drawn.AREA else 0), found.net.area

        wanted = Wanted(enough, record.area + record.lost_area - record.filled_area)
        with np.errstate(all="ignore"):  # as in the cut itself
            record.shift_that_draws_all = nearest_shift(self.mesh, self.near, self.asked.tol, drawn_at, record.shift_most, wanted)
        return record.shift_that_draws_all

    def __str__(self) -> str:
        return str(self.record)


def cut_plane(
    mesh: Mesh | meshio.Mesh,
    origin: object,
    normal: object,
    tolerance: float | None = None,
    *,
    scaled: bool = True,
    strict: bool = False,
    shift: bool = False,
    shift_most: float | None = None,
    leave_out: bool = True,
    progress: Progress | None = None,
) -> PlaneCut:
    """All cells of a space mesh cut by the plane through origin with this normal, which may be of any length but 0.

    The normal is scaled by a power of two before it is made unit; the record says by which where that matters. With `scaled=False` it is
    taken as it is given, as mefikit takes it: beyond about 1e154, or with all components within about 1e-153, its squares overflow or
    lose digits, and it is refused or the last digits of its unit normal may be wrong.

    The tolerance is the distance up to which a point counts as on the plane and two points as one; by default the
    mesh's own. With `strict` a polygon that passes twice through a point is not drawn: its edges are counted as pinched, and its area
    is told as lost. Without, it is cut there into rings. With `shift` the cut is by the nearest parallel plane by which everything is drawn, up to `shift_most` away (by
    default 1e-6 of the mesh's extent); `record.shift` tells how far it is, or is 0 where there is none.
    `leave_out=False` calls the library also for cells that cannot touch the plane: same answer, slower.

    >>> cube = meshio.Mesh([[0, 0, 0], [1, 0, 0], [1, 1, 0], [0, 1, 0], [0, 0, 1], [1, 0, 1], [1, 1, 1], [0, 1, 1.0]],
    ...                    [("hexahedron", [[0, 1, 2, 3, 4, 5, 6, 7]])])
    >>> cut = cut_plane(cube, (0, 0, 0.5), (0, 0, 1))
    >>> cut.polygon(0).tolist()
    [[0.0, 0.0], [1.0, 0.0], [1.0, 1.0], [0.0, 1.0]]
    >>> cut.record.area, cut.record.all_drawn
    (1.0, True)
    >>> long = cut_plane(cube, (0, 0, 0.5), (0, 0, 1e200))
    >>> long.record.area, long.record.normal, long.record.scaled_exponent
    (1.0, [0.0, 0.0, 1.0], -664)
    """
    found = mesh if isinstance(mesh, Mesh) else of_meshio(mesh)
    _check(found)
    origin, normal = place.vector(origin, 3, "origin"), place.vector(normal, 3, "normal")
    own = slice_tolerance(found.points)
    tol = place.chosen_tolerance(tolerance, own, found.source)
    if shift_most is not None and not 0.0 < shift_most < math.inf:
        raise CicelybeamError(f"the distance {shift_most} for the search is not a number above 0")
    asked = Asked(origin, normal, tol, own, bool(scaled), bool(strict))
    with np.errstate(all="ignore"):  # a cell with numbers that overflow is told of; numpy need not say so as well
        cut = _made(Section(found, asked, leave_out, progress))
        if shift and not (cut.record.all_drawn and cut.record.nothing_lost):
            distance = cut.look_for_shift(shift_most)
            if distance:
                return _made(Section(found, replace(asked, shift=distance), leave_out, progress))
    return cut


def _made(section: Section) -> PlaneCut:
    rings, loops = section.rings, section.loops
    cut = PlaneCut(section.mesh, section.frame, rings.points, rings.nodes, rings.ends, rings.cell, rings.area, rings.hole, rings.outer,
                   section.side, loops.cells, loops.counts, loops.cell_points, loops.defaulted_by_cell, loops.compared,
                   loops.compared_counts, section.near, section.asked, None)  # type: ignore[arg-type]
    cut.record = plane_record(cut, section)
    return cut


def _check(mesh: Mesh) -> None:
    if mesh.dimension != 3:
        raise MeshError(f"{mesh.source}: a plane cuts cells in space, and this mesh is plane; cut it by a line")
    if not mesh.blocks and not mesh.others:
        raise MeshError(f"{mesh.source}: the mesh has no cells")
    if not any(map(len, mesh.blocks)):
        raise MeshError(f"{mesh.source}: no cell is of a type that is cut in space; it has {counted(mesh.not_cut())}")
