"""A mesh in space or in the plane cut by a line."""
from __future__ import annotations

from collections.abc import Callable
from dataclasses import asdict, dataclass, field

import meshio
import numpy as np

from . import place
from .buffers import Growing
from .library import MOST_ENTRIES, floats, library, slice_tolerance
from .mesh import Mesh, of_meshio
from .place import ABOVE, BELOW, Sides, Vector
from .plane import PlaneCut, cut_plane
from .publish import Published
from .record import (
    DefaultedCell, below_own, counted, defaulted_because, defaulted_cells, defaulted_where, extent, mend_defaulted, number, some, vector, were,
)
from .refusal import MeshError, Refused
from .version import VERSION


@dataclass
class LineRecord:
    """The record of a line cut. `print` it, or take `as_dict`.

    In space the library cuts the loops of a cell's section by a plane that holds the line, and gives no counts of its
    edges. So the same cells are cut by that plane too: a cell that the line may reach and whose section is not whole
    is in `undrawn`, and one whose polygon has corners on both sides of the line is to have a segment. A guessed crossing
    of a cell that the line cannot reach is counted, and is no reason for an exit status: no segment rests on it.
    """

    version: str
    source: str
    origin: list[float]
    direction: list[float]
    tolerance: float
    mesh_tolerance: float
    extent: list[list[float]]
    cells: int
    cells_by_type: dict[str, int]
    not_cut: dict[str, int]
    not_cut_reached: dict[str, int]  # of these, cells of the mesh's dimension; whether the line meets them is not known
    with_segments: int
    segments: int
    length: float  # of all segments together
    covered: float  # of the part of the line that they cover
    stretches: list[list[float]]  # the parts of the line that they cover without a gap, by distance from the origin
    straightened: int  # cells with mid-side nodes that have a segment, cut as straight between their corners
    undrawn: list[int]  # cells that the line may reach whose section lacks a piece with an area
    touching: list[int]  # cells that the line may reach and that the plane only touches
    without_segment: list[int]  # cells that the line passes through and that have no segment
    dropped: list[str]  # what meshio says of cells that it left out while reading
    defaulted: int  # crossings that lie in the middle of their edges by default: in space of faces, and of loops where the line cuts them
    defaulted_cells: list[DefaultedCell]  # the cells with them
    defaulted_reached: list[DefaultedCell]  # of these, those that the line may reach
    warnings: list[str] = field(default_factory=list)

    @property
    def all_drawn(self) -> bool:
        """Whether no piece is known to be missing."""
        return not self.undrawn and not self.without_segment

    @property
    def nothing_lost(self) -> bool:
        """Whether the segments can be printed, as far as cells are concerned that are cut: no reason for exit status 3."""
        return all(status != 3 for status, _ in self.reasons)

    @property
    def all_cut(self) -> bool:
        return not any(self.not_cut_reached.values()) and not self.dropped

    @property
    def reasons(self) -> list[tuple[int, str]]:
        """Every reason for an exit status other than 0, with the status."""
        found = []
        if self.undrawn:
            found.append((3, f"{number(len(self.undrawn), 'cell')} that the line may reach and whose section is not whole{some(self.undrawn)}"))
        if self.without_segment:
            found.append((3, f"{number(len(self.without_segment), 'cell')} that the line passes through, without a segment{some(self.without_segment)}"))
        if self.defaulted_reached:
            found.append((3, defaulted_where(self.defaulted_reached)))
        if any(self.not_cut_reached.values()):
            found.append((4, f"the line may meet cells of types that are not cut: {counted(self.not_cut_reached)}"))
        found += [(4, f"meshio left cells out while reading: {remark}") for remark in self.dropped]
        return found

    advice = ""  # for a line no shift is looked for

    def sentence(self) -> str:
        """The summary, for a methods section."""
        cells = sum(self.cells_by_type.values())
        start = (
            f"The mesh's {number(cells, 'cell')} {were(cells)} cut with Cicelybeam {self.version} by the line through "
            f"{vector(self.origin)} with direction {vector(self.direction)} and tolerance {self.tolerance:.3g}: "
            f"{number(self.with_segments, 'cell')} {'has' if self.with_segments == 1 else 'have'} {number(self.segments, 'segment')} of it, "
            f"of length {self.length:.12g} together, covering a length of {self.covered:.12g} of the line"
        )
        if self.straightened:
            start += f"; {number(self.straightened, 'cell')} with mid-side nodes {were(self.straightened)} cut as straight between corners"
        if self.undrawn or self.without_segment:
            start += (f"; {number(len(self.undrawn), 'cell')} that the line may reach with a section that is not whole, and "
                      f"{len(self.without_segment)} that it passes through without a segment")
        if self.defaulted_reached:
            start += "; " + defaulted_because(self.defaulted_reached, "the line" if len(self.origin) == 2 else "the line or from the plane that holds it")
        if any(self.not_cut_reached.values()):
            start += f"; not cut: {counted(self.not_cut_reached)}"
        return start + "."

    def as_dict(self) -> dict:
        """The record as plain numbers, lists and words."""
        return {**asdict(self), "all_drawn": self.all_drawn, "nothing_lost": self.nothing_lost, "all_cut": self.all_cut,
                "reasons": [list(reason) for reason in self.reasons], "summary": self.sentence()}

    def __str__(self) -> str:
        stretches = ", ".join(f"{a:.6g} to {b:.6g}" for a, b in self.stretches[:8]) + (", ..." if len(self.stretches) > 8 else "")
        lines = [
            ("mesh", self.source),
            ("extent", extent(self.extent)),
            ("cells", f"{self.cells}: {counted(self.cells_by_type)}"),
            ("not cut", counted(self.not_cut)),
            ("line", f"through {vector(self.origin)}, direction {vector(self.direction)}"),
            ("tolerance", f"{self.tolerance:.6g} (the mesh's own: {self.mesh_tolerance:.6g})"),
            ("segments", f"{self.segments} in {number(self.with_segments, 'cell')}"),
            ("length", f"{self.length:.12g}, covering {self.covered:.12g} of the line"),
            ("stretches", f"{len(self.stretches)}{': ' if stretches else ''}{stretches}"),
            ("not whole", f"{number(len(self.undrawn), 'cell')} that the line may reach{some(self.undrawn)}"),
            ("no segment", f"{number(len(self.without_segment), 'cell')} passed through{some(self.without_segment)}"),
            ("guessed", self._guessed()),
            *(("WARNING", warning) for warning in self.warnings),
        ]
        return "\n".join([*(f"{name:<18}{value}" for name, value in lines), "", self.sentence()])

    def _guessed(self) -> str:
        """Of all cells; and how many are in cells that the line may reach, where those are fewer."""
        told, reached = defaulted_where(self.defaulted_cells), sum(cell.defaulted for cell in self.defaulted_reached)
        return told if reached == self.defaulted else f"{told} ({reached} in cells that the line may reach)"


@dataclass(repr=False)
class LineCut(Published):
    """The segments of a cut, first end then second, with the cell of each."""

    mesh: Mesh
    origin: Vector
    direction: Vector
    segments: np.ndarray
    segment_cell: np.ndarray
    lengths: np.ndarray
    defaulted_by_cell: dict[int, int]  # crossings that lie in the middle by default, of each cell with any, also of one without a segment
    record: LineRecord

    def __len__(self) -> int:
        return len(self.segments)

    @property
    def defaulted(self) -> int:
        """How many crossings lie in the middle of their edge by default, in all cells."""
        return sum(self.defaulted_by_cell.values())

    def __repr__(self) -> str:
        return f"<LineCut of {self.mesh.source}: {number(len(self), 'segment')}, length covered {self.record.covered:.12g}>"

    def __str__(self) -> str:
        return str(self.record)


@np.errstate(all="ignore")  # a cell with numbers that overflow is told of; numpy need not say so as well
def cut_line(
    mesh: Mesh | meshio.Mesh,
    origin: object,
    direction: object,
    tolerance: float | None = None,
    *,
    leave_out: bool = True,
    progress: Callable[[int, int], None] | None = None,
) -> LineCut:
    """All cells of a mesh cut by the line through origin with this direction, in space or in the plane.

    >>> square = meshio.Mesh([[0, 0], [1, 0], [1, 1], [0, 1.0]], [("quad", [[0, 1, 2, 3]])])
    >>> cut = cut_line(square, (0, 0.5), (1, 0))
    >>> cut.segments.tolist(), cut.record.stretches
    ([[[0.0, 0.5], [1.0, 0.5]]], [[0.0, 1.0]])
    """
    found = mesh if isinstance(mesh, Mesh) else of_meshio(mesh)
    if not any(map(len, found.blocks)):
        raise MeshError(f"{found.source}: no cell is of a type that is cut; it has {counted(found.not_cut(), 'no cells')}")
    start, along = place.vector(origin, found.dimension, "origin"), place.vector(direction, found.dimension, "direction")
    own = slice_tolerance(found.points)
    tol = place.chosen_tolerance(tolerance, own, found.source)
    if found.dimension == 3:
        frame = place.plane_of_line(start, along)
        call, room, normal = library().cicelybeam_line_in_space, 14, frame.normal
    else:
        call, room, normal = library().cicelybeam_plane_cell_by_direction, 6, place.normal_of_line(along)
    near = place.nearest_on_line(start, along, found.centre() or start)
    sides = place.sides(found.points, near, normal, tol)
    kept = [np.flatnonzero(sides.reached(block)) if leave_out else np.arange(len(block)) for block in found.blocks]
    segments, owner, defaulted = _segments(found, kept, call, room, (near, along, tol), progress)
    if found.dimension == 3:
        section = cut_plane(found, near, frame.normal, tol, scaled=False, leave_out=leave_out)  # it is of length 1
        reached = _reached(found, place.sides(found.points, near, frame.v, tol))
        lacking = _lacking_in_space(section, reached, frame.v, owner, tol)
    else:
        reached = _reached(found, sides)
        lacking = [], [], _lacking_in_plane(found, sides, owner)
    lengths = np.linalg.norm(segments[:, 1] - segments[:, 0], axis=1)
    record = _record(found, start, along, tol, own, segments, owner, lengths, lacking, defaulted, reached)
    return LineCut(found, start, along, segments, owner, lengths, defaulted, record)


def _segments(
    mesh: Mesh, kept: list[np.ndarray], call: Callable, room: int, by: tuple[Vector, Vector, float],
    progress: Callable[[int, int], None] | None,
) -> tuple[np.ndarray, np.ndarray, dict[int, int]]:
    """The library called for each cell that is kept: the segments, the cell of each, and the crossings by default of cells with any.

    `room` is the buffer's, a face corner.
    """
    start, along, tol = by
    o, d = floats(start), floats(along)
    cut = (mesh.points.ctypes.data, mesh.points.size, o.ctypes.data, o.size, d.ctypes.data, d.size, tol)
    numbers, owner, defaulted = Growing(np.float64, 1 << 14), [], {}
    done, total = 0, sum(map(len, kept))
    for block, cells in zip(mesh.blocks, kept):
        conn, starts = block.handed(cells)
        base = conn.ctypes.data
        for index, first, after in zip(cells.tolist(), starts.tolist(), starts[1:].tolist()):
            length = after - first
            s = call(block.kind.number, base + 8 * first, length, *cut, *numbers.lend(room * min(4 * length, MOST_ENTRIES)))
            if s.refusal:
                raise Refused(s.refusal, f"{mesh.source}: {mesh.name(block.first + index)}")
            numbers.used += 2 * mesh.dimension * s.segments
            owner += [block.first + index] * s.segments
            if s.defaulted:
                defaulted[block.first + index] = s.defaulted
            done += 1
            if progress:
                progress(done, total)
    return numbers.written().reshape(-1, 2, mesh.dimension), np.array(owner, dtype=np.int64), defaulted


def _reached(mesh: Mesh, sides: Sides) -> np.ndarray:
    """For each cell of the mesh, whether it is cut and its corners are not all on one of these sides."""
    found = np.zeros(mesh.total, dtype=bool)
    for block in mesh.blocks:
        found[block.first : block.first + len(block)] = sides.reached(block)
    return found


def _lacking_in_space(
    section: PlaneCut, reached: np.ndarray, across: Vector, owner: np.ndarray, tol: float
) -> tuple[list[int], list[int], list[int]]:
    """Of the cells that the line may reach: those whose section is not whole, those that the plane only touches, and
    those without a segment though a polygon has corners on both sides of the line.

    The line cut's plane and this section's have the same normal up to rounding. `across` is in the plane and
    perpendicular to the line; `reached` tells of each cell whether the plane that holds the line and has this normal reaches it.
    """
    record = section.record
    undrawn = {cell.cell for cell in record.undrawn}.union(
        record.crossed_without_edge, record.crossed_face_without_segment, record.within_tolerance, record.not_finite)
    touching = {cell.cell for cell in record.undrawn if cell.touching}
    away = place.distances(section.in_space(), section.frame.origin, across)[section.nodes]
    crossed = np.zeros(len(section), dtype=bool)
    if len(section):
        starts = np.concatenate([[0], section.ends[:-1]])
        crossed = (np.maximum.reduceat(away, starts) > tol) & (np.minimum.reduceat(away, starts) < -tol)
    without = np.setdiff1d(section.polygon_cell[crossed], owner)
    return sorted(c for c in undrawn - touching if reached[c]), sorted(c for c in touching if reached[c]), without.tolist()


def _lacking_in_plane(mesh: Mesh, sides: Sides, owner: np.ndarray) -> list[int]:
    """Cells without a segment that have corners on both sides of the line, or all corners within the tolerance of it."""
    met = [np.flatnonzero(np.isin(sides.met(block), (0, ABOVE | BELOW))) + block.first for block in mesh.blocks]
    return np.setdiff1d(np.concatenate(met), owner).tolist()


def _record(
    mesh: Mesh, origin: Vector, direction: Vector, tol: float, own: float, segments: np.ndarray, owner: np.ndarray,
    lengths: np.ndarray, lacking: tuple[list[int], list[int], list[int]], defaulted: dict[int, int], reached: np.ndarray,
) -> LineRecord:
    uncut: dict[str, int] = {}
    for name, dimension, count, _ in mesh.others:
        if dimension == mesh.dimension:
            uncut[name] = uncut.get(name, 0) + count
    along = place.unit(direction)
    near = place.nearest_on_line(origin, direction, mesh.centre() or origin)
    covered, stretches = _covered(segments, near, along, 2 * (max(tol, own) if own < np.inf else tol))
    offset = place.dot(tuple(a - b for a, b in zip(near, origin)), along)  # from the origin given
    stretches = [[a + offset, b + offset] for a, b in stretches]
    guessed = defaulted_cells(mesh, defaulted)
    record = LineRecord(
        VERSION, mesh.source, list(origin), list(direction), tol, own, mesh.extent, mesh.total, mesh.types(), mesh.not_cut(), uncut,
        len(np.unique(owner)), len(segments), float(lengths.sum()), covered, stretches, _curved(mesh, np.unique(owner)), *lacking, mesh.dropped,
        sum(defaulted.values()), guessed, [cell for cell in guessed if reached[cell.cell]],
    )
    record.warnings = [f"meshio says: {remark}" for remark in mesh.remarks]
    if not len(segments):
        record.warnings.append(f"the line has no segment in any cell; the mesh extends over {extent(record.extent)}")
    if not tol >= own:
        record.warnings.append(below_own(tol, own, "line"))
    if not record.all_drawn:
        record.warnings.append(f"pieces of the line may be missing in {len({*record.undrawn, *record.without_segment})} cells")
    if record.defaulted_reached:
        record.warnings.append(mend_defaulted(sum(cell.defaulted for cell in record.defaulted_reached)))
    if any(uncut.values()):
        record.warnings.append(f"the line may meet cells of types that are not cut: {counted(uncut)}")
    return record


def _curved(mesh: Mesh, cells: np.ndarray) -> int:
    return sum(int(((cells >= block.first) & (cells < block.first + len(block))).sum()) for block in mesh.blocks if block.kind.curved)


def _covered(segments: np.ndarray, near: Vector, along: Vector, gap: float) -> tuple[float, list[list[float]]]:
    """The length of the part of the line that the segments cover together, and its stretches, from the point `near`: what is
    no more than a gap apart is one. Segments that are not finite are left out."""
    ends = np.sort((segments - np.array(near)) @ np.array(along), axis=1)
    ends = ends[np.isfinite(ends).all(axis=1)]
    if not len(ends):
        return 0.0, []
    ends = ends[np.argsort(ends[:, 0])]
    reach = np.maximum.accumulate(ends[:, 1])
    before = np.concatenate([[-np.inf], reach[:-1]])
    covered = np.maximum(ends[:, 1] - np.maximum(ends[:, 0], before), 0.0).sum()
    first = np.flatnonzero(ends[:, 0] - before > gap)
    last = np.append(first[1:], len(ends)) - 1
    return float(covered), np.stack([ends[first, 0], reach[last]], axis=1).tolist()
