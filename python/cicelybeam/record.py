"""What a cut found and what it did not draw, to be printed and kept."""
from __future__ import annotations

import math
from collections import Counter
from dataclasses import asdict, dataclass, field
from typing import TYPE_CHECKING

import numpy as np

from .cells import COUNTS, not_drawn
from .place import Sides, distances, exponent, why_scaled
from .version import VERSION

if TYPE_CHECKING:
    from .mesh import Mesh
    from .plane import PlaneCut
    from .section import Section

TOUCHING, LOST, FILLED = "touching", "area lost", "hole filled"  # what it means that something of a cell is not drawn


@dataclass
class UndrawnCell:
    """A cell where something was not drawn, and the points in space that the cut gives for it, or its middle where it gives none.

    The reason is `touching` where no area is lost: the plane touches the cell, along an edge, along a face that other cells
    draw, or in a piece not wider than the tolerance. Else it is `area lost`, with an estimate of how much; or `hole filled`, where a
    pinched polygon bounds a hole, or a hole lies in it, and that alone is wrong with the area.
    """

    cell: int
    type: str
    listed: int
    in_loops: int
    pinched: int
    flat: int
    open: int
    reason: str
    what: str  # was not drawn, in words
    lost_area: float
    points: list[list[float]]

    @property
    def touching(self) -> bool:
        return self.reason == TOUCHING

    @property
    def not_drawn(self) -> int:
        return self.pinched + self.flat + self.open

    def edges_in_words(self, strict: bool) -> str:
        pinched = f"{self.pinched} pinched, " if strict else ""
        return f"{pinched}{self.flat} flat and {self.open} open of {self.listed}"


@dataclass
class DefaultedCell:
    """A cell with crossings that lie in the middle of their edges by default, and how many."""

    cell: int
    type: str
    defaulted: int


@dataclass
class ComparedCell:
    """A cell, and how many comparisons of points were made while the ends of its segments were welded."""

    cell: int
    type: str
    comparisons: int


@dataclass
class PlaneRecord:
    """The record of a plane cut. `print` it, or take `as_dict`."""

    version: str
    source: str
    origin: list[float]  # as given
    normal: list[float]  # of length 1
    u: list[float]  # the directions of the plane's coordinates
    v: list[float]
    shift: float  # how far along the normal from the origin given the cells were cut
    tolerance: float
    mesh_tolerance: float
    scaled: bool  # the normal was scaled before it was made unit; else it was taken as it is given
    scaled_exponent: int | None  # of the power of two, where that matters: as it is given the normal is refused, or has another unit normal
    scaled_why: str  # why it matters, in words
    strict: bool  # cut in the strict way: a polygon that passes twice through a point is pinched, and not drawn
    extent: list[list[float]]  # the least and the greatest of each coordinate of the mesh's nodes
    cells: int  # in the mesh
    cells_by_type: dict[str, int]  # of types that are cut
    not_cut: dict[str, int]  # of other types
    not_cut_reached: dict[str, int]  # of these, cells that fill space and that the plane may reach
    handed_over: int  # cells that were not left out
    straightened: int  # cells with mid-side nodes that the plane reaches, cut as straight between their corners
    crossed: int  # cells with a corner above the tolerance and one below its negative
    with_edges: int  # cells that list an edge
    polygons: int
    holes: int
    self_touching: int  # polygons that pass through a point twice, cut there into rings
    self_crossing: int  # cells whose polygons cross away from their points
    area: float  # of the section, each place counted once
    repeated_area: float  # what the polygons' areas have beyond it
    coincident_polygons: int
    doubled_polygons: int  # of cells that the plane passes through, and that another such polygon coincides with
    lost_area: float  # an estimate of what is missing
    lost_share: float  # of the whole with it
    filled_area: float  # of holes that are drawn as if they were filled, since a polygon that bounds one or lies around it is pinched
    filled_cells: list[int]  # the cells with these holes
    jump_area: float  # by how much the area differs between the planes just above and just below, by faces that are not flat
    jump_cells: list[int]  # the cells with these faces
    listed: int
    in_loops: int
    pinched: int  # 0 in the usual way
    pinched_cells: list[int]  # the cells with a pinched edge
    flat: int
    open: int
    defaulted: int  # crossings that lie in the middle of their edges by default, also of edges that are not listed
    defaulted_cells: list[DefaultedCell]  # the cells with them
    comparisons: int  # of points, in all cells of this cut, while the ends of segments were welded
    most_comparisons: ComparedCell | None  # the cell with the most of them, the first of several
    with_undrawn: int  # cells with a pinched, flat or open edge
    touching_cells: int  # of the cells in undrawn, those with no area lost
    undrawn: list[UndrawnCell]
    crossed_without_edge: list[int]
    crossed_face_without_segment: list[int]
    within_tolerance: list[int]  # with all corners within the tolerance of the plane, so that no face has a segment
    not_finite: list[int]  # handed over, with a corner coordinate that is NaN or infinite
    missed_by: float  # the distance from the plane to the nearest corner, where it meets no cell
    dropped: list[str]  # what meshio says of cells that it left out while reading
    shift_that_draws_all: float | None = None  # to the nearest parallel plane that loses no area, where it was looked for and found
    shift_most: float | None = None  # how far it was looked for
    traces: int | None = None  # of the plane on faces of cells, where they were gathered
    with_traces: int | None = None  # cells with a trace
    warnings: list[str] = field(default_factory=list)

    @property
    def all_drawn(self) -> bool:
        """Whether every listed edge is drawn and no gap was seen in a cell that is cut."""
        return self.pinched == 0 and self.flat == 0 and self.open == 0 and not self._gaps()

    def _gaps(self) -> bool:
        return any((self.crossed_without_edge, self.crossed_face_without_segment, self.within_tolerance, self.not_finite))

    @property
    def nothing_lost(self) -> bool:
        """Whether the area can be printed, as far as cells are concerned that are cut: no reason for exit status 3."""
        return all(status != 3 for status, _ in self.reasons)

    @property
    def lost_cells(self) -> list[UndrawnCell]:
        return [cell for cell in self.undrawn if cell.reason == LOST]

    @property
    def all_cut(self) -> bool:
        """Whether no cell of a type that is not cut may reach the plane, and meshio left none out."""
        return not any(self.not_cut_reached.values()) and not self.dropped

    @property
    def reasons(self) -> list[tuple[int, str]]:
        """Every reason for an exit status other than 0, with the status."""
        found = []
        if self.lost_cells:
            kinds = Counter(cell.what for cell in self.lost_cells)
            found.append((3, f"{number(len(self.lost_cells), 'cell')} with area lost, about {self.lost_area:.3g} or "
                             f"{100 * self.lost_share:.3g} % of the whole: " + ", ".join(f"{count} with {what}" for what, count in kinds.items())))
        if self.filled_cells:
            found.append((3, self._filled() + some(self.filled_cells)))
        if self.jump_area:
            found.append((3, f"the area jumps by about {self.jump_area:.3g} here: the plane passes through a corner of a face that is not "
                             f"flat and that no other cell shares, of {number(len(self.jump_cells), 'cell')}{some(self.jump_cells)}"))
        if not math.isfinite(self.area):
            found.append((3, "the area is too large for a number, or not one: scale the mesh"))
        elif math.isinf(self.tolerance * self.tolerance):
            found.append((3, "the square of the tolerance is too large for a number, so that all points of a cell become one: scale the mesh or give a smaller tolerance"))
        if self.not_finite:
            found.append((3, f"{number(len(self.not_finite), 'cell')} with a corner coordinate that is not finite{some(self.not_finite)}"))
        if self.defaulted:
            found.append((3, defaulted_where(self.defaulted_cells)))
        if any(self.not_cut_reached.values()):
            found.append((4, f"the plane may reach cells of types that are not cut: {counted(self.not_cut_reached)}"))
        found += [(4, f"meshio left cells out while reading: {remark}") for remark in self.dropped]
        return found

    def _filled(self) -> str:
        return (f"the area is too large by about {self.filled_area:.3g}, that of holes drawn as if they were filled, since a polygon that "
                f"bounds one or lies around it is pinched, in {number(len(self.filled_cells), 'cell')}")

    @property
    def advice(self) -> str:
        """What the search for a parallel plane found, in words."""
        if self.shift_most is None:
            return ""
        if not self.tolerance >= self.mesh_tolerance:
            return f"the tolerance is below the mesh's own: cut with that, {self.mesh_tolerance:.6g}, or a larger one"
        if self.shift_that_draws_all is None:
            return f"no parallel plane up to {self.shift_most:.3g} away does better; --shift-most looks further"
        return f"by a plane shifted by {self.shift_that_draws_all:.6g} along the normal no area is lost: --shift takes it"

    def sentence(self) -> str:
        """The summary, for a methods section."""
        cells, edges = sum(self.cells_by_type.values()), number(self.listed, "edge")
        shifted = f" shifted by {self.shift:.3g} along it," if self.shift else ""
        start = (
            f"The mesh's {number(cells, 'cell')} {were(cells)} cut with Cicelybeam {self.version}{self._way()} by the plane through "
            f"{vector(self.origin)} with unit normal {vector(self.normal)}{',' + shifted if shifted else ''} and tolerance {self.tolerance:.3g}: "
            f"{number(self.with_edges, 'cell')} {'lists' if self.with_edges == 1 else 'list'} {edges}, of which {self.in_loops} "
            f"{'bounds' if self.in_loops == 1 else 'bound'} the {number(self.polygons, 'polygon')} drawn, with a total area of {self.area:.12g}"
        )
        return "; ".join([start + self._drawn_in_words(), *self._remarks()]) + "."

    def _way(self) -> str:
        return " in its strict way, which draws no polygon that passes twice through a point," if self.strict else ""

    def _drawn_in_words(self) -> str:
        counts = {"pinched": self.pinched, "flat": self.flat, "open": self.open}
        if not any(counts.values()):
            return ", and no listed edge is left undrawn"
        *most, last = (number(count, f"{kind} edge") for kind, count in counts.items() if count)
        edges = f"{', '.join(most)}{' and ' if most else ''}{last}"
        one = sum(counts.values()) == 1
        touching = sum(cell.touching and cell.not_drawn > 0 for cell in self.undrawn)  # of others it is not known, or area is lost
        return (f", and {edges} in {number(self.with_undrawn, 'cell')} {'is' if one else 'are'} not drawn"
                + (f", which {'bounds' if one else 'bound'} no area" if touching == self.with_undrawn else ""))

    def _remarks(self) -> list[str]:
        """What else a reader of the area has to know."""
        found = []
        if self.scaled_exponent is not None:
            found.append(f"the normal was {self._scaled()}")
        if self.missed_by:
            found.append(f"the plane misses the mesh by {self.missed_by:.6g}")
        if self.lost_cells:
            found.append(f"an area of about {self.lost_area:.3g} is lost in {number(len(self.lost_cells), 'cell')}, "
                         f"{100 * self.lost_share:.3g} % of the whole")
        if self.filled_cells:
            found.append(self._filled())
        if self.jump_area:
            found.append(f"the area jumps by about {self.jump_area:.3g} at this plane, by faces that are not flat")
        if self.repeated_area:
            where = "of cells that are in the mesh twice" if self.doubled_polygons else "of cells on both sides of the plane"
            found.append(f"polygons {where} overlap, and an area of {self.repeated_area:.12g} is counted once only")
        if self.straightened:
            found.append(f"{number(self.straightened, 'cell')} with mid-side nodes {were(self.straightened)} cut as straight between corners")
        if self.crossed_without_edge or self.crossed_face_without_segment:
            found.append(f"of the {number(self.crossed, 'cell')} that the plane passes through, {len(self.crossed_without_edge)} list no edge "
                         f"and {len(self.crossed_face_without_segment)} lack the segment of a face")
        if self.within_tolerance:
            found.append(f"{number(len(self.within_tolerance), 'cell')} wholly within the tolerance of the plane, without a section")
        if self.not_finite:
            found.append(f"{number(len(self.not_finite), 'cell')} with corner coordinates that are not finite")
        if self.defaulted:
            found.append(defaulted_because(self.defaulted_cells, "the plane"))
        if self.dropped:
            found.append("the mesh has cells that meshio left out while reading")
        if any(self.not_cut_reached.values()):
            found.append(f"not cut, though the plane may reach them: {counted(self.not_cut_reached)}")
        return found

    def as_dict(self) -> dict:
        """The record as plain numbers, lists and words."""
        return {**asdict(self), "all_drawn": self.all_drawn, "nothing_lost": self.nothing_lost, "all_cut": self.all_cut,
                "reasons": [list(reason) for reason in self.reasons], "summary": self.sentence()}

    def __str__(self) -> str:
        return self.in_words()

    def in_words(self, comparisons: bool = False) -> str:
        """The record as it is printed, with a line for the comparisons of points where asked."""
        text = [f"{name:<18}{value}" for name, value in self._lines(comparisons)]
        lost = self.lost_cells
        text += [f"AREA LOST         cell {u.cell} ({u.type}): about {u.lost_area:.3g}; {u.what}: "
                 f"{u.edges_in_words(self.strict)}, near {vector(u.points[0])}" for u in lost[:20]]
        if len(lost) > 20:
            text.append(f"AREA LOST         and {number(len(lost) - 20, 'more cell')}, all in the report")
        text += [f"WARNING           {warning}" for warning in self.warnings]
        return "\n".join([*text, "", self.sentence()])

    def _lines(self, comparisons: bool) -> list[tuple[str, str]]:
        shift = [("shift", f"{self.shift:.6g} along the normal")] if self.shift else []
        traces = [] if self.traces is None else [("traces", f"{self.traces} on the faces of {number(self.with_traces or 0, 'cell')}")]
        pinched = [("pinched", self._pinched())] if self.strict else []
        scaled = [] if self.scaled_exponent is None else [("normal", self._scaled())]
        lines = [
            ("mesh", self.source),
            ("extent", extent(self.extent)),
            ("cells", f"{self.cells}: {counted(self.cells_by_type)}"),
            ("not cut", self._not_cut()),
            ("plane", f"through {vector(self.origin)}, normal {vector(self.normal)}"),
            *scaled,
            ("its axes", f"u along {vector(self.u)}, v along {vector(self.v)}"),
            *shift,
            ("tolerance", f"{self.tolerance:.6g} (the mesh's own: {self.mesh_tolerance:.6g})"),
            ("passed through", f"{number(self.crossed, 'cell')}; {number(self.with_edges, 'cell')} with an edge"),
            *traces,
            ("edges", f"{self.listed} listed: {self.in_loops} in loops, " + (f"{self.pinched} pinched, " if self.strict else "")
             + f"{self.flat} flat, {self.open} open"),
            *pinched,
            ("guessed", defaulted_where(self.defaulted_cells)),
            *([("comparisons", comparisons_in_words(self.comparisons, self.most_comparisons))] if comparisons else []),
            ("drawn", f"{number(self.polygons, 'polygon')}" + (f" with {number(self.holes, 'hole')}" if self.holes else "")),
            ("area", f"{self.area:.12g}"),
        ]
        more = [
            ("counted twice", self.repeated_area, f"{self.repeated_area:.12g}, where polygons overlap; not in the area"),
            ("straightened", self.straightened, f"{number(self.straightened, 'cell')} with mid-side nodes, cut as straight between corners"),
            ("self-touching", self.self_touching, f"{number(self.self_touching, 'polygon')} through a point twice, cut there into rings"),
            ("self-crossing", self.self_crossing, f"{number(self.self_crossing, 'cell')} with polygons that cross, by the even-odd rule"),
            ("touched", self.touching_cells, f"{number(self.touching_cells, 'cell')} where what is not drawn bounds no area"),
            ("lost", self.lost_cells, f"about {self.lost_area:.6g}, {100 * self.lost_share:.3g} % of the whole, in {number(len(self.lost_cells), 'cell')}"),
            ("filled", self.filled_cells, self._filled() + some(self.filled_cells)),
            ("jumps", self.jump_area, f"by about {self.jump_area:.6g} at this plane, by faces that are not flat, of "
                                                        f"{number(len(self.jump_cells), 'cell')}{some(self.jump_cells)}"),
            ("no edge", self.crossed_without_edge, f"{number(len(self.crossed_without_edge), 'cell')} passed through{some(self.crossed_without_edge)}"),
            ("no segment", self.crossed_face_without_segment, f"{number(len(self.crossed_face_without_segment), 'cell')} with a face passed through"
                                                             f"{some(self.crossed_face_without_segment)}"),
            ("within tolerance", self.within_tolerance, f"{number(len(self.within_tolerance), 'cell')} with all corners{some(self.within_tolerance)}"),
            ("not finite", self.not_finite, f"{number(len(self.not_finite), 'cell')}{some(self.not_finite)}"),
        ]
        return lines + [(name, words) for name, shown, words in more if shown]

    def _scaled(self) -> str:
        return f"scaled by 2^{self.scaled_exponent}, {self.scaled_why}"

    def _pinched(self) -> str:
        where = f" in {number(len(self.pinched_cells), 'cell')}{some(self.pinched_cells)}" if self.pinched else ""
        return f"{number(self.pinched, 'edge')}{where}; the strict way draws no polygon that passes twice through a point"

    def _not_cut(self) -> str:
        parts = []
        for name, count in self.not_cut.items():
            reached = self.not_cut_reached.get(name, 0)
            parts.append(f"{count} {name}" + (f" ({reached} may reach the plane)" if reached else ""))
        return ", ".join(parts) or "none"


def number(count: int, noun: str) -> str:
    """
    >>> number(1, "cell"), number(0, "open edge")
    ('1 cell', '0 open edges')
    """
    return f"{count} {noun}{'' if count == 1 else 's'}"


def were(count: int) -> str:
    return "was" if count == 1 else "were"


def counted(numbers: dict[str, int], otherwise: str = "none") -> str:
    """The numbers of cells by type in words.

    >>> counted({"tetra": 3, "pyramid": 1})
    '3 tetra, 1 pyramid'
    """
    return ", ".join(f"{count} {name}" for name, count in numbers.items() if count) or otherwise


def vector(numbers: list[float]) -> str:
    return "(" + ", ".join(f"{x:.6g}" for x in numbers) + ")"


def extent(low_high: list[list[float]]) -> str:
    """
    >>> extent([[0.0, 0.0], [4.0, 2.0]])
    '(0, 0) to (4, 2)'
    """
    return " to ".join(map(vector, low_high)) or "none"


def some(cells: list[int]) -> str:
    """The first of these cells, after a colon."""
    if not cells:
        return ""
    return ": " + ", ".join(map(str, cells[:8])) + (", ..." if len(cells) > 8 else "")


def defaulted_cells(mesh: Mesh, by_cell: dict[int, int]) -> list[DefaultedCell]:
    """The cells with crossings that lie in the middle by default, in their order."""
    cells = sorted(by_cell)
    return [DefaultedCell(cell, str(name), by_cell[cell]) for cell, name in zip(cells, mesh.type_of(np.array(cells, dtype=np.int64)))]


def defaulted_in_words(count: int) -> str:
    """
    >>> defaulted_in_words(0), defaulted_in_words(1)
    ('0 crossings lie in the middle by default', '1 crossing lies in the middle by default')
    """
    return f"{number(count, 'crossing')} {'lies' if count == 1 else 'lie'} in the middle by default"


def defaulted_where(cells: list[DefaultedCell]) -> str:
    """How many crossings lie in the middle by default, and in which cells.

    >>> defaulted_where([DefaultedCell(7, "tetra", 3)])
    '3 crossings lie in the middle by default, in 1 cell: 7'
    """
    told = defaulted_in_words(sum(cell.defaulted for cell in cells))
    return told + (f", in {number(len(cells), 'cell')}{some([cell.cell for cell in cells])}" if cells else "")


def defaulted_because(cells: list[DefaultedCell], cut: str) -> str:
    """The same for a methods section, with the reason; `cut` is what distances are from."""
    count = sum(cell.defaulted for cell in cells)
    lie, edges, places = ("lies", "its edge", "its place is a guess") if count == 1 else ("lie", "their edges", "their places are guesses")
    return (f"{number(count, 'crossing')} in {number(len(cells), 'cell')} {lie} in the middle of {edges} by default, because the distances of "
            f"an edge's ends from {cut} differ by NaN or by no more than 2^-1022, so that {places}")


def mend_defaulted(count: int) -> str:
    return (f"{defaulted_in_words(count)}, as the distances of an edge's ends differ by NaN or by no more than 2^-1022: scale the mesh where "
            "coordinates are as small as 1e-308 or so large that their differences are not finite, and mend nodes that are NaN or infinite")


def most_comparisons(cut: PlaneCut) -> ComparedCell | None:
    """The cell with the most comparisons of points, the first of several."""
    if not len(cut.compared):
        return None
    k = int(cut.compared_counts.argmax())
    (name,) = cut.mesh.type_of(cut.compared[k : k + 1])
    return ComparedCell(int(cut.compared[k]), str(name), int(cut.compared_counts[k]))


def comparisons_in_words(count: int, most: ComparedCell | None) -> str:
    """
    >>> comparisons_in_words(1234, ComparedCell(17, "hexahedron", 40))
    '1234 comparisons of points; the most were 40 in cell 17 (hexahedron)'
    >>> comparisons_in_words(1, ComparedCell(0, "polyhedron4", 1)), comparisons_in_words(0, None)
    ('1 comparison of points, in cell 0 (polyhedron4)', 'none')
    """
    if most is None:
        return "none"
    where = f"in cell {most.cell} ({most.type})"
    told = f"{number(count, 'comparison')} of points"
    return f"{told}, {where}" if count == 1 else f"{told}; the most {were(most.comparisons)} {most.comparisons} {where}"


def plane_record(cut: PlaneCut, section: Section) -> PlaneRecord:
    mesh, frame, asked = cut.mesh, cut.frame, cut.asked
    reached, rings, net = section.reached, section.rings, section.net
    lost, filled, undrawn = section.lost.total, section.lost.filled, _undrawn(cut, section)
    whole = net.area + lost - float(filled.sum())
    why = why_scaled(asked.normal) if asked.scaled else ""
    record = PlaneRecord(
        VERSION, mesh.source, list(asked.origin), list(frame.normal), list(frame.u), list(frame.v), asked.shift, asked.tol, asked.own,
        asked.scaled, -exponent(asked.normal) if why else None, why, asked.strict, mesh.extent, mesh.total, mesh.types(), mesh.not_cut(),
        _not_cut_reached(mesh, section.sides),
        handed_over=reached.handed_over, straightened=reached.curved, crossed=len(reached.through), with_edges=len(cut.cells),
        polygons=int((~cut.hole).sum()), holes=int(cut.hole.sum()), self_touching=rings.self_touching, self_crossing=rings.crossing,
        area=net.area, repeated_area=net.repeated, coincident_polygons=net.coincident, doubled_polygons=net.doubled,
        lost_area=lost, lost_share=lost / whole if lost else 0.0,
        filled_area=float(filled.sum()), filled_cells=section.lost.cells[filled > 0].tolist(),
        jump_area=section.jumps.area, jump_cells=section.jumps.cells,
        **dict(zip(COUNTS, cut.counts.sum(axis=0).tolist())), pinched_cells=section.pinched.tolist(),
        defaulted=cut.defaulted, defaulted_cells=defaulted_cells(mesh, cut.defaulted_by_cell),
        comparisons=cut.comparisons, most_comparisons=most_comparisons(cut),
        with_undrawn=int((not_drawn(cut.counts) > 0).sum()), touching_cells=sum(cell.touching for cell in undrawn), undrawn=undrawn,
        crossed_without_edge=reached.no_edge.tolist(), crossed_face_without_segment=reached.no_segment.tolist(),
        within_tolerance=reached.within.tolist(), not_finite=reached.not_finite.tolist(),
        missed_by=_missed_by(cut, section), dropped=mesh.dropped,
    )
    record.warnings = _warnings(record, mesh) + _far_away(record, cut)
    return record


def _undrawn(cut: PlaneCut, section: Section) -> list[UndrawnCell]:
    cells, reached = section.lost.cells, section.reached
    rows = np.searchsorted(cut.cells, cells)
    space = cut.in_space() if len(cells) else None
    no_edge, no_segment, within, pinched = ({*part.tolist()} for part in (reached.no_edge, reached.no_segment, reached.within, section.pinched))
    found = []
    for cell, row, name, area, filled in zip(cells.tolist(), rows.tolist(), cut.mesh.type_of(cells), section.lost.area.tolist(),
                                             section.lost.filled.tolist()):
        listed = row < len(cut.cells) and cut.cells[row] == cell
        counts = cut.counts[row].tolist() if listed else [0] * len(COUNTS)
        what = ("no edge" if cell in no_edge else "pinched edges" if cell in pinched else "a face without a segment" if cell in no_segment
                else "all corners within the tolerance" if cell in within else "edges not drawn")
        points = space[slice(*cut.cell_points[row])] if listed else cut.mesh.middle(cell)[None]
        found.append(UndrawnCell(cell, str(name), *counts, LOST if area else FILLED if filled else TOUCHING, what, area, points.tolist()))
    return found


def _missed_by(cut: PlaneCut, section: Section) -> float:
    """The least distance of a corner, where the plane neither passes through a cell nor touches one along an edge; 0 if no face has corners."""
    reached = section.reached
    if len(reached.through) or len(cut.cells) or len(reached.within) or len(reached.not_finite):
        return 0.0
    corners = np.zeros(len(cut.mesh.points), dtype=bool)
    for block in cut.mesh.blocks:
        corners[block.all_corners()] = True
    return float(np.abs(distances(cut.mesh.points[corners], cut.near.origin, cut.near.normal)).min()) if corners.any() else 0.0


def _not_cut_reached(mesh: Mesh, sides: Sides) -> dict[str, int]:
    """Cells of other types that fill space, less those whose nodes are all clear on one side."""
    found: dict[str, int] = {}
    rows = len(mesh.points)
    for name, dimension, count, nodes in mesh.others:
        if dimension == 3:
            if nodes is not None and nodes.dtype.kind in "iu" and nodes.size and 0 <= nodes.min() and nodes.max() < rows:
                count -= int((np.bitwise_and.reduce(sides.of_node[nodes], axis=1) != 0).sum())
            found[name] = found.get(name, 0) + count
    return found


def below_own(tol: float, own: float, cut: str) -> str:
    return (f"the tolerance {tol:.3g} is below the mesh's own, {own:.3g}: a crossing that was rounded may not count as on the {cut}, "
            "its edge is then not found, and no count of edges shows it")


def _no_edge_at_all(record: PlaneRecord, mesh: Mesh) -> str:
    if not any(block.all_corners().size for block in mesh.blocks):
        return "no cell that is cut has a face of three nodes or more: there is nothing that the plane could meet"
    met = (f"meets no cell that is cut: it misses the nearest corner by {record.missed_by:.6g}" if record.missed_by
           else "has no edge in any cell that is cut")
    return f"the plane {met}; the mesh extends over {extent(record.extent)}"


def _warnings(record: PlaneRecord, mesh: Mesh) -> list[str]:
    found = [f"meshio says: {remark}" for remark in mesh.remarks]
    if not record.crossed and not record.with_edges:
        found.append(_no_edge_at_all(record, mesh))
    if not record.tolerance >= record.mesh_tolerance:
        found.append(below_own(record.tolerance, record.mesh_tolerance, "plane"))
    if any(cell.what in ("no edge", "a face without a segment") for cell in record.lost_cells):
        found.append(
            f"of {number(record.crossed, 'cell')} that the plane passes through, {len(record.crossed_without_edge)} without an edge and "
            f"{len(record.crossed_face_without_segment)} with a face without its segment: the section has gaps that the "
            "counts of edges do not show"
        )
    if any(cell.what == "all corners within the tolerance" for cell in record.lost_cells):
        found.append(
            f"{number(len(record.within_tolerance), 'cell')} wholly within the tolerance {record.tolerance:.3g} of the plane, without a "
            "section; a node far from the others makes the mesh's own tolerance large: give --tolerance"
        )
    if record.doubled_polygons:
        found.append(f"{number(record.doubled_polygons, 'polygon')} of cells that the plane passes through coincide with another one: "
                     "the mesh has cells twice; they are counted once")
    if record.not_finite:
        found.append("cells with NaN or infinite corner coordinates are cut as docs/RULES.md says, a NaN distance as outside")
    if record.defaulted:
        found.append(mend_defaulted(record.defaulted))
    if any(record.not_cut_reached.values()):
        found.append(f"cells of types that are not cut may reach the plane: {counted(record.not_cut_reached)}")
    return found


def _far_away(record: PlaneRecord, cut: PlaneCut) -> list[str]:
    """A warning where coordinates in the plane, told from its origin, are rounded to steps above the tolerance."""
    step = float(np.spacing(np.abs(cut.offset).max()))  # NaN where they overflow
    if not record.with_edges or step <= max(record.tolerance, record.mesh_tolerance):
        return []
    told = f"rounded to steps of {step:.2g}" if step < math.inf else "too large for numbers"
    return [f"the origin is so far from the mesh that coordinates in the plane, u and v from the origin, are {told}; "
            "areas and coordinates in space are not: give a point of the plane that is nearer"]
