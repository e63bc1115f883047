"""The library called for many cells, and what it wrote."""
from __future__ import annotations

from collections.abc import Callable, Iterator
from dataclasses import dataclass, field

import numpy as np

from .buffers import Growing
from .celltypes import POLYHEDRON
from .library import LINE, MOST_ENTRIES, SECTION, floats, library
from .mesh import Block, Faces, Mesh, Polyhedra
from .place import ABOVE, BELOW, Sides, Vector, distances, unit_normal
from .refusal import Refused

Progress = Callable[[int, int], None]  # cells done, and to do in all

AT_ONCE = 1 << 13  # cells a call of the loop, so that progress is told and an interrupt is heard
COUNTS = ["listed", "in_loops", "pinched", "flat", "open"]
PINCHED = COUNTS.index("pinched")


def not_drawn(counts: np.ndarray) -> np.ndarray:
    """How many edges are not drawn, by the counts of each cell: those that are pinched, flat or open."""
    return counts[:, PINCHED:].sum(axis=1)


@dataclass(frozen=True)
class CellLoop:
    """A loop of python/loop.c: its name, what it tells of each cell, and how many elements of each buffer a cell's answer takes."""

    name: str
    told: np.dtype
    stitches: bool  # it is told whether in the strict way, beside whether the normal is scaled
    taken: Callable[[np.ndarray], tuple[np.ndarray, ...]]


CUT = CellLoop("cells_by_plane", SECTION, True, lambda told: (2 * told["points"], told["nodes"], told["loops"]))
GATHER = CellLoop("cells_gathered", LINE, False, lambda told: (4 * told["segments"],))


@dataclass
class Loops:
    """The loops of a cut as the library gives them, and the account of every listed edge.

    Points are in the plane, from the origin of the calls. Loop k has the points nodes[ends[k - 1]:ends[k]] (from 0 for the
    first), in the order walked, or reversed where the walk's rounded area is negative. So its area is positive but for
    rounding; where it meets itself at a point, a part of it may run clockwise.
    """

    points: np.ndarray  # of the cells that list an edge
    nodes: np.ndarray
    ends: np.ndarray
    cell: np.ndarray  # the cell of each loop
    cells: np.ndarray  # the cells that list an edge
    counts: np.ndarray  # for each of them: listed, in loops, pinched, flat, open
    cell_points: np.ndarray  # for each of them: the first of its points, and the one after the last
    defaulted_by_cell: dict[int, int] = field(default_factory=dict)  # crossings that lie in the middle by default, of each cell with any, also of one that lists no edge
    compared: np.ndarray = field(default_factory=lambda: np.zeros(0, dtype=np.int64))  # the cells with a comparison of points, also one that lists no edge
    compared_counts: np.ndarray = field(default_factory=lambda: np.zeros(0, dtype=np.int64))  # for each of them: how many


class Cutter:
    """Calls for the cells of one mesh, by one plane, with its normal scaled or as it is given, in the strict way or the usual one."""

    def __init__(self, mesh: Mesh, origin: Vector, normal: Vector, tol: float, own: float = np.inf, scaled: bool = True,
                 strict: bool = False) -> None:
        self.mesh, self.origin, self.unit, self.tol, self.own = mesh, origin, unit_normal(normal, scaled), tol, own
        self.scaled, self.strict = scaled, strict
        self.vectors = floats(origin), floats(normal)
        self.place = (mesh.points.ctypes.data, mesh.points.size, *(v.ctypes.data for v in self.vectors))
        self.written = [Growing(np.float64, 1 << 16), Growing(np.uint32, 1 << 15), Growing(np.uint32, 1 << 15)]
        self.told: list[np.ndarray] = []
        self.cells: list[np.ndarray] = []

    def cut(self, block: Block | Polyhedra, cells: np.ndarray, progress: Callable[[int], None] | None = None) -> np.ndarray:
        """What the library tells of each of these cells of a block; what it wrote is kept."""
        conn, starts = block.handed(cells)
        told = self._calls(CUT, block.kind.number, conn, starts, self.written, progress,
                           lambda k: f"{self.mesh.source}: {self.mesh.name(block.first + int(cells[k]))}")
        self.told.append(told)
        self.cells.append(block.first + cells)
        return told

    def edges_of_faces(self, faces: np.ndarray) -> np.ndarray:
        """The number of edges that the library lists for each face, a row of nodes, handed over as a polyhedron of one face."""
        spare = [Growing(buffer.array.dtype.type, 1 << 16) for buffer in self.written]
        starts = np.arange(len(faces) + 1) * faces.shape[1]
        return self._calls(CUT, POLYHEDRON, faces.ravel(), starts, spare, None, lambda k: "a face")["listed"]

    def gathered(self, faces: Faces, name: Callable[[int], str]) -> tuple[np.ndarray, np.ndarray]:
        """What the library tells of each face, handed over as a polyhedron of one face, and the segments, four numbers each.

        By theorem `FaceByFace` (crates/gather/specs/Gather.antt) those of a cell's faces, one after the other, are the cell's own.
        """
        numbers = Growing(np.float64, 1 << 16)
        told = self._calls(GATHER, POLYHEDRON, faces.nodes, faces.starts, [numbers], None, name)
        return told, numbers.written().reshape(-1, 4)

    def _calls(self, loop: CellLoop, number: int, conn: np.ndarray, starts: np.ndarray, lent: list[Growing],
               progress: Callable[[int], None] | None, name: Callable[[int], str]) -> np.ndarray:
        conn, starts = (np.ascontiguousarray(a, dtype=np.int64) for a in (conn, starts))
        told = np.zeros(len(starts) - 1, dtype=loop.told)
        ways = (self.scaled, self.strict) if loop.stitches else (self.scaled,)
        done = 0
        while done < len(told):
            buffers = [part for buffer in lent for part in buffer.lend(6 * MOST_ENTRIES)]
            part = min(AT_ONCE, len(told) - done)
            answered = getattr(library(), loop.name)(
                number, conn.ctypes.data, starts[done:].ctypes.data, part, *self.place, *ways, self.tol, *buffers, told[done:].ctypes.data)
            new = told[done : done + answered]
            for buffer, used in zip(lent, loop.taken(new)):
                buffer.used += int(used.sum())
            done += answered
            refusal = int(told[done]["refusal"]) if answered < part else 0
            if refusal == 7:  # the buffers are full: more room, and on from here
                for buffer in lent:
                    buffer.grow()
            elif refusal:
                raise Refused(refusal, name(done))
            if progress:
                progress(done)
        return told

    def loops(self) -> Loops:
        """What was written for cells that list an edge, with points numbered from the first of them all."""
        told, cells = (np.concatenate(parts) for parts in (self.told, self.cells))
        some = np.flatnonzero(told["defaulted"])
        defaulted = dict(zip(cells[some].tolist(), told["defaulted"][some].tolist()))
        some = np.flatnonzero(told["comparisons"])
        compared, comparisons = cells[some], told["comparisons"][some].astype(np.int64)
        kept = told["listed"] > 0
        numbers, nodes, ends = (buffer.written() for buffer in self.written)
        points = numbers.reshape(-1, 2)
        if told["points"][~kept].any():  # where the ends of each segment become one point, a cell has points and lists no edge
            points = points[np.repeat(kept, told["points"])]
        told, cells = told[kept], cells[kept]
        sizes = [told[name].astype(np.int64) for name in ("points", "nodes", "loops")]
        first_point, first_node = (np.cumsum(size) - size for size in sizes[:2])
        ends = ends + np.repeat(first_node, sizes[2])  # the library counts points and nodes from the cell's own first
        nodes = nodes + np.repeat(first_point, sizes[1])
        counts = np.stack([told[name].astype(np.int64) for name in COUNTS], axis=1)
        return Loops(points, nodes, ends, np.repeat(cells, sizes[2]), cells, counts,
                     np.stack([first_point, first_point + sizes[0]], axis=1), defaulted, compared, comparisons)


def cells_with_gaps(cutter: Cutter, block: Block | Polyhedra, cells: np.ndarray, listed: np.ndarray, sides: Sides) -> np.ndarray:
    """Of these cells, which the plane passes through and which list edges: those with a face that has corners on both sides
    and no segment. A face of under three different nodes, as a brick collapsed to a wedge has, is a line and bounds nothing.

    The library tells of a face that is handed over alone. Most need no such call: see `_segments_at_most` and `_surely`.
    """
    suspects = cells[listed != _segments_at_most(block, cells, sides)]
    gaps = []
    for owners, faces in _faces_by_length(block, suspects):
        bits = sides.of_node[faces]
        different = (np.diff(np.sort(faces, axis=1), axis=1) != 0).sum(axis=1) + 1
        crossed = (np.bitwise_or.reduce(bits, axis=1) == ABOVE | BELOW) & (different > 2)
        asked = np.flatnonzero(crossed)
        asked = asked[~_surely(cutter, faces[asked], bits[asked])]
        gaps.append(owners[asked[cutter.edges_of_faces(faces[asked]) == 0]])
    return np.unique(np.concatenate([*gaps, cells[:0]]))


def _faces_by_length(block: Block | Polyhedra, cells: np.ndarray) -> Iterator[tuple[np.ndarray, np.ndarray]]:
    """The faces of these cells, those with as many corners at once: the cell of each, and its nodes as a row."""
    if isinstance(block, Block):
        for face in block.kind.faces:
            yield cells, block.nodes[cells[:, None], face]
        return
    faces = [(cell, face) for cell in cells.tolist() for face in block.faces(cell)]
    for length in sorted({len(face) for _, face in faces}):
        chosen = [(cell, face) for cell, face in faces if len(face) == length]
        yield np.array([cell for cell, _ in chosen]), np.stack([face for _, face in chosen])


def _segments_at_most(block: Block | Polyhedra, cells: np.ndarray, sides: Sides) -> np.ndarray:
    """For each cell: the number of faces with corners on both sides, where no face can have more than one segment; else -1.

    A corner above tol or below -tol is on no segment, as a segment's ends are within tol of the plane by the rule's own
    distances, and these are the same for a corner wherever they are taken. So where all corners are above or below, the ends
    of segments are crossings: one for each change of side around the face. With two changes there are two crossings, hence
    one segment at most, and a face without a change has none (theorem `left_out`). Each edge that a cell lists comes from a
    segment, so a cell that lists as many edges as it has such faces has a segment of each of them.
    """
    if isinstance(block, Polyhedra):
        return np.full(len(cells), -1)
    columns = [sides.of_node[corner] for corner in block.corners(cells).T]
    clear = np.all(columns, axis=0)
    found = np.zeros(len(cells), dtype=np.int64)
    for face in block.kind.faces:
        changes = sum((columns[a] != columns[b]).astype(np.int8) for a, b in zip(face, (*face[1:], face[0])))
        found += changes == 2
        clear &= changes <= 2
    return np.where(clear, found, -1)


def _surely(cutter: Cutter, faces: np.ndarray, bits: np.ndarray) -> np.ndarray:
    """For each face, with corners above and below: whether it has a segment for certain, by where its crossings are.

    Asked for: a tolerance not below the mesh's own; each corner within tol of the plane, or further than 4 tol from it; and
    one way out of the upper side and one way in again, the crossings there more than 4 tol apart.

    Why that is enough: a crossing is moved onto the plane, so by the rule's own distance it is off it by its rounding alone.
    That is below 100 units of the last digit of the greatest coordinate, and the mesh's own tolerance is 128 of them and
    more. So both crossings are within tol. Each is kept, or it is dropped for a point within tol of it. That point is no corner
    further than 4 tol from the plane, so it is within tol as well, and stands in for it. The two are neighbours in the
    clipped polygon and further apart than tol. So they are a segment, or one that came before is as good.
    """
    if not cutter.tol >= cutter.own or not len(faces):
        return np.zeros(len(faces), dtype=bool)
    away = distances(cutter.mesh.points[faces.ravel()], cutter.origin, cutter.unit).reshape(faces.shape)
    inside = bits != BELOW
    after = np.r_[1 : faces.shape[1], 0]
    out, back = inside & ~inside[:, after], ~inside & inside[:, after]
    fit = ((bits == 0) | (np.abs(away) > 4 * cutter.tol)).all(axis=1) & (out.sum(axis=1) == 1) & (back.sum(axis=1) == 1)
    ends = []
    for mask in (out, back):
        k = mask.argmax(axis=1)
        rows = np.arange(len(faces))
        a, b = cutter.mesh.points[faces[rows, k]], cutter.mesh.points[faces[rows, after[k]]]
        with np.errstate(all="ignore"):
            t = away[rows, k] / (away[rows, k] - away[rows, after[k]])
            ends.append(a + t[:, None] * (b - a))
    return fit & (((ends[0] - ends[1]) ** 2).sum(axis=1) > (4 * cutter.tol) ** 2)
