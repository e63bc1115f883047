"""Where the area jumps: faces that are not flat, with a corner in the plane.

A face with corners above, below, in the plane and below again, in this order around it, gives segments that meet in the
corner in the plane. By a plane just above, the corner counts as below, and one segment passes it by. Between them lies a
triangle. Where two cells share the face, one has what the other has not, and the whole is the same. On the outside of the
mesh nothing makes up for it: then the area by the planes just above and just below differs, and no figure is the right one.
"""
from __future__ import annotations

from collections import Counter
from dataclasses import dataclass

import numpy as np

from .mesh import Block, Mesh, Polyhedra
from .place import ABOVE, BELOW, Frame, Sides


JUMP = 1e-9  # of the area: a smaller jump is not told


@dataclass(frozen=True)
class Jumps:
    """The cells with such faces on the outside, and the area of the triangles."""

    cells: list[int]
    area: float


def find_jumps(mesh: Mesh, frame: Frame, sides: Sides, through: np.ndarray) -> Jumps:
    """`through` are the cells that the plane passes through, sorted."""
    found: list[tuple[int, np.ndarray]] = []
    for block in mesh.blocks:
        first, after = np.searchsorted(through, [block.first, block.first + len(block)])
        found += _doubtful_faces(block, through[first:after] - block.first, sides)
    times = Counter(tuple(sorted(face.tolist())) for _, face in found)
    outside = [(cell, face) for cell, face in found if times[tuple(sorted(face.tolist()))] == 1]
    area = sum(_triangles(mesh, frame, sides, face) for _, face in outside)
    return Jumps(sorted({cell for cell, _ in outside}), area)


def _doubtful_faces(block: Block | Polyhedra, cells: np.ndarray, sides: Sides) -> list[tuple[int, np.ndarray]]:
    """Faces with a corner above, and one in the plane whose neighbours are in the plane or below."""
    if isinstance(block, Polyhedra):
        faces = [(cell, face) for cell in cells.tolist() for face in block.faces(cell)]
        return [(block.first + cell, face) for cell, face in faces if _doubtful(sides.of_node[face][None])[0]]
    cells = cells[block.folded(np.minimum, sides.of_node, cells) == 0]
    found = []
    for places in block.kind.faces:
        if len(places) > 3:  # a triangle is flat
            faces = block.nodes[cells[:, None], places]
            chosen = np.flatnonzero(_doubtful(sides.of_node[faces]))
            found += [(block.first + int(cells[k]), faces[k]) for k in chosen]
    return found


def _doubtful(bits: np.ndarray) -> np.ndarray:
    low = bits != ABOVE
    held = (bits == 0) & low[:, np.r_[-1, : low.shape[1] - 1]] & low[:, np.r_[1 : low.shape[1], 0]]
    return held.any(axis=1) & (bits == ABOVE).any(axis=1) & (bits == BELOW).any(axis=1)


def _triangles(mesh: Mesh, frame: Frame, sides: Sides, face: np.ndarray) -> float:
    """The area between the segments that meet in corners in the plane and those that pass them by."""
    bits = sides.of_node[face]
    start = int(np.argmax(bits == ABOVE))
    face, bits = np.roll(face, -start), np.roll(bits, -start)
    points = mesh.points[face]
    away = (points - np.array(frame.origin)) @ np.array(frame.normal)
    area = 0.0
    stretch: list[np.ndarray] = []  # the ends of segments since the last corner above
    for k in range(len(face) + 1):
        a, b = k - 1, k % len(face)
        if k and {bits[a], bits[b]} == {ABOVE, BELOW}:
            stretch.append(points[a] + away[a] / (away[a] - away[b]) * (points[b] - points[a]))
        if bits[b] == 0:
            stretch.append(points[b])
        if bits[b] == ABOVE:
            x, y = frame.in_plane(np.array(stretch).reshape(-1, 3)).T
            area += abs(0.5 * float(np.sum(x * np.roll(y, -1) - np.roll(x, -1) * y)))
            stretch = []
    return area
