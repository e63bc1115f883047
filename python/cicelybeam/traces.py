"""The traces of a plane on the faces of cells: the segments of a cut before they are stitched.

Each face is handed over alone. By theorem `FaceByFace` (crates/gather/specs/Gather.antt) what its faces have, one after the
other, is what the whole cell has. Faces and cells with all corners above the tolerance, or all below its negative, are left out:
by theorem `left_out` (crates/clip/specs/Clear.antt) they have no segment, and by `none_left_out` (crates/clip/specs/Defaulted.antt) no crossing.
"""
from __future__ import annotations

from dataclasses import dataclass
from functools import cached_property
from pathlib import Path
from typing import TYPE_CHECKING

import numpy as np

from . import place
from .cells import Cutter
from .mesh import CHUNK
from .record import number

if TYPE_CHECKING:
    from .plane import PlaneCut


@dataclass(repr=False)
class Traces:
    """The traces of a plane cut, not welded: by cell, then by face, then as the library gives them.

    Faces are numbered from 0 within their cell: in the order of docs/RULES.md, of polyhedra as the mesh has them, and of pyramids
    and prisms as celltypes.py has them. Ends are in the plane, from its origin; `in_space()` gives them in space.
    """

    cut: PlaneCut
    cell: np.ndarray  # of each trace, in the mesh
    face: np.ndarray  # of each trace, within its cell
    near_ends: np.ndarray  # x and y of the first and of the second end of each trace in the plane, from the point that cells are cut from
    defaulted_by_face: dict[tuple[int, int], int]  # crossings that lie in the middle by default, of each cell and face with any, also of one without a trace

    def __len__(self) -> int:
        return len(self.cell)

    def __repr__(self) -> str:
        return f"<Traces of {self.cut.mesh.source}: {len(self)} on the faces of {number(len(np.unique(self.cell)), 'cell')}>"

    @property
    def defaulted(self) -> int:
        """How many crossings lie in the middle of their edge by default, on all faces: as many as the plane cut tells."""
        return sum(self.defaulted_by_face.values())

    @cached_property
    def ends(self) -> np.ndarray:
        """x and y of the first and of the second end of each trace, from the plane's origin."""
        with np.errstate(all="ignore"):  # as in the cut itself
            return self.near_ends + self.cut.offset

    def in_space(self) -> np.ndarray:
        """The ends in space, three numbers each; an origin far away costs them no digit."""
        return self.cut.near.in_space(self.near_ends.reshape(-1, 2)).reshape(-1, 2, 3)

    def write(self, path: str | Path) -> None:
        """A row or a line for each trace, as .csv or .vtp."""
        from .report import write_traces

        write_traces(self, Path(path))


def gather(cut: PlaneCut) -> Traces:
    """The traces of the plane that the cells were cut by."""
    mesh, near, asked = cut.mesh, cut.near, cut.asked
    sides = place.sides(mesh.points, near.origin, near.normal, asked.tol)
    cutter = Cutter(mesh, near.origin, asked.normal, asked.tol, scaled=asked.scaled)
    parts, defaulted = [], {}
    for block in mesh.blocks:
        reached = np.flatnonzero(sides.reached(block))
        for start in range(0, len(reached), CHUNK):
            faces = block.faces_of(reached[start : start + CHUNK])
            faces = faces.chosen(faces.folded(np.bitwise_and, sides.of_node) == 0)
            told, numbers = cutter.gathered(
                faces, lambda k: f"{mesh.source}: face {faces.number[k]} of {mesh.name(block.first + int(faces.cell[k]))}")
            counts = told["segments"].astype(np.int64)
            parts.append((block.first + np.repeat(faces.cell, counts), np.repeat(faces.number, counts), numbers))
            some = np.flatnonzero(told["defaulted"])
            defaulted.update(zip(zip((block.first + faces.cell[some]).tolist(), faces.number[some].tolist()), told["defaulted"][some].tolist()))
    none = (np.empty(0, np.int64), np.empty(0, np.int64), np.empty((0, 4)))
    cell, face, numbers = (np.concatenate(column) for column in zip(none, *parts))
    return Traces(cut, cell, face, numbers.reshape(-1, 2, 2), defaulted)
