"""The nearest parallel plane by which everything is drawn."""
from __future__ import annotations

import math
from collections.abc import Callable, Iterator
from dataclasses import dataclass, replace
from enum import IntEnum

import numpy as np

from . import place
from .mesh import Block, Mesh, Polyhedra
from .place import Frame

MOST = 1e-6  # of the mesh's extent
LOOKED_AT = 200  # cells of a plane where something is not drawn, and whether area is lost there is worked out


class Drawn(IntEnum):
    """How much of a section a plane draws."""

    NOT_ALL = 0  # area is lost, or it jumps
    AREA = 1  # all but edges that bound no area
    ALL = 2  # every edge


@dataclass(frozen=True)
class Wanted:
    """How much a plane is to draw: everything, or else enough; and the area of the section asked for, drawn and lost together."""

    enough: Drawn
    area: float


def nearest_shift(mesh: Mesh, frame: Frame, tol: float, drawn_at: Callable[[Mesh, float], tuple[Drawn, float]], most: float,
                  wanted: Wanted) -> float | None:
    """How far along the normal, or against it, the nearest plane is that draws everything; else the nearest that draws enough.

    `drawn_at` tells how much of a section is drawn, and its area. Planes are tried on both sides in growing steps, up to `most`
    away. Where the part gets narrower at the plane, one side has another area than was asked for: such a plane is taken
    only if none with the area follows before 64 times its distance. None that has left the mesh is taken. Cells that no
    plane reaches are left out once and for all.
    """
    slab = place.sides(mesh.points, frame.origin, frame.normal, most + 2 * tol)
    near = replace(mesh, blocks=_kept(mesh, slab))
    found: dict[tuple[Drawn, bool], float] = {}  # the nearest plane of each kind: how much it draws, and whether it has the area
    for step in _steps(2 * tol, most):
        if step > 64 * abs(found.get((Drawn.ALL, False), math.inf)):
            break
        for shift in (step, -step):
            drawn, area = drawn_at(near, shift)
            if drawn >= wanted.enough and area > 0:
                found.setdefault((drawn, area > 0.999 * wanted.area), shift)
        if (Drawn.ALL, True) in found:
            break
    return found[max(found)] if found else None


def extent_of(mesh: Mesh) -> float:
    """The greatest length of the mesh along an axis."""
    return max((high - low for low, high in zip(*mesh.extent)), default=0.0) if mesh.extent else 0.0


def _steps(first: float, most: float) -> Iterator[float]:
    step = first
    while 0 < step < most:
        yield step
        step *= 2
    if most > 0:
        yield most


def _kept(mesh: Mesh, slab: place.Sides) -> list[Block | Polyhedra]:
    """The blocks with those cells alone that the planes may reach, numbered anew."""
    found: list[Block | Polyhedra] = []
    first = 0
    for block in mesh.blocks:
        chosen = np.flatnonzero(slab.reached(block))
        if isinstance(block, Block):
            found.append(Block(block.name, first, block.kind, block.nodes[chosen]))
        else:
            found.append(Polyhedra(block.name, first, [block.cells[k] for k in chosen]))
        first += len(chosen)
    return found
