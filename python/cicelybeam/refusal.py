"""Why there is no answer, in words."""
from __future__ import annotations

WORDS = {
    1: "cells of this type are not cut by this function",
    2: "it does not have its type's number of nodes, or has over 256 entries as a polyhedron or polygon",
    3: "the coordinates are not whole rows",
    4: "the node number of a corner is no row of the coordinates",
    5: "origin, normal or direction has not as many numbers as the mesh has dimensions",
    6: "the normal or direction has no direction: its norm is not greater than 0",
    7: "a buffer is too short",
    8: "the segments are not of four numbers each, or are more than 384",
}


class CicelybeamError(Exception):
    """Any error that this package tells of."""


class MeshError(CicelybeamError):
    """A mesh that cannot be read or used."""


class Refused(CicelybeamError):
    """The library refused, or would refuse, by the number in `number`; `cell` is the cell's name where one was being cut."""

    def __init__(self, number: int, cell: str | None = None, detail: str = "") -> None:
        self.number = number
        self.cell = cell
        words = WORDS.get(number, "no such refusal is known")
        super().__init__(f"{cell + ': ' if cell else ''}{words} (refusal {number}){': ' + detail if detail else ''}")
