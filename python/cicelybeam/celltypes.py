"""meshio's types of cells, and the rules' types that they are cut as.

Only corners matter for a cut, and in all of meshio's types below they come first and in the rules' order: for
a wedge 0 1 2 and 3 4 5 above them, for a brick 0 1 2 3 and 4 5 6 7 above them. So a cell is handed over as it stands.
Where docs/RULES.md has no type with as many nodes (20 or 27 for a brick, 18 for a wedge), the corners alone are
handed over, as the type without mid-side nodes. Its faces are the same. Pyramids and prisms over five or six sides have
no type of their own there: they are handed over by their faces, as polyhedra. Edges are straight between corners.
"""
from __future__ import annotations

from dataclasses import dataclass

FaceTable = tuple[tuple[int, ...], ...]

POLYHEDRON = 18
POLYGON = 11


def prism_faces(n: int) -> FaceTable:
    """The faces of a prism over n sides: corners 0 to n - 1, and n to 2n - 1 above them.

    >>> prism_faces(3)
    ((2, 1, 0), (3, 4, 5), (0, 1, 4, 3), (1, 2, 5, 4), (2, 0, 3, 5))
    """
    sides = tuple((k, (k + 1) % n, n + (k + 1) % n, n + k) for k in range(n))
    return (tuple(range(n - 1, -1, -1)), tuple(range(n, 2 * n)), *sides)


# Faces by positions in the connectivity: docs/RULES.md, 'The cell'; of the others, meshio's order of corners.
TET_FACES: FaceTable = ((0, 1, 3), (1, 2, 3), (2, 0, 3), (0, 2, 1))
WEDGE_FACES: FaceTable = ((0, 2, 1), (3, 4, 5), (0, 1, 4, 3), (1, 2, 5, 4), (2, 0, 3, 5))
HEX_FACES: FaceTable = ((0, 3, 2, 1), (4, 5, 6, 7), (0, 1, 5, 4), (2, 3, 7, 6), (1, 2, 6, 5), (3, 0, 4, 7))
PYRAMID_FACES: FaceTable = ((0, 3, 2, 1), (0, 1, 4), (1, 2, 4), (2, 3, 4), (3, 0, 4))


@dataclass(frozen=True)
class CellType:
    """How a meshio type is cut: the rules' number, the nodes handed over, the corners, the faces in space."""

    number: int
    nodes: int
    corners: int
    faces: FaceTable = ()
    order: tuple[int, ...] | None = None  # positions of the corners where they are not the first ones in order
    curved: bool = False  # it has mid-side nodes, which are left out


def _straight_and_curved(number: int, corners: int, faces: FaceTable, name: str, *more: str) -> dict[str, CellType]:
    """A type, and those with the same corners and more nodes: by the number of their nodes, or by VTK's names."""
    found = {name: CellType(number, corners, corners, faces)}
    curved = CellType(number, corners, corners, faces, curved=True)
    found.update({(other if other.startswith("VTK") else name + other): curved for other in more})
    return found


IN_SPACE: dict[str, CellType] = {
    **_straight_and_curved(12, 4, TET_FACES, "tetra", "20", "35", "56", "84", "120", "165", "220", "286",
                           "VTK_LAGRANGE_TETRAHEDRON", "VTK_BEZIER_TETRAHEDRON"),
    **_straight_and_curved(14, 8, HEX_FACES, "hexahedron", "20", "24", "27", "64", "125", "216", "343", "512", "729", "1000", "1331",
                           "VTK_LAGRANGE_HEXAHEDRON", "VTK_BEZIER_HEXAHEDRON"),
    **_straight_and_curved(16, 6, WEDGE_FACES, "wedge", "12", "18", "40", "75", "126", "196", "288", "405", "550",
                           "VTK_LAGRANGE_WEDGE", "VTK_BEZIER_WEDGE"),
    **_straight_and_curved(POLYHEDRON, 5, PYRAMID_FACES, "pyramid", "13", "14", "VTK_LAGRANGE_PYRAMID", "VTK_BEZIER_PYRAMID"),
    **_straight_and_curved(POLYHEDRON, 10, prism_faces(5), "penta_prism"),
    **_straight_and_curved(POLYHEDRON, 12, prism_faces(6), "hexa_prism"),
    "tetra10": CellType(13, 10, 4, TET_FACES, curved=True),
    "wedge15": CellType(17, 15, 6, WEDGE_FACES, curved=True),
}

IN_PLANE: dict[str, CellType] = {
    "triangle": CellType(5, 3, 3),
    "triangle6": CellType(6, 6, 3, curved=True),
    "triangle7": CellType(7, 7, 3, curved=True),
    "quad": CellType(8, 4, 4),
    "quad8": CellType(9, 8, 4, curved=True),
    "quad9": CellType(10, 9, 4, curved=True),
    "pixel": CellType(8, 4, 4, order=(0, 1, 3, 2)),
}

# Beginnings of the names of types that fill space, and of types that fill a plane; those not in the tables above are not cut.
FILL_SPACE = ("tetra", "hexahedron", "wedge", "pyramid", "penta_prism", "hexa_prism", "polyhedron",
              *(f"VTK_{way}_{shape}" for way in ("LAGRANGE", "BEZIER") for shape in ("TETRA", "HEXA", "WEDGE", "PYRAMID")))
FILL_PLANE = ("triangle", "quad", "polygon", "pixel",
              *(f"VTK_{way}_{shape}" for way in ("LAGRANGE", "BEZIER") for shape in ("TRIANGLE", "QUAD")))


def dimension(name: str) -> int:
    """The dimension that cells of this meshio type fill: 3, 2, or 1 for lines and points."""
    if name.startswith(FILL_SPACE):
        return 3
    return 2 if name.startswith(FILL_PLANE) else 1
