#!/usr/bin/python3
"""Writes the sample mesh: a plate with a round hole, of bricks, with a strip of wedges and a strip of tetrahedra beside it.

The plate is [-2, 2] x [-2, 2] x [0, 1] with a hole of radius 1 (a polygon of 32 sides). The wedges stand on its right side, the
tetrahedra on its left. The three parts are physical groups with names; there is a field of cells and one of nodes.
"""
from __future__ import annotations

import sys
from pathlib import Path

import meshio
import numpy as np

AROUND, RINGS, LAYERS = 32, 4, 4
HEIGHT = 1.0

# A brick as six tetrahedra around its diagonal from 0 to 6.
TETRAHEDRA = ((0, 1, 2, 6), (0, 2, 3, 6), (0, 3, 7, 6), (0, 7, 4, 6), (0, 4, 5, 6), (0, 5, 1, 6))
# A brick as two wedges, over the triangles 0 1 2 and 0 2 3.
WEDGES = ((0, 1, 2, 4, 5, 6), (0, 2, 3, 4, 6, 7))


def plate() -> meshio.Mesh:
    points: dict[tuple[float, ...], int] = {}

    def node(x: float, y: float, z: float) -> int:
        return points.setdefault((round(x, 12), round(y, 12), round(z, 12)), len(points))

    bricks = [brick for layer in range(LAYERS) for brick in _ring(node, layer)]
    right = _strip(node, 2.0, 3.0)
    left = _strip(node, -3.0, -2.0)
    wedges = [[brick[k] for k in wedge] for brick in right for wedge in WEDGES]
    tetrahedra = [[brick[k] for k in tetra] for brick in left for tetra in TETRAHEDRA]
    coords = np.array(list(points), dtype=float)
    cells = [("hexahedron", bricks), ("wedge", wedges), ("tetra", tetrahedra)]
    cells = [(name, np.array(rows, dtype=np.int64)) for name, rows in cells]
    radius = [np.linalg.norm(coords[rows].mean(axis=1)[:, :2], axis=1) for _, rows in cells]
    group = [np.full(len(rows), k + 1) for k, (_, rows) in enumerate(cells)]
    names = {name: np.array([k + 1, 3]) for k, name in enumerate(("plate", "right strip", "left strip"))}
    return meshio.Mesh(coords, cells, {"temperature": 20 + 5 * coords[:, 0]},
                       {"radius": radius, "gmsh:physical": group, "gmsh:geometrical": group}, names)


def broken() -> meshio.Mesh:
    """The same, where five bricks that the plane of ./demo passes through are polyhedra that lack a face."""
    mesh = plate()
    bricks = mesh.cells[0].data
    chosen = [25, 134, 178, 337, 354]
    faces = ((0, 3, 2, 1), (4, 5, 6, 7), (0, 1, 5, 4), (2, 3, 7, 6), (1, 2, 6, 5))
    open_bricks = [[bricks[k][list(face)] for face in faces] for k in chosen]
    kept = np.setdiff1d(np.arange(len(bricks)), chosen)
    return meshio.Mesh(mesh.points, [("hexahedron", bricks[kept]), *mesh.cells[1:], ("polyhedron8", open_bricks)])


def write(mesh: meshio.Mesh, path: Path) -> None:
    """By the suffix. In gmsh's format meshio cannot read back fields of cells of several types, so the radius is left out there."""
    if path.suffix == ".msh":
        tags = {name: parts for name, parts in mesh.cell_data.items() if name.startswith("gmsh:")}
        mesh = meshio.Mesh(mesh.points, mesh.cells, mesh.point_data, tags, mesh.field_data)
    mesh.write(path, file_format="gmsh22" if path.suffix == ".msh" else None)


def _ring(node, layer: int) -> list[list[int]]:
    """The bricks of one layer around the hole."""
    def corner(side: int, ring: int, level: int) -> int:
        angle = 2 * np.pi * side / AROUND
        x, y = np.cos(angle), np.sin(angle)
        outer = 2 / max(abs(x), abs(y))  # on the square
        reach = 1 + (outer - 1) * ring / RINGS
        return node(x * reach, y * reach, HEIGHT * level / LAYERS)

    return [
        [corner(s, r, layer), corner(s, r + 1, layer), corner(s + 1, r + 1, layer), corner(s + 1, r, layer),
         corner(s, r, layer + 1), corner(s, r + 1, layer + 1), corner(s + 1, r + 1, layer + 1), corner(s + 1, r, layer + 1)]
        for s in range(AROUND) for r in range(RINGS)
    ]


def _strip(node, left: float, right: float) -> list[list[int]]:
    """Bricks between two values of x, with the rows of the square's sides."""
    angles = 2 * np.pi * np.arange(-AROUND // 8, AROUND // 8 + 1) / AROUND
    rows = [2 * np.tan(angle) for angle in angles]
    found = []
    for layer in range(LAYERS):
        low, high = HEIGHT * layer / LAYERS, HEIGHT * (layer + 1) / LAYERS
        for y, z in zip(rows, rows[1:]):
            corners = ((left, y), (right, y), (right, z), (left, z))
            found.append([node(a, b, level) for level in (low, high) for a, b in corners])
    return found


if __name__ == "__main__":
    path = Path(sys.argv[1] if len(sys.argv) > 1 else "plate.msh")
    mesh = plate()
    write(mesh, path)
    print(f"{path}: {len(mesh.points)} nodes, " + ", ".join(f"{len(b.data)} {b.type}" for b in mesh.cells))
