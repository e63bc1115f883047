"""Meshes that several tests use."""
import meshio
import numpy as np
import pytest
from hypothesis import settings

settings.register_profile("short", max_examples=25, deadline=None, derandomize=True)
settings.load_profile("short")

CUBE = np.array([[0, 0, 0], [1, 0, 0], [1, 1, 0], [0, 1, 0], [0, 0, 1], [1, 0, 1], [1, 1, 1], [0, 1, 1]], dtype=float)
TETRAHEDRA = [[0, 1, 2, 6], [0, 2, 3, 6], [0, 3, 7, 6], [0, 7, 4, 6], [0, 4, 5, 6], [0, 5, 1, 6]]
WEDGES = [[0, 1, 2, 4, 5, 6], [0, 2, 3, 4, 6, 7]]
PYRAMIDS = [[0, 1, 2, 3, 6], [0, 4, 5, 1, 6], [0, 3, 7, 4, 6]]  # over the three sides of a brick that do not have its corner 6


def box(n: int, kind: str = "hexahedron", size=(1.0, 1.0, 1.0)) -> meshio.Mesh:
    """The box from (0, 0, 0) to size as n x n x n bricks, each cut up into wedges, tetrahedra or pyramids where asked."""
    steps = np.linspace(0, 1, n + 1)
    points = np.stack(np.meshgrid(steps, steps, steps, indexing="ij"), -1).reshape(-1, 3) * size
    i, j, k = (a.ravel() for a in np.meshgrid(*3 * [np.arange(n)], indexing="ij"))
    bricks = np.stack([((i + a) * (n + 1) + j + b) * (n + 1) + k + c for a, b, c in CUBE.astype(int)], -1)
    parts = {"hexahedron": [list(range(8))], "wedge": WEDGES, "tetra": TETRAHEDRA, "pyramid": PYRAMIDS}[kind]
    cells = np.concatenate([bricks[:, part] for part in parts])
    return meshio.Mesh(points, [(kind, np.ascontiguousarray(cells))])


@pytest.fixture
def cube() -> meshio.Mesh:
    return box(1)


def stack(below: int, above: int, width: float = 1.0) -> meshio.Mesh:
    """A layer of below x below bricks under one of above x above, which is as wide as said along x; z = 0 is between them."""
    layers = []
    for n, size, base in ((below, (1.0, 1.0, 1.0), -1.0), (above, (width, 1.0, 1.0), 0.0)):
        steps = np.linspace(0, 1, n + 1)
        points = np.array([(x, y, z) for x in steps for y in steps for z in (0, 1)]) * size + [0, 0, base]
        i, j = (a.ravel() for a in np.meshgrid(*2 * [np.arange(n)], indexing="ij"))
        layers.append((points, np.stack([((i + a) * (n + 1) + j + b) * 2 + c for a, b, c in CUBE.astype(int)], -1)))
    (points, cells), (more, others) = layers
    return meshio.Mesh(np.concatenate([points, more]), [("hexahedron", np.concatenate([cells, others + len(points)]))])
