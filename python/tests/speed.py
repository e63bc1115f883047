#!/usr/bin/env -S PYTHONPATH=python /usr/bin/python3
"""Times a plane cut and a line cut of 215,622 tetrahedra, apart from reading a file, the traces on the faces of over 100,000 cells,
cells with few and with many faces, and the files of a section of 57,624 polygons; the least of five turns each. From the
repository's root."""
import tempfile
import time
from pathlib import Path

import meshio
import numpy as np
from conftest import CUBE, TETRAHEDRA, box

import cicelybeam
from cicelybeam.cells import CUT, Cutter
from cicelybeam.celltypes import HEX_FACES
from cicelybeam.traces import gather


def least(cut) -> tuple[float, object]:
    found = None
    turns = []
    for _ in range(5):
        start = time.perf_counter()
        found = cut()
        turns.append(time.perf_counter() - start)
    return min(turns), found


def layer(n: int, kind: str = "tetra") -> meshio.Mesh:
    """n x n bricks beside one another, or six tetrahedra in place of each."""
    points = np.array([(x, y, z) for x in np.linspace(0, 1, n + 1) for y in np.linspace(0, 1, n + 1) for z in (0, 1 / n)])
    i, j = (a.ravel() for a in np.meshgrid(*2 * [np.arange(n)], indexing="ij"))
    bricks = np.stack([((i + a) * (n + 1) + j + b) * 2 + c for a, b, c in CUBE.astype(int)], -1)
    return meshio.Mesh(points, [(kind, np.concatenate([bricks[:, part] for part in TETRAHEDRA]) if kind == "tetra" else bricks)])


def traces() -> None:
    for n, kind in ((130, "tetra"), (320, "hexahedron")):
        mesh = cicelybeam.of_meshio(layer(n, kind))
        seconds, cut = least(lambda: cicelybeam.cut_plane(mesh, (0, 0, 0.4 / n), (0, 0, 1)))
        more, found = least(lambda: gather(cut))
        print(f"{len(found)} traces of {cut.record.with_edges} cells ({kind}): {more:.2f} s, beside {seconds:.2f} s for the cut")


def crossed_by_all_faces(n: int) -> tuple[np.ndarray, list[np.ndarray]]:
    """A polyhedron of 2n triangles: a ring of n corners, above z = 0 and below it in turn, and two tips. Each face is on both sides."""
    angles = 2 * np.pi * np.arange(n) / n
    ring = np.stack([np.cos(angles), np.sin(angles), 0.1 * (-1.0) ** np.arange(n)], axis=1)
    sides = [(k, (k + 1) % n) for k in range(n)]
    return np.concatenate([ring, [[0, 0, 1], [0, 0, -1]]]), [np.array(face) for a, b in sides for face in ((a, b, n), (b, a, n + 1))]


def welding(many: int = 2000) -> None:
    """Cells of one kind in a row: their comparisons of points, the time of the library's calls, and that of the whole cut."""
    for points, faces in ((CUBE - 0.5, None), (CUBE - 0.5, list(map(np.array, HEX_FACES))), *map(crossed_by_all_faces, (8, 16, 32))):
        n = len(points)
        cells = [[face + n * k for face in faces] for k in range(many)] if faces else np.arange(n * many).reshape(many, n)
        name = f"polyhedron{n}" if faces else "hexahedron"
        mesh = cicelybeam.of_meshio(meshio.Mesh(np.concatenate([points + [3 * k, 0, 0] for k in range(many)]), [(name, cells)]))
        seconds, cut = least(lambda: cicelybeam.cut_plane(mesh, (0, 0, 0.01), (0, 0, 1)))
        (block,) = mesh.blocks
        handed = block.handed(np.arange(many))

        def calls() -> None:
            cutter = Cutter(mesh, cut.near.origin, cut.asked.normal, cut.asked.tol)
            cutter._calls(CUT, block.kind.number, *handed, cutter.written, None, str)

        inner, _ = least(calls)
        print(f"{name}, {len(faces or HEX_FACES)} faces: {cut.comparisons / many:.0f} comparisons of points a cell; "
              f"{1e6 * inner / many:.1f} microseconds in the library, {1e6 * seconds / many:.0f} for the whole cut")


def files() -> None:
    cut = cicelybeam.cut_plane(layer(98), (0, 0, 0.4 / 98), (0, 0, 1))
    with tempfile.TemporaryDirectory() as folder:
        for name in ("a.svg", "a.png", "a.pdf", "a.html", "a.json", "a.csv", "a.vtp"):
            path = Path(folder) / name
            seconds, _ = least(lambda: cut.write(path))
            print(f"{len(cut)} polygons as {path.suffix}: {seconds:.2f} s, {path.stat().st_size / 1e6:.1f} MB")


if __name__ == "__main__":
    mesh = box(33, "tetra")
    origin = (0.1, 0.2, 0.5)
    seconds, cut = least(lambda: cicelybeam.cut_plane(mesh, origin, (0.3, 0.2, 3)))
    print(f"plane: {seconds:.2f} s, {cut.record.cells} cells, {cut.record.with_edges} of them cut")
    seconds, cut = least(lambda: cicelybeam.cut_plane(mesh, origin, (0.3, 0.2, 3), leave_out=False))
    print(f"plane, no cell left out: {seconds:.2f} s, {cut.record.handed_over} calls")
    seconds, cut = least(lambda: cicelybeam.cut_line(mesh, origin, (3, 1, 0.4)))
    print(f"line: {seconds:.2f} s, {cut.record.with_segments} cells have a segment")
    traces()
    welding()
    files()
