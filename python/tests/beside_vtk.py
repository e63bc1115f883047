#!/usr/bin/env -S PYTHONPATH=python /usr/bin/python3
"""Times the cut of 2,058,000 tetrahedra by an inclined plane beside VTK's cutters, in one run; the least of five turns each.

With the name of a file, writes the mesh to it and times nothing, so that the command can be timed on it.
"""
import resource
import sys
import time

import by_vtk
from conftest import box

import cicelybeam

ORIGIN, NORMAL = (0.5, 0.5, 0.5), (0.3, 0.2, 1.0)


def least(work) -> float:
    turns = []
    for _ in range(5):
        start = time.perf_counter()
        work()
        turns.append(time.perf_counter() - start)
    return min(turns)


def by_vtk_seconds(grid, kind: str, triangles: bool = False) -> float:
    def work() -> None:
        cutter = by_vtk.cutter(grid, ORIGIN, NORMAL, kind)
        if triangles:
            cutter.SetGenerateTriangles(True)
        cutter.Update()

    return least(work)


if __name__ == "__main__":
    raw = box(70, "tetra")
    if len(sys.argv) > 1:
        raw.write(sys.argv[1])
        sys.exit()
    mesh = cicelybeam.of_meshio(raw)
    ours = least(lambda: cicelybeam.cut_plane(mesh, ORIGIN, NORMAL))
    record = cicelybeam.cut_plane(mesh, ORIGIN, NORMAL).record
    memory = resource.getrusage(resource.RUSAGE_SELF).ru_maxrss // 1024
    print(f"{record.cells} cells, {record.with_edges} of them cut, area {record.area:.12g}")
    print(f"cicelybeam                 {ours:.3f} s, at most {memory} MB with the mesh")
    grid = by_vtk.grid_of(raw)
    for kind, triangles in (("vtkCutter", False), ("vtkCutter", True), ("vtkPlaneCutter", False)):
        seconds = by_vtk_seconds(grid, kind, triangles)
        name = kind + (", triangles" if triangles else "")
        print(f"{name:<26} {seconds:.3f} s; cicelybeam takes {ours / seconds:.2f} times as long")
