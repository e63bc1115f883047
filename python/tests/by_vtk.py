"""A section's area by VTK's cutter, for tests and benchmarks where python3-vtk9 is installed."""
import numpy as np
import pytest

vtk = pytest.importorskip("vtkmodules.all")
numpy_support = pytest.importorskip("vtkmodules.util.numpy_support")

TYPES = {"tetra": 10, "hexahedron": 12, "wedge": 13, "pyramid": 14}


def grid_of(mesh):
    """A meshio mesh as VTK's grid; cells of other types are left out."""
    points = vtk.vtkPoints()
    points.SetData(numpy_support.numpy_to_vtk(np.ascontiguousarray(mesh.points, dtype=float), deep=True))
    blocks = [(TYPES[block.type], np.asarray(block.data)) for block in mesh.cells if block.type in TYPES]
    rows = [np.concatenate([np.full((len(data), 1), data.shape[1]), data], axis=1).ravel() for _, data in blocks]
    cells = vtk.vtkCellArray()
    cells.SetCells(sum(len(data) for _, data in blocks), numpy_support.numpy_to_vtkIdTypeArray(np.concatenate(rows).astype(np.int64), deep=True))
    kinds = np.concatenate([np.full(len(data), kind, dtype=np.uint8) for kind, data in blocks])
    grid = vtk.vtkUnstructuredGrid()
    grid.SetPoints(points)
    grid.SetCells(numpy_support.numpy_to_vtk(kinds, deep=True, array_type=vtk.VTK_UNSIGNED_CHAR), cells)
    return grid


def cutter(grid, origin, normal, kind="vtkCutter"):
    plane = vtk.vtkPlane()
    plane.SetOrigin(*map(float, origin))
    plane.SetNormal(*(np.array(normal, dtype=float) / np.linalg.norm(normal)))
    found = getattr(vtk, kind)()
    found.SetInputData(grid)
    if kind == "vtkCutter":
        found.SetCutFunction(plane)
        found.SetGenerateTriangles(False)  # polygons; triangles are quicker and less exact
        found.SetOutputPointsPrecision(1)  # 64-bit floats
    else:
        found.SetPlane(plane)
    return found


def area_of(polygons) -> float:
    """The sum of the polygons' areas, each half the length of the sum of its corners' cross products."""
    points = numpy_support.vtk_to_numpy(polygons.GetPoints().GetData()).astype(float)
    cells = polygons.GetPolys()
    starts = numpy_support.vtk_to_numpy(cells.GetOffsetsArray())
    corners = points[numpy_support.vtk_to_numpy(cells.GetConnectivityArray())]
    total = 0.0
    for first, after in zip(starts, starts[1:]):
        around = corners[first:after] - corners[first]
        total += 0.5 * np.linalg.norm(np.cross(around[:-1], around[1:]).sum(axis=0))
    return total


def area(mesh, origin, normal) -> float:
    found = cutter(grid_of(mesh), origin, normal)
    found.Update()
    polygons = found.GetOutput()
    return area_of(polygons) if polygons.GetNumberOfPolys() else 0.0
