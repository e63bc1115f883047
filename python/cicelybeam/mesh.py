"""A mesh as the library takes it, read by meshio."""
from __future__ import annotations

import contextlib
import io
import os
from collections import Counter
from dataclasses import dataclass, field
from pathlib import Path

import meshio
import meshio._mesh
import numpy as np

from .celltypes import IN_PLANE, IN_SPACE, POLYGON, POLYHEDRON, CellType, dimension
from .groups import find_groups
from .library import floats
from .refusal import MeshError, Refused

# meshio 5.0.0 names types whose dimension its table lacks, so that it fails on files that have them.
for _name in (*IN_SPACE, *IN_PLANE, "quad6"):
    getattr(meshio._mesh, "topological_dimension", {}).setdefault(_name, dimension(_name))


CHUNK = 1 << 18  # cells looked at in one go, so that what is worked out of them stays small


def _folded(fold: np.ufunc, bits: np.ndarray) -> np.ndarray:
    """The columns of rows of bytes folded into one."""
    if bits.shape[1] in (4, 8) and bits.dtype == np.uint8 and fold in (np.bitwise_and, np.bitwise_or):
        rows = bits.view(f"u{bits.shape[1]}").ravel()  # a row is one number, whose halves are folded
        for half in (32, 16, 8)[1 if bits.shape[1] == 4 else 0 :]:
            rows = fold(rows, rows >> np.array(half, rows.dtype))
        return rows.astype(np.uint8)
    found = bits[:, 0].copy()
    for k in range(1, bits.shape[1]):
        fold(found, bits[:, k], out=found)
    return found


@np.errstate(all="ignore")
def mean(points: np.ndarray) -> np.ndarray:
    """The mean of rows of numbers, also where their sum is too large for a number.

    >>> mean(np.array([[1.0, 1.5e308], [2.0, 1.7e308]])).tolist()
    [1.5, 1.6e+308]
    """
    found = points.mean(axis=0)
    return found if np.isfinite(found).all() else (points / len(points)).sum(axis=0)


@dataclass
class Faces:
    """Faces of cells of one block, cell after cell and in their order."""

    cell: np.ndarray  # of each face, in the block
    number: np.ndarray  # of each face within its cell, from 0
    nodes: np.ndarray  # of face after face
    starts: np.ndarray  # where the nodes of each face start, with the end

    def chosen(self, kept: np.ndarray) -> Faces:
        """Those of these faces that are kept, by a truth value for each."""
        lengths = np.diff(self.starts)
        return Faces(self.cell[kept], self.number[kept], self.nodes[np.repeat(kept, lengths)], _starts(lengths[kept]))

    def folded(self, fold: np.ufunc, of_node: np.ndarray) -> np.ndarray:
        """For each face: the bits of its corners, by bitwise and, or by bitwise or."""
        return fold.reduceat(of_node[self.nodes], self.starts[:-1]) if len(self.cell) else of_node[:0]


def _starts(lengths: np.ndarray) -> np.ndarray:
    """Where each of these many starts, one after the other, with the end."""
    return np.concatenate([[0], np.cumsum(lengths)]).astype(np.int64)


@dataclass
class Block:
    """Cells of one type in a row. `first` is the number of its first cell in the mesh."""

    name: str
    first: int
    kind: CellType
    nodes: np.ndarray  # one row a cell, as 64-bit whole numbers

    def __len__(self) -> int:
        return len(self.nodes)

    def corners(self, cells: np.ndarray | slice = slice(None)) -> np.ndarray:
        return self.nodes[cells][..., : self.kind.corners]

    def all_corners(self) -> np.ndarray:
        return self.corners().ravel()

    def folded(self, fold: np.ufunc, of_node: np.ndarray, cells: np.ndarray | slice = slice(None)) -> np.ndarray:
        """For each cell: the bits of its corners, by bitwise and, or by bitwise or."""
        corners = self.corners(cells)
        found = np.empty(len(corners), dtype=of_node.dtype)
        for start in range(0, len(corners), CHUNK):
            bits = of_node.take(corners[start : start + CHUNK])
            found[start : start + CHUNK] = _folded(fold, bits)
        return found

    def handed(self, cells: np.ndarray) -> tuple[np.ndarray, np.ndarray]:
        """What the library is handed for these cells: the entries of cell after cell, and where each starts, with the end."""
        if self.kind.number == POLYHEDRON:
            ended = [(*face, -1) for face in self.kind.faces]
            places = np.array([k for face in ended for k in face][:-1])
            rows = self.nodes[np.asarray(cells)[:, None], places]
            rows[:, places < 0] = -1  # FACE_END, as the bits of a 64-bit whole number
        else:
            rows = self.nodes[cells][:, : self.kind.nodes]
        return rows.ravel(), np.arange(len(rows) + 1) * rows.shape[1]

    def faces(self, index: int) -> list[np.ndarray]:
        row = self.nodes[index]
        return [row[list(face)] for face in self.kind.faces]

    def faces_of(self, cells: np.ndarray) -> Faces:
        """The faces of these cells."""
        faces = self.kind.faces
        nodes = self.nodes[np.asarray(cells)[:, None], [k for face in faces for k in face]]
        return Faces(np.repeat(cells, len(faces)), np.tile(np.arange(len(faces)), len(cells)), nodes.ravel(),
                     _starts(np.tile([len(face) for face in faces], len(cells))))


@dataclass
class Polyhedra:
    """Polyhedra, each as its faces' nodes with FACE_END between them."""

    name: str
    first: int
    cells: list[list[np.ndarray]]
    kind: CellType = CellType(POLYHEDRON, 0, 0)
    entries: list[np.ndarray] = field(init=False)
    flat: np.ndarray = field(init=False)  # the corners of cell after cell
    starts: np.ndarray = field(init=False)  # where those of each cell start, with the end

    def __post_init__(self) -> None:
        end = np.array([-1], dtype=np.int64)  # FACE_END, as the bits of a 64-bit whole number
        self.entries = []
        for faces in self.cells:
            parts = [part for face in faces for part in (np.asarray(face, dtype=np.int64), end)]
            self.entries.append(np.concatenate(parts[:-1]) if parts else np.empty(0, np.int64))
        corners = [self.corners(k) for k in range(len(self))]
        self.flat = np.concatenate([*corners, np.empty(0, np.int64)])
        self.starts = np.cumsum([0, *map(len, corners)], dtype=np.int64)

    def __len__(self) -> int:
        return len(self.cells)

    def corners(self, index: int) -> np.ndarray:
        kept = self.faces(index)
        return np.concatenate(kept) if kept else np.empty(0, np.int64)

    def all_corners(self) -> np.ndarray:
        return self.flat

    def folded(self, fold: np.ufunc, of_node: np.ndarray, cells: np.ndarray | slice = slice(None)) -> np.ndarray:
        """As for a block; of a cell without corners, all bits by and, none by or."""
        found = np.full(len(self), fold.identity).astype(of_node.dtype)
        some = np.diff(self.starts) > 0
        if some.any():
            found[some] = fold.reduceat(of_node[self.flat], self.starts[:-1][some])
        return found[cells]

    def handed(self, cells: np.ndarray) -> tuple[np.ndarray, np.ndarray]:
        chosen = [self.entries[k] for k in cells]
        return np.concatenate([*chosen, np.empty(0, np.int64)]), np.cumsum([0, *map(len, chosen)])

    def faces(self, index: int) -> list[np.ndarray]:
        """The faces that are kept: those of three nodes or more."""
        return [np.asarray(face, dtype=np.int64) for face in self.cells[index] if len(face) >= 3]

    def faces_of(self, cells: np.ndarray) -> Faces:
        """The kept faces of these cells, with their numbers among all faces that the mesh has."""
        found = [(cell, number, face) for cell in cells.tolist() for number, face in enumerate(self.cells[cell]) if len(face) >= 3]
        return Faces(np.array([cell for cell, _, _ in found], dtype=np.int64), np.array([number for _, number, _ in found], dtype=np.int64),
                     np.concatenate([np.empty(0, np.int64), *(np.asarray(face, np.int64) for _, _, face in found)]),
                     _starts(np.array([len(face) for _, _, face in found], dtype=np.int64)))


@dataclass(repr=False)
class Mesh:
    """Coordinates in rows, the blocks that are cut, and what is not.

    Cells are numbered from 0 over all blocks in the order in which meshio gives them, cut or not.
    """

    source: str
    points: np.ndarray
    blocks: list[Block | Polyhedra]
    others: list[tuple[str, int, int, np.ndarray | None]]  # type, dimension, number of cells, nodes
    remarks: list[str] = field(default_factory=list)
    fields: dict[str, np.ndarray] = field(default_factory=dict)  # of all cells, one number each or a row of numbers
    point_fields: dict[str, np.ndarray] = field(default_factory=dict)  # of all nodes, likewise
    group: np.ndarray | None = None  # the number of each cell's group, where the file has groups
    groups: dict[int, str] = field(default_factory=dict)  # the names of groups, by number
    other_first: list[int] = field(default_factory=list)  # the number of the first cell of each of `others`
    stamp: tuple[int, int] | None = None  # time and size of the file when it was read

    def __repr__(self) -> str:
        return f"<Mesh of {self.source}: {len(self.points)} nodes, {self.total} cells>"

    @property
    def dimension(self) -> int:
        return self.points.shape[1]

    @property
    def extent(self) -> list[list[float]]:
        """The least and the greatest of each coordinate of its nodes, NaN left out."""
        known = self.points
        if len(known) and np.isnan(known.sum()):
            known = known[~np.isnan(known).any(axis=1)]
        columns = [known[:, k] for k in range(self.dimension)]
        return [[float(c.min()) for c in columns], [float(c.max()) for c in columns]] if len(known) else []

    def centre(self) -> tuple[float, ...] | None:
        """A place amid the nodes: the median of each coordinate, of a thousand nodes at most, so that a few far away do not matter."""
        known = self.points[:: 1 + len(self.points) // 1000]
        known = known[np.isfinite(known).all(axis=1)]
        return tuple(np.median(known, axis=0).tolist()) if len(known) else None

    @property
    def total(self) -> int:
        return sum(map(len, self.blocks)) + sum(count for _, _, count, _ in self.others)

    @property
    def dropped(self) -> list[str]:
        """What meshio says of cells that it left out of the mesh while reading."""
        return [remark for remark in self.remarks if "cannot handle" in remark]

    def types(self) -> dict[str, int]:
        """The number of cells that are cut, by meshio's type."""
        found: Counter[str] = Counter()
        for block in self.blocks:
            found[block.name] += len(block)
        return dict(found)

    def not_cut(self) -> dict[str, int]:
        """The number of cells that are not cut, by meshio's type."""
        found: Counter[str] = Counter()
        for name, _, count, _ in self.others:
            found[name] += count
        return dict(found)

    def block_of(self, cell: int) -> Block | Polyhedra:
        """The block of a cell that is cut."""
        return next(block for block in self.blocks if block.first <= cell < block.first + len(block))

    def name(self, cell: int) -> str:
        """The number and type of a cell that is cut, in words."""
        block = self.block_of(cell)
        return f"cell {cell} ({block.name}, number {cell - block.first} of its block)"

    def corners(self, cell: int) -> np.ndarray:
        """The nodes that are corners of a cell that is cut."""
        block = self.block_of(cell)
        return block.corners(cell - block.first)

    def middle(self, cell: int) -> np.ndarray:
        """The mean of the corners of a cell that is cut; of those that are finite, where any is."""
        corners = self.points[self.corners(cell)]
        finite = np.isfinite(corners).all(axis=1)
        return mean(corners[finite] if finite.any() else corners)

    def group_of(self, cells: np.ndarray) -> np.ndarray | None:
        """The number of the group of each of these cells, or None where the file has no groups; `groups` has the names."""
        return None if self.group is None else self.group[cells]

    def type_of(self, cells: np.ndarray) -> np.ndarray:
        """meshio's type of each of these cells."""
        found = np.full(len(cells), "", dtype=object)
        for block in self.blocks:
            found[(cells >= block.first) & (cells < block.first + len(block))] = block.name
        return found


def read(path: str | Path) -> Mesh:
    """The mesh in a file of any format that meshio reads."""
    if isinstance(path, (str, Path)):
        _check_file(path)
    said = io.StringIO()
    try:
        with contextlib.redirect_stderr(said), contextlib.redirect_stdout(said):
            found = meshio.read(path)
        seen = os.stat(path)
    except SystemExit as error:  # meshio prints why, then that it could not read the file, and exits
        told = " ".join(_words(said).split("Error: Couldn't")[0].split())
        raise MeshError(f"{path}: meshio cannot read it" + (f": {told}" if told else "")) from error
    except Exception as error:  # meshio's readers let many kinds through for damaged files
        told = f"{type(error).__name__}: {error}" if str(error) else type(error).__name__
        if "gmsh:physical" in told:
            told += " Save it from gmsh as version 2 (gmsh -format msh2), or without elements of no physical group (Mesh.SaveAll = 0)."
        raise MeshError(f"{path}: meshio cannot read it: {told}") from error
    mesh = of_meshio(found, str(path))
    mesh.stamp = (seen.st_mtime_ns, seen.st_size)
    mesh.remarks = [" ".join(part.split()) for part in _words(said).split("Warning:")[1:]]  # before: other readers' complaints
    return mesh


def _check_file(path: str | Path) -> None:
    if not os.path.exists(path):
        raise MeshError(f"{path}: there is no such file; check its name, and give its path from the current folder or its whole path")
    if os.path.isdir(path):
        raise MeshError(f"{path}: this is a folder; give the path of a mesh file")


def _words(said: io.StringIO) -> str:
    return said.getvalue().strip()


def of_meshio(found: meshio.Mesh, source: str = "mesh") -> Mesh:
    """A meshio mesh as the library takes it. Node numbers and coordinates are copied only where they have to be."""
    if not isinstance(found, meshio.Mesh):
        raise MeshError(f"{found!r} is not a mesh; give what cicelybeam.read or meshio.read gives")
    points = np.asarray(found.points)
    if points.ndim != 2 or points.shape[1] not in (2, 3) or not np.issubdtype(points.dtype, np.number):
        raise MeshError(f"{source}: its coordinates are not rows of two or three numbers")
    in_space = any(dimension(block.type) == 3 for block in found.cells)
    if points.shape[1] == 3 and not in_space and _flat(points):
        points = points[:, :2]
    mesh = Mesh(source, floats(points), [], [])
    first = 0
    for block in found.cells:
        _add(mesh, block.type, block.data, first)
        first += len(block.data)
    mesh.fields = _fields(found, first)
    mesh.point_fields = {name: values for name, values in _floats(found.point_data).items() if len(values) == len(points)}
    mesh.group, mesh.groups = find_groups(found, mesh.fields, mesh.dimension, first)
    return mesh


def _flat(points: np.ndarray) -> bool:
    """Whether all points have the same third coordinate."""
    return len(points) == 0 or bool((points[:, 2] == points[0, 2]).all())


def _add(mesh: Mesh, name: str, data: object, first: int) -> None:
    rows = len(mesh.points)
    if mesh.dimension == 3 and name.startswith("polyhedron"):
        block: Block | Polyhedra = Polyhedra(name, first, list(data))  # type: ignore[call-overload]
        for index in range(len(block)):
            corners = block.corners(index)
            if corners.size and not (0 <= corners.min() and corners.max() < rows):
                raise Refused(4, f"{mesh.source}: cell {first + index} ({name})")
        mesh.blocks.append(block)
        return
    nodes = np.asarray(data)
    kind = (IN_SPACE if mesh.dimension == 3 else IN_PLANE).get(name)
    if mesh.dimension == 2 and name.startswith("polygon") and nodes.ndim == 2:
        kind = CellType(POLYGON, nodes.shape[1], nodes.shape[1])
    if kind is None:
        mesh.other_first.append(first)
        mesh.others.append((name, dimension(name), len(nodes), nodes if nodes.ndim == 2 else None))
        return
    if nodes.ndim != 2 or nodes.shape[1] < kind.nodes or nodes.dtype.kind not in "iu":
        raise Refused(2, f"{mesh.source}: cell {first} ({name})")
    if kind.order:
        nodes = nodes[:, list(kind.order)]
    corners = nodes[:, : kind.corners]
    outside = (corners < 0) | (corners >= rows)
    if outside.any():
        wrong = int(np.argmax(outside.any(axis=1)))
        raise Refused(4, f"{mesh.source}: cell {first + wrong} ({name})")
    mesh.blocks.append(Block(name, first, kind, np.ascontiguousarray(nodes, dtype=np.int64)))


def _fields(found: meshio.Mesh, total: int) -> dict[str, np.ndarray]:
    """The fields with one number a cell, or a row of numbers."""
    fields = {}
    for name, parts in found.cell_data.items():
        parts = [np.asarray(part) for part in parts]
        if parts and all(part.ndim in (1, 2) and part.dtype.kind in "iuf" and part.shape[1:] == parts[0].shape[1:] for part in parts):
            values = np.concatenate(parts)
            if len(values) == total:
                fields[name] = values
    return fields


def _floats(data: dict[str, object]) -> dict[str, np.ndarray]:
    """The fields of floats, one number or a row of numbers each; whole numbers are marks, which nothing lies between."""
    found = {name: np.asarray(values) for name, values in (data or {}).items()}
    return {name: values for name, values in found.items() if values.dtype.kind == "f" and values.ndim in (1, 2)}
