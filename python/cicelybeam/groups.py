"""Groups of cells that the mesh's file names: physical groups of gmsh, families of MED, references of Medit, sets of Abaqus."""
from __future__ import annotations

from typing import TYPE_CHECKING

import meshio
import numpy as np

from .refusal import CicelybeamError

if TYPE_CHECKING:
    from .mesh import Mesh

# The names under which meshio's readers keep a number for each cell.
GROUP_FIELDS = ("gmsh:physical", "cell_tags", "medit:ref", "nastran:ref", "avsucd:material", "flac3d:group", "su2:tag",
                "ugrid:ref", "MaterialIDs", "material")
NO_GROUP = "no group"
MOST_CLASSES = 24  # beyond it whole numbers are values, not classes


def find_groups(found: meshio.Mesh, fields: dict[str, np.ndarray], dimension: int, total: int) -> tuple[np.ndarray | None, dict[int, str]]:
    """The number of each cell's group, or None where there are no groups; and the names by number."""
    for name in GROUP_FIELDS:
        numbers = fields.get(name)
        if numbers is not None and numbers.dtype.kind in "iu" and numbers.any():
            return numbers.astype(np.int64), _names(found, dimension)
    return _of_sets(found, total)


def _names(found: meshio.Mesh, dimension: int) -> dict[int, str]:
    """gmsh numbers the groups of each dimension by themselves; MED has a list of names for each family."""
    named = {}
    for name, entry in (found.field_data or {}).items():
        entry = np.asarray(entry).ravel()
        if entry.size == 2 and entry.dtype.kind in "iu" and int(entry[1]) == dimension:
            named[int(entry[0])] = str(name)
    for tag, names in getattr(found, "cell_tags", {}).items():
        named[int(tag)] = " + ".join(map(str, names))
    return named


def _of_sets(found: meshio.Mesh, total: int) -> tuple[np.ndarray | None, dict[int, str]]:
    """Cells of the same sets are a group, with the sets' names."""
    sets = {name: parts for name, parts in (found.cell_sets or {}).items() if not name.startswith("gmsh:")}
    if not sets:
        return None, {}
    member = np.zeros((total, len(sets)), dtype=bool)
    starts = np.cumsum([0, *(len(block.data) for block in found.cells)])
    for k, parts in enumerate(sets.values()):
        for start, part in zip(starts, parts):
            if part is not None and len(part):
                member[start + np.asarray(part, dtype=np.int64), k] = True
    rows, numbers = np.unique(member, axis=0, return_inverse=True)
    if len(rows) == 1 and not rows.any():
        return None, {}
    return numbers.ravel(), {k: " + ".join(n for n, there in zip(sets, row) if there) or NO_GROUP for k, row in enumerate(rows)}


def group_name(mesh: Mesh, number: int) -> str:
    return mesh.groups.get(number) or (NO_GROUP if number == 0 else str(number))


def has_classes(mesh: Mesh, by: str) -> bool:
    """Whether cells are told apart by name here: by type, group, or a field of few whole numbers; else by value."""
    if by in ("type", "group") or by in GROUP_FIELDS:
        return True
    values = mesh.fields.get(by)
    return values is not None and values.dtype.kind in "iu" and values.ndim == 1 and len(np.unique(values)) <= MOST_CLASSES


def classes(mesh: Mesh, cells: np.ndarray, by: str) -> tuple[list[str], np.ndarray]:
    """The names of the classes of these cells, and the number of each cell's class."""
    if by == "type":
        names, index = np.unique(mesh.type_of(cells).astype(str), return_inverse=True)
        return names.tolist(), index
    numbers = mesh.group_of(cells) if by == "group" else mesh.fields[by][cells]
    if numbers is None:
        raise CicelybeamError(f"{mesh.source}: the file has no groups of cells; take type or a field")
    values, index = np.unique(numbers, return_inverse=True)
    if by == "group" or (by in GROUP_FIELDS and mesh.group is not None and np.array_equal(mesh.fields[by], mesh.group)):
        return [group_name(mesh, int(value)) for value in values], index
    return [f"{value:.12g}" for value in values.tolist()], index


def check_by(mesh: Mesh, by: str) -> None:
    """Refuses what cells cannot be told apart by."""
    known = ["type", "cell", *(["group"] if mesh.group is not None else []), *(n for n, v in mesh.fields.items() if v.ndim == 1)]
    if by not in known:
        what = "no groups of cells" if by == "group" else f"no cell field {by!r} of one number a cell"
        raise CicelybeamError(f"{mesh.source}: it has {what}; its cells are told apart by {', '.join(known)}")
