"""A finite-element mesh cut by a plane or a line, over Cicelybeam's proved functions for one cell.

>>> import cicelybeam, meshio
>>> cut = cicelybeam.cut_plane(meshio.Mesh([[0, 0, 0], [1, 0, 0], [0, 1, 0], [0, 0, 1.0]], [("tetra", [[0, 1, 2, 3]])]),
...                            (0, 0, 0.25), (0, 0, 1))
>>> cut.record.area
0.28125

What is proved of the functions stands in the repository's docs/CLAIMS.md. This package is not proved; it is tested.
"""
from __future__ import annotations

from importlib import import_module
from typing import TYPE_CHECKING

from .version import VERSION as __version__

if TYPE_CHECKING:
    from .library import slice_tolerance
    from .line import LineCut, LineRecord, cut_line
    from .mesh import Mesh, of_meshio, read
    from .plane import PlaneCut, cut_plane
    from .record import PlaneRecord
    from .refusal import CicelybeamError, MeshError, Refused
    from .traces import Traces

__all__ = [
    "CicelybeamError", "LineCut", "LineRecord", "Mesh", "MeshError", "PlaneCut", "PlaneRecord", "Refused", "Traces",
    "__version__", "cut_line", "cut_plane", "of_meshio", "read", "slice_tolerance",
]

# Loaded at first use, so that the command answers Ctrl-C, --version and --help at once.
_HOME = {
    "library": ("slice_tolerance",), "line": ("LineCut", "LineRecord", "cut_line"), "mesh": ("Mesh", "of_meshio", "read"),
    "plane": ("PlaneCut", "cut_plane"), "record": ("PlaneRecord",), "refusal": ("CicelybeamError", "MeshError", "Refused"),
    "traces": ("Traces",),
}


def __getattr__(name: str) -> object:
    for module, names in _HOME.items():
        if name in names:
            return getattr(import_module(f"{__name__}.{module}"), name)
    raise AttributeError(f"module {__name__!r} has no attribute {name!r}")


def __dir__() -> list[str]:
    return sorted(__all__)
