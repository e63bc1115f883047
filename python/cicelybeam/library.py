"""The C functions of libcicelybeam by ctypes, as include/cicelybeam.h declares them, and the loops over cells of python/loop.c.

Pointers are handed over as addresses of numpy arrays, so nothing is copied. The caller keeps the arrays alive.
"""
from __future__ import annotations

import ctypes
import os
from ctypes import c_double, c_size_t, c_uint8, c_uint32, c_void_p
from pathlib import Path

import numpy as np

from .refusal import CicelybeamError, Refused

MOST_ENTRIES = 256


class Section(ctypes.Structure):
    """struct cicelybeam_section"""

    _fields_ = [
        (name, c_uint32)
        for name in ("refusal", "points", "nodes", "loops", "listed", "in_loops", "pinched", "flat", "open", "defaulted", "comparisons")
    ]


SECTION = np.dtype([(name, np.uint32) for name, _ in Section._fields_])  # the same, for many at once


class Line(ctypes.Structure):
    """struct cicelybeam_line"""

    _fields_ = [("refusal", c_uint32), ("segments", c_uint32), ("defaulted", c_uint32)]


LINE = np.dtype([(name, np.uint32) for name, _ in Line._fields_])


class Tolerance(ctypes.Structure):
    """struct cicelybeam_tolerance"""

    _fields_ = [("refusal", c_uint32), ("value", c_double)]


def _places() -> list[Path]:
    package = Path(__file__).resolve().parent
    named = os.environ.get("CICELYBEAM_LIBRARY")
    if named:
        return [Path(named)]
    return [
        package / "libcicelybeam.so",
        package.parent.parent / "target" / "shared" / "libcicelybeam.so",
    ]


def _load() -> ctypes.CDLL:
    for place in _places():
        if place.exists():
            try:
                return _declared(ctypes.CDLL(str(place)))
            except (OSError, AttributeError) as error:
                raise CicelybeamError(f"{place} cannot be loaded: {error}; run python/build to link it again") from error
    raise CicelybeamError(
        "libcicelybeam.so is not there: run python/build, or name it in CICELYBEAM_LIBRARY"
    )


def _declared(lib: ctypes.CDLL) -> ctypes.CDLL:
    lent = [c_void_p, c_size_t]
    cell = [c_uint8, *lent, *lent]
    cut = [*lent, *lent]
    way = c_uint8
    lib.cicelybeam_plane.argtypes = [*cell, *cut, way, way, c_double, *lent, *lent, *lent]  # scaled, strict
    lib.cicelybeam_plane.restype = Section
    lib.cicelybeam_stitch.argtypes = [*lent, way, c_double, *lent, *lent, *lent]
    lib.cicelybeam_stitch.restype = Section
    for name, ways in (("gather", [way]), ("line_in_space", []), ("plane_cell_by_normal", [way]), ("plane_cell_by_direction", [])):
        function = getattr(lib, "cicelybeam_" + name)
        function.argtypes = [*cell, *cut, *ways, c_double, *lent]  # by a normal: scaled
        function.restype = Line
    for name in ("tolerance_in_space", "tolerance_in_plane"):
        function = getattr(lib, "cicelybeam_" + name)
        function.argtypes = lent
        function.restype = Tolerance
    cells = [c_uint8, c_void_p, *lent, *lent, c_void_p, c_void_p]
    lib.cells_by_plane.argtypes = [*cells, way, way, c_double, *lent, *lent, *lent, c_void_p]
    lib.cells_gathered.argtypes = [*cells, way, c_double, *lent, c_void_p]
    lib.cells_by_plane.restype = lib.cells_gathered.restype = c_size_t
    lib.cicelybeam_sqrt.argtypes = [c_double]
    lib.cicelybeam_sqrt.restype = c_double
    for name, structure in (("section", Section), ("line", Line)):
        size_of = getattr(lib, "size_of_" + name)
        size_of.restype = c_size_t
        if size_of() != ctypes.sizeof(structure):
            raise OSError(f"struct cicelybeam_{name} has {size_of()} bytes there, and {ctypes.sizeof(structure)} in this package")
    for name, function in (("plane", lib.cells_by_plane), ("gathered", lib.cells_gathered)):
        arguments_of = getattr(lib, "arguments_of_" + name)
        arguments_of.restype = c_size_t
        if arguments_of() != len(function.argtypes):
            raise OSError(f"{function.__name__} has {arguments_of()} arguments there, and {len(function.argtypes)} in this package")
    return lib


_loaded: ctypes.CDLL | None = None


def library() -> ctypes.CDLL:
    """The library, loaded at the first call."""
    global _loaded
    if _loaded is None:
        _loaded = _load()
    return _loaded


def floats(numbers: object) -> np.ndarray:
    """These numbers as 64-bit floats in one piece; a copy only where they are not so already."""
    return np.ascontiguousarray(numbers, dtype=np.float64)


def slice_tolerance(coords: np.ndarray) -> float:
    """The mesh's own tolerance, of coordinates with three or two columns.

    >>> slice_tolerance([[3.0, 4.0, 0.0]]) == 2.0**-44
    True
    """
    rows = floats(coords)
    if rows.ndim != 2 or rows.shape[1] not in (2, 3):
        raise Refused(3)
    name = "cicelybeam_tolerance_in_space" if rows.shape[1] == 3 else "cicelybeam_tolerance_in_plane"
    found = getattr(library(), name)(rows.ctypes.data, rows.size)
    if found.refusal:
        raise Refused(found.refusal)
    return found.value
