"""Where a report comes from, so that it can be made again, and what is proved about it."""
from __future__ import annotations

import hashlib
import os
import platform
from datetime import datetime, timezone
from importlib import metadata
from pathlib import Path

from .library import library
from .line import LineCut
from .plane import PlaneCut
from .version import VERSION

PACKAGES = ("numpy", "meshio", "matplotlib", "shapely")


def origin_of(cut: PlaneCut | LineCut, command: str | None = None) -> dict:
    """Command, versions, the SHA-256 of the mesh's file and of the library, and the date."""
    return {
        "command": command or _in_python(cut),
        "date": datetime.now(timezone.utc).isoformat(timespec="seconds"),
        "mesh": cut.mesh.source,
        "mesh_sha256": _of_mesh(cut),
        "library_sha256": sha256(Path(library()._name)),
        "versions": {"cicelybeam": VERSION, "python": platform.python_version(),
                     **{name: metadata.version(name) for name in PACKAGES}},
    }


def _in_python(cut: PlaneCut | LineCut) -> str:
    record = cut.record
    if isinstance(cut, PlaneCut):
        name, way = "cut_plane", cut.frame.normal if record.scaled_exponent is None else cut.asked.normal
        options = ("" if record.scaled else ", scaled=False") + (", strict=True" if record.strict else "")
    else:
        name, way, options = "cut_line", cut.direction, ""
    return f"cicelybeam.{name}(cicelybeam.read({cut.mesh.source!r}), {tuple(record.origin)}, {tuple(way)}, {record.tolerance!r}{options})"


def _of_mesh(cut: PlaneCut | LineCut) -> str:
    path = Path(cut.mesh.source)
    if cut.mesh.stamp is None:
        return "not known: the mesh was not read from a file"
    try:
        now = os.stat(path)
        if (now.st_mtime_ns, now.st_size) == cut.mesh.stamp:
            return sha256(path)
    except OSError:
        pass
    return "not known: the file is not as it was when it was read"


def sha256(path: Path) -> str:
    found = hashlib.sha256()
    with path.open("rb") as file:
        while part := file.read(1 << 20):
            found.update(part)
    return found.hexdigest()


def proved(cut: PlaneCut | LineCut, comparisons: bool) -> list[tuple[str, str]]:
    """What is proved about a cut and what is not, in sentences, each with the heading of docs/CLAIMS.md that says more.

    `comparisons`: whether the report tells how many comparisons of points a plane cut took.
    """
    if isinstance(cut, PlaneCut):
        strict, kinds = (", and passes no point twice", "drawn, pinched, flat") if cut.record.strict else ("", "drawn, flat")
        edges = (f"Proved: every polygon that a cell gives is closed by edges of the cut, each of which is used once{strict}; and every edge "
                 f"that a cell lists is counted as {kinds} or open, so that none is lost unseen.")
    else:
        edges = ("Proved: the segments that a cell gives are those of the rules of the port, for any cell, line and tolerance, or a "
                 "refusal by number.")
    traces = [("Proved: the segments of a cell's faces, each face handed over alone, are those that its section is stitched from.", "Promises")]
    defaulted = [("Proved: each cell's number of crossings that lie in the middle of their edges by default is that of the rules of the port.",
                  "Promises")]
    compared = [("Proved: each cell's number of comparisons of points is that of the rules of the port, at most s(2s - 1) for s segments.",
                 "Promises")]
    return [
        (edges, "The auditor's two questions" if isinstance(cut, PlaneCut) else "Promises"),
        *(traces if isinstance(cut, PlaneCut) and cut.record.traces is not None else []),
        *(defaulted if cut.record.defaulted else []),
        *(compared if isinstance(cut, PlaneCut) and comparisons else []),
        ("Proved: a cell with all corners on one side of the cut, beyond the tolerance, has no edge in it, so that it is right to "
         "leave it out.", "Promises"),
        ("Not proved: an edge that a face does not give is in no count; the package looks for such faces and tells them, by tests "
         "and not by proof.", "Where the claim ends"),
        ("Tested, not proved: reading the mesh, cutting polygons into rings, areas, groups, the estimate of what is lost, this "
         "report and its figure.", "What is tested and not proved"),
    ]
