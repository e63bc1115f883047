"""A cut written to a file: JSON and CSV, the table by group, the traces, and the polygons for ParaView and others."""
from __future__ import annotations

import csv
import json
import math
from collections.abc import Iterable
from pathlib import Path

import meshio
import numpy as np

from .areas import area_by, in_two
from .cells import COUNTS
from .groups import check_by, group_name
from .line import LineCut
from .onpoints import point_values
from .provenance import origin_of, proved
from .outputs import POLYGONS, TRACES, check_places, check_suffix, whole
from .plane import PlaneCut
from .refusal import CicelybeamError
from .traces import Traces
from .undrawn import findings, undrawn_edges
from .vtp import traces_vtp, vtp

PLANE_COLUMNS = ("polygon", "cell", "type", "group", "area", "hole_of", "side", "point", "x", "y", "z", "u", "v")
CELL_COLUMNS = ("cell", "type", "group", *COUNTS, "defaulted", "comparisons", "area", "x", "y", "z")
TRACE_COLUMNS = ("cell", "type", "group", "face", "u1", "v1", "u2", "v2", "x1", "y1", "z1", "x2", "y2", "z2")
OF_RING = ("area", "side", "hole_of")  # what a ring has beside its cell's data
CELLS_ONLY = (".vtu", ".vtk")  # meshio fails to write these files without a cell
SIDES = {0: "", 1: "above", -1: "below"}


def write_report(cut: PlaneCut | LineCut, path: Path, command: str | None = None, colour: str = "type") -> None:
    """JSON: the whole record, and each polygon or segment. CSV: a row for each point of a polygon, or for each segment."""
    check_suffix(path, (".json", ".csv"), "a report")
    check_places(cut.mesh.source, [path])
    with whole(path) as place:
        if path.suffix.lower() == ".csv":
            columns, rows = plane_rows(cut) if isinstance(cut, PlaneCut) else line_rows(cut, colour)
            _csv(place, columns, rows)
        else:
            place.write_text(as_json(cut, command) + "\n", encoding="utf-8")


def _csv(place: Path, columns: Iterable[str], rows: Iterable[Iterable]) -> None:
    with place.open("w", newline="", encoding="utf-8") as out:
        writer = csv.writer(out)
        writer.writerow(columns)
        writer.writerows(rows)


def as_dict(cut: PlaneCut | LineCut, command: str | None = None) -> dict:
    """All that the reports tell, as plain numbers, lists and words."""
    found = cut.record.as_dict()
    found["made_by"] = origin_of(cut, command)
    found["proved"] = [sentence for sentence, _ in proved(cut, comparisons=True)]
    found["missing"] = [finding.as_dict() for finding in findings(cut)]
    if isinstance(cut, PlaneCut):
        found.update(tables(cut))
        found["by_cell"] = [dict(zip(CELL_COLUMNS, row)) for row in cell_rows(cut)]
        found["rings"] = rings(cut)
    else:
        columns, rows = line_rows(cut)
        found["by_segment"] = [dict(zip(columns, row)) for row in rows]
    return found


def as_json(cut: PlaneCut | LineCut, command: str | None = None) -> str:
    """`as_dict`, with a line for each part and for each row of a table."""
    parts = [f"{json.dumps(name)}: {_lines(value)}" for name, value in as_dict(cut, command).items()]
    return "{\n" + ",\n".join(parts) + "\n}"


def _lines(value: object) -> str:
    try:
        text = json.dumps(value, allow_nan=False)
    except ValueError:
        text = json.dumps(_plain(value))
    if isinstance(value, list) and value and isinstance(value[0], dict):
        if text.count("}, {") != len(value) - 1:  # a name has these signs in it
            return "[\n" + ",\n".join(map(_lines, value)) + "\n]"
        text = "[\n" + text[1:-1].replace("}, {", "},\n{") + "\n]"
    return text


def _plain(value: object) -> object:
    """JSON has no NaN and no infinities: they are written as words."""
    if isinstance(value, dict):
        return {key: _plain(item) for key, item in value.items()}
    if isinstance(value, (list, tuple)):
        return [_plain(item) for item in value]
    return str(value) if isinstance(value, float) and not math.isfinite(value) else value


def tables(cut: PlaneCut) -> dict:
    """The area by type, and by group where the mesh has groups."""
    found: dict = {"area_by_type": area_by(cut, "type")}
    if cut.mesh.group is not None:
        found["area_by_group"] = area_by(cut, "group")
        found["area_in_two_groups"] = in_two(cut, found["area_by_group"])
    return found


def write_table(cut: PlaneCut, path: Path, by: str | None = None) -> None:
    """The area by group, by type where the mesh has no groups, or by a field: name, area, share of the section's."""
    check_suffix(path, (".csv",), "a table")
    check_places(cut.mesh.source, [path])
    by = by or ("type" if cut.mesh.group is None else "group")
    areas = area_by(cut, by)
    whole_area = cut.record.area or math.nan
    rows = [(name, area, area / whole_area) for name, area in areas.items()]
    twice = in_two(cut, areas)
    rows += [("in two of these", -twice, -twice / whole_area)] if twice else []
    with whole(path) as place:
        _csv(place, (by, "area", "share"), [*rows, ("section", cut.record.area, 1.0)])


def group_names(cut: PlaneCut | LineCut, cells: np.ndarray) -> list[str]:
    """The name of the group of each of these cells, empty where the mesh has no groups."""
    numbers = cut.mesh.group_of(cells)
    if numbers is None:
        return [""] * len(cells)
    named = {int(n): group_name(cut.mesh, int(n)) for n in np.unique(numbers)}
    return [named[n] for n in numbers.tolist()]


def _of_rings(cut: PlaneCut) -> zip:
    """Of each ring: cell, type, group, area, the ring that it is a hole of, side."""
    holes = np.where(cut.hole, cut.outer, -1)
    return zip(cut.polygon_cell.tolist(), map(str, cut.mesh.type_of(cut.polygon_cell)), group_names(cut, cut.polygon_cell),
               cut.polygon_area.tolist(), ("" if k < 0 else k for k in holes.tolist()), (SIDES[k] for k in cut.side.tolist()))


def _points_of_rings(cut: PlaneCut) -> tuple[list, list]:
    """The points of ring after ring, in space and in the plane."""
    return cut.in_space()[cut.nodes].tolist(), cut.points[cut.nodes].tolist()


def plane_rows(cut: PlaneCut) -> tuple[tuple[str, ...], list[tuple]]:
    """A row for each point of each ring."""
    space, plane = _points_of_rings(cut)
    starts = [0, *cut.ends.tolist()]
    return PLANE_COLUMNS, [
        (k, *of_ring, n - start, *space[n], *plane[n])
        for k, (of_ring, start, end) in enumerate(zip(_of_rings(cut), starts, starts[1:])) for n in range(start, end)
    ]


def rings(cut: PlaneCut) -> list[dict]:
    """Each ring with its cell and its points in space and in the plane."""
    space, plane = _points_of_rings(cut)
    starts = [0, *cut.ends.tolist()]
    names = PLANE_COLUMNS[1:7]
    return [{**dict(zip(names, of_ring)), "in_space": space[start:end], "in_plane": plane[start:end]}
            for of_ring, start, end in zip(_of_rings(cut), starts, starts[1:])]


def cell_rows(cut: PlaneCut) -> list[tuple]:
    """A row for each cell that lists an edge; x, y, z is the mean of the points that the cut gives for it."""
    return [
        (cell, str(name), group, *counts, defaulted, comparisons, area, *middle)
        for cell, name, group, counts, defaulted, comparisons, area, middle in zip(
            cut.cells.tolist(), cut.mesh.type_of(cut.cells), group_names(cut, cut.cells), cut.counts.tolist(), cut.defaulted_of(cut.cells).tolist(),
            cut.comparisons_of(cut.cells).tolist(), cut.cell_area().tolist(), cut.cell_middle_in_space().tolist())
    ]


def line_rows(cut: LineCut, colour: str = "type") -> tuple[tuple[str, ...], list[tuple]]:
    """A row for each segment, in order along the line: s is the distance from the origin along it. With a field's value."""
    check_by(cut.mesh, colour)
    axes = "xyz"[: cut.mesh.dimension]
    columns = ("cell", "type", "group", "s1", "s2", "length", *(f"{axis}{end}" for end in (1, 2) for axis in axes))
    along = np.array(cut.direction) / np.linalg.norm(cut.direction)
    s = (cut.segments - np.array(cut.origin)) @ along
    forward = np.where((s[:, :1] <= s[:, 1:])[:, :, None], cut.segments, cut.segments[:, ::-1])
    s = np.sort(s, axis=1)
    types, groups = cut.mesh.type_of(cut.segment_cell), group_names(cut, cut.segment_cell)
    shown = [] if colour in ("type", "cell", "group") else [cut.mesh.fields[colour][cut.segment_cell].tolist()]
    rows = [
        (int(cut.segment_cell[k]), str(types[k]), groups[k], *s[k].tolist(), float(cut.lengths[k]), *forward[k].ravel().tolist(),
         *(values[k] for values in shown)) for k in np.lexsort((s[:, 1], s[:, 0])).tolist()
    ]
    return (*columns, *([colour] if shown else [])), rows


def trace_rows(traces: Traces) -> Iterable[tuple]:
    """A row for each trace: its ends in the plane, then in space."""
    mesh, plane, space = traces.cut.mesh, traces.ends.reshape(-1, 4), traces.in_space().reshape(-1, 6)
    columns = (traces.cell.tolist(), map(str, mesh.type_of(traces.cell)), group_names(traces.cut, traces.cell), traces.face.tolist())
    return zip(*columns, *plane.T.tolist(), *space.T.tolist())


def write_traces(traces: Traces, path: Path) -> None:
    """CSV: a row for each trace. VTP: a line for each, with its face and its cell's data."""
    check_suffix(path, TRACES, "a file of traces")
    check_places(traces.cut.mesh.source, [path])
    with whole(path) as place:
        if path.suffix.lower() == ".csv":
            _csv(place, TRACE_COLUMNS, trace_rows(traces))
        else:
            place.write_bytes(traces_vtp(traces, {"face": traces.face, **cell_data(traces.cut, traces.cell, ("face",))}))


def cell_data(cut: PlaneCut, cells: np.ndarray, others: tuple[str, ...] = OF_RING) -> dict[str, np.ndarray]:
    """Of each of these cells: its number, its counts, and the mesh's fields, with mesh: before a name that these or others have.

    A cell may have a trace and list no edge, where the ends of the trace become one point: its counts of edges are 0.
    """
    at = np.searchsorted(cut.cells, cells)
    listed = np.append(cut.cells, -1)[at] == cells
    counts = np.where(listed[:, None], np.append(cut.counts, [[0] * len(COUNTS)], axis=0)[at], 0)
    data = {"cell": cells.astype(np.int64), **{name: counts[:, k] for k, name in enumerate(COUNTS)}, "defaulted": cut.defaulted_of(cells),
            "comparisons": cut.comparisons_of(cells)}
    own = {*data, *others}
    for name, values in cut.mesh.fields.items():
        shown = name
        while shown in own or shown != name and shown in cut.mesh.fields:
            shown = f"mesh:{shown}"
        data[shown] = values[cells]
    return data


def polygon_data(cut: PlaneCut) -> dict[str, np.ndarray]:
    """Of each ring: its area, its side, the ring that it is a hole of (else -1), and its cell's data."""
    own = cut.polygon_area, cut.side.astype(np.int64), np.where(cut.hole, cut.outer, -1)
    return {**dict(zip(OF_RING, own)), **cell_data(cut, cut.polygon_cell)}


def write_polygons(cut: PlaneCut, path: Path) -> None:
    """The rings in space, with `polygon_data` and the fields of nodes; as .vtp with the edges that were not drawn."""
    check_suffix(path, POLYGONS, "a file that can hold polygons")
    check_places(cut.mesh.source, [path])
    if not len(cut.ends) and path.suffix.lower() in CELLS_ONLY:
        raise CicelybeamError(f"{path}: no polygon is drawn, and meshio writes no {path.suffix.lower()} file without cells: give a .vtp file")
    with whole(path) as place:
        if path.suffix.lower() == ".vtp":
            edges = undrawn_edges(cut)
            of_edge = cell_data(cut, np.array([cell for cell, _ in edges], dtype=np.int64))
            place.write_bytes(vtp(cut, polygon_data(cut), edges, of_edge))
            return
        try:
            _as_meshio(cut, np.int32 if path.suffix.lower() == ".ply" else np.int64).write(place)
        except OSError:
            raise
        except (Exception, SystemExit) as error:
            raise CicelybeamError(f"{path}: meshio cannot write it: {error or type(error).__name__}") from error


def _as_meshio(cut: PlaneCut, whole_number: type) -> meshio.Mesh:
    """The rings as cells; .ply has whole numbers of 32 bits only."""
    lengths = np.diff(cut.ends, prepend=0)
    of_ring = polygon_data(cut)
    cells: list[tuple[str, np.ndarray]] = []
    data: dict[str, list[np.ndarray]] = {name: [] for name in of_ring}
    for length in np.unique(lengths):
        chosen = np.flatnonzero(lengths == length)
        name = {3: "triangle", 4: "quad"}.get(int(length), "polygon")
        starts = cut.ends[chosen] - length
        cells.append((name, cut.nodes[starts[:, None] + np.arange(length)].astype(whole_number)))
        for key, values in of_ring.items():
            data[key].append(values[chosen])
    return meshio.Mesh(cut.in_space(), cells, cell_data=data, point_data=point_values(cut))
