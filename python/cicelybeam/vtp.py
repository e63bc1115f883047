"""VTK's PolyData: a section with welded points, rings, the edges that were not drawn as lines, and fields; or traces as lines."""
from __future__ import annotations

import base64
from xml.sax.saxutils import quoteattr

import numpy as np

from .onpoints import point_values, welded
from .plane import PlaneCut
from .traces import Traces
from .undrawn import Pair


def vtp(cut: PlaneCut, of_ring: dict[str, np.ndarray], edges: list[tuple[int, Pair]], of_edge: dict[str, np.ndarray]) -> bytes:
    """The file's contents. VTK counts lines before polygons, so the data of edges come first; what a ring alone has is 0 or -1 there."""
    firsts, number = welded(cut.points, 2 * max(cut.record.tolerance, cut.record.mesh_tolerance))
    used = np.zeros(len(firsts), dtype=bool)
    lines = number[np.array([edge for _, edge in edges], dtype=np.int64).reshape(-1, 2)]
    rings = number[cut.nodes]
    used[rings] = True
    used[lines] = True
    place = np.cumsum(used) - 1
    shown = firsts[used]
    alone = {"area": np.zeros(len(edges)), "side": np.zeros(len(edges), np.int64), "hole_of": np.full(len(edges), -1)}
    data = {name: np.concatenate([{**alone, **of_edge}[name], values]) for name, values in of_ring.items()}
    of_point = {name: values[shown] for name, values in point_values(cut).items()}
    return poly_data(cut.in_space()[shown], place[lines], place[rings], cut.ends, of_point, data)


def traces_vtp(traces: Traces, of_trace: dict[str, np.ndarray]) -> bytes:
    """The file's contents: a line of two points for each trace, with u and v, the coordinates in the plane, at the points."""
    u, v = traces.ends.reshape(-1, 2).T
    lines = np.arange(2 * len(traces)).reshape(-1, 2)
    none = np.empty(0, dtype=np.int64)
    return poly_data(traces.in_space().reshape(-1, 3), lines, none, none, {"u": u, "v": v}, of_trace)


def poly_data(points: np.ndarray, lines: np.ndarray, rings: np.ndarray, ends: np.ndarray,
              of_point: dict[str, np.ndarray], of_cell: dict[str, np.ndarray]) -> bytes:
    """Points in space, lines of two of them each, and rings with their ends; VTK's cells are the lines and then the rings."""
    parts = [
        '<?xml version="1.0"?>\n<VTKFile type="PolyData" version="1.0" byte_order="LittleEndian" header_type="UInt64">\n<PolyData>\n',
        f'<Piece NumberOfPoints="{len(points)}" NumberOfVerts="0" NumberOfLines="{len(lines)}" NumberOfStrips="0" '
        f'NumberOfPolys="{len(ends)}">\n',
        f"<Points>\n{_array('points', points)}</Points>\n",
        f"<Lines>\n{_array('connectivity', lines.ravel())}{_array('offsets', 2 * np.arange(1, len(lines) + 1))}</Lines>\n",
        f"<Polys>\n{_array('connectivity', rings)}{_array('offsets', ends)}</Polys>\n",
        f"<PointData>\n{''.join(_array(name, values) for name, values in of_point.items())}</PointData>\n",
        f"<CellData>\n{''.join(_array(name, values) for name, values in of_cell.items())}</CellData>\n",
        "</Piece>\n</PolyData>\n</VTKFile>\n",
    ]
    return "".join(parts).encode()


def _array(name: str, values: np.ndarray) -> str:
    kind, words = {"f": ("Float64", "<f8"), "u": ("UInt64", "<u8")}.get(values.dtype.kind, ("Int64", "<i8"))
    values = values.astype(words)
    width = values.shape[1] if values.ndim == 2 else 1
    raw = np.array([values.nbytes], dtype="<u8").tobytes() + np.ascontiguousarray(values).tobytes()
    head = f'<DataArray type="{kind}" Name={quoteattr(name)} NumberOfComponents="{width}" format="binary">'
    return f"{head}{base64.b64encode(raw).decode()}</DataArray>\n"
