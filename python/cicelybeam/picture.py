"""A picture of a cut by matplotlib. What was not drawn is marked."""
from __future__ import annotations

import io
import warnings
from collections.abc import Callable, Iterable
from dataclasses import dataclass, field, fields, replace
from functools import partial
from numbers import Real
from pathlib import Path

import matplotlib
import numpy as np
from matplotlib.cm import ScalarMappable
from matplotlib.collections import LineCollection, PathCollection
from matplotlib.colors import Colormap, ListedColormap, Normalize, to_rgb
from matplotlib.figure import Figure
from matplotlib.legend_handler import HandlerLine2D
from matplotlib.lines import Line2D
from matplotlib.patches import Patch
from matplotlib.path import Path as Outline

from .groups import check_by, classes, has_classes
from .line import LineCut
from .mesh import Mesh, Polyhedra
from .outputs import PICTURES, SHOWN, check_places, check_suffix, whole
from .plane import PlaneCut
from .record import number
from .refusal import CicelybeamError
from .sheet import Sheet
from .traces import Traces
from .undrawn import Finding, findings, undrawn_edges

# From light to dark, at least 20 of 255 steps of luminance from one to the next, by Rec. 601 and by Rec. 709.
SHADES = ("#f6edbf", "#b3dce9", "#e1b189", "#73b37d", "#6c83c0", "#87683a", "#67476f", "#223d66")
HATCHES = ("", "////", "....", "xxxx")  # for the second, third and fourth time that a shade is taken
RED, INK, GREY, LIGHT = "#d00000", "#202020", "#303030", "#f0f0f0"
SCALE = "viridis"  # its luminance grows from end to end
IN_ONE = 1000  # polygons of one class in one path
TOO_LARGE = 1e307  # coordinates beyond which matplotlib may fail: the ticks that it tries are too large for numbers
THINNEST = 0.03  # points (1/72 inch); edges that would be thinner are left out
WHITE = 0.4  # the part of white in fills below traces, so that a dark line is seen on the darkest
DOT, LEAST_DOT, MOST_DOTS = 2.4, 0.8, 4000  # at the ends of traces, in points; smaller ones or more of them are left out
STYLE = {
    "svg.fonttype": "none", "svg.hashsalt": "cicelybeam", "pdf.fonttype": 42, "ps.fonttype": 42, "hatch.linewidth": 0.4,
    "font.size": 8, "axes.labelsize": 8, "legend.fontsize": 7.5, "axes.linewidth": 0.6,
    "xtick.major.width": 0.6, "ytick.major.width": 0.6, "axes.formatter.useoffset": False, "path.simplify": False,
}


@dataclass(frozen=True)
class Look:
    """How a picture looks. The size is in millimetres: width and height, or the width alone. The dots per inch are a .png's."""

    colour: str = "type"
    title: str | None = None  # None: what was drawn, in words; an empty one for none
    size: tuple[float, ...] | None = None  # given as a number, it is the width
    dpi: float | None = None
    edges: str = "auto"  # or on, off
    show: str = "polygons"  # what has lines: the polygons, or with "traces" every trace of the plane on a face


def draw(cut: PlaneCut | LineCut, path: str | Path, **look: object) -> None:
    """The cut as a picture, by `type`, `group`, `cell` or the name of a cell field; the other options are those of `Look`.

    A plane cut: the polygons, filled by it, with lines for their edges or for the traces. A line cut of a plane mesh: the
    cells, filled by it, and the segments. A line cut in space: the segments by their place along the line, and across it as
    a profile.
    """
    path, wanted = Path(path), look_of(look)
    check_suffix(path, PICTURES, "a picture")
    check_places(cut.mesh.source, [path])
    try:
        contents = rendered(cut, wanted, path.suffix.lower())
    except OSError as error:  # matplotlib writes some formats to a file of its own first
        raise CicelybeamError(f"{path}: it cannot be drawn: {error.strerror or error}") from error
    with whole(path) as place:
        place.write_bytes(contents)


def look_of(given: dict[str, object]) -> Look:
    known = [each.name for each in fields(Look)]
    unknown = [name for name in given if name not in known]
    if unknown:
        raise CicelybeamError(f"a picture has no option {', '.join(unknown)}; it has {', '.join(known)}")
    wanted = Look(**given)  # type: ignore[arg-type]
    if wanted.edges not in ("on", "off", "auto"):
        raise CicelybeamError(f"edges are on, off or auto, not {wanted.edges!r}")
    if wanted.show not in SHOWN:
        raise CicelybeamError(f"what is shown is polygons or traces, not {wanted.show!r}")
    size = () if wanted.size is None else (wanted.size,) if isinstance(wanted.size, Real) else tuple(wanted.size)
    if len(size) > 2 or not all(_between(length, 20, 2000) for length in size):
        raise CicelybeamError(f"the size {wanted.size!r} is not one or two lengths from 20 to 2000 millimetres")
    if wanted.dpi is not None and not _between(wanted.dpi, 20, 2400):
        raise CicelybeamError(f"{wanted.dpi!r} is not a number of dots per inch from 20 to 2400")
    return replace(wanted, size=size or None)


def _between(number: object, least: float, most: float) -> bool:
    return isinstance(number, Real) and least <= float(number) <= most


def figure_of(cut: PlaneCut | LineCut, look: Look) -> Figure:
    """The picture, laid out, as a figure of matplotlib; within `STYLE`."""
    if isinstance(cut, PlaneCut):
        sheet = _section(cut, look)
    elif look.show == "traces":
        raise CicelybeamError("a line cut has no traces on faces; cut by a plane that holds the line, or leave out show")
    elif cut.mesh.dimension == 2:
        sheet = _line_in_plane(cut, look)
    else:
        sheet = _profile(cut, look)
    try:
        sheet.arrange(look.size)
    except (ArithmeticError, LookupError, ValueError) as error:
        if sheet.reach() > TOO_LARGE:
            raise CicelybeamError(f"coordinates as large as {sheet.reach():.3g} cannot be drawn; scale the mesh") from error
        if not isinstance(error, ValueError):
            raise
        # matplotlib sets what stands between dollar signs as a formula
        raise CicelybeamError(f"the title {look.title!r} cannot be set: {' '.join(str(error).split())}") from error
    return sheet.figure


@np.errstate(all="ignore")  # numbers that overflow are told of; numpy need not say so as well
def rendered(cut: PlaneCut | LineCut, look: Look, suffix: str) -> bytes:
    """The contents of a picture's file. The same cut gives the same ones: no dates."""
    check_by(cut.mesh, look.colour)
    out = io.BytesIO()
    metadata = {".svg": {"Date": None}, ".pdf": {"CreationDate": None}}.get(suffix)
    with matplotlib.rc_context({**matplotlib.rcParamsDefault, **STYLE}), warnings.catch_warnings():
        if suffix == ".svg":  # signs that matplotlib's font lacks are the reader's font's there
            warnings.filterwarnings("ignore", message="Glyph")
        figure_of(cut, look).savefig(out, format=suffix[1:], dpi=look.dpi or 300, metadata=metadata)
    if suffix != ".eps":
        return out.getvalue()
    return b"\n".join(line for line in out.getvalue().split(b"\n") if not line.startswith((b"%%CreationDate", b"%%Title")))


def _words(text: str) -> str:
    """A name as it stands: no formula, and in the legend too where it begins with an underscore, which matplotlib leaves out."""
    return ("\u200b" if text.startswith("_") else "") + text.replace("$", r"\$")


def _short(numbers: Iterable[float]) -> str:
    return "(" + ", ".join(f"{round(x, 12) + 0.0:.4g}" for x in numbers) + ")"


@dataclass
class _Rings:
    """Rings in the picture's coordinates, with the cell of each.

    Where the plane runs along faces, cells on both sides draw them. Those above the plane come first, so that what is seen
    is always what lies below.
    """

    points: np.ndarray
    nodes: np.ndarray
    ends: np.ndarray
    cells: np.ndarray
    above: np.ndarray  # whether a ring's cell lies above the plane and is only touched
    starts: np.ndarray = field(init=False)

    def __post_init__(self) -> None:
        self.starts = np.concatenate([[0], self.ends[:-1]]).astype(np.int64)

    def outline(self, chosen: np.ndarray) -> Outline:
        """These rings as one path; a hole runs the other way round than what it is in, so that it stays empty."""
        lengths = (self.ends - self.starts)[chosen] + 1
        last = np.cumsum(lengths) - 1
        step = np.arange(lengths.sum()) - np.repeat(last + 1 - lengths, lengths)
        step[last] = 0
        codes = np.full(len(step), Outline.LINETO, dtype=np.uint8)
        codes[last + 1 - lengths], codes[last] = Outline.MOVETO, Outline.CLOSEPOLY
        return Outline(self.points[self.nodes[np.repeat(self.starts[chosen], lengths) + step]], codes)

    def middling_size(self) -> float:
        """The width or height of the middling ring, whichever is less."""
        if not len(self.ends):
            return 1.0
        corners = self.points[self.nodes]
        spans = np.maximum.reduceat(corners, self.starts) - np.minimum.reduceat(corners, self.starts)
        return float(np.median(spans.min(axis=1)))


def shades(count: int) -> list[tuple[str, str]]:
    """Fill and hatch for this many classes: light ones first, and as far apart as there is room."""
    if count <= len(SHADES):
        places = np.round(np.linspace(0, min(len(SHADES) - 1, 2 * (count - 1)), count)).astype(int)
        return [(SHADES[k], "") for k in (places if count > 1 else [1])]
    return [(SHADES[k % len(SHADES)], HATCHES[k // len(SHADES) % len(HATCHES)]) for k in range(count)]


def _fill(sheet: Sheet, mesh: Mesh, rings: _Rings, look: Look) -> None:
    """The rings filled by class or value, with the legend or the scale. Their edges are thinned when the scale is known."""
    patches = _by_class(sheet, mesh, rings, look) if has_classes(mesh, look.colour) else _by_value(sheet, mesh, rings, look)
    if len(rings.points):
        sheet.show(rings.points[rings.nodes])
    size = rings.middling_size()

    def thin(points_to_one: float) -> None:
        width = {"on": 0.4, "off": 0.0}.get(look.edges, min(0.4, 0.05 * size * points_to_one))
        for patch in patches:
            if width >= THINNEST or patch.get_hatch():  # a hatch has the colour of the edges
                patch.set(linewidth=width if width >= THINNEST else 0.0, edgecolor=_ink(patch.get_facecolor()[0], patch.get_hatch()))
            else:
                patch.set(linewidth=0.15, edgecolor="face")

    sheet.when_scaled.append(thin)


def _ink(fill: object, hatch: str | None) -> str:
    """The colour of edges and hatches: a hatch has to be seen on dark fills too."""
    return LIGHT if hatch and np.dot(to_rgb(fill), (0.299, 0.587, 0.114)) < 0.45 else GREY


def _below(fill: object, look: Look) -> object:
    """A fill, paler where traces are drawn over it."""
    return fill if look.show != "traces" else tuple(WHITE + (1 - WHITE) * part for part in to_rgb(fill))


def _scale(look: Look) -> Colormap:
    colours = matplotlib.colormaps[SCALE]
    return ListedColormap([_below(colours(k), look) for k in range(colours.N)])


def _by_class(sheet: Sheet, mesh: Mesh, rings: _Rings, look: Look) -> list[PathCollection]:
    names, index = classes(mesh, rings.cells, look.colour)
    fills = [(_below(fill, look), hatch) for fill, hatch in shades(len(names))]
    for name, (fill, hatch) in zip(names, fills):
        sheet.handles.append(Patch(facecolor=fill, hatch=hatch, edgecolor=_ink(fill, hatch), linewidth=0.4, label=_words(name)))
    parts = [np.flatnonzero(index == k) for k in range(len(fills))]
    return [patch for part, (fill, hatch) in zip(parts, fills) for patch in _patches(sheet, rings, part, fill, hatch)]


def _by_value(sheet: Sheet, mesh: Mesh, rings: _Rings, look: Look) -> list[PathCollection]:
    """The scale has 256 colours, so rings of one colour are one patch. What is not finite is white."""
    values = np.asarray(rings.cells if look.colour == "cell" else mesh.fields[look.colour][rings.cells], dtype=float)
    known = np.isfinite(values)
    norm = Normalize(values[known].min(), values[known].max()) if known.any() else Normalize(0, 1)
    colours = _scale(look)
    level = np.full(len(values), -1)
    level[known] = np.clip(norm(values[known]) * colours.N, 0, colours.N - 1).astype(int)
    if not known.all():
        sheet.handles.append(Patch(facecolor="#ffffff", edgecolor=GREY, linewidth=0.4, label="not a finite value"))
    sheet.scale = ScalarMappable(norm, colours)
    sheet.scale_label = _words(look.colour)
    order = np.argsort(level, kind="stable")
    levels, first = np.unique(level[order], return_index=True)
    parts = np.split(order, first[1:]) if len(levels) else []
    return [patch for k, part in zip(levels, parts) for patch in _patches(sheet, rings, part, "#ffffff" if k < 0 else colours(int(k)))]


def _patches(sheet: Sheet, rings: _Rings, chosen: np.ndarray, fill: object, hatch: str = "") -> list[PathCollection]:
    """These rings in one colour: those of cells above the plane, and over them the others."""
    patches = []
    for above in (True, False):
        part = chosen[rings.above[chosen] == above]
        outlines = [rings.outline(part[start : start + IN_ONE]) for start in range(0, len(part), IN_ONE)]
        if outlines:
            patches.append(PathCollection(outlines, facecolors=[fill], hatch=hatch, joinstyle="round", zorder=1.0 if above else 1.1))
            sheet.axes.add_collection(patches[-1], autolim=False)
    return patches


def _section(cut: PlaneCut, look: Look) -> Sheet:
    project, labels = view(cut)
    space = cut.in_space()
    points = project(space) if len(space) else np.zeros((0, 2))
    sheet = Sheet(*labels, equal=True)
    rings = _Rings(points, cut.nodes, cut.ends, cut.polygon_cell, cut.side > 0)
    traced = look.show == "traces"
    _fill(sheet, cut.mesh, rings, replace(look, edges="off") if traced else look)
    if traced:
        _draw_traces(sheet, cut.traces(), project, look)
    _draw_undrawn(sheet, cut, points, 0.0 if traced or look.edges == "off" else rings.middling_size())
    _mark(sheet, findings(cut), lambda found: project(_near(found)))
    record = cut.record
    words = f"{number(record.polygons, 'polygon')}, " + (f"{number(record.traces or 0, 'trace')}, " if traced else "") + f"area {record.area:.6g}"
    if record.filled_area:
        words += f", about {record.filled_area:.2g} of it in filled holes"
    if record.lost_area:
        words += f", about {record.lost_area:.2g} lost"
    if record.defaulted:
        words += f", {number(record.defaulted, 'crossing')} guessed"
    sheet.title = words if look.title is None else look.title
    return sheet


def _draw_traces(sheet: Sheet, traces: Traces, project: Callable[[np.ndarray], np.ndarray], look: Look) -> None:
    """A dark line for each trace, with a dot at each end, both thinned as traces get short; what is not finite is left out."""
    ends = project(traces.in_space().reshape(-1, 3)).reshape(-1, 2, 2)
    ends = ends[np.isfinite(ends).all(axis=(1, 2))]
    if len(traces):
        left_out = f" ({len(traces) - len(ends)} not finite)" if len(ends) < len(traces) else ""
        sheet.handles.append(Line2D([], [], color=INK, linewidth=0.7, marker="o", markersize=DOT, markeredgewidth=0,
                                    label="trace on a face" + left_out))
        sheet.handlers[sheet.handles[-1]] = HandlerLine2D(numpoints=2)  # a dot at each end
    if not len(ends):
        return
    parts = [ends[start : start + IN_ONE] for start in range(0, len(ends), IN_ONE)]
    outlines = [Outline(part.reshape(-1, 2), [Outline.MOVETO, Outline.LINETO] * len(part)) for part in parts]
    lines = PathCollection(outlines, facecolors="none", edgecolors=INK, zorder=3)
    sheet.axes.add_collection(lines, autolim=False)
    sheet.show(ends.reshape(-1, 2))
    length = float(np.median(np.hypot(*(ends[:, 1] - ends[:, 0]).T)))

    def thin(points_to_one: float) -> None:
        full = 1.0 if look.edges == "on" else min(1.0, 0.06 * length * points_to_one)
        lines.set_linewidth(max(0.7 * full, THINNEST))
        grain = 0.01 / points_to_one  # a hundredth of a point: faces share ends, and a dot is drawn once
        dots = grain * np.unique(np.round(ends.reshape(-1, 2) / grain), axis=0)
        if DOT * full >= LEAST_DOT and len(dots) <= MOST_DOTS:
            sheet.axes.plot(*dots.T, "o", color=INK, markersize=DOT * full, markeredgewidth=0, zorder=4.5, clip_on=False)
            return
        shown = [line for legend in sheet.figure.legends for line in legend.get_lines()]
        for line in shown:  # the legend shows no dot either; all else in it is marks
            line.set_marker("none" if line.get_linestyle() == "-" else line.get_marker())

    sheet.when_scaled.append(thin)


def _draw_undrawn(sheet: Sheet, cut: PlaneCut, points: np.ndarray, size: float) -> None:
    """The edges that were not drawn: in red where area is lost, a hole is filled or a corner is not finite, else as thin as the cells' own."""
    lost = {cell.cell for cell in cut.record.lost_cells} | {*cut.record.filled_cells, *cut.record.not_finite}
    edges = undrawn_edges(cut)
    touched, missing = [edge for cell, edge in edges if cell not in lost], [edge for cell, edge in edges if cell in lost]
    for colour, chosen in ((INK, touched), (RED, missing)):
        if chosen:
            lines = LineCollection(points[np.array(chosen)], colors=colour, linewidths=1.0, zorder=4)
            sheet.axes.add_collection(lines, autolim=False)
            sheet.show(points[np.array(chosen)].reshape(-1, 2))
            if colour == INK:
                sheet.when_scaled.append(partial(_thin, lines, size))


def _thin(lines: LineCollection, size: float, points_to_one: float) -> None:
    lines.set_linewidth(min(0.6, 0.08 * size * points_to_one))


def view(cut: PlaneCut) -> tuple[Callable[[np.ndarray], np.ndarray], tuple[str, str]]:
    """How points in space become those of the picture, and the names of its axes.

    Where the normal is an axis of the mesh, the other two, upright and in the mesh's coordinates; else u and v.
    """
    normal = np.abs(cut.frame.normal)
    axis = int(np.argmax(normal))
    others = [k for k in range(3) if k != axis]
    if not normal[others].any():
        return (lambda points: np.asarray(points)[:, others]), ("xyz"[others[0]], "xyz"[others[1]])
    labels = (f"u, along {_short(cut.frame.u)}", f"v, along {_short(cut.frame.v)}")
    return (lambda points: cut.frame.in_plane(np.asarray(points))), labels


MARKS = {  # the beginning of a reason: marker, colour, fill, size, words
    "area lost": ("o", RED, RED, 4.0, "area lost"),
    "touched": ("o", INK, "white", 2.5, "touched, no area lost"),
    "cells of this type": ("s", INK, "none", 6.0, "not cut"),
    "a hole is filled": ("P", RED, "none", 5.5, "hole filled"),
    "the area jumps": ("^", RED, "none", 5.0, "the area jumps"),
    "guessed": ("D", RED, "none", 6.5, "crossing guessed"),
    "": ("x", RED, RED, 5.0, "not whole"),
}


def _near(found: list[Finding]) -> np.ndarray:
    return np.array([finding.near for finding in found])


def _mark(sheet: Sheet, found: list[Finding], place_of: Callable[[list[Finding]], np.ndarray]) -> None:
    """A mark for each cell where something is missing or a guess, and what it means in the legend."""
    by_mark: dict[str, list[Finding]] = {}
    for finding in found:
        begins = next(start for start in MARKS if finding.reason.startswith(start))
        by_mark.setdefault(begins, []).append(finding)
    for begins, (marker, colour, fill, size, words) in MARKS.items():
        if begins in by_mark:
            at = place_of(by_mark[begins])
            sheet.show(at)
            shrunk = max(0.15, min(1.0, (200 / len(at)) ** 0.5))  # thousands of marks must not hide the section
            look = {"marker": marker, "color": colour, "markerfacecolor": fill, "linestyle": "none"}
            sheet.axes.plot(*at.T, **look, markersize=size * shrunk, markeredgewidth=0.8 * shrunk, zorder=5, clip_on=False)
            sheet.handles.append(Line2D([], [], **look, markersize=size, markeredgewidth=0.8, label=f"{words}: {number(len(at), 'cell')}"))


def _line_in_plane(cut: LineCut, look: Look) -> Sheet:
    sheet = Sheet("x", "y", equal=True)
    blocks = [block for block in cut.mesh.blocks if not isinstance(block, Polyhedra)]
    lengths = np.concatenate([np.full(len(block), block.kind.corners) for block in blocks])
    cells = np.concatenate([block.first + np.arange(len(block)) for block in blocks])
    corners = np.concatenate([block.corners().ravel() for block in blocks])
    _fill(sheet, cut.mesh, _Rings(cut.mesh.points, corners, np.cumsum(lengths), cells, np.zeros(len(cells), dtype=bool)), look)
    for colour, width in (("white", 3.0), (INK, 1.4)):  # to be seen on dark cells too
        sheet.axes.add_collection(LineCollection(cut.segments, colors=colour, linewidths=width, zorder=4), autolim=False)
    sheet.handles += sheet.axes.plot(*cut.segments.reshape(-1, 2).T, ".", color=INK, markersize=4, zorder=4,
                                     label=f"on the line: {number(len(cut), 'segment')}")
    _mark(sheet, findings(cut), _near)
    sheet.title = _line_title(cut) if look.title is None else look.title
    return sheet


def _profile(cut: LineCut, look: Look) -> Sheet:
    """The segments by their place along the line, at the height of their class or value."""
    place_of, label = along(cut)
    missing = findings(cut)
    shown = np.concatenate([cut.segment_cell, np.array([f.cell for f in missing], dtype=np.int64)])
    sheet = Sheet(label, _words(look.colour), equal=False)
    if has_classes(cut.mesh, look.colour):
        names, heights = classes(cut.mesh, shown, look.colour)
        sheet.axes.set_yticks(range(len(names)), map(_words, names))
        sheet.show(np.array([[np.nan, -0.6], [np.nan, max(len(names), 1) - 0.4]]))
        sheet.height = 0.8 + 0.25 * len(names)
    else:
        heights = np.asarray(shown if look.colour == "cell" else cut.mesh.fields[look.colour][shown], dtype=float)
    ends = place_of(cut.segments.reshape(-1, 3)).reshape(-1, 2)
    tall = np.repeat(heights[: len(ends)], 2).reshape(-1, 2)
    bars = np.stack([ends, tall], axis=2)
    sheet.axes.add_collection(LineCollection(bars, colors=INK, linewidths=2.0), autolim=False)
    sheet.axes.plot(ends.ravel(), tall.ravel(), "|", color=INK, markersize=6)
    sheet.show(bars.reshape(-1, 2))
    at = {f.cell: height for f, height in zip(missing, heights[len(ends) :])}
    _mark(sheet, missing, lambda found: np.column_stack([place_of(_near(found)), [at[f.cell] for f in found]]))
    sheet.title = _line_title(cut) if look.title is None else look.title
    return sheet


def along(cut: LineCut) -> tuple[Callable[[np.ndarray], np.ndarray], str]:
    """The place of points along the line, and its name: the mesh's own coordinate where the line is along an axis, else s."""
    direction = np.array(cut.direction) / np.linalg.norm(cut.direction)
    axis = int(np.argmax(np.abs(direction)))
    if not np.delete(direction, axis).any():
        return (lambda points: np.asarray(points)[:, axis]), "xyz"[axis]
    label = f"s, along {_short(direction)} from {_short(cut.origin)}"
    return (lambda points: (np.asarray(points) - np.array(cut.origin)) @ direction), label


def _line_title(cut: LineCut) -> str:
    return f"{number(len(cut), 'segment')}, length covered {cut.record.covered:.6g}"
