"""The command `cicelybeam`."""
from __future__ import annotations

import argparse
import math
import os
import shlex
import sys
from pathlib import Path
from typing import Any

from . import mesh as meshes
from .groups import check_by
from .line import LineCut, cut_line
from .outputs import PICTURES, POLYGONS, REPORTS, SHOWN, TRACES, check_places, check_suffix
from .plane import PlaneCut, cut_plane
from .record import comparisons_in_words
from .refusal import CicelybeamError
from .times import Times
from .version import VERSION

STATUS = """\
exit status:
  0  of the cells that the cut reaches all were cut, no area is lost, and no crossing is guessed
  1  there is no cut or no output: the file, the cell or the plane was refused, and the message says why
  2  the command line is wrong
  3  area is lost: a piece is not drawn, or a cell that the plane passes through lacks an edge; or the area jumps
     at this plane; or a crossing is guessed; or with --strict a hole is drawn as if it were filled (--allow-undrawn
     accepts it, --shift looks for a plane next to it)
  4  cells of a type that is not cut may reach the cut (--allow-uncut accepts it)
  130  interrupted by Ctrl-C; no output is left half written
"""

WHAT = """\
Cuts every cell of a finite-element mesh by a plane or a line, and accounts for every edge of the cut.

The mesh may be in any format that meshio reads: gmsh, VTK, VTU, MED, Abaqus, XDMF and others. Tetrahedra, bricks,
wedges, pyramids, prisms and polyhedra are cut in space; triangles, quadrilaterals and polygons in the plane. Cells with
mid-side nodes are cut as straight between their corners. Other cells are not cut: they are counted and named.
"""

PLANE = """\
Cuts the cells of a space mesh by a plane, and prints the record: how many edges the cut lists, how many of them bound
the polygons drawn, how many are flat or open and so not drawn, and the area. Below it stands one sentence for a
methods section.
"""

TERMS = """\
terms:
  trace     a segment of the plane on a face of a cell, before its ends are welded within the tolerance
  listed    an edge of the cut: a trace with its ends welded, once for each two points that it joins
  in loops  edges of walks that close and have an area: the polygons that are drawn
  pinched   with --strict: edges of walks that close and pass twice through a point, not drawn
  flat      edges of walks that close without an area above the squared tolerance, not drawn
  open      edges of walks that do not close, not drawn
  guessed   crossings that lie in the middle of their edges by default: the distances of an edge's ends from the plane
            differ by NaN or by no more than 2^-1022
  comparisons
            of points, with --timing: welding compares each end of a trace with the points of its cell so far, up to and
            with the first within the tolerance
"""

LINE_TERMS = """\
terms:
  guessed   crossings that lie in the middle of their edges by default: the distances of an edge's ends from the line, or
            in space from the plane that holds it, differ by NaN or by no more than 2^-1022
"""

LINE = """\
Cuts the cells of a space mesh or of a plane mesh by a line, and prints how much of the line lies in them. Give three
numbers in space and two in the plane. A mesh without space cells whose third coordinates are all equal is a plane one.
"""


def main(arguments: list[str] | None = None) -> int:
    words = sys.argv[1:] if arguments is None else arguments
    given = _parser().parse_args(_with_signs(words))
    given.words = words
    try:
        return _run(given)
    except CicelybeamError as error:
        print(f"cicelybeam: {error}", file=sys.stderr)
    except OSError as error:
        print(f"cicelybeam: {error.filename or given.mesh}: {error.strerror or error}", file=sys.stderr)
    except MemoryError:
        print(f"cicelybeam: {given.mesh}: there is not enough memory for it", file=sys.stderr)
    return 1


def _with_signs(arguments: list[str]) -> list[str]:
    """`--normal -1,0,0` as `--normal=-1,0,0`, since argparse takes a leading minus for an option."""
    joined: list[str] = []
    for argument in arguments:
        if joined and joined[-1] in ("--origin", "--normal", "--direction", "--tolerance", "--shift-most") and argument[:1] == "-":
            joined[-1] += "=" + argument
        else:
            joined.append(argument)
    return joined


class _Once(argparse.Action):
    """Keeps an option's value, and refuses the option a second time: the first would be forgotten without a word."""

    def __call__(self, parser, given, value, option=None) -> None:
        seen = given.__dict__.setdefault("seen", set())
        if self.dest in seen:
            parser.error(f"{option} is given twice")
        seen.add(self.dest)
        setattr(given, self.dest, True if self.nargs == 0 else value)


class _Flag(_Once):
    def __init__(self, option_strings, dest, **more) -> None:
        super().__init__(option_strings, dest, nargs=0, default=False, **more)


class _NoStrictLine(argparse.Action):
    """Refuses the option, and says why: line cuts are in the usual way."""

    def __call__(self, parser, given, value, option=None) -> None:
        parser.error(f"a line cut has no strict way: leave {option} out, or cut by a plane that holds the line")


class _Parser(argparse.ArgumentParser):
    """Every option once, and by its whole name."""

    def __init__(self, prog: str, description: str, epilog: str) -> None:
        super().__init__(prog, description=description, epilog=epilog, allow_abbrev=False,
                         formatter_class=argparse.RawDescriptionHelpFormatter)

    def add_argument(self, *names, **more):
        if names and names[0].startswith("--") and "action" not in more:
            more["action"] = _Once
        return super().add_argument(*names, **more)


def _parser() -> argparse.ArgumentParser:
    parser = _Parser("cicelybeam", description=WHAT, epilog=STATUS)
    parser.add_argument("--version", action="version", version=f"cicelybeam {VERSION}")
    commands = parser.add_subparsers(dest="command", required=True, metavar="plane|line", parser_class=_Parser)
    plane = commands.add_parser("plane", help="cut by a plane", description=PLANE, epilog=(
        "example:\n  cicelybeam plane part.msh --origin 0,0,0.5 --normal z --picture part.svg --report part.html\n\n" + TERMS + "\n" + STATUS))
    line = commands.add_parser("line", help="cut by a line", description=LINE, epilog=(
        "example:\n  cicelybeam line part.msh --origin 0,0,0.5 --direction x --report part.csv\n\n" + LINE_TERMS + "\n" + STATUS))
    for command, way in ((plane, "normal"), (line, "direction")):
        _add_cut(command, way)
        _add_outputs(command)
        _add_picture(command)
        command.add_argument("--allow-undrawn", action=_Flag, help="exit status 0 also where area is lost or a crossing is guessed")
        command.add_argument("--allow-uncut", action=_Flag, help="exit status 0 also where the cut may reach cells of types that are not cut")
        command.add_argument("--quiet", action=_Flag, help="print warnings only")
    plane.add_argument("--strict", action=_Flag, help=(
        "do not draw a polygon that passes twice through one point, as some journals' tools reject such a polygon: its edges are counted "
        "as pinched, the area is that much smaller, and the record says by how much; without, it is cut there into rings, which are drawn"))
    line.add_argument("--strict", action=_NoStrictLine, nargs=0, help=argparse.SUPPRESS)
    plane.add_argument("--shift", action=_Flag, help=(
        "cut by the nearest parallel plane by which everything is drawn, and tell how far away it is"))
    plane.add_argument("--shift-most", type=_shift_most, metavar="D", help="how far to look for it; by default 1e-6 of the mesh's extent")
    plane.add_argument("--table", type=Path, metavar="FILE", help="the area by group, or by type where the mesh has no groups, as .csv")
    plane.add_argument("--traces", type=Path, metavar="FILE", help=(
        "the traces of the plane on the faces of cells, before they are welded: cell, face, ends in the plane and in space, as .csv or .vtp"))
    plane.add_argument("--show", choices=SHOWN, default=SHOWN[0], help=(
        "what the picture has lines for: the polygons' edges, or every trace, with a dot at each end"))
    plane.add_argument("--vtk", type=Path, metavar="FILE", help=(
        "the polygons, with fields of cells and of nodes: .vtp (with the edges that are not drawn), .vtu, .vtk, .ply or .obj"))
    plane.add_argument("--timing", action=_Flag, help=(
        "print the number of comparisons of points, and tell on standard error how long reading, cutting and each output took"))
    line.add_argument("--timing", action=_Flag, help="tell on standard error how long reading, cutting and each output took")
    return parser


def _add_cut(command: argparse.ArgumentParser, way: str) -> None:
    command.add_argument("mesh", type=Path, metavar="MESH", help="a mesh file of any format that meshio reads")
    command.add_argument("--origin", type=_numbers, required=True, metavar="X,Y,Z", help="a point of the cut; two numbers in a plane mesh")
    lengths = {"normal": "of any length but 0", "direction": "of a length from 1e-150 to 1e150"}
    command.add_argument(f"--{way}", type=_direction, required=True, metavar="X,Y,Z", help=f"{lengths[way]}; or an axis: x, -y, z")
    command.add_argument("--tolerance", type=_tolerance, metavar="T", help=(
        "the distance up to which a point counts as on the cut, and two points as one; by default the mesh's own, "
        "below which crossings that were rounded can be missed"))


def _add_outputs(command: argparse.ArgumentParser) -> None:
    command.add_argument("--report", type=Path, metavar="FILE", help=(
        "the record: a page to be read and printed (.html), the record and the polygons or segments (.json), these alone "
        "(.csv), or - for JSON on standard output"))


def _add_picture(command: argparse.ArgumentParser) -> None:
    command.add_argument("--picture", type=Path, metavar="FILE", help="a picture, .svg, .pdf, .eps or .png")
    command.add_argument("--colour", default="type", metavar="BY", help="the picture by type, group, cell, or a cell field")
    command.add_argument("--title", metavar="TEXT", help="above the picture; an empty one for none")
    command.add_argument("--size", type=_size, metavar="W,H", help="of the picture, in millimetres; W alone leaves the height to the section")
    command.add_argument("--dpi", type=_dpi, metavar="N", help="dots per inch of a .png, 300 by default")
    command.add_argument("--edges", choices=("on", "off", "auto"), default="auto", help=(
        "the cells' edges in the picture; auto thins them as cells grow in number"))


AXES = {"x": (1.0, 0.0, 0.0), "y": (0.0, 1.0, 0.0), "z": (0.0, 0.0, 1.0)}


def _direction(text: str) -> tuple[float, ...] | str:
    """Numbers, or the name of an axis, which becomes numbers when the mesh's dimension is known."""
    return text if text.lstrip("-") in AXES and text.count("-") <= 1 else _numbers(text)


def _along(given: str | tuple[float, ...], dimension: int) -> tuple[float, ...]:
    """
    >>> _along("-z", 3), _along("x", 2)
    ((0.0, 0.0, -1.0), (1.0, 0.0))
    """
    if not isinstance(given, str):
        return given
    axis = AXES[given.lstrip("-")][:dimension]
    return tuple(0.0 - c for c in axis) if given.startswith("-") else axis


def _numbers(text: str) -> tuple[float, ...]:
    try:
        found = tuple(float(part) for part in text.split(","))
    except ValueError:
        raise argparse.ArgumentTypeError(f"{text!r} is not numbers with commas between them") from None
    if len(found) not in (2, 3) or not all(map(math.isfinite, found)):
        raise argparse.ArgumentTypeError(f"{text!r} is not two or three finite numbers")
    return found


def _number(text: str, words: str, least: float, most: float = math.inf) -> float:
    try:
        found = float(text)
    except ValueError:
        raise argparse.ArgumentTypeError(f"{text!r} is not a number") from None
    if not least <= found <= most or found == math.inf:
        raise argparse.ArgumentTypeError(f"{text!r} is not {words}")
    return found


def _tolerance(text: str) -> float:
    return _number(text, "a number from 0 on", 0.0)


def _shift_most(text: str) -> float:
    return _number(text, "a number above 0", 5e-324)


def _dpi(text: str) -> float:
    return _number(text, "a number from 20 to 2400", 20, 2400)


def _size(text: str) -> tuple[float, ...]:
    parts = text.split(",")
    if len(parts) > 2:
        raise argparse.ArgumentTypeError(f"{text!r} is not a width, or a width and a height, in millimetres")
    return tuple(_number(part, "a length from 20 to 2000 millimetres", 20, 2000) for part in parts)


def _run(given: argparse.Namespace) -> int:
    _check_outputs(given)
    times = Times()
    with times.of("reading"):
        mesh = meshes.read(given.mesh)
    if given.picture or given.report:
        check_by(mesh, given.colour)
    with times.of("cutting"):
        cut = _cut(given, mesh)
    if isinstance(cut, PlaneCut) and (given.traces or given.show == "traces"):
        with times.of("traces"):
            cut.traces()  # before the record is told, which has their number
    if _silent(given):
        for warning in cut.record.warnings:
            print(f"cicelybeam: {warning}", file=sys.stderr)
    else:
        _print(record_in_words(cut, comparisons=given.timing))
    _write(given, cut, times)
    if given.timing:
        _tell_times(given, cut, times)
    status, reasons = _status(given, cut)
    for why in reasons:
        print(f"cicelybeam: {why}", file=sys.stderr)
    return status


def record_in_words(cut: PlaneCut | LineCut, comparisons: bool = False) -> str:
    """The record, with a line for each group where the mesh has groups; of a plane cut with the comparisons of points where asked."""
    told = cut.record.in_words(comparisons) if isinstance(cut, PlaneCut) else str(cut.record)
    lines, sentence = told.rsplit("\n\n", 1)
    groups = cut.area_by("group") if isinstance(cut, PlaneCut) and cut.mesh.group is not None else {}
    return "\n".join([lines, *(f"{'group':<18}{name}: {area:.12g}" for name, area in groups.items()), "", sentence])


def _silent(given: argparse.Namespace) -> bool:
    """Whether the record is not printed."""
    return given.quiet or _to_screen(given)


def _tell_times(given: argparse.Namespace, cut: PlaneCut | LineCut, times: Times) -> None:
    """How long each part took. On standard error, since the record is the same at each run, and standard output may be a report.

    The comparisons of points stand here only where no record is printed that has them.
    """
    lines, held = [], {}
    if isinstance(cut, PlaneCut):
        record = cut.record
        if _silent(given):
            lines.append(f"{'comparisons':<18}{comparisons_in_words(record.comparisons, record.most_comparisons)}")
        if record.shift or record.shift_most is not None and record.tolerance >= record.mesh_tolerance:  # below it none is looked for
            held["cutting"] = "the search for a shift"
    if given.report and given.report.suffix.lower() == ".html":
        held["report"] = "its figure"
    print("\n".join([*lines, *times.lines(held)]), file=sys.stderr)


def _to_screen(given: argparse.Namespace) -> bool:
    """Whether the report goes to standard output, where nothing else may then be."""
    return given.report is not None and str(given.report) == "-"


def _print(text: str) -> None:
    """Prints; a reader that stops early, as `head` does, must not keep the files from being written."""
    try:
        print(text, flush=True)
    except OSError as error:
        os.dup2(os.open(os.devnull, os.O_WRONLY), sys.stdout.fileno())  # or Python would try once more at its end
        if not isinstance(error, BrokenPipeError):
            raise CicelybeamError(f"standard output: it cannot be written: {error.strerror or error}") from error


def _outputs(given: argparse.Namespace) -> list[Path]:
    named = [given.report, given.picture, *(getattr(given, name, None) for name in ("vtk", "table", "traces"))]
    return [path for path in named if path is not None and str(path) != "-"]


def _check_outputs(given: argparse.Namespace) -> None:
    """Refuses names of files to be written before the work, not after it."""
    if given.picture:
        check_suffix(given.picture, PICTURES, "a picture")
    if given.report and not _to_screen(given):
        check_suffix(given.report, REPORTS, "a report")
    if getattr(given, "table", None):
        check_suffix(given.table, (".csv",), "a table")
    if getattr(given, "traces", None):
        check_suffix(given.traces, TRACES, "a file of traces")
    if getattr(given, "vtk", None):
        check_suffix(given.vtk, POLYGONS, "a file that can hold polygons")
    check_places(given.mesh, _outputs(given))


def _cut(given: argparse.Namespace, mesh: meshes.Mesh) -> PlaneCut | LineCut:
    bar = _Bar()
    try:
        if given.command == "plane":
            cut = cut_plane(mesh, given.origin, _along(given.normal, 3), given.tolerance, strict=given.strict, shift=given.shift,
                            shift_most=given.shift_most, progress=bar.step)
            if not cut.record.nothing_lost and not cut.record.shift_most:
                cut.look_for_shift(given.shift_most)
            return cut
        return cut_line(mesh, given.origin, _along(given.direction, mesh.dimension), given.tolerance, progress=bar.step)
    finally:
        bar.close()


class _Bar:
    """A progress bar on a terminal, nothing elsewhere."""

    def __init__(self) -> None:
        self.bar: Any = None  # tqdm's
        self.step = self._step if sys.stderr.isatty() else None

    def _step(self, done: int, total: int) -> None:
        if self.bar is None:
            from tqdm import tqdm

            self.bar = tqdm(total=total, unit=" cells", desc="cutting", leave=False)
        self.bar.update(done - self.bar.n)

    def close(self) -> None:
        if self.bar is not None:
            self.bar.close()


def _write(given: argparse.Namespace, cut: PlaneCut | LineCut, times: Times) -> None:
    look = {"colour": given.colour, "title": given.title, "size": given.size, "dpi": given.dpi, "edges": given.edges,
            "show": getattr(given, "show", SHOWN[0])}
    if given.report:
        with times.of("report"):
            _write_report(given, cut, look)
    if isinstance(cut, PlaneCut):
        from . import report

        if given.table:
            with times.of("table"):
                report.write_table(cut, given.table)
        if given.traces:
            with times.of("traces"):
                report.write_traces(cut.traces(), given.traces)
        if given.vtk:
            with times.of("vtk"):
                report.write_polygons(cut, given.vtk)
    if given.picture:
        with times.of("figure"):
            from .picture import draw

            draw(cut, given.picture, **look)


def _write_report(given: argparse.Namespace, cut: PlaneCut | LineCut, look: dict) -> None:
    from . import report

    command = shlex.join(["cicelybeam", *given.words])
    if _to_screen(given):
        _print(report.as_json(cut, command))
    elif given.report.suffix.lower() == ".html":
        from .page import write_page

        write_page(cut, given.report, command, comparisons=given.timing and isinstance(cut, PlaneCut), **look)
    else:
        report.write_report(cut, given.report, command, given.colour)


def _status(given: argparse.Namespace, cut: PlaneCut | LineCut) -> tuple[int, list[str]]:
    """The exit status, the lowest where there are several, and every reason for one that is not accepted."""
    option = {3: "--allow-undrawn", 4: "--allow-uncut"}
    accepted = {3: given.allow_undrawn, 4: given.allow_uncut}
    reasons = [(status, why) for status, why in cut.record.reasons if not accepted[status]]
    told = [f"exit status {status}: {why} ({option[status]} accepts it)" for status, why in reasons]
    if any(status == 3 for status, _ in reasons) and cut.record.advice:
        told.append(cut.record.advice)
    return min((status for status, _ in reasons), default=0), told
