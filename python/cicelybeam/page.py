"""The auditor's page: one HTML file that stands by itself."""
from __future__ import annotations

import base64
import re
from dataclasses import replace
from html import escape
from importlib.resources import files
from pathlib import Path

from . import picture
from .areas import area_by, in_two
from .line import LineCut
from .outputs import check_places, check_suffix, whole
from .plane import PlaneCut
from .provenance import origin_of, proved
from .refusal import CicelybeamError
from .undrawn import Finding, findings

MOST_ON_PAPER = 500  # touched cells
MOST_IN_SVG = 4000  # polygons; beyond it the figure is a bitmap, so that a browser stays quick

CSS = """
body { font: 11pt/1.4 sans-serif; color: #202020; max-width: 190mm; margin: 8mm auto; padding: 0 4mm; }
h1 { font-size: 16pt; margin: 0 0 2mm } h2 { font-size: 12pt; margin: 7mm 0 2mm; border-bottom: 1px solid #999 }
table { border-collapse: collapse; width: 100%; font-size: 9.5pt }
th, td { text-align: left; vertical-align: top; padding: 0.6mm 3mm 0.6mm 0; border-bottom: 1px solid #ddd; overflow-wrap: anywhere }
th { font-weight: 600 } td.n, th.n { text-align: right; white-space: nowrap; font-variant-numeric: tabular-nums }
blockquote { margin: 2mm 0; padding-left: 4mm; border-left: 1mm solid #6c83c0 }
figure { margin: 3mm 0; text-align: center } figure svg, figure img { max-width: 100%; max-height: 150mm; height: auto }
code, pre { font: 9pt/1.35 monospace; overflow-wrap: anywhere; white-space: pre-wrap }
.paper { display: none } .status { padding: 2mm 3mm; border: 1px solid #202020 } .status.lost { border-width: 0.8mm }
@page { size: A4; margin: 14mm }
@media print { body { max-width: none; margin: 0; padding: 0; font-size: 10pt } .screen { display: none } .paper { display: block }
  h2 { break-after: avoid } figure, tr, li, blockquote { break-inside: avoid } a { color: inherit } thead { display: table-header-group } }
"""


def write_page(cut: PlaneCut | LineCut, path: str | Path, command: str | None = None, comparisons: bool = False, **look: object) -> None:
    """The figure, the sentence, the record, areas, what is missing, what is proved, and how to make it again.

    With `comparisons` the record of a plane cut has their line.
    """
    path = Path(path)
    check_suffix(path, (".html",), "a page")
    if comparisons and not isinstance(cut, PlaneCut):
        raise CicelybeamError("a line cut has no comparisons of points to tell: leave comparisons=True out")
    check_places(cut.mesh.source, [path])
    text = page(cut, command, comparisons, **look)
    with whole(path) as place:
        place.write_text(text, encoding="utf-8")


def page(cut: PlaneCut | LineCut, command: str | None = None, comparisons: bool = False, **look: object) -> str:
    name = escape(Path(cut.mesh.source).name)
    found = findings(cut)
    parts = [
        f'<!doctype html>\n<html lang="en"><head><meta charset="utf-8"><title>Section of {name}</title>\n<style>{CSS}</style></head><body>',
        f"<h1>Section of {name}</h1>", _status(cut), _figure(cut, look),
        f"<h2>In one sentence</h2><blockquote>{escape(cut.record.sentence())}</blockquote>",
        f"<h2>The record</h2>{_record(cut, comparisons)}", _areas(cut),
        _missing(found), _proved(cut, comparisons), _made(cut, command), _touched(found), _claims(), "</body></html>\n",
    ]
    return "\n".join(parts)


def _status(cut: PlaneCut | LineCut) -> str:
    """Every reason why the figure or the area is not whole, or that there is none."""
    reasons = cut.record.reasons
    if not reasons:
        what = "no area is lost" if isinstance(cut, PlaneCut) else "no piece is known to be missing"
        return f'<p class="status">Of the cells that the cut reaches all were cut, {what}, and no crossing is guessed.</p>'
    lines = [f"Not whole: {escape(why)} (exit status {status})." for status, why in reasons]
    advice = getattr(cut.record, "advice", "")
    lines += [f"{escape(advice[0].upper() + advice[1:])}."] if advice else []
    return f'<p class="status lost">{"<br>".join(lines)}</p>'


def _figure(cut: PlaneCut | LineCut, look: dict) -> str:
    wanted = picture.look_of(look)
    if len(cut) > MOST_IN_SVG:
        png = picture.rendered(cut, replace(wanted, dpi=wanted.dpi or 200), ".png")
        shown = f'<img alt="the section" src="data:image/png;base64,{base64.b64encode(png).decode()}">'
    else:
        text = picture.rendered(cut, wanted, ".svg").decode()
        shown = re.sub(r"<metadata>.*?</metadata>", "", text[text.index("<svg") :], flags=re.DOTALL)
    return f"<figure>{shown}</figure>"


def _record(cut: PlaneCut | LineCut, comparisons: bool) -> str:
    told = cut.record.in_words(comparisons) if isinstance(cut, PlaneCut) else str(cut.record)
    lines = told.split("\n\n")[0].split("\n")
    rows = [f"<tr><th>{escape(line[:18].strip())}</th><td>{escape(line[18:])}</td></tr>" for line in lines]
    return f"<table>{''.join(rows)}</table>"


def _areas(cut: PlaneCut | LineCut) -> str:
    """The area by group, or by type where the mesh has no groups."""
    if not isinstance(cut, PlaneCut):
        return ""
    by = "type" if cut.mesh.group is None else "group"
    areas = area_by(cut, by)
    rows = [*areas.items()]
    twice = in_two(cut, areas)
    rows += [("in two of these", -twice)] if twice else []
    share = 100 / cut.record.area if cut.record.area else 0.0
    body = "".join(f'<tr><td>{escape(name)}</td><td class="n">{area:.12g}</td><td class="n">{share * area:.4g} %</td></tr>'
                   for name, area in [*rows, ("the section", cut.record.area)])
    return (f'<h2>Area by {by}</h2><table><thead><tr><th>{by}</th><th class="n">area</th><th class="n">share</th></tr></thead>'
            f"<tbody>{body}</tbody></table>")


def _missing(found: list[Finding]) -> str:
    lost = [f for f in found if not f.touched]
    head = "<h2>What is missing</h2>"
    return head + (_cells(lost) if lost else "<p>No cell has area lost, and none that the cut reaches is left uncut.</p>")


def _touched(found: list[Finding]) -> str:
    """They lose nothing; where there are many, paper is spared."""
    touched = [f for f in found if f.touched]
    if not touched:
        return ""
    head = "<h2>Touched, with edges that are not drawn and bound no area</h2>"
    if len(touched) <= MOST_ON_PAPER:
        return head + _cells(touched)
    return f'{head}<p class="paper">{len(touched)} cells, which stand in the page on a screen.</p><div class="screen">{_cells(touched)}</div>'


def _cells(found: list[Finding]) -> str:
    body = "".join(
        f'<tr><td class="n">{f.cell}</td><td>{escape(f.type)}</td><td>{escape(f.reason)}</td>'
        f'<td class="n">{"" if f.lost_area is None else f"{f.lost_area:.3g}"}</td><td>{escape(_point(f.near))}</td></tr>' for f in found)
    head = '<tr><th class="n">cell</th><th>type</th><th>reason</th><th class="n">area lost, about</th><th>near</th></tr>'
    return f"<table><thead>{head}</thead><tbody>{body}</tbody></table>"


def _point(numbers: list[float]) -> str:
    return "(" + ", ".join(f"{x:.9g}" for x in numbers) + ")" if numbers else ""


def _proved(cut: PlaneCut | LineCut, comparisons: bool) -> str:
    items = [f'<li>{escape(sentence)} <a href="#{slug(heading)}">docs/CLAIMS.md, {escape(heading)}</a></li>' for sentence, heading in proved(cut, comparisons)]
    return f"<h2>What is proved, and what is not</h2><ol>{''.join(items)}</ol>"


def _made(cut: PlaneCut | LineCut, command: str | None) -> str:
    made = origin_of(cut, command)
    versions = ", ".join(f"{name} {version}" for name, version in made["versions"].items())
    rows = [("command", f"<code>{escape(made['command'])}</code>"), ("mesh", escape(made["mesh"])),
            ("SHA-256 of the mesh", f"<code>{made['mesh_sha256']}</code>"), ("SHA-256 of the library", f"<code>{made['library_sha256']}</code>"),
            ("versions", escape(versions)), ("date", made["date"])]
    return "<h2>To do it again</h2><table>" + "".join(f"<tr><th>{name}</th><td>{value}</td></tr>" for name, value in rows) + "</table>"


def slug(heading: str) -> str:
    """
    >>> slug("The auditor's two questions")
    'the-auditors-two-questions'
    """
    return re.sub(r"[^a-z0-9 -]", "", heading.lower()).replace(" ", "-")


def _claims() -> str:
    """docs/CLAIMS.md of this version, for the links above; not on paper."""
    text = files(__package__).joinpath("CLAIMS.md").read_text(encoding="utf-8")
    parts = re.split(r"^#+ (.*)$", text, flags=re.MULTILINE)[1:]
    sections = [f'<h2 id="{slug(heading)}">{escape(heading)}</h2><pre>{escape(body.strip())}</pre>'
                for heading, body in zip(parts[::2], parts[1::2])]
    return '<div class="screen"><hr>' + "\n".join(sections) + "</div>"
