"""What a cut can be made into: a figure, and files by their suffixes."""
from __future__ import annotations

from pathlib import Path

from .outputs import PICTURES, POLYGONS, REPORTS, check_suffix
from .refusal import CicelybeamError


class Published:
    """The methods by which a cut is drawn and written. What they need is loaded when they are called."""

    def draw(self, path: str | Path, **look: object) -> None:
        """A picture, .svg, .pdf, .eps or .png. Options: colour, title, size, dpi, edges and show, as those of the command."""
        from .picture import draw

        draw(self, path, **look)  # type: ignore[arg-type]

    def write(self, path: str | Path, **look: object) -> None:
        """A report (.html, .json, .csv), the polygons (.vtp, .vtu, .vtk, .ply, .obj) or a picture, by the suffix.

        Options are those of `draw`, for the figure in a page; `colour` names the field in the rows of a line cut. With `comparisons=True`
        the page of a plane cut has the line of comparisons of points.
        """
        from . import page, report
        from .plane import PlaneCut

        path = Path(path)
        suffix = path.suffix.lower()
        check_suffix(path, (*REPORTS, *PICTURES, *(POLYGONS if isinstance(self, PlaneCut) else ())), "what a cut is written to")
        if suffix in PICTURES:
            self.draw(path, **look)
        elif suffix == ".html":
            page.write_page(self, path, **look)  # type: ignore[arg-type]
        elif suffix in POLYGONS:
            report.write_polygons(self, path)  # type: ignore[arg-type]
        else:
            report.write_report(self, path, colour=str(look.get("colour", "type")))  # type: ignore[arg-type]

    def area_by(self, by: str = "group") -> dict[str, float]:
        """The net area by `group`, `type`, `cell` or a cell field."""
        from .areas import area_by
        from .plane import PlaneCut

        if not isinstance(self, PlaneCut):
            raise CicelybeamError("a line cut has no area; its record has the length covered")
        return area_by(self, by)
