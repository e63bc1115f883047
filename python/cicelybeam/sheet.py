"""A figure with one pair of axes, a legend or a scale, and a title, laid out so that nothing is over anything else.

What stands around the axes is measured, and the axes get the room that is left, or the figure grows where no size is given.
All lengths are inches, but for the size that is asked for.
"""
from __future__ import annotations

import textwrap
from collections.abc import Callable
from typing import NamedTuple

import numpy as np
from matplotlib.axes import Axes
from matplotlib.backends.backend_agg import FigureCanvasAgg
from matplotlib.cm import ScalarMappable
from matplotlib.figure import Figure
from matplotlib.legend import Legend
from matplotlib.text import Text
from matplotlib.transforms import Bbox

from .refusal import CicelybeamError

INCH = 25.4  # millimetres
PAD = 0.07  # between things
LONG, SHORT = 4.6, 1.0  # the axes' longer side, and the least of the shorter one
LEAST = 2.6  # the least width for a title or a short legend
BAR = 0.13  # the width of the scale
MOST_BESIDE = 12  # entries of a legend beside the axes; a longer one stands below, in columns


class Around(NamedTuple):
    """The room that labels, legend, scale and title take around the axes."""

    left: float
    right: float
    below: float
    above: float


class Sheet:
    def __init__(self, xlabel: str, ylabel: str, equal: bool) -> None:
        self.figure = Figure(figsize=(6, 6), dpi=100)
        self.renderer = FigureCanvasAgg(self.figure).get_renderer()
        self.axes = self.figure.add_axes((0.2, 0.2, 0.6, 0.6))
        self.axes.set_xlabel(xlabel)
        self.axes.set_ylabel(ylabel)
        self.equal = equal  # whether both axes have the same scale
        self.height = 2.4  # of the axes, where they need not have the same scale
        self.title = ""
        self.handles: list = []  # of the legend
        self.handlers: dict = {}  # how a handle is drawn, where it is not drawn as matplotlib does
        self.scale: ScalarMappable | None = None
        self.scale_label = ""
        self.when_scaled: list[Callable[[float], None]] = []  # called with the points (1/72 inch) to one in x
        self.low, self.high = np.full(2, np.inf), np.full(2, -np.inf)
        self.beside = False  # whether the legend stands beside the axes
        self.legend: Legend | None = None
        self.heading: Text | None = None
        self.bar: Axes | None = None
        self.gap = PAD  # between the axes and the scale

    def show(self, points: np.ndarray) -> None:
        """Makes the axes reach over these points; NaN is left out."""
        if len(points):
            finite = np.where(np.isfinite(points), points, np.nan)
            with np.errstate(all="ignore"):
                self.low = np.fmin(self.low, np.fmin.reduce(finite, axis=0))
                self.high = np.fmax(self.high, np.fmax.reduce(finite, axis=0))

    def reach(self) -> float:
        """The greatest distance from 0, along either axis, of what is shown."""
        ends = np.abs([self.low, self.high])
        return float(ends[np.isfinite(ends)].max(initial=0.0))

    def arrange(self, size: tuple[float, ...] | None) -> None:
        """Lays out; the size is in millimetres, width and height or the width alone."""
        low, span = self._limits()
        ratio = span[0] / span[1]
        wanted = () if size is None else tuple(length / INCH for length in size)
        self.beside = self._is_beside(ratio, wanted)
        if self.scale is not None:
            self.bar = self.figure.add_axes((0.9, 0.2, 0.02, 0.6))
            self.figure.colorbar(self.scale, cax=self.bar, label=self.scale_label)
        box = self._first_box(ratio)
        width = wanted[0] if wanted else box[0] + 1.5
        for _ in range(4):  # labels depend on the room, and the room on the labels
            long_legend = len(self.handles) > 6
            self._set_legend(width if wanted else max(width, LONG if long_legend else LEAST))
            self._set_heading(width if wanted else max(width, LEAST))
            self._shorten_labels(box)
            around = self._around()
            if wanted:
                box = self._box_within(wanted, around, ratio)
            width = self._place(box, around, wanted)
            self._set_limits(low, span, box[0] / box[1])
        for call in self.when_scaled:
            call(72 * box[0] / float(np.ptp(self.axes.get_xlim())))

    def _limits(self) -> tuple[np.ndarray, np.ndarray]:
        """The lower left of what is shown, and its width and height, which are never 0."""
        low, high = np.where(np.isfinite(self.low), self.low, 0.0), np.where(np.isfinite(self.high), self.high, 1.0)
        span, middle = high - low, (low + high) / 2
        if self.equal:
            span = 1.04 * np.maximum(span, 1e-3 * max(span.max(), abs(low).max() * 1e-9, 1e-300))
        else:
            span = 1.12 * np.maximum(np.where(span > 0, span, 1.0), 1e-9 * np.maximum(abs(low), abs(high)))
        return middle - span / 2, span

    def _is_beside(self, ratio: float, wanted: tuple[float, ...]) -> bool:
        """A legend stands beside a tall section, or where the size asked for leaves room there."""
        if self.scale is not None or len(self.handles) > MOST_BESIDE:
            return False
        return wanted[0] / wanted[1] > 1.4 * ratio if len(wanted) == 2 else self.equal and ratio < 0.75

    def _first_box(self, ratio: float) -> tuple[float, float]:
        """Width and height of the axes where no size is asked for."""
        if not self.equal:
            return LONG, self.height
        return max(LONG * min(1.0, ratio), SHORT), max(LONG * min(1.0, 1 / ratio), SHORT)

    def _box_within(self, wanted: tuple[float, ...], around: Around, ratio: float) -> tuple[float, float]:
        """Width and height of the axes in a figure of this size."""
        wide = wanted[0] - around.left - around.right
        if len(wanted) == 2:
            high = wanted[1] - around.below - around.above
        else:
            high = min(max(wide / ratio, SHORT), 1.4 * wide) if self.equal else self.height
        if wide < 0.4 or high < 0.4:
            raise CicelybeamError("the picture is too small for what stands around the section; give a larger size")
        return wide, high

    def _set_legend(self, room: float) -> None:
        """The legend, with as many columns as there is room for."""
        if not self.handles:
            return
        for columns in range(1 if self.beside else min(len(self.handles), 6), 0, -1):
            if self.legend is not None:
                self.legend.remove()
            self.legend = self.figure.legend(
                handles=self.handles, ncol=columns, loc="lower left", borderaxespad=0, frameon=False, handlelength=1.6,
                columnspacing=1.4, bbox_to_anchor=(0, 0), handler_map=self.handlers)
            if self._size(self.legend)[0] <= room - 2 * PAD:
                return

    def _set_heading(self, room: float) -> None:
        """The title, in as many lines as it needs; a formula is not cut up."""
        letters = len(self.title)
        while self.title:
            if self.heading is not None:
                self.heading.remove()
            text = self.title if "$" in self.title else textwrap.fill(self.title, letters)
            self.heading = self.figure.text(0.5, 1, text, ha="center", va="top", fontsize=8.5)
            if self._size(self.heading)[0] <= room - 2 * PAD or letters < 12 or "$" in self.title:
                return
            letters = int(0.9 * letters)

    def _shorten_labels(self, box: tuple[float, float]) -> None:
        """Of a label that is much longer than its axis, the name alone is left: what stands before the comma."""
        for label, room in zip((self.axes.xaxis.label, self.axes.yaxis.label), box):
            if max(self._size(label)) > 1.2 * room:
                label.set_text(label.get_text().split(",")[0])

    def _size(self, artist: Legend | Text) -> tuple[float, float]:
        box = artist.get_window_extent(self.renderer)
        return box.width / self.figure.dpi, box.height / self.figure.dpi

    def _around(self) -> Around:
        inner = self.axes.get_window_extent(self.renderer)
        outer = Bbox.union([inner, *(axis.get_tightbbox(self.renderer) for axis in (self.axes.xaxis, self.axes.yaxis))])
        left, right, below, above = (length / self.figure.dpi + PAD for length in (
            inner.x0 - outer.x0, outer.x1 - inner.x1, inner.y0 - outer.y0, outer.y1 - inner.y1))
        if self.bar is not None:
            reach = self.bar.yaxis.get_tightbbox(self.renderer).x1 - self.bar.get_window_extent(self.renderer).x1
            self.gap = right
            right += BAR + max(reach, 0) / self.figure.dpi + PAD
        if self.legend is not None:
            wide, high = self._size(self.legend)
            right, below = (right + wide + PAD, below) if self.beside else (right, below + high + PAD)
        if self.heading is not None:
            above += self._size(self.heading)[1] + PAD
        return Around(left, right, below, above)

    def _place(self, box: tuple[float, float], around: Around, wanted: tuple[float, ...]) -> float:
        """Sets sizes and positions; gives the figure's width."""
        wide, high = box
        left, page = around.left, [around.left + wide + around.right, around.below + high + around.above]
        across = [artist for artist in (self.heading, None if self.beside else self.legend) if artist is not None]
        least = max((self._size(artist)[0] + 2 * PAD for artist in across), default=0.0)
        if not wanted and page[0] < least:
            left, page[0] = left + (least - page[0]) / 2, least
        page[: len(wanted)] = wanted
        self.figure.set_size_inches(page)
        self.axes.set_position((left / page[0], around.below / page[1], wide / page[0], high / page[1]))
        if self.bar is not None:
            self.bar.set_position(((left + wide + self.gap) / page[0], around.below / page[1], BAR / page[0], high / page[1]))
        if self.legend is not None:
            size = self._size(self.legend)
            x = page[0] - PAD - size[0] if self.beside else (page[0] - size[0]) / 2
            y = max(around.below + (high - size[1]) / 2, PAD) if self.beside else PAD
            self.legend.set_bbox_to_anchor((x / page[0], y / page[1]))
        if self.heading is not None:
            self.heading.set_position((0.5, 1 - PAD / page[1]))
        return page[0]

    def _set_limits(self, low: np.ndarray, span: np.ndarray, ratio: float) -> None:
        """The limits of the data, made wider or higher where both scales are the same, so that the axes fill their box."""
        middle = low + span / 2
        if self.equal:
            span = np.array([max(span[0], span[1] * ratio), max(span[1], span[0] / ratio)])
        self.axes.set_xlim(middle[0] - span[0] / 2, middle[0] + span[0] / 2)
        self.axes.set_ylim(middle[1] - span[1] / 2, middle[1] + span[1] / 2)
