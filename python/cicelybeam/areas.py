"""The area of a section by group, type or field."""
from __future__ import annotations

from typing import TYPE_CHECKING

import numpy as np

from .groups import check_by, classes
from .netarea import net_area
from .rings import Rings

if TYPE_CHECKING:
    from .plane import PlaneCut


def area_by(cut: PlaneCut, by: str = "group") -> dict[str, float]:
    """The net area of the section by group, type, cell or field.

    Where the plane runs along an interface of two groups, each of them has the area there, and the sum is larger than the
    section's by what `in_two` gives.
    """
    check_by(cut.mesh, by)
    if by == "cell":
        cells, index = np.unique(cut.polygon_cell, return_inverse=True)
        names = cells.astype(str).tolist()
    else:
        names, index = classes(cut.mesh, cut.polygon_cell, by)
    sums = np.bincount(index, weights=cut.polygon_area, minlength=len(names)).tolist()
    if cut.record.repeated_area:
        sums = [_net(cut, index == k) if (cut.side[index == k] != 0).any() else total for k, total in enumerate(sums)]
    found: dict[str, float] = {}
    for name, total in zip(names, sums):  # two groups may have one name
        found[name] = found.get(name, 0.0) + float(total)
    return found


def in_two(cut: PlaneCut, areas: dict[str, float]) -> float:
    """The area that is in two classes: what their sum has beyond the section's."""
    more = sum(areas.values()) - cut.record.area
    return more if more > 1e-9 * abs(cut.record.area) else 0.0


def _net(cut: PlaneCut, chosen: np.ndarray) -> float:
    """The net area of these rings alone."""
    place = np.cumsum(chosen) - 1
    lengths = np.diff(cut.ends, prepend=0)
    rings = Rings(cut.points, cut.nodes[np.repeat(chosen, lengths)], np.cumsum(lengths[chosen]), cut.polygon_cell[chosen],
                  cut.polygon_area[chosen], cut.hole[chosen], place[cut.outer[chosen]], 0, 0)
    return net_area(rings, cut.side[chosen], max(cut.record.tolerance, cut.record.mesh_tolerance)).area
