"""shapely's polygons, with its errors told in the package's words."""
from __future__ import annotations

import logging
import warnings
from collections.abc import Callable

from shapely.errors import ShapelyError
from shapely.geometry.base import BaseGeometry
from shapely.ops import unary_union
from shapely.strtree import STRtree

from .refusal import CicelybeamError

logging.getLogger("shapely.geos").addHandler(logging.NullHandler())  # else shapely prints what it could not do at first

def _worked_out(work: Callable[[list[BaseGeometry]], BaseGeometry], shapes: list[BaseGeometry]) -> BaseGeometry:
    """What shapely makes of these shapes; where it fails, of the same ones cleaned, as those of a badly twisted cell need."""
    try:
        return work(shapes)
    except (ShapelyError, ValueError):
        try:
            return work([shape.buffer(0) for shape in shapes])
        except (ShapelyError, ValueError) as error:
            raise CicelybeamError(f"shapely cannot work out where polygons overlap: scale the mesh to a size of about 1 ({error})") from error


def union(shapes: list[BaseGeometry]) -> BaseGeometry:
    return _worked_out(unary_union, shapes)


def neighbours(shapes: list[BaseGeometry]) -> Callable[[BaseGeometry], list[BaseGeometry]]:
    """A function that gives those of these shapes that may meet a shape."""
    with warnings.catch_warnings():
        warnings.simplefilter("ignore")  # shapely 1.8 warns that queries give numbers from 2.0 on
        tree = STRtree(shapes)
    return lambda shape: [found if isinstance(found, BaseGeometry) else shapes[found] for found in tree.query(shape)]  # shapely 1, 2


def overlap(one: BaseGeometry, other: BaseGeometry) -> float:
    """The area that two shapes have in common."""
    return _worked_out(lambda pair: pair[0].intersection(pair[1]), [one, other]).area


def less(shape: BaseGeometry, others: list[BaseGeometry]) -> BaseGeometry:
    """The part of a shape that none of the others covers."""
    return _worked_out(lambda shapes: shapes[0].difference(unary_union(shapes[1:])), [shape, *others])
