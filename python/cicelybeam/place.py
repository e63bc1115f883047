"""Where the cut is: the rules' unit vectors, planes and distances, by their operations in their order.

The distances decide which cells are left out before any call. By theorem `left_out` (crates/clip/specs/Clear.antt) a
face has no segment if its corners are all above tol or all below -tol, and tol is not negative; by `none_left_out`
(crates/clip/specs/Defaulted.antt) it has no crossing either. The theorems speak of the rule's own rounded distances. So they are worked out here by exactly its operations: each is one numpy
operation on 64-bit floats, which IEEE 754 fixes, and numpy does not fuse them. No margin is needed then, and the
same distances tell which cells the plane passes through.
"""
from __future__ import annotations

import math
from dataclasses import dataclass
from fractions import Fraction
from numbers import Real
from typing import TYPE_CHECKING

import numpy as np

from .library import library
from .refusal import CicelybeamError, MeshError, Refused

if TYPE_CHECKING:
    from .mesh import Block, Polyhedra

    Cells = Block | Polyhedra

Vector = tuple[float, ...]


def dot(a: Vector, b: Vector) -> float:
    """Sums start at plus zero and run left to right."""
    total = 0.0
    for x, y in zip(a, b):
        total = total + x * y
    return total


def unit(a: Vector, mend: str = "") -> Vector:
    """Each component divided by the norm, which must be greater than 0; `mend` says what to do where it is not.

    >>> unit((0.0, 0.0, 2.0))
    (0.0, 0.0, 1.0)
    """
    norm = library().cicelybeam_sqrt(dot(a, a))
    if not norm > 0.0:
        raise Refused(6, detail=mend)
    return tuple(x / norm for x in a)


def check_unit(given: Vector, made: Vector, what: str, mend: str = "scale it to about 1") -> None:
    """Refuses what the rule accepts and does not make of length 1: where squares overflow or lose their digits."""
    if not abs(sum(x * x for x in made) - 1.0) < 1e-9:
        raise CicelybeamError(f"the {what} {given} is too large or too small: its squares cannot be added up; {mend}")


def exponent(a: Vector) -> int:
    """That of the greatest power of two that is not above the greatest absolute component, which is not 0.

    >>> exponent((0.0, -7.0, 3.0)), exponent((5e-324, 0.0, 0.0))
    (2, -1074)
    """
    return math.frexp(max(map(abs, a)))[1] - 1


def scaled_normal(normal: Vector) -> Vector:
    """A finite normal times the power of two that brings its greatest absolute component to at least 1 and under 2, each exact product
    rounded once. A normal of zeros is not scaled.

    It is divided by the inverse, as the library does it: 2^1074 is no 64-bit float, and 2^-1074 is one.

    >>> scaled_normal((3 * 2.0**600, 0.0, -(2.0**600))), scaled_normal((5e-324, 0.0, -2e-323))
    ((1.5, 0.0, -0.5), (0.25, 0.0, -1.0))
    """
    return tuple(x / math.ldexp(1.0, exponent(normal)) for x in normal) if any(normal) else normal


def taken(normal: Vector, scaled: bool) -> Vector:
    """The normal that is made unit: scaled, or as it is given."""
    return scaled_normal(normal) if scaled else normal


def unit_normal(normal: Vector, scaled: bool) -> Vector:
    """The unit normal of a plane. A scaled normal may be of any length but 0; as it is given, its squares have to add up.

    >>> unit_normal((0.0, 0.0, 1e200), True)
    (0.0, 0.0, 1.0)
    """
    if not any(normal):
        raise Refused(6, detail="give a normal with a component other than 0")
    mend = "leave scaled=False out, or scale it to about 1"
    n = unit(taken(normal, scaled), f"the squares of {normal} underflow to 0; {mend}")
    check_unit(normal, n, "normal", mend)
    return n


def unit_direction(direction: Vector) -> Vector:
    """The unit direction of a line, which is not scaled."""
    if not any(direction):
        raise Refused(6, detail="give a direction with a component other than 0")
    d = unit(direction, f"the squares of {direction} underflow to 0; scale it to about 1")
    check_unit(direction, d, "direction")
    return d


def why_scaled(normal: Vector) -> str:
    """Why it matters that this normal was scaled: why it is refused as it is given, or has another unit normal then. Else nothing.

    >>> why_scaled((1e200, 0.0, 0.0)), why_scaled((0.0, 1e-200, 0.0)), why_scaled((0.0, 0.0, 1e100))
    ('since the sum of its squares overflows', 'since its squares underflow to 0', '')
    """
    norm, scaled_norm = (library().cicelybeam_sqrt(dot(a, a)) for a in (normal, scaled_normal(normal)))
    if norm == math.inf:
        return "since the sum of its squares overflows"
    if not norm > 0.0:
        return "since its squares underflow to 0"
    if unit(normal) == unit(scaled_normal(normal)):
        return ""
    return "which rounds a component" if math.ldexp(norm, -exponent(normal)) == scaled_norm else "since its squares underflow and lose digits"


def cross(a: Vector, b: Vector) -> Vector:
    return (a[1] * b[2] - a[2] * b[1], a[2] * b[0] - a[0] * b[2], a[0] * b[1] - a[1] * b[0])


def least_aligned_axis(n: Vector) -> Vector:
    x, y, z = (abs(c) for c in n)
    if x <= y and x <= z:
        return (1.0, 0.0, 0.0)
    return (0.0, 1.0, 0.0) if y <= z else (0.0, 0.0, 1.0)


@dataclass(frozen=True)
class Frame:
    """A plane: its origin, unit normal and the two in-plane vectors."""

    origin: Vector
    normal: Vector
    u: Vector
    v: Vector

    @np.errstate(all="ignore")  # numbers that overflow are told of elsewhere
    def in_space(self, points: np.ndarray) -> np.ndarray:
        """Points of the plane, two numbers each, as points in space."""
        o, u, v = (np.array(a) for a in (self.origin, self.u, self.v))
        return o + points[:, :1] * u + points[:, 1:] * v

    @np.errstate(all="ignore")
    def in_plane(self, points: np.ndarray) -> np.ndarray:
        """Points in space, three numbers each, as the points of the plane below or above which they are."""
        return (points - np.array(self.origin)) @ np.array([self.u, self.v]).T


def plane(origin: Vector, normal: Vector, scaled: bool) -> Frame:
    """The plane of a plane cut."""
    n = unit_normal(normal, scaled)
    seed = least_aligned_axis(n)
    along = dot(seed, n)
    u = unit(tuple(s - along * c for s, c in zip(seed, n)))
    return Frame(origin, n, u, cross(n, u))


def plane_of_line(origin: Vector, direction: Vector) -> Frame:
    """The plane in which a line cut of a space cell takes place."""
    d = unit_direction(direction)
    e2 = unit(cross(d, least_aligned_axis(d)))
    return Frame(origin, cross(d, e2), d, e2)


def normal_of_line(direction: Vector) -> Vector:
    """The normal of a line in the plane."""
    a, b = unit_direction(direction)
    return unit((-b, a))


def distances(points: np.ndarray, origin: Vector, normal: Vector) -> np.ndarray:
    """The signed distance of each row from the plane or line with this unit normal.

    >>> distances(np.array([[0.0, 0.0, 3.0]]), (0.0, 0.0, 1.0), (0.0, 0.0, 1.0))
    array([2.])
    """
    with np.errstate(all="ignore"):
        total = np.zeros(len(points))
        for k, (o, n) in enumerate(zip(origin, normal)):
            total += (points[:, k] - o) * n
    return total


ABOVE, BELOW = 1, 2


@dataclass(frozen=True)
class Sides:
    """For each node one of the bits ABOVE (above tol) and BELOW (below -tol), or none."""

    of_node: np.ndarray

    def reached(self, block: Cells) -> np.ndarray:
        """For each cell of a block: whether it has to be cut; else no face of it has a segment."""
        return block.folded(np.bitwise_and, self.of_node) == 0

    def met(self, block: Cells, cells: np.ndarray | slice = slice(None)) -> np.ndarray:
        """For each of these cells of a block: the bits of all its corners together.

        Both: the plane passes through it. One: it lies on that side and may be touched. None: all corners are within the
        tolerance of the plane, so that no face has a segment.
        """
        return block.folded(np.bitwise_or, self.of_node, cells)


def chosen_tolerance(tolerance: float | None, own: float, source: str) -> float:
    """The tolerance that is given, else the mesh's own, which infinite coordinates make infinite."""
    if tolerance is not None:
        if not isinstance(tolerance, Real) or not 0.0 <= tolerance < math.inf:
            raise CicelybeamError(f"the tolerance {tolerance!r} is not a number from 0 on")
        return float(tolerance)
    if own == math.inf:
        raise MeshError(f"{source}: it has infinite coordinates, so its own tolerance is infinite; give a tolerance")
    return own


def sides(points: np.ndarray, origin: Vector, normal: Vector, tol: float) -> Sides:
    away = distances(points, origin, normal)
    with np.errstate(all="ignore"):
        return Sides(ABOVE * (away > tol).astype(np.uint8) + BELOW * (away < -tol).astype(np.uint8))


def vector(numbers: object, width: int, what: str) -> Vector:
    """These numbers as a vector of this width; `what` it is, for the message of an error."""
    try:
        found = tuple(float(x) for x in np.asarray(numbers, dtype=np.float64).ravel())
    except (TypeError, ValueError):
        raise CicelybeamError(f"the {what} {numbers!r} is not {width} numbers") from None
    if len(found) != width:
        raise Refused(5, detail=f"the mesh has {width} dimensions, and {len(found)} numbers were given")
    if not all(map(math.isfinite, found)):
        raise CicelybeamError(f"the {what} {found} has a number that is not finite: give finite numbers")
    return found


def nearest_in_plane(origin: Vector, normal: Vector, middle: Vector) -> Vector:
    """The point of the plane that is nearest to the middle.

    Cells are cut from here: far from the mesh an origin costs as many digits of every distance as it is far away. The point
    is worked out in fractions from the normal that is made unit, so that it is off the plane by its own rounding only. Where it
    or the middle is too large for numbers, it is the origin.

    >>> nearest_in_plane((1e9, 0.0, 0.1), (0.0, 0.0, 7.0), (0.5, 0.25, 0.5))
    (0.5, 0.25, 0.1)
    """
    try:
        o, n, m = ([Fraction(x) for x in a] for a in (origin, normal, middle))
        along = sum((a - b) * c for a, b, c in zip(m, o, n)) / sum(c * c for c in n)
        return tuple(float(a - along * c) for a, c in zip(m, n))
    except OverflowError:
        return origin


def moved(origin: Vector, normal: Vector, distance: float) -> Vector:
    """This far from the origin along the normal."""
    return tuple(o + distance * n for o, n in zip(origin, normal)) if distance else origin


def nearest_on_line(origin: Vector, direction: Vector, middle: Vector) -> Vector:
    """The point of the line that is nearest to the middle, as for a plane."""
    try:
        o, d, m = ([Fraction(x) for x in a] for a in (origin, direction, middle))
        along = sum((a - b) * c for a, b, c in zip(m, o, d)) / sum(c * c for c in d)
        return tuple(float(a + along * c) for a, c in zip(o, d))
    except OverflowError:
        return origin
