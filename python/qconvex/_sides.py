"""On which side of the surface of a hull points lie, exactly, in a time that hardly grows with the number of triangles.

The triangles of a solid and a point inside, the eye, make cones. A walk finds the cone that a point lies in: it crosses the side
that the point lies furthest beyond, first in floats, and where these leave a doubt, then in whole numbers. Of the point and the
plane of the cone's triangle the same is true as of the point and the hull.
"""
from __future__ import annotations

from fractions import Fraction
from typing import TYPE_CHECKING, Any

import numpy as np
from numpy.typing import NDArray

if TYPE_CHECKING:
    from ._hull import ConvexHull

INSIDE, SURFACE, OUTSIDE = 1, 0, -1

_STRIDE = 1 << 14  # points that are looked at together
_STEPS = 1000  # of a walk in floats
_DOUBT = 2.0**-44  # of the greatest value of a determinant: far more than its rounding
_CLOSE = 2.0**60  # far more than the rounding of determinants of whole numbers, whose values below it are what they are modulo 2^64


class Places:
    """Floats in steps of a grid from its centre: rounded at once, exactly where they are wanted so."""

    def __init__(self, floats: NDArray[np.float64], exponent: int, centre: tuple[int, int, int]) -> None:
        self.floats, self.exponent, self.centre = floats, exponent, centre
        step = Fraction(2) ** exponent
        middles = [float(middle * step) for middle in centre]
        rests = [float(middle - Fraction(near) / step) for middle, near in zip(centre, middles)]
        with np.errstate(over="ignore"):
            self.rounded: NDArray[np.float64] = np.ldexp(floats - middles, -exponent) - rests
            steps = np.ldexp(floats, -exponent)
        self.are_whole = ((steps == np.rint(steps)) & ((steps != 0) | (floats == 0))).all(axis=1)

    def exact(self, chosen: NDArray[np.intp]) -> tuple[NDArray[np.object_], NDArray[np.object_]]:
        """Whole numbers (k, 3) and what each point's have to be divided by, (k,)."""
        numbers, divisors = np.empty((len(chosen), 3), object), np.ones(len(chosen), object)
        whole = self.are_whole[chosen]
        numbers[whole] = self.rounded[chosen[whole]].astype(np.int64)
        step = Fraction(2) ** self.exponent
        for place in np.flatnonzero(~whole):
            ways = [Fraction(number) / step - middle for number, middle in zip(self.floats[chosen[place]].tolist(), self.centre)]
            divisors[place] = max(way.denominator for way in ways)  # each is a power of two
            numbers[place] = [way.numerator * (divisors[place] // way.denominator) for way in ways]
        return numbers, divisors


def cross(one: NDArray[Any], other: NDArray[Any]) -> NDArray[Any]:
    """The cross product along the first axis, of floats, whole numbers or objects."""
    product: NDArray[Any] = np.stack([one[axis - 2] * other[axis - 1] - one[axis - 1] * other[axis - 2] for axis in range(3)])
    return product


def values_of(corners: NDArray[Any], seen: NDArray[Any], scale: Any = 1) -> tuple[NDArray[Any], NDArray[Any]]:
    """How far places are within the three sides of their cones, opposite to each corner, and above their triangles: determinants.

    The corners (3, 3, k) stand by axes, then by corners, and the places (3, k), a number of times as large, by axes, all seen from
    the eye. Those of int64 are modulo 2^64.
    """
    a, b, c = corners[:, 0], corners[:, 1], corners[:, 2]
    normals = cross(b, c), cross(c, a), cross(a, b)
    values = np.stack([(normal * seen).sum(axis=0) for normal in normals])
    return values, values.sum(axis=0) - (normals[0] * a).sum(axis=0) * scale


def cells_of(ways: NDArray[np.float64], size: int) -> tuple[Any, Any, Any]:
    """The cells of a cube round the eye in which some directions (3, k) are: the face, and the row and the column of the face."""
    place, axis = np.arange(ways.shape[1]), np.abs(ways).argmax(axis=0)
    main = ways[axis, place]
    scale = np.where(main == 0, 1.0, np.abs(main))  # the eye itself is in the middle of a face
    across = [np.minimum((ways[axis - turn, place] / scale + 1) * (size / 2), size - 1).astype(np.intp) for turn in (1, 2)]
    return 2 * axis + (main < 0), across[0], across[1]


def starts_of(middles: NDArray[np.float64]) -> NDArray[np.intp]:
    """A triangle in or near each cell, with about as many cells as there are triangles."""
    size = 1 << max(0, (middles.shape[1] // 6).bit_length() // 2)
    tables = [np.full((6, size, size), -1)]
    tables[0][cells_of(middles, size)] = np.arange(middles.shape[1])
    while tables[-1].shape[1] > 1:
        tables.append(tables[-1].reshape(6, tables[-1].shape[1] // 2, 2, -1, 2).max(axis=(2, 4)))
    found = np.maximum(tables.pop(), 0)
    for table in tables[::-1]:
        found = np.where(table < 0, found.repeat(2, 1).repeat(2, 2), table)
    return found


def lowest_below(triangle: NDArray[np.int64], points: NDArray[np.int64]) -> NDArray[np.int64]:
    """A point below the plane of a triangle: the lowest in floats, or the exact lowest if rounding chose a point that is not below."""
    ways = points - triangle[0]
    sides = triangle[1:] - triangle[0]
    lowest = (ways.astype(np.float64) @ cross(*sides.astype(np.float64))).argmin()
    normal = cross(*sides.astype(object))
    if ways[lowest].astype(object) @ normal >= 0:
        lowest = (ways.astype(object) @ normal).argmin()
    found: NDArray[np.int64] = points[lowest]
    return found


class Cones:
    """The cones of the triangles of a solid. Coordinates are four times as large and seen from the eye, so all are whole."""

    def __init__(self, points: NDArray[np.int32], triangles: NDArray[np.int32], neighbors: NDArray[np.int32]) -> None:
        self.triangles, self.neighbors = triangles, neighbors
        first = points[triangles[0]].astype(np.int64)
        self.eye = first.sum(axis=0) + lowest_below(first, points[np.unique(triangles)].astype(np.int64))
        self.seen = (4 * points.astype(np.int64) - self.eye).T.copy()  # by axes
        self.rounded = self.seen.astype(np.float64)
        self.lengths = np.sqrt(np.einsum("ij,ij->j", self.rounded, self.rounded))
        self.doubt = _DOUBT * float(self.lengths[triangles].max())
        self.starts = starts_of(sum(self.rounded.take(corners, 1) for corners in triangles.T))

    def sides(self, places: Places, chosen: NDArray[np.intp]) -> NDArray[np.int8]:
        """The sides of some places within the box of the points."""
        seen = (4 * places.rounded[chosen] - self.eye).T.copy()
        cones = self.starts[cells_of(seen, self.starts.shape[1])]
        self._walk(cones, seen)
        values, heights = values_of(self._corners(self.rounded, cones), seen)
        doubts = self._doubts(cones)
        sides: NDArray[np.int8] = np.where(heights > 0, OUTSIDE, INSIDE).astype(np.int8)
        doubtful = (heights < doubts) & ((heights > -doubts) | (values.min(axis=0) < doubts))
        whole = np.flatnonzero(doubtful & places.are_whole[chosen])
        sides[whole] = self._exact_sides(cones[whole], seen[:, whole].astype(np.int64))
        others = np.flatnonzero(doubtful & ~places.are_whole[chosen])
        numbers, divisors = places.exact(chosen[others])
        sides[others] = self._exact_sides(cones[others], 4 * numbers.T - self.eye[:, np.newaxis].astype(object) * divisors, divisors)
        return sides

    def _corners(self, seen: NDArray[Any], cones: NDArray[np.intp]) -> NDArray[Any]:
        """The corners of triangles, by axes and corners."""
        return seen.take(self.triangles.take(cones, 0).T, 1)

    def _doubts(self, cones: NDArray[np.intp]) -> NDArray[np.float64]:
        """Below what a determinant with the corners of triangles may have another sign."""
        doubts: NDArray[np.float64] = self.doubt * self.lengths.take(self.triangles.take(cones, 0)).max(axis=1) ** 2
        return doubts

    def _walk(self, cones: NDArray[np.intp], seen: NDArray[np.float64]) -> None:
        """Moves each place to its cone, except for steps that floats leave in doubt."""
        moving = np.arange(len(cones))
        for _ in range(_STEPS):
            here = cones[moving]
            values, _ = values_of(self._corners(self.rounded, here), seen.take(moving, 1))
            worst = values.argmin(axis=0)
            beyond = values[worst, np.arange(len(worst))] < -self._doubts(here)
            moving = moving[beyond]
            if not len(moving):
                return
            cones[moving] = self.neighbors[here[beyond], worst[beyond]]

    def _exact_sides(self, cones: NDArray[np.intp], seen: NDArray[Any], divisors: NDArray[np.object_] | None = None) -> NDArray[np.int8]:
        """The sides of places of which floats left a doubt, which walk on from their cones: of whole numbers, or of objects."""
        sides, moving = np.empty(len(cones), np.int8), np.arange(len(cones))
        while len(moving):
            corners, here = self._corners(self.seen, cones[moving]), seen[:, moving]
            if divisors is None:
                pairs = zip(values_of(corners.astype(float), here.astype(float)), values_of(corners, here))
                values, heights = [np.where(np.abs(rounded) > _CLOSE, rounded, exact) for rounded, exact in pairs]
            else:
                values, heights = values_of(corners.astype(object), here, divisors[moving])
            worst = values.argmin(axis=0)
            beyond = (values[worst, np.arange(len(worst))] < 0).astype(bool)
            sides[moving] = (heights < 0).astype(np.int8) - (heights > 0).astype(np.int8)
            moving, worst = moving[beyond], worst[beyond]
            cones[moving] = self.neighbors[cones[moving], worst]
        return sides


def sides_of_flat(inequalities: NDArray[np.object_], places: Places, chosen: NDArray[np.intp]) -> NDArray[np.int8]:
    """The sides of a set in a plane, of which all points are surface, by its inequalities."""
    numbers, divisors = places.exact(chosen)
    heights = numbers @ inequalities[:, :3].T - divisors[:, np.newaxis] * inequalities[:, 3]
    sides: NDArray[np.int8] = np.where((heights <= 0).all(axis=1), SURFACE, OUTSIDE).astype(np.int8)
    return sides


def sides_of(hull: ConvexHull, places: Places) -> NDArray[np.int8]:
    """The sides of any places: those beyond the hull's box are outside."""
    sides = np.full(len(places.floats), OUTSIDE, np.int8)
    used = hull.grid_points[hull.vertices].astype(np.float64)
    near = (places.rounded >= used.min(axis=0) - 1) & (places.rounded <= used.max(axis=0) + 1)
    within = np.flatnonzero(near.all(axis=1))
    for start in range(0, len(within), _STRIDE):
        chosen = within[start : start + _STRIDE]
        if hull.dimension < 3:
            sides[chosen] = sides_of_flat(hull.inequalities, places, chosen)
        else:
            sides[chosen] = hull._cones.sides(places, chosen)
    return sides
