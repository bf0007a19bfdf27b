"""Hulls of floats, by whole numbers near them."""
from __future__ import annotations

import operator
from fractions import Fraction
from functools import cached_property
from math import frexp, inf, ldexp
from typing import Any

import numpy as np
from numpy.typing import NDArray

from ._arrays import floats_of
from ._grid import BITS_LIMIT, Snapped, snapped
from ._hull import ConvexHull
from ._library import FlatHull
from ._sides import Places
from ._triangles import equations_of
from ._workers import hull_by_parts

# Centres from here on are those of floats that are whole steps each.
_WHOLE = 1 << 52


class FloatHull(ConvexHull):
    """The exact hull of points near floats, in the units of the floats.

    It is the exact hull of `grid_points`, the whole points that `snap` returns. Each of these is at most `snap_error` away from
    its float along each axis. If `snap_error` is 0, the hull is that of the floats. Otherwise a float that is extreme by no more
    than this error may be no vertex, and a vertex may be no extreme float. `vertices`, `faces`, `normals` and `six_volumes` are
    those of the whole points; `coordinates`, `volume`, `area` and `equations` are theirs in the units of the floats, rounded.

    Attributes
    ----------
    points : ndarray of shape (n, 3), float64
        The floats as given.
    grid_points : ndarray of shape (n, 3), int32
        The whole points whose hull it is.
    scale : float
        The step of the grid in the units of the floats: a power of two.
    centre : tuple of three ints
        Float i is about ``(grid_points[i] + centre) * scale``.
    snap_error : float
        The greatest distance along an axis from a float to its point, exactly.
    """

    points: NDArray[np.float64]  # type: ignore[assignment]

    def __init__(self, points: Any, bits: int = BITS_LIMIT, *, workers: int = 1) -> None:
        floats = floats_of(points, finite=False)
        grid = snapped(floats, operator.index(bits))
        self._take_grid(floats, grid, hull_by_parts(grid.points, workers))
        floats.setflags(write=False)
        grid.points.setflags(write=False)

    @classmethod
    def _of_grid(cls, floats: NDArray[np.float64], grid: Snapped, hull: FlatHull) -> FloatHull:
        """Returns an object for a hull that was made already."""
        made = cls.__new__(cls)
        made._take_grid(floats, grid, hull)
        return made

    def _take_grid(self, floats: NDArray[np.float64], grid: Snapped, hull: FlatHull) -> None:
        self._take(grid.points, hull)
        self.points = floats
        self.scale: float = grid.step
        self.centre: tuple[int, int, int] = grid.centre
        self.snap_error: float = grid.error

    @cached_property
    def coordinates(self) -> NDArray[np.float64]:
        """The whole points in the units of the floats: the nearest floats."""
        if not self.snap_error:
            return self.points
        exponent, most = self._exponent, np.finfo(np.float64).max
        coordinates = self.points.copy()
        for axis, middle in enumerate(self.centre):
            if abs(middle) < _WHOLE:
                steps = self.grid_points[:, axis].astype(np.float64) + middle
                with np.errstate(over="ignore"):
                    coordinates[:, axis] = np.ldexp(steps, exponent)
        return np.clip(coordinates, -most, most)

    @property
    def _exponent(self) -> int:
        """The exponent of the scale, a power of two."""
        return frexp(self.scale)[1] - 1

    @cached_property
    def volume(self) -> float:
        """The volume in the units of the floats, rounded; inf beyond their range."""
        try:
            return float(Fraction(self.six_volumes, 6) * Fraction(self.scale) ** 3)
        except OverflowError:
            return inf

    @cached_property
    def area(self) -> float:
        """The area of all faces in the units of the floats, rounded; inf beyond their range."""
        try:
            return ldexp(float(self._doubled_areas.sum()), 2 * self._exponent - 1)
        except OverflowError:
            return inf

    @cached_property
    def equations(self) -> NDArray[np.float64]:
        """[normal, offset] of each triangle in the units of the floats, rounded."""
        return equations_of(self.normals, self._doubled_areas, self.coordinates[self.simplices[:, 0]])

    def _places(self, points: Any) -> Places:
        return Places(floats_of(points), self._exponent, self.centre)

    def _coordinates(self) -> NDArray[Any]:
        return self.coordinates
