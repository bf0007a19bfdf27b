"""The surface of a hull: what the library found, and what numpy makes of it when it is first asked for."""
from __future__ import annotations

from functools import cached_property
from typing import Any

import numpy as np
from numpy.typing import NDArray

from ._facets import edges_of, inequalities_of
from ._library import FlatHull, neighbors, six_volumes
from ._triangles import equations_of, fans_of, lengths_of, normals_of


class Surface:
    """The vertices and the faces of a hull, as the library writes them, and what follows from these."""

    def _take(self, points: NDArray[np.int32], hull: FlatHull) -> None:
        self.points: NDArray[np.int32] = points
        self.grid_points: NDArray[np.int32] = points
        self.dimension: int = hull.dimension
        self._distinct = hull.distinct
        self.nedges: int = hull.edges
        self.vertices: NDArray[np.int32] = hull.extremes
        self.corners: NDArray[np.int32] = hull.corners
        self.offsets: NDArray[np.intp] = hull.offsets

    @cached_property
    def distinct(self) -> int:
        """The number of distinct points. Of equal points the lowest index stands for all."""
        if self._distinct is not None:
            return self._distinct
        x, y, z = self.grid_points[np.lexsort(self.grid_points.T)].T
        return 1 + int(np.count_nonzero((x[1:] != x[:-1]) | (y[1:] != y[:-1]) | (z[1:] != z[:-1])))

    def __len__(self) -> int:
        """The number of faces."""
        return len(self.offsets) - 1

    @property
    def npoints(self) -> int:
        """The number of points as given."""
        return len(self.points)

    @property
    def ndim(self) -> int:
        """The number of coordinates of a point: 3."""
        return 3

    @cached_property
    def min_bound(self) -> NDArray[np.int32]:
        """The least coordinate of the points along each axis."""
        bound: NDArray[np.int32] = self.points.min(axis=0)
        return bound

    @cached_property
    def max_bound(self) -> NDArray[np.int32]:
        """The greatest coordinate of the points along each axis."""
        bound: NDArray[np.int32] = self.points.max(axis=0)
        return bound

    @cached_property
    def faces(self) -> list[NDArray[np.int32]]:
        """The faces: each an int32 array of indices, counterclockwise seen from outside, the least first.

        A set in a plane has one face. The face of a set in a line has its two ends, and that of one point has the point.
        """
        ends = self.offsets.tolist()
        return [self.corners[start:end] for start, end in zip(ends, ends[1:])]

    @cached_property
    def simplices(self) -> NDArray[np.int32]:
        """Triangles, an int32 array of shape (nsimplices, 3): each face as a fan from its first corner.

        All are counterclockwise seen from outside. Below dimension 2 there are no triangles.
        """
        return fans_of(self.corners, self.offsets)

    @cached_property
    def normals(self) -> NDArray[np.int64]:
        """The outer normal of each triangle, an int64 array of shape (nsimplices, 3), exact. Its length is twice the area."""
        return normals_of(self.grid_points, self.simplices)

    @cached_property
    def equations(self) -> NDArray[np.float64]:
        """[normal, offset] of each triangle, a float64 array of shape (nsimplices, 4), rounded.

        The normals have length 1 and point outside: normal . x + offset <= 0 for the points of the hull.
        """
        return equations_of(self.normals, self._doubled_areas, self._first_corners)

    @cached_property
    def neighbors(self) -> NDArray[np.int32]:
        """The triangle over the side opposite to each corner, an int32 array of shape (nsimplices, 3).

        It is -1 where no triangle is, as at the border of a set in a plane.
        """
        return neighbors(self.simplices)

    @cached_property
    def six_volumes(self) -> int:
        """Six times the volume, exact; 0 below dimension 3."""
        if self.dimension < 3:
            return 0
        return six_volumes(self.grid_points, self.simplices)

    @cached_property
    def volume(self) -> float:
        """The volume, rounded once."""
        return self.six_volumes / 6

    @cached_property
    def area(self) -> float:
        """The area of all faces together, rounded. For a set in a plane it is the area of its one face."""
        return float(self._doubled_areas.sum()) / 2

    @cached_property
    def _first_corners(self) -> NDArray[np.int32]:
        """The first corner of each triangle."""
        return self.grid_points.take(self.simplices[:, 0], 0)

    @cached_property
    def _doubled_areas(self) -> NDArray[np.float64]:
        """Twice the area of each triangle, rounded."""
        return lengths_of(self.normals)

    @property
    def nsimplex(self) -> int:
        """The number of triangles."""
        return len(self.simplices)

    @cached_property
    def inequalities(self) -> NDArray[np.object_]:
        """Whole numbers a, b of each face, in lowest terms: the hull is where a . p <= b for all, an array of shape (nfaces, 4) of int.

        Of a set in a plane, a line or a point they are those of halfspaces that meet in it, two for each equation.
        """
        return inequalities_of(self)

    @cached_property
    def edges(self) -> NDArray[np.int32]:
        """The two ends of each edge, the lower index first, an int32 array of shape (nedges, 2), in rising order."""
        return edges_of(self.corners, self.offsets)

    def _coordinates(self) -> NDArray[Any]:
        """The points in the units of their caller."""
        return self.points
