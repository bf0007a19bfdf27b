"""What numpy finds of the triangles of a surface."""
from __future__ import annotations

from typing import Any

import numpy as np
from numpy.typing import NDArray


def fans_of(corners: NDArray[np.int32], offsets: NDArray[np.intp]) -> NDArray[np.int32]:
    """The fans of faces in flat lists: each face's first corner with each two neighbours behind it."""
    faces = len(offsets) - 1
    if len(corners) == 3 * faces and (faces > 1 or len(corners) == 3):  # each face of a solid has three corners at least
        return corners.reshape(-1, 3)
    inner = np.ones(len(corners), np.bool_)
    inner[offsets[:-1]] = False
    inner[offsets[1:] - 1] = False
    second = inner.nonzero()[0]
    triangles = np.empty((len(second), 3), np.int32)
    triangles[:, 0] = corners[offsets[:-1].repeat(np.maximum(offsets[1:] - offsets[:-1] - 2, 0))]
    triangles[:, 1] = corners[second]
    triangles[:, 2] = corners[second + 1]
    return triangles


def normals_of(points: NDArray[np.int32], triangles: NDArray[np.int32]) -> NDArray[np.int64]:
    """The cross product of two sides of each triangle, exact.

    A difference of coordinates is at most 2^31 in size, a product of two 2^62. A component is twice the area of a
    triangle in a square of side 2^31, so it is at most 2^62 in size, too, and 64 bits hold it.
    """
    corners = points.T.astype(np.int64).take(triangles.T, 1)  # by axes, by corners, and by triangles
    u, v = corners[:, 1] - corners[:, 0], corners[:, 2] - corners[:, 0]
    normals = np.empty((len(triangles), 3), np.int64)
    for axis in range(3):
        np.subtract(u[axis - 2] * v[axis - 1], u[axis - 1] * v[axis - 2], out=normals[:, axis])
    return normals


def lengths_of(vectors: NDArray[np.int64]) -> NDArray[np.float64]:
    """The length of each vector, rounded."""
    decimal = vectors.astype(np.float64)
    lengths: NDArray[np.float64] = np.sqrt(np.einsum("ij,ij->i", decimal, decimal))
    return lengths


def equations_of(normals: NDArray[np.int64], lengths: NDArray[np.float64], places: NDArray[Any]) -> NDArray[np.float64]:
    """The unit normal and the offset of each plane, by a normal, its length and a place of the plane, rounded."""
    equations = np.empty((len(normals), 4))
    units = equations[:, :3]
    np.divide(normals, lengths[:, np.newaxis], out=units)
    np.negative(np.einsum("ij,ij->i", units, places), out=equations[:, 3])
    return equations
