"""The inequalities and the edges of a hull, exactly."""
from __future__ import annotations

from typing import TYPE_CHECKING

import numpy as np
from numpy.typing import NDArray

from .commands.halfspaces import halfspaces_of

if TYPE_CHECKING:
    from ._surface import Surface


def inequalities_of(hull: Surface) -> NDArray[np.object_]:
    """Rows a, b of a . p <= b in lowest terms: one a face, and of a set in a plane those of halfspaces that meet in it."""
    if hull.dimension < 3:
        corners = [(x, y, z) for x, y, z in hull.grid_points[hull.corners].tolist()]
        flat = halfspaces_of(corners, [range(len(corners))])
        equations = [tuple(-number for number in row) for row in flat.equations]
        rows = [(-x, -y, -z, b) for b, x, y, z in [*flat.inequalities, *flat.equations, *equations]]
        return np.array(rows, object)
    normals = hull.normals[hull.offsets[:-1] - 2 * np.arange(len(hull))]  # a face of n corners has n - 2 triangles
    normals //= np.gcd.reduce(normals, axis=1)[:, np.newaxis]
    rows_of_faces = np.empty((len(hull), 4), object)
    rows_of_faces[:, :3] = normals
    rows_of_faces[:, 3] = (rows_of_faces[:, :3] * hull.grid_points[hull.corners[hull.offsets[:-1]]].astype(object)).sum(axis=1)
    return rows_of_faces


def edges_of(corners: NDArray[np.int32], offsets: NDArray[np.intp]) -> NDArray[np.int32]:
    """The two ends of each edge, the lower first, in rising order."""
    ends = np.roll(corners, -1)
    ends[offsets[1:] - 1] = corners[offsets[:-1]]
    sides = np.column_stack([np.minimum(corners, ends), np.maximum(corners, ends)])
    sides = sides[sides[:, 0] < sides[:, 1]]
    sides = sides[np.lexsort(sides.T[::-1])]
    edges: NDArray[np.int32] = sides[np.append(True, (sides[1:] != sides[:-1]).any(axis=1))] if len(sides) else sides
    return edges
