"""Pictures of a hull by matplotlib."""
from __future__ import annotations

from typing import Any

import numpy as np
from numpy.typing import NDArray

# With more faces than this, black edges would hide them.
MOST_EDGED = 1000
LIGHT = np.array([0.3, -0.5, 0.8])
COLOUR = np.array([0.12, 0.47, 0.71])


def draw(points: NDArray[Any], faces: list[NDArray[Any]], ax: Any, style: dict[str, Any]) -> Any:
    """Draws faces, each given by the indices of its corners, and returns the axes."""
    import matplotlib.pyplot as plt  # type: ignore[import]
    from mpl_toolkits.mplot3d.art3d import Poly3DCollection  # type: ignore[import]

    if ax is None:
        ax = plt.figure().add_subplot(projection="3d")
    polygons = [points[face] for face in faces]
    if len(faces[0]) < 3:
        ax.plot(*polygons[0].T, marker="o", **style)
    else:
        usual: dict[str, Any] = {"edgecolor": "black" if len(faces) <= MOST_EDGED else "none", "linewidth": 0.5, "alpha": 0.8}
        if not {"facecolor", "facecolors", "color"} & set(style):
            usual["facecolor"] = shaded(polygons)
        ax.add_collection3d(Poly3DCollection(polygons, **{**usual, **style}))
    set_one_scale(ax, np.concatenate(polygons))
    return ax


def shaded(polygons: list[NDArray[Any]]) -> NDArray[np.float64]:
    """A colour of each face by how it is turned to the light."""
    a, b, c = (np.array([polygon[place] for polygon in polygons], np.float64) for place in range(3))
    scale = max(np.abs(b - a).max(), np.abs(c - a).max())
    normals = np.cross((b - a) / scale, (c - a) / scale)
    lengths = np.maximum(np.linalg.norm(normals, axis=1), np.finfo(np.float64).tiny)
    shares = 0.7 + 0.3 * (normals @ LIGHT) / lengths / np.linalg.norm(LIGHT)
    colours: NDArray[np.float64] = shares[:, np.newaxis] * COLOUR
    return colours


def set_one_scale(ax: Any, used: NDArray[Any]) -> None:
    """Sets the limits so that all is seen, and a unit has one length along each axis."""
    low, high = used.min(axis=0).astype(np.float64), used.max(axis=0).astype(np.float64)
    room = (high - low).max() / 20 or 1.0
    margins = np.where(high - low < room, room / 2, 0)
    for set_limits, start, end in zip((ax.set_xlim, ax.set_ylim, ax.set_zlim), low - margins, high + margins):
        set_limits(start, end)
    ax.set_box_aspect(high - low + 2 * margins)
