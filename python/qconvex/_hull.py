"""The hull of points, under the names that `scipy.spatial.ConvexHull` has."""
from __future__ import annotations

from functools import cached_property
from typing import TYPE_CHECKING, Any, Sequence, Union

import numpy as np
from numpy.typing import NDArray

from ._arrays import floats_of, numbers_of
from ._library import RANGE_REFUSAL, FlatHull
from ._limits import COORDINATE_LIMIT
from ._sides import Cones, Places, sides_of
from ._surface import Surface
from ._texts import Drawn, obj_text, off_text, ply_text, stl_text
from ._workers import hull_by_parts

if TYPE_CHECKING:
    from ._floats import FloatHull

WholePoints = Union[NDArray[np.integer[Any]], NDArray[np.object_], Sequence[Sequence[int]]]
"""Points that `ConvexHull` takes: an array of whole numbers, or lists of them."""

_BEYOND = 2 * COORDINATE_LIMIT

WHOLE_REFUSAL = (
    "points must be whole numbers, and are {}: ConvexHull.from_floats takes floats, by whole numbers near them, as hulls does with "
    "bits=30; or multiply them by a scale that makes them whole, and convert them, as in "
    "numpy.rint(points * 1000).astype(numpy.int64)"
)


def whole_points(points: WholePoints, copy: bool = False) -> NDArray[np.int32]:
    """Returns the points as an aligned, C-contiguous (n, 3) array of int32; a copy cannot be written."""
    given = numbers_of(points)
    if given.ndim != 2 or given.shape[1] != 3:
        raise ValueError(f"points must have the shape (n, 3), and have {given.shape}")
    if given.dtype.kind == "O":
        wrong = {type(number).__name__ for number in given.flat if not isinstance(number, (int, np.integer))}
        if wrong:
            raise TypeError(WHOLE_REFUSAL.format(" and ".join(sorted(wrong))))
        if any(abs(int(number)) > COORDINATE_LIMIT for number in given.flat):
            raise ValueError(RANGE_REFUSAL)
        given = given.astype(np.int32)
    if given.dtype.kind not in "iu":
        raise TypeError(WHOLE_REFUSAL.format(given.dtype))
    if given.dtype != np.int32 and len(given) and not np.can_cast(given.dtype, np.int32):  # what int32 holds the library judges
        if not -COORDINATE_LIMIT <= given.min() <= given.max() <= COORDINATE_LIMIT:
            raise ValueError(RANGE_REFUSAL)
    if not copy:
        return np.require(given, dtype=np.int32, requirements=["C", "A"])
    whole: NDArray[np.int32] = np.array(given, dtype=np.int32, order="C")
    whole.setflags(write=False)
    return whole


class ConvexHull(Surface):
    """The convex hull of points in space with whole coordinates, exact.

    Points may be repeated, and may lie in one line or one plane. The proved library computes `vertices`, `faces`, `dimension`,
    `distinct`, `nedges`, `six_volumes` and `neighbors`. numpy computes the other attributes when they are first asked for; they
    are tested, not proved.

    Parameters
    ----------
    points : array_like of shape (n, 3), of any integer type
        From 1 to `POINT_LIMIT` points, each coordinate from -`COORDINATE_LIMIT` to `COORDINATE_LIMIT`.
    copy : bool, default True
        If true, the attribute `points` is a copy that can't be written. If false, it is the given array itself, if that is an
        aligned, C-contiguous array of int32: leave it unchanged while you use the hull.
    workers : int, default 1
        How many threads share the work: each takes the extreme points of a part. -1 means all processors. Few points, and
        those that are mostly extreme, such as points on a sphere, one thread takes.

    Raises
    ------
    TypeError
        The points are not of an integer type; floats with whole values are refused, too.
    ValueError
        The shape is not (n, 3), there is no point, there are too many, or a coordinate is out of range.
    MemoryError
        Out of memory.

    Attributes
    ----------
    points : ndarray of shape (n, 3), int32
        The points as given.
    npoints, ndim : int
        The number of points, and 3.
    min_bound, max_bound : ndarray of shape (3,), int32
        The least and the greatest coordinate along each axis.
    dimension : int
        The dimension of the set, from 0 to 3.
    distinct : int
        The number of distinct points. Of equal points the lowest index stands for all.
    nedges : int
        The number of edges of the faces.
    vertices : ndarray of shape (nvertices,), int32
        The indices of the extreme points, rising.
    corners : ndarray of shape (ncorners,), int32
        The indices of the corners of all faces, one face after the other.
    offsets : ndarray of shape (nfaces + 1,), intp
        The corners of face j are ``corners[offsets[j]:offsets[j + 1]]``.
    """

    def __init__(self, points: WholePoints, *, copy: bool = True, workers: int = 1) -> None:
        whole = whole_points(points, copy)
        self._take(whole, hull_by_parts(whole, workers))

    @classmethod
    def _of(cls, points: NDArray[np.int32], hull: FlatHull) -> ConvexHull:
        """Returns an object for a hull that was made already."""
        made = cls.__new__(cls)
        made._take(points, hull)
        return made

    @classmethod
    def from_floats(cls, points: Any, bits: int = 30, *, workers: int = 1) -> FloatHull:
        """Returns the exact hull of points near the given floats, in their units: see `FloatHull`."""
        return _floats.FloatHull(points, bits, workers=workers)

    def __repr__(self) -> str:
        return (
            f"<{type(self).__name__} of {self.npoints} points: dimension {self.dimension}, {len(self.vertices)} vertices, "
            f"{len(self)} faces>"
        )

    def sides(self, points: Any) -> NDArray[np.int8]:
        """Returns 1 for each point inside the hull, 0 on its surface and -1 outside, exactly, in an int8 array of shape (n,).

        The points are whole numbers or floats. A set in a plane, a line or a point has a surface alone.
        """
        return sides_of(self, self._places(points))

    def contains(self, points: Any) -> NDArray[np.bool_]:
        """Returns whether each point is inside the hull or on its surface, exactly: see `sides`."""
        return self.sides(points) >= 0

    @cached_property
    def _cones(self) -> Cones:
        return Cones(self.grid_points, self.simplices, self.neighbors)

    def _places(self, points: Any) -> Places:
        """Points as places of the grid, where whole numbers beyond all hulls may be others that are."""
        kind = points.dtype.kind if isinstance(points, np.ndarray) else ""
        if kind in ("i", "u"):
            points = np.minimum(points, _BEYOND) if kind == "u" else np.clip(points, -_BEYOND, _BEYOND)
        return Places(floats_of(points), 0, (0, 0, 0))

    def to_off(self) -> str:
        """Returns the hull as an OFF file, as the program's output `off` writes it."""
        return off_text(self._drawn(), self.nedges)

    def to_obj(self) -> str:
        """Returns the hull as a Wavefront OBJ file, with faces as polygons."""
        return obj_text(self._drawn())

    def to_ply(self) -> str:
        """Returns the hull as a PLY text, with faces as polygons."""
        return ply_text(self._drawn())

    def to_stl(self) -> str:
        """Returns the triangles of the hull as an STL text, with unit normals that are rounded to float32."""
        return stl_text(self._coordinates()[self.vertices], self._numbered(self.simplices), self.equations[:, :3])

    def to_trimesh(self) -> Any:
        """Returns the triangles as a `trimesh.Trimesh`, whose vertices are those of the hull, in the order of `vertices`.

        Its coordinates are float64, which whole coordinates are exactly. Raises ImportError if trimesh is not installed.
        """
        from ._meshes import trimesh_of

        return trimesh_of(*self._meshed())

    def to_open3d(self) -> Any:
        """Returns the triangles as an `open3d.geometry.TriangleMesh`, as `to_trimesh` does for trimesh.

        Raises ImportError if Open3D is not installed.
        """
        from ._meshes import open3d_of

        return open3d_of(*self._meshed())

    def plot(self, ax: Any = None, **style: Any) -> Any:
        """Draws the faces on axes of matplotlib, or on new axes if `ax` is None, and returns the axes.

        All axes have one scale. Faces are shaded, and their edges drawn unless they are many; `style` is passed to
        `Poly3DCollection`, as in ``plot(facecolor="red", edgecolor="none")``. A set below dimension 2 is points and a line.
        """
        from ._plots import draw

        return draw(self._coordinates(), self.faces, ax, style)

    def _repr_html_(self) -> str:
        """Returns a picture that can be turned, for notebooks."""
        from ._view import frame, page, page_of
        from .commands.surface_forms import data_of

        ids, (places, corners, offsets) = self.vertices.tolist(), self._drawn()
        if places.dtype.kind == "i":
            return frame(page_of(data_of(ids, places.astype(np.int64), corners, offsets), repr(self)))
        return frame(page(ids, places.tolist(), self._numbered_faces(), repr(self)))

    def _meshed(self) -> tuple[NDArray[np.float64], NDArray[np.intp]]:
        """Returns the vertices as float64, and the triangles with each corner as its position in `vertices`."""
        return self._coordinates()[self.vertices].astype(np.float64), self._numbered(self.simplices)

    def _drawn(self) -> Drawn:
        """Returns the vertices, and the faces with each corner as its position in `vertices`."""
        return Drawn(self._coordinates()[self.vertices], self._numbered(self.corners), self.offsets)

    def _numbered(self, corners: NDArray[np.int32]) -> NDArray[np.intp]:
        """Returns the position in `vertices` of each corner."""
        numbers = np.zeros(len(self.points), np.intp)
        numbers[self.vertices] = np.arange(len(self.vertices))
        return numbers[corners]

    def _numbered_faces(self) -> list[list[int]]:
        """Returns the faces, with each corner as its position in `vertices`."""
        corners, ends = self._drawn().corners.tolist(), self.offsets.tolist()
        return [corners[start:end] for start, end in zip(ends, ends[1:])]


from . import _floats  # noqa: E402  which takes ConvexHull from here
