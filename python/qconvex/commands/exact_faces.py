"""Whether faces are the surface of the hull of points whose coordinates are whole numbers of any length, in space.

The library judges coordinates of 31 bits. Here are the same rules for longer ones: no point is above the plane of a face, the
corners of a face go round a convex polygon in it, each side lies along just one other that runs the other way, and each corner
is an extreme point, since the normals of its faces span the space. Faces that keep them are pieces of the faces of the hull, and
cover each of it once. Floats tell which points are far below a plane, and whole numbers the rest.
"""
from __future__ import annotations

from typing import Any, Dict, List, NamedTuple, Optional, Sequence, Tuple

from .off_files import Malformed
from .vectors import Vector, cross, dot, lowest_terms, minus, triangle_normal

try:
    import numpy as np
except ImportError:
    np = None  # type: ignore[assignment]

# Coordinates in floats are at most as great as the first; heights in floats are wrong by less than the second.
REACH, DOUBT = 1 << 50, float(1 << 5)
BLOCK = 1 << 22  # heights that are looked at together


class Plane(NamedTuple):
    """The plane of a face: the points p with normal . p = level."""

    normal: Vector
    level: int


def fault_of(points: Sequence[Vector], faces: Sequence[Sequence[int]]) -> Optional[str]:
    """What is wrong with the faces, or None where they are the surface. Points of one plane are Malformed."""
    if np is None:
        raise Malformed("numpy is missing, which judges long coordinates")
    if not faces:
        return "the polygons are others"
    planes: List[Plane] = []
    for place, face in enumerate(faces):
        if not all(0 <= corner < len(points) for corner in face):
            return f"face {place}: a corner of it is the index of no point"
        normal = triangle_normal(*(points[corner] for corner in face[:3])) if len(face) > 2 else (0, 0, 0)
        if not any(normal):
            return f"face {place}: its first three corners are no points in a plane"
        planes.append(Plane(normal, dot(normal, points[face[0]])))
    if all(dot(planes[0].normal, point) == planes[0].level for point in points):
        raise Malformed("all points lie in one plane, and have more digits than a grid holds; --rounded judges points near them")
    return fault_of_planes(points, faces, planes) or fault_of_sides(points, faces) or fault_of_corners(points, faces, planes)


def fault_of_planes(points: Sequence[Vector], faces: Sequence[Sequence[int]], planes: Sequence[Plane]) -> Optional[str]:
    """The first face that has a point above its plane, or whose corners do not go round a convex polygon in it."""
    near = points_near(points, planes)
    for place, (face, plane) in enumerate(zip(faces, planes)):
        above = next((point for point in next(near) if dot(plane.normal, points[point]) > plane.level), None)
        if above is not None:
            return f"face {place}: point {lowest_at(points, above)} is above its plane"
        if not is_convex([points[corner] for corner in face], plane):
            return f"face {place}: the polygon of its plane is another"
    return None


def points_near(points: Sequence[Vector], planes: Sequence[Plane]) -> Any:
    """Of each plane the points that may be above it, as floats tell that are seen from the middle of the points."""
    ends = [(min(part), max(part)) for part in zip(*points)]
    x, y, z = [(low + high) // 2 for low, high in ends]
    middle, reach = (x, y, z), max([high - low for low, high in ends])
    places = np.array([[part * REACH / reach for part in minus(point, middle)] for point in points]).T
    stride = max(1, BLOCK // len(points))
    for start in range(0, len(planes), stride):
        cut = planes[start : start + stride]
        sizes = [max([abs(part) for part in plane.normal]) for plane in cut]
        normals = np.array([[part / size for part in plane.normal] for plane, size in zip(cut, sizes)])
        levels = [(plane.level - dot(plane.normal, middle)) * REACH / (size * reach) for plane, size in zip(cut, sizes)]
        for heights in normals @ places - np.array(levels)[:, np.newaxis]:
            yield np.flatnonzero(heights > -DOUBT).tolist()


def lowest_at(points: Sequence[Vector], place: int) -> int:
    """The lowest index of the points at a point's place."""
    return points.index(points[place])


def is_convex(corners: Sequence[Vector], plane: Plane) -> bool:
    """Whether corners lie in a plane and go round a convex polygon, counterclockwise: each is left of all sides but its own two."""
    if any(dot(plane.normal, corner) != plane.level for corner in corners):
        return False
    for place, end in enumerate(corners):
        left = cross(plane.normal, minus(end, corners[place - 1]))
        others = [corner for other, corner in enumerate(corners) if other not in (place, (place - 1) % len(corners))]
        if any(dot(left, minus(corner, end)) <= 0 for corner in others):
            return False
    return True


def fault_of_sides(points: Sequence[Vector], faces: Sequence[Sequence[int]]) -> Optional[str]:
    """A side that does not lie along just one other."""
    first: Dict[Vector, int] = {}
    for index, point in enumerate(points):
        first.setdefault(point, index)
    counts: Dict[Tuple[int, int], int] = {}
    for face in faces:
        named = [first[points[corner]] for corner in face]
        for side in zip(named[-1:] + named, named):
            counts[side] = counts.get(side, 0) + 1
    for (start, end), count in counts.items():
        if count > counts.get((end, start), 0):
            return f"the side from point {start} to point {end} is open"
    twice = next((side for side, count in counts.items() if count > 1), None)
    return f"more than one face has the side from point {twice[0]} to point {twice[1]}" if twice else None


def fault_of_corners(points: Sequence[Vector], faces: Sequence[Sequence[int]], planes: Sequence[Plane]) -> Optional[str]:
    """The first face with a corner that is no extreme point: the normals of the faces round it do not span the space."""
    around: Dict[Vector, List[Vector]] = {}
    for face, plane in zip(faces, planes):
        normal = lowest_terms(plane.normal)
        for corner in face:
            around.setdefault(points[corner], []).append(normal)
    for place, face in enumerate(faces):
        if not all(do_span(around[points[corner]]) for corner in face):
            return f"face {place}: the polygon of its plane is another"
    return None


def do_span(normals: Sequence[Vector]) -> bool:
    """Whether some three of the vectors span the space."""
    across = next((one for one in (cross(normals[0], other) for other in normals) if any(one)), None)
    return across is not None and any(dot(across, normal) for normal in normals)
