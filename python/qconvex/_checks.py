"""The library's check of faces: it tells whether they are the surface of the hull of points."""
from __future__ import annotations

import ctypes
from collections.abc import Iterable, Sequence
from dataclasses import dataclass
from itertools import chain
from typing import Any, Union

import numpy as np
from numpy.typing import NDArray

from ._hull import WholePoints, whole_points
from ._library import LIBRARY, address_of, error_of
from ._workers import count_of, shared

Faces = Union[NDArray[np.integer[Any]], Iterable[Sequence[int]], Iterable[NDArray[np.integer[Any]]]]
"""Faces that `check` takes: an array with a face in each row, or a list or generator of faces of any number of corners."""

_DONE = 0

# The kinds of verdicts that name a face, a face and a point, and an edge.
_RIGHT, _STRANGER, _NO_PLANE, _ABOVE, _OTHER_FACE, _OPEN, _TWICE, _OTHERS = range(8)
_OF_FACES, _OF_EDGES = (_STRANGER, _NO_PLANE, _ABOVE, _OTHER_FACE), (_OPEN, _TWICE)
_REASONS = {
    _RIGHT: "all right",
    _STRANGER: "face {face}: a corner of it is the index of no point",
    _NO_PLANE: "face {face}: its first three corners are no points in a plane",
    _ABOVE: "face {face}: point {point} is above its plane",
    _OTHER_FACE: "face {face}: the polygon of its plane is another",
    _OPEN: "the side from point {start} to point {end} is open",
    _TWICE: "more than one face has the side from point {start} to point {end}",
    _OTHERS: "the polygons are others",
}

# The index of no point, also where it is the greatest that the library takes.
_NOWHERE = np.uint32(2**32 - 1)


class _Verdict(ctypes.Structure):
    _fields_ = [
        ("kind", ctypes.c_uint32),
        ("point", ctypes.c_uint32),
        ("start", ctypes.c_uint32),
        ("end", ctypes.c_uint32),
        ("face", ctypes.c_size_t),
    ]


def _load() -> None:
    buffer = [ctypes.c_void_p, ctypes.c_size_t]
    LIBRARY.qconvex_check.restype = ctypes.c_uint32
    LIBRARY.qconvex_check.argtypes = [*buffer, *buffer, *buffer, ctypes.POINTER(_Verdict)]


_load()


@dataclass(frozen=True)
class Verdict:
    """What is told of faces. It is true exactly if they are the surface of the hull.

    Attributes
    ----------
    right : bool
        Whether they are.
    reason : str
        ``all right``, or a line that says what is wrong.
    face : int or None
        The position of a face that is wrong, if the reason is one face.
    point : int or None
        A point above the plane of that face, if there is one.
    edge : tuple of two ints, or None
        The ends of an edge that is wrong, if the reason is an edge.
    """

    right: bool
    reason: str
    face: int | None = None
    point: int | None = None
    edge: tuple[int, int] | None = None

    def __bool__(self) -> bool:
        return self.right


def _verdict_of(told: _Verdict) -> Verdict:
    """Returns what the library told."""
    kind = int(told.kind)
    reason = _REASONS[kind].format(face=told.face, point=told.point, start=told.start, end=told.end)
    return Verdict(
        right=kind == _RIGHT,
        reason=reason,
        face=int(told.face) if kind in _OF_FACES else None,
        point=int(told.point) if kind == _ABOVE else None,
        edge=(int(told.start), int(told.end)) if kind in _OF_EDGES else None,
    )


def _indices(corners: Any, count: int) -> NDArray[np.uint32]:
    """Returns corners as the library takes them: what is no index of `count` points becomes the index of none."""
    given: NDArray[Any] = np.asarray(corners)
    if not given.size:
        return np.zeros(given.shape, np.uint32)
    if given.dtype.kind not in "iu":
        kind, given = given.dtype, np.asarray(corners, dtype=object)  # whole numbers of several sizes numpy makes floats
        if not all(isinstance(number, (int, np.integer)) for number in given.flat):
            raise TypeError(f"corners must be indices of points, and are {kind}")
    return np.where((given >= 0) & (given < count), given, _NOWHERE).astype(np.uint32)


def _flat_faces(faces: Faces, count: int) -> tuple[NDArray[np.intp], NDArray[np.uint32]]:
    """Returns where each face begins and the last ends in one list of corners, and this list."""
    if isinstance(faces, np.ndarray) and faces.dtype.kind != "O":
        if faces.ndim != 2:
            raise ValueError(f"an array of faces must have the shape (n, corners), and has {faces.shape}")
        offsets = np.arange(len(faces) + 1, dtype=np.intp) * faces.shape[1]
        return offsets, np.ascontiguousarray(_indices(faces, count).ravel())
    faces = list(faces)
    try:
        sizes = [len(face) for face in faces]
    except TypeError:
        raise ValueError("each face must be a list of indices") from None
    corners = _indices(list(chain.from_iterable(faces)), count)
    if corners.ndim != 1:
        raise ValueError("each face must be a list of indices")
    offsets = np.zeros(len(sizes) + 1, np.intp)
    np.cumsum(sizes, out=offsets[1:])
    return offsets, corners


def check(points: WholePoints, faces: Faces) -> Verdict:
    """Tells whether faces, whoever made them, are the surface of the convex hull of points. The library's answer is proved.

    In dimension 3 the faces may be those of the hull or pieces of them, such as triangles, in any cutting and any order, each
    from any of its corners on. Faces of points in one plane have to be those that `ConvexHull` gives.

    Parameters
    ----------
    points : array_like of shape (n, 3), of any integer type
        From 1 to `POINT_LIMIT` points, each coordinate from -`COORDINATE_LIMIT` to `COORDINATE_LIMIT`.
    faces : array of shape (m, corners), or a list or generator of lists or arrays, of any integer type
        The indices of the corners of each face, counterclockwise seen from outside. The triangles of scipy run either way; turn
        them first. Of points at one place any may be named.

    Returns
    -------
    Verdict
        It is true exactly if the faces are the surface of the hull; else it says what is wrong, first of one face, then of one
        edge. Points are named by the lowest index of those at their place.

    Raises
    ------
    TypeError, ValueError, MemoryError
        As `ConvexHull` does for the points; or the faces are no lists of whole numbers.
    """
    whole = whole_points(points)
    offsets, corners = _flat_faces(faces, len(whole))
    told = _Verdict()
    lists = [number for array in (whole, offsets, corners) for number in (address_of(array), len(array))]
    code = LIBRARY.qconvex_check(*lists, ctypes.byref(told))
    if code != _DONE:
        raise error_of(code)
    return _verdict_of(told)


def checks(sets: Iterable[tuple[WholePoints, Faces]], *, workers: int = 1) -> list[Verdict]:
    """Returns what `check` says of the points and the faces of each set, by a number of threads; -1 means all processors."""
    return shared(lambda given: check(*given), sets, count_of(workers))
