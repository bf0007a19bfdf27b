"""The calls of libqconvex.so, whose header is c/qconvex.h."""
from __future__ import annotations

import ctypes
import os
from pathlib import Path
from typing import Any, NamedTuple

import numpy as np
from numpy.typing import NDArray

from ._limits import COORDINATE_LIMIT, POINT_LIMIT

_DONE, _NO_POINT, _TOO_MANY, _RANGE, _MEMORY, _ROOM = range(6)
_REFUSALS = {
    _NO_POINT: "there is no point",
    _TOO_MANY: f"there are more than {POINT_LIMIT} points",
    _RANGE: f"a coordinate is not from {-COORDINATE_LIMIT} to {COORDINATE_LIMIT}",
}
RANGE_REFUSAL = _REFUSALS[_RANGE]


class _Sizes(ctypes.Structure):
    _fields_ = [
        ("points", ctypes.c_uint32),
        ("distinct", ctypes.c_uint32),
        ("dimension", ctypes.c_uint32),
        ("extremes", ctypes.c_size_t),
        ("faces", ctypes.c_size_t),
        ("corners", ctypes.c_size_t),
        ("edges", ctypes.c_uint64),
    ]


class _Wide(ctypes.Structure):
    _fields_ = [("low", ctypes.c_uint64), ("high", ctypes.c_uint64)]


class FlatHull(NamedTuple):
    """A hull in flat lists, as the library writes it."""

    dimension: int
    distinct: int | None  # None where it was not counted
    edges: int
    extremes: NDArray[np.int32]  # int32, rising
    offsets: NDArray[np.intp]  # intp: the corners of face j stand from offsets[j] to before offsets[j + 1]
    corners: NDArray[np.int32]  # int32


def _path() -> str:
    """Where the library is: what QCONVEX_LIBRARY names, else beside this file, else where `make -C c` puts it."""
    here = Path(__file__).resolve().parent
    places = [here / "libqconvex.so", here.parents[1] / "c" / "build" / "libqconvex.so"]
    found = [str(place) for place in places if place.exists()]
    return os.environ.get("QCONVEX_LIBRARY") or (found or ["libqconvex.so"])[0]


def _load() -> ctypes.CDLL:
    try:
        library = ctypes.CDLL(_path())
    except OSError as wrong:
        raise ImportError(f"the library for C is needed, which `make -C c` builds; QCONVEX_LIBRARY may name another place: {wrong}") from None
    buffer = [ctypes.c_void_p, ctypes.c_size_t]
    library.qconvex_version.restype = ctypes.c_uint32
    library.qconvex_version.argtypes = []
    library.qconvex_hull.restype = ctypes.c_uint32
    library.qconvex_hull.argtypes = [*buffer, ctypes.POINTER(_Sizes), *buffer, *buffer, *buffer]
    library.qconvex_neighbors.restype = ctypes.c_uint32
    library.qconvex_neighbors.argtypes = [*buffer, *buffer]
    library.qconvex_six_volumes.restype = ctypes.c_uint32
    library.qconvex_six_volumes.argtypes = [*buffer, *buffer, ctypes.POINTER(_Wide)]
    return library


LIBRARY = _load()


def _version() -> str:
    number = int(LIBRARY.qconvex_version())
    return f"{number // 10000}.{number // 100 % 100}.{number % 100}"


VERSION = _version()
"""The version of the library that was loaded."""


_NOTHING = np.zeros(8, np.intp)
_first_letter: Any = ctypes.c_char.from_buffer


def address_of(array: NDArray[Any]) -> int:
    """The address of a C-contiguous array's numbers, or of others if it has none, since no pointer is null."""
    held = array if array.size else _NOTHING
    return ctypes.addressof(_first_letter(held)) if held.flags.writeable else held.ctypes.data  # the first is faster


def error_of(code: int) -> Exception:
    """Returns the error of a code other than DONE and ROOM."""
    return MemoryError("out of memory") if code == _MEMORY else ValueError(_REFUSALS[code])


def six_volumes(points: NDArray[np.int32], triangles: NDArray[np.int32]) -> int:
    """Returns six times the volume inside triangles. Both arrays are C-contiguous, of int32, with three numbers a row.

    Raises ValueError if the library refuses the points or the corners, and OverflowError if a sum has more than 128 bits.
    """
    volume = _Wide()
    code = LIBRARY.qconvex_six_volumes(
        address_of(points), len(points), address_of(triangles), triangles.size, ctypes.byref(volume)
    )
    if code == _ROOM:
        raise OverflowError("a sum of volumes has more than 128 bits")
    if code != _DONE:
        raise error_of(code)
    bits: int = volume.high << 64 | volume.low
    return bits - (bits >> 127 << 128)


def neighbors(triangles: NDArray[np.int32]) -> NDArray[np.int32]:
    """Returns of each triangle the one over the side opposite to each corner, or -1 where none has this side reversed.

    The array is C-contiguous, of int32, with three corners a row, each below `POINT_LIMIT`.
    """
    found = np.empty((max(len(triangles), 1), 3), np.int32)  # a pointer that is not null, also for no triangles
    source = triangles if len(triangles) else found
    code = LIBRARY.qconvex_neighbors(source.ctypes.data, triangles.size, found.ctypes.data, triangles.size)
    if code != _DONE:
        raise error_of(code)
    return found[: len(triangles)]


class _Room:
    """Memory for what a call writes: the sizes, and three lists in one piece, the offsets first. Pages that stay unwritten take none."""

    def __init__(self, extremes: int, offsets: int, corners: int) -> None:
        self.sizes = _Sizes()
        self.offsets = np.zeros(offsets + (extremes + corners + 1) // 2, np.intp)
        numbers = self.offsets[offsets:].view(np.int32)
        self.extremes, self.corners = numbers[:extremes], numbers[extremes:]
        start = address_of(self.offsets)
        middle = start + 8 * offsets
        self.places = ctypes.byref(self.sizes), middle, extremes, start, offsets, middle + 4 * extremes, corners


_FEW = 64
_rooms: list[_Room] = []  # for few points, which no call uses now


def _room_for(count: int) -> _Room:
    """Room for the hull of so many points: enough by Euler's formula; if it is not, the sizes say how much is."""
    try:
        if count <= _FEW:
            return _rooms.pop()
    except IndexError:
        count = _FEW
    few = min(count, POINT_LIMIT)
    return _Room(count, 2 * few + 2, 6 * few + 4)


def flat_hull(points: NDArray[np.int32]) -> FlatHull:
    """Returns the hull of a C-contiguous (n, 3) array of int32.

    Raises ValueError if the library refuses the points, and MemoryError if it is out of memory.
    """
    count = len(points)
    room = _room_for(count)
    code = LIBRARY.qconvex_hull(address_of(points), count, *room.places)
    sizes = room.sizes
    if code == _ROOM:
        room = _Room(sizes.extremes, sizes.faces + 1, sizes.corners)
        sizes = room.sizes
        code = LIBRARY.qconvex_hull(address_of(points), count, *room.places)
    if code != _DONE:
        raise error_of(code)
    # Copies, since the memory is mostly longer than the answer.
    extremes, offsets = room.extremes[: sizes.extremes].copy(), room.offsets[: sizes.faces + 1].copy()
    hull = FlatHull(sizes.dimension, sizes.distinct, sizes.edges, extremes, offsets, room.corners[: sizes.corners].copy())
    if count <= _FEW:
        _rooms.append(room)
    return hull
