"""The hulls of many sets of points, by one call of the library."""
from __future__ import annotations

import ctypes
import operator
from collections.abc import Iterator, Sequence
from typing import Any, NamedTuple, overload

import numpy as np
from numpy.typing import ArrayLike, NDArray

from ._arrays import floats_of, numbers_of
from ._floats import FloatHull
from ._grid import Snapped
from ._grids import Grids, snapped_sets
from ._hull import ConvexHull, WholePoints, whole_points
from ._library import LIBRARY, FlatHull, address_of, error_of
from ._workers import count_of, shared

_DONE = 0
_STARTS_REFUSAL = "starts must rise, and go no further than the points"

# What a set is told: qconvex_answer of the header.
_ANSWER = np.dtype(
    {
        "names": ["code", "points", "distinct", "dimension", "extremes", "faces", "corners", "edges"],
        "formats": ["u4", "u4", "u4", "u4", "u8", "u8", "u8", "u8"],
        "offsets": [0, 8, 12, 16, 24, 32, 40, 48],
        "itemsize": 56,
    }
)


def _load() -> None:
    buffer = [ctypes.c_void_p, ctypes.c_size_t]
    LIBRARY.qconvex_hulls.restype = ctypes.c_uint32
    LIBRARY.qconvex_hulls.argtypes = buffer * 6


_load()


class _Buffers(NamedTuple):
    """The parts of all sets, one after the other."""

    answers: NDArray[Any]
    extremes: NDArray[np.int32]
    offsets: NDArray[np.intp]
    corners: NDArray[np.int32]


class Hulls(Sequence[ConvexHull]):
    """The hulls of many sets: ``hulls[j]`` is that of set j, or an error where it was refused.

    The arrays tell of all sets at once; of a refused set they are 0.

    Attributes
    ----------
    codes : ndarray of uint32
        0 for each set that has its hull, else why it was refused; `refusal` says it in words.
    dimension, distinct, nvertices, nfaces, nedges : ndarray
        As the attributes of each hull.
    """

    def __init__(self, points: NDArray[np.int32], starts: NDArray[np.intp], buffers: _Buffers) -> None:
        self._points, self._starts, self._buffers = points, starts, buffers
        answers = buffers.answers
        self.codes: NDArray[np.uint32] = answers["code"]
        self.dimension: NDArray[np.uint32] = answers["dimension"]
        self.distinct: NDArray[np.uint32] = answers["distinct"]
        self.nvertices: NDArray[np.uint64] = answers["extremes"]
        self.nfaces: NDArray[np.uint64] = answers["faces"]
        self.nedges: NDArray[np.uint64] = answers["edges"]

    def __len__(self) -> int:
        return len(self.codes)

    def __repr__(self) -> str:
        refused = int(np.count_nonzero(self.codes))
        return f"<Hulls of {len(self)} sets: {len(self._points)} points, {refused} refused>"

    @overload
    def __getitem__(self, place: int) -> ConvexHull: ...
    @overload
    def __getitem__(self, place: slice) -> list[ConvexHull]: ...
    def __getitem__(self, place: int | slice) -> ConvexHull | list[ConvexHull]:
        if isinstance(place, slice):
            return [self[one] for one in range(*place.indices(len(self)))]
        number = place + len(self) if place < 0 else place
        if not 0 <= number < len(self):
            raise IndexError(f"there are {len(self)} sets")
        if self.codes[number] != _DONE:
            raise self._error(number)
        begin, end = self._starts[number : number + 2].tolist()
        return self._made(number, slice(begin, end), self._flat(number, begin))

    def _made(self, number: int, rows: slice, hull: FlatHull) -> ConvexHull:
        """Returns an object for the hull of a set."""
        return ConvexHull._of(self._points[rows], hull)

    def __iter__(self) -> Iterator[ConvexHull]:
        return (self[place] for place in range(len(self)))

    def refusal(self, place: int) -> str | None:
        """Returns why a set has no hull, or None if it has one."""
        return None if self.codes[place] == _DONE else str(self._error(place))

    def _error(self, place: int) -> Exception:
        return error_of(int(self.codes[place]))

    def _flat(self, number: int, begin: int) -> FlatHull:
        """Returns the hull of a set, as slices of the buffers."""
        answers, extremes, offsets, corners = self._buffers
        _, _, distinct, dimension, extreme_count, faces, corner_count, edges = answers[number].item()
        first, ends = 6 * begin + 4 * number, 2 * begin + 2 * number
        return FlatHull(
            dimension,
            distinct,
            edges,
            extremes[begin : begin + extreme_count],
            offsets[ends : ends + faces + 1],
            corners[first : first + corner_count],
        )


class FloatHulls(Hulls):
    """The hulls of many sets of floats: ``hulls[j]`` is the `FloatHull` of set j, or an error where it was refused.

    Each set has a grid of its own, the one that `snap` finds for it alone.

    Attributes
    ----------
    scale, snap_error : ndarray of float64
        As the attributes of each hull; those of a set without a point say nothing.
    """

    def __init__(self, floats: NDArray[np.float64], grids: Grids, starts: NDArray[np.intp], buffers: _Buffers) -> None:
        super().__init__(grids.points, starts, buffers)
        self._floats, self._grids = floats, grids
        self.scale: NDArray[np.float64] = grids.steps
        self.snap_error: NDArray[np.float64] = grids.errors

    @overload  # type: ignore[override]
    def __getitem__(self, place: int) -> FloatHull: ...
    @overload
    def __getitem__(self, place: slice) -> list[FloatHull]: ...
    def __getitem__(self, place: int | slice) -> Any:
        return super().__getitem__(place)

    def __iter__(self) -> Iterator[FloatHull]:
        return (self[place] for place in range(len(self)))

    def _made(self, number: int, rows: slice, hull: FlatHull) -> FloatHull:
        grids, (x, y, z) = self._grids, self._grids.centres[number].tolist()
        grid = Snapped(grids.points[rows], float(grids.steps[number]), (x, y, z), float(grids.errors[number]))
        return FloatHull._of_grid(self._floats[rows], grid, hull)


@overload
def hulls(points: WholePoints, starts: ArrayLike, *, copy: bool = True, workers: int = 1, bits: None = None) -> Hulls: ...
@overload
def hulls(points: Any, starts: ArrayLike, *, copy: bool = True, workers: int = 1, bits: int) -> FloatHulls: ...
def hulls(points: Any, starts: ArrayLike, *, copy: bool = True, workers: int = 1, bits: int | None = None) -> Hulls:
    """Returns the hulls of many sets of points, which stand one after the other in one array.

    If a set is refused, such as one without a point, the others still have their hulls. The arrays of a hull are slices of common
    buffers; numpy computes the other attributes of a hull when they are first asked for.

    Parameters
    ----------
    points : array_like of shape (n, 3), of any integer type, or with `bits` of any real type
        The points of all sets; their number has no limit.
    starts : array_like of shape (sets + 1,)
        Set j has the points from ``starts[j]`` to before ``starts[j + 1]``.
    copy : bool, default True
        As for `ConvexHull`; floats are always copied.
    workers : int, default 1
        How many threads share the sets; -1 means all processors.
    bits : int, optional
        If given, the points are floats, and each set gets the hull that `ConvexHull.from_floats` makes of it with so many bits.

    Raises
    ------
    TypeError
        The points are not whole numbers, or with `bits` no float64, or the starts are not whole numbers.
    ValueError
        The shape is not (n, 3), the starts don't rise or go beyond the points, or a coordinate of an array of a type that int32
        does not hold is out of range. In an array of int32 the set with such a coordinate is refused, and the others are not.
        With `bits` a float is not finite, or bits is not from 1 to 30.
    """
    if bits is not None:
        floats = floats_of(points)
        places = _whole_starts(starts, len(floats))
        grids = snapped_sets(floats, places, operator.index(bits))
        kept: tuple[NDArray[Any], ...] = (floats, grids.points, grids.steps, grids.errors)
        for numbers in kept:
            numbers.setflags(write=False)
        return FloatHulls(floats, grids, places, _answered(grids.points, places, workers))
    whole = whole_points(points, copy)
    places = _whole_starts(starts, len(whole))
    return Hulls(whole, places, _answered(whole, places, workers))


def _answered(points: NDArray[np.int32], starts: NDArray[np.intp], workers: int) -> _Buffers:
    """Returns what the library answers of all sets, by a number of threads."""
    buffers = _room_for(len(starts) - 1, int(starts[-1]))
    cuts = _cuts_of(starts, count_of(workers))
    codes = shared(lambda cut: _call(*_part_of(cut, points, starts, buffers)), cuts, len(cuts))
    assert not any(codes), codes
    for numbers in buffers:
        numbers.setflags(write=False)
    return buffers


def _whole_starts(starts: ArrayLike, count: int) -> NDArray[np.intp]:
    """Returns the starts as the library takes them: they rise within a number of points."""
    given = numbers_of(starts)
    if given.ndim != 1 or not len(given):
        raise ValueError(f"starts must have the shape (sets + 1,), and have {given.shape}")
    if given.dtype.kind not in "iu" and not all(isinstance(start, (int, np.integer)) for start in given):
        raise TypeError(f"starts must be whole numbers, and are {given.dtype}")
    if given.min() < 0 or given.max() > 1 << 56:
        raise ValueError(_STARTS_REFUSAL)
    places: NDArray[np.intp] = np.require(given, dtype=np.intp, requirements=["C", "A"])
    if places[-1] > count or (places[1:] < places[:-1]).any():
        raise ValueError(_STARTS_REFUSAL)
    return places.copy() if np.shares_memory(places, given) else places


def _room_for(sets: int, points: int) -> _Buffers:
    """Room for the hulls of sets that end at a number of points."""
    return _Buffers(
        np.zeros(sets, _ANSWER),
        np.zeros(points, np.int32),
        np.zeros(2 * (points + sets), np.intp),
        np.zeros(6 * points + 4 * sets, np.int32),
    )


def _cuts_of(starts: NDArray[np.intp], count: int) -> list[tuple[int, int]]:
    """Ranges of sets with about as many points each."""
    goals = starts[0] + (starts[-1] - starts[0]) * np.arange(1, count) // count
    ends = [0, *np.searchsorted(starts, goals).tolist(), len(starts) - 1]
    return [(first, end) for first, end in zip(ends, ends[1:]) if first < end] or [(0, len(starts) - 1)]


def _part_of(
    cut: tuple[int, int], points: NDArray[np.int32], starts: NDArray[np.intp], buffers: _Buffers
) -> tuple[NDArray[np.int32], NDArray[np.intp], _Buffers]:
    """The points, the starts and the buffers of a range of sets, whose parts of the buffers follow one another."""
    first, end = cut
    begin = starts[first]
    part = _Buffers(
        buffers.answers[first:end],
        buffers.extremes[begin:],
        buffers.offsets[2 * (begin + first) :],
        buffers.corners[6 * begin + 4 * first :],
    )
    return points[begin:], starts[first : end + 1] - begin, part


def _call(points: NDArray[np.int32], starts: NDArray[np.intp], buffers: _Buffers) -> int:
    """Calls the library and returns its code."""
    arguments = [number for array in (points, starts, *buffers) for number in (address_of(array), len(array))]
    return int(LIBRARY.qconvex_hulls(*arguments))
