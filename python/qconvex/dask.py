"""The extreme points and the hull of more points than one call or one machine takes, by Dask.

Dask is needed for this module alone. `extremes` and `hull` take a dask array of shape (n, 3) of any integer type, or of
floats, whatever its length and its chunks, or the files that `read` takes. Each chunk is looked at by itself, and what is
left is joined as a tree; a law says that the answer is that of all points, whatever the tree (docs/LAWS.md,
`any_tree_of_unions`). That Dask hands over what it was given is not proved. Floats are read twice: their ends tell the grid.
"""
from __future__ import annotations

import math
import operator
from collections.abc import Sequence
from pathlib import Path
from typing import Any, NamedTuple, Union, overload

import dask
import dask.array as da
import numpy as np
from numpy.typing import NDArray

from ._arrays import floats_of
from ._files import header_of, read_block, reading_error
from ._floats import FloatHull
from ._grid import Ends, Grid, Rounded, Snapped, ends_of, grid_of, joined_ends
from ._hull import WHOLE_REFUSAL, ConvexHull
from ._library import flat_hull
from ._limits import POINT_LIMIT
from ._parts import Part, TooManyExtremes, joined, part_of_block
from .commands.point_streams import begin_of_csv

__all__ = ["Extremes", "IndexedFloatHull", "IndexedHull", "TooManyExtremes", "extremes", "hull", "read"]

_JOINED_AT_ONCE = 8
_BLOCK_BYTES = 16 << 20

Paths = Union[str, Path, Sequence[Union[str, Path]]]


class Extremes(NamedTuple):
    """The extreme points of an array."""

    indices: NDArray[np.int64]
    """int64, rising: their rows in the whole array; of equal points the lowest."""

    points: NDArray[Any]
    """int32, or float64 with bits, of shape (m, 3): the points of these rows."""

    grid: Snapped | None = None
    """With bits, what `snap` finds of all floats, with the whole points of these rows alone."""


class IndexedHull(ConvexHull):
    """The hull of the extreme points of a larger array, which are its `points`.

    Its dimension, faces, edges, area and volume are those of all points; `distinct` counts the extreme points.

    Attributes
    ----------
    indices : ndarray of shape (npoints,), int64
        The rows of `points` in the whole array: ``indices[vertices]`` are those of the vertices.
    """

    def __init__(self, extremes: Extremes) -> None:
        super().__init__(extremes.points)
        self.indices: NDArray[np.int64] = extremes.indices


class IndexedFloatHull(FloatHull):
    """The same of floats: a `FloatHull` of the extreme points of a larger array, on the grid of all its floats.

    `snap_error` is that of all floats, and of what reading decimals moved at most.
    """

    def __init__(self, extremes: Extremes) -> None:
        assert extremes.grid is not None
        self._take_grid(extremes.points, extremes.grid, flat_hull(extremes.grid.points))
        self.indices: NDArray[np.int64] = extremes.indices


def extremes(points: da.Array | NDArray[Any] | Paths, client: Any = None, retries: int = 3, bits: int | None = None) -> Extremes:
    """Returns the extreme points of a dask array, of one of numpy, or of files as `read` takes them.

    Chunks of more than `POINT_LIMIT` rows are cut. The work is done by the scheduler that Dask has set.

    Parameters
    ----------
    points : array of shape (n, 3), of any integer type, with `bits` of any real type, or paths
        The chunks may be of any shape, and of unknown length.
    client : distributed.Client or str, optional
        The client, or the address of the scheduler, that does the work in place of Dask's own choice.
    retries : int
        How often a distributed scheduler tries a task again that failed.
    bits : int, optional
        If given, the points are floats, and the extreme points are those that `ConvexHull.from_floats` finds with so many bits.

    Raises
    ------
    TypeError
        The points are no whole numbers, or with `bits` no float64.
    ValueError
        The shape is not (n, 3), there is no point, a coordinate is out of range, or a file is not right.
    TooManyExtremes
        The extreme points of two parts together are more than `POINT_LIMIT`.
    """
    if isinstance(points, np.ndarray):
        points = da.from_array(points, chunks=(POINT_LIMIT, *points.shape[1:]))
    are_files = isinstance(points, (str, Path, Sequence))
    opened = _opened(points, floats=bits is not None) if are_files else _Opened(points, None, [])
    array, grid, reading = _cut(opened.array, "iuO" if bits is None else "iufO"), None, 0.0
    if bits is not None:
        ends = list(map(dask.delayed(_ends), array.to_delayed().ravel()))
        told, reading = _computed(dask.delayed(_told)(ends, opened.errors), client, retries)
        grid = grid_of(told, operator.index(bits)) if told else None
    part: Part = _computed(_tree_of(_parts_of(array, grid)), client, retries)
    if opened.wanted not in (None, part.count):
        raise ValueError(f"the files have {part.count} points, and their headers count {opened.wanted}")
    if not part.count:
        raise ValueError("there is no point")
    if grid is None or part.floats is None:
        return Extremes(part.indices, part.points)
    return Extremes(part.indices, part.floats, grid.snapped(Rounded(part.points, part.error, part.common), reading))


@overload
def hull(points: da.Array | NDArray[Any] | Paths, client: Any = None, retries: int = 3, bits: None = None) -> IndexedHull: ...
@overload
def hull(points: da.Array | NDArray[Any] | Paths, client: Any = None, retries: int = 3, *, bits: int) -> IndexedFloatHull: ...
def hull(points: da.Array | NDArray[Any] | Paths, client: Any = None, retries: int = 3, bits: int | None = None) -> ConvexHull:
    """Returns the hull of an array, or of files: that of its extreme points, with their rows in the whole array.

    Takes and raises what `extremes` does; with `bits` it is a `FloatHull`.
    """
    found = extremes(points, client, retries, bits)
    return IndexedHull(found) if found.grid is None else IndexedFloatHull(found)


def read(paths: Paths, columns: Sequence[str] | None = None) -> da.Array:
    """Returns the points of files, one after the other, as a dask array.

    A file is told by its name: `.npy` has an array of shape (n, 3); `.parquet` or `.parq`, also a folder, has the three
    columns named, or three in all (pyarrow reads it); `.csv` has three columns of whole numbers; any
    other is a point file, with each point on lines of its own.
    Workers open the files by the same names. The lengths of a point file's chunks are not known before it is read, so
    its count is compared by `extremes` alone.
    """
    return _opened(paths, columns).array


# Reading.


class _Opened(NamedTuple):
    """The points of files, how many there have to be where point files alone tell it, and what tells by how much decimals were moved."""

    array: da.Array
    wanted: int | None
    errors: list[Any]


def _opened(paths: Paths, columns: Sequence[str] | None = None, floats: bool = False) -> _Opened:
    """What is told of files before they are read."""
    listed = [paths] if isinstance(paths, (str, Path)) else list(paths)
    if not listed:
        raise ValueError("there is no file")
    opened = [_opened_one(Path(path).absolute(), columns, floats) for path in listed]
    array = da.concatenate([one.array for one in opened], allow_unknown_chunksizes=True)
    known = [one.wanted for one in opened if one.wanted is not None]
    return _Opened(array, sum(known) if len(known) == len(opened) else None, [error for one in opened for error in one.errors])


def _opened_one(path: Path, columns: Sequence[str] | None, floats: bool) -> _Opened:
    if path.suffix == ".npy":
        array = _array_of_npy(path)
        return _Opened(array, len(array), [])
    if path.suffix in (".parquet", ".parq"):
        import dask.dataframe

        return _Opened(dask.dataframe.read_parquet(str(path), columns=columns).to_dask_array(), None, [])
    if path.suffix == ".csv":
        return _opened_text(path, begin_of_csv(str(path)), None, floats)
    header = header_of(path)
    return _opened_text(path, header.end, header.count, floats)


def _array_of_npy(path: Path) -> da.Array:
    """An array whose chunks are read when they are wanted."""
    held = np.load(path, mmap_mode="r")
    if held.ndim != 2:
        raise ValueError(f"points must have the shape (n, 3), and have {held.shape}")
    rows = [(start, min(start + POINT_LIMIT, len(held))) for start in range(0, len(held), POINT_LIMIT)] or [(0, 0)]
    chunk = dask.delayed(_rows_of_npy)
    return da.concatenate(
        [da.from_delayed(chunk(path, start, end), (end - start, held.shape[1]), held.dtype) for start, end in rows]
    )


def _rows_of_npy(path: Path, start: int, end: int) -> NDArray[Any]:
    return np.array(np.load(path, mmap_mode="r")[start:end])


def _opened_text(path: Path, begin: int, count: int | None, floats: bool) -> _Opened:
    """An array whose chunks are lines of a point file."""
    kind = np.float64 if floats else np.int64
    offsets = [*range(begin, path.stat().st_size, _BLOCK_BYTES), path.stat().st_size]
    cuts = list(zip(offsets, offsets[1:]))
    if not cuts:
        return _Opened(da.zeros((0, 3), kind), count, [])
    blocks = [da.from_delayed(dask.delayed(read_block)(path, *cut, floats), (math.nan, 3), kind) for cut in cuts]
    errors = [dask.delayed(reading_error)(path, *cut) for cut in cuts] if floats else []
    return _Opened(da.concatenate(blocks, allow_unknown_chunksizes=True), count, errors)


# Working.


def _ends(block: NDArray[Any]) -> Ends | None:
    """The ends of a chunk of floats, if it has any."""
    floats = floats_of(block)
    return ends_of(floats) if len(floats) else None


def _told(ends: list[Ends | None], errors: list[float]) -> tuple[Ends | None, float]:
    """The ends of all chunks, if they have any, and the greatest error of reading."""
    full = [one for one in ends if one]
    return joined_ends(full) if full else None, max(errors, default=0.0)


def _cut(points: da.Array, kinds: str) -> da.Array:
    """The points in chunks of whole rows, no more than the library takes where their lengths are known."""
    if points.ndim != 2 or points.shape[1] != 3:
        raise ValueError(f"points must have the shape (n, 3), and have {points.shape}")
    if points.dtype.kind not in kinds:
        raise TypeError(WHOLE_REFUSAL.format(points.dtype))
    lengths = [piece for length in points.chunks[0] for piece in _pieces(length)]
    if points.chunks != ((*lengths,), (3,)) and not any(map(math.isnan, lengths)):
        return points.rechunk(((*lengths,), (3,)))
    return points.rechunk({1: 3}) if len(points.chunks[1]) > 1 else points


def _parts_of(points: da.Array, grid: Grid | None) -> da.Array:
    """What is left of each chunk: an array of one `Part` for each."""
    chunks = ((1,) * points.numblocks[0], (1,))
    return points.map_blocks(_held_part, grid=grid, dtype=object, chunks=chunks, meta=np.empty((0, 0), object))


def _pieces(length: float) -> list[float]:
    """The lengths of the cuts of a chunk, of which one of unknown length is cut when it is there."""
    if math.isnan(length) or length <= POINT_LIMIT:
        return [length]
    count = int(-(-length // POINT_LIMIT))
    return [length * (place + 1) // count - length * place // count for place in range(count)]


def _held_part(block: NDArray[Any], grid: Grid | None) -> NDArray[Any]:
    """The part of a chunk, in an array of one."""
    held = np.empty((1, 1), object)
    held[0, 0] = part_of_block(block, grid)
    return held


def _tree_of(parts: da.Array) -> Any:
    """The join of all parts, a few at a time."""
    join = dask.delayed(_joined)
    level = list(parts.to_delayed().ravel())
    while len(level) > 1:
        level = [join(level[start : start + _JOINED_AT_ONCE]) for start in range(0, len(level), _JOINED_AT_ONCE)]
    return join(level)


def _joined(parts: list[Any]) -> Part:
    return joined(part.item() if isinstance(part, np.ndarray) else part for part in parts)


def _computed(value: Any, client: Any, retries: int) -> Any:
    """The value, by a client or its scheduler's address, else by the client that is set, else by Dask here."""
    if client is None:
        client = _client_set()
    if client is None:
        return value.compute()
    if isinstance(client, str):
        from distributed import Client

        with Client(client, set_as_default=False) as opened:
            return opened.compute(value, retries=retries).result()
    return client.compute(value, retries=retries).result()


def _client_set() -> Any:
    """The client that is set as Dask's scheduler, or None."""
    if dask.config.get("scheduler", None) not in (None, "dask.distributed", "distributed"):
        return None
    try:
        from distributed import default_client

        return default_client()
    except (ImportError, ValueError):
        return None
