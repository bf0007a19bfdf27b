"""What is left of parts of many points: their extreme points, joined in any tree.

The law `any_tree_of_unions` of the repository says that the extreme points that come out are those of all points,
whatever the tree, if indices rise within what a call is given. Here they do: points keep their order.
"""
from __future__ import annotations

from collections.abc import Iterable
from dataclasses import dataclass, replace
from typing import Any

import numpy as np
from numpy.typing import NDArray

from ._arrays import floats_of
from ._grid import Grid
from ._hull import whole_points
from ._library import flat_hull
from ._limits import POINT_LIMIT


class TooManyExtremes(ValueError):
    """Two parts together have more extreme points than one call takes.

    Attributes
    ----------
    count : int
        The number of these points.
    """

    def __init__(self, count: int) -> None:
        super().__init__(count)
        self.count = count

    def __str__(self) -> str:
        return f"{self.count} points are extreme in two parts; a hull takes {POINT_LIMIT} at most"


@dataclass(frozen=True)
class Part:
    """The extreme points of consecutive points."""

    count: int  # the number of points that the part was made of
    indices: NDArray[np.int64]  # int64, rising: the positions of the extreme points among these
    points: NDArray[np.int32]  # int32, (m, 3): the extreme points
    floats: NDArray[np.float64] | None = None  # (m, 3): what they were rounded from
    error: float = 0.0  # of all points, as `Rounded` has it
    common: int = 0  # the same


EMPTY = Part(0, np.empty(0, np.int64), np.empty((0, 3), np.int32))


def part_of_block(block: NDArray[Any], grid: Grid | None = None) -> Part:
    """Returns the extreme points of a block of any length, which is cut into pieces of at most `POINT_LIMIT` points.

    With a grid the block has floats, and they are the extreme points of the steps.
    """
    starts = range(0, len(block), POINT_LIMIT)
    return joined(_part_of_cut(block[start : start + POINT_LIMIT], grid) for start in starts)


def joined(parts: Iterable[Part]) -> Part:
    """What is left of parts that follow one another.

    Raises TooManyExtremes where the extreme points of what came before and of a part together are more than a call takes.
    """
    pile: list[Part] = []
    size = count = common = 0
    error = 0.0
    for part in parts:
        if size + len(part.indices) > POINT_LIMIT:
            pile = [_extremes_of(pile)]
            size = len(pile[0].indices)
        if size + len(part.indices) > POINT_LIMIT:
            raise TooManyExtremes(size + len(part.indices))
        pile.append(replace(part, indices=part.indices + count))
        size += len(part.indices)
        count, error, common = count + part.count, max(error, part.error), common | part.common
    return replace(_extremes_of(pile), count=count, error=error, common=common)


def _part_of_cut(cut: NDArray[Any], grid: Grid | None) -> Part:
    """The extreme points of `POINT_LIMIT` points at most, one at least."""
    if grid is None:
        points = whole_points(cut)
        places = flat_hull(points).extremes
        return Part(len(points), places.astype(np.int64), points[places])
    floats = floats_of(cut)
    points, error, common = grid.rounded(floats)
    places = flat_hull(points).extremes
    return Part(len(points), places.astype(np.int64), points[places], floats[places], error, common)


def _extremes_of(pile: list[Part]) -> Part:
    """The extreme points of parts whose indices are already those of the whole; of one part they are its own."""
    pile = [part for part in pile if len(part.indices)]
    if len(pile) < 2:
        return pile[0] if pile else EMPTY
    points = np.concatenate([part.points for part in pile])
    places = flat_hull(points).extremes
    indices = np.concatenate([part.indices for part in pile])[places]
    floats = [part.floats for part in pile if part.floats is not None]
    return Part(0, indices, points[places], np.concatenate(floats)[places] if floats else None)
