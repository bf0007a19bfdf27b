"""Work that threads share. The library starts none and keeps nothing, and ctypes lets other threads run during a call."""
from __future__ import annotations

import operator
import os
from collections.abc import Callable, Iterable
from concurrent.futures import ThreadPoolExecutor
from typing import TypeVar

import numpy as np
from numpy.typing import NDArray

from ._library import FlatHull, flat_hull
from ._limits import POINT_LIMIT

Given = TypeVar("Given")
Made = TypeVar("Made")

# Fewer points than this one thread takes, and points of which more than this share of a sample is extreme.
_LEAST, _SAMPLE, _SHARE = 1 << 16, 1 << 12, 0.4


def count_of(workers: int) -> int:
    """The number of threads: that given, or that of the processors for -1."""
    count = operator.index(workers)
    if count < 1 and count != -1:
        raise ValueError(f"workers must be 1 or more, or -1 for all processors, and is {count}")
    return count if count > 0 else len(os.sched_getaffinity(0))


def shared(work: Callable[[Given], Made], given: Iterable[Given], count: int) -> list[Made]:
    """What the work makes of each, by a number of threads."""
    if count == 1:
        return list(map(work, given))
    with ThreadPoolExecutor(count) as pool:
        return list(pool.map(work, given))


def hull_by_parts(points: NDArray[np.int32], workers: int) -> FlatHull:
    """Returns the hull of the extreme points of consecutive parts, by the law of unions; of few points that of all by one thread.

    The indices rise, so faces keep their order, and of equal points the lowest index stands for all. The distinct points are not
    counted, since each part has its own.
    """
    count = count_of(workers)
    if count == 1 or not _LEAST <= len(points) <= POINT_LIMIT or _is_mostly_extreme(points):
        return flat_hull(points)
    ends = [len(points) * place // count for place in range(count + 1)]
    found = shared(lambda cut: flat_hull(points[cut[0] : cut[1]]).extremes + np.int32(cut[0]), list(zip(ends, ends[1:])), count)
    indices = np.concatenate(found)
    hull = flat_hull(points[indices])
    return hull._replace(distinct=None, extremes=indices[hull.extremes], corners=indices[hull.corners])


def _is_mostly_extreme(points: NDArray[np.int32]) -> bool:
    """Whether most of a sample are extreme points of it."""
    sample = np.ascontiguousarray(points[:: len(points) // _SAMPLE])
    return len(flat_hull(sample).extremes) > _SHARE * len(sample)
