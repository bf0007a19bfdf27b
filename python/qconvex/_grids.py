"""Whole numbers near the floats of many sets, each on a grid of its own: what `snap` does for one set, done for all at once."""
from __future__ import annotations

from typing import NamedTuple

import numpy as np
from numpy.typing import NDArray

from ._grid import BITS_LIMIT, FINEST, Snapped, least_exponent, snapped

# Steps below this are whole numbers that differ by what a float holds.
_PLAIN = float(1 << 52)


class Grids(NamedTuple):
    """The whole points of many sets, and the grid of each: that of a set without a point has the step 1."""

    points: NDArray[np.int32]  # (n, 3); what belongs to no set is 0
    steps: NDArray[np.float64]  # (sets,)
    errors: NDArray[np.float64]  # (sets,)
    centres: NDArray[np.object_]  # (sets, 3)


class _Ends(NamedTuple):
    """The exponents of the steps of some sets, and the least and the greatest step of each on each axis."""

    exponents: NDArray[np.int64]  # (k,)
    lows: NDArray[np.float64]  # (k, 3)
    highs: NDArray[np.float64]  # (k, 3)

    def are_plain(self) -> NDArray[np.bool_]:
        """Which sets have more than one place, and steps that are plain."""
        sizes = np.maximum(np.abs(self.lows), np.abs(self.highs)).max(axis=1)
        plain: NDArray[np.bool_] = (sizes < _PLAIN) & (self.lows < self.highs).any(axis=1)
        return plain

    def only(self, chosen: NDArray[np.bool_]) -> _Ends:
        """The ends of the sets that are chosen."""
        return _Ends(self.exponents[chosen], self.lows[chosen], self.highs[chosen])


def snapped_sets(floats: NDArray[np.float64], starts: NDArray[np.intp], bits: int) -> Grids:
    """Returns the grids of finite floats: set j has those from ``starts[j]`` to before ``starts[j + 1]``, and the starts rise.

    Raises ValueError if bits is not from 1 to 30.
    """
    if not 1 <= bits <= BITS_LIMIT:
        raise ValueError(f"bits must be from 1 to {BITS_LIMIT}")
    count = len(starts) - 1
    grids = Grids(np.zeros(floats.shape, np.int32), np.ones(count), np.zeros(count), np.zeros((count, 3), object))
    full = np.flatnonzero(starts[1:] > starts[:-1])
    if not len(full):
        return grids
    used, begins = floats[starts[0] : starts[-1]], starts[full] - starts[0]
    ends = _finest(np.minimum.reduceat(used, begins), np.maximum.reduceat(used, begins), bits)
    plain = ends.are_plain()
    for place in full[~plain].tolist():
        _put(grids, place, slice(*starts[place : place + 2].tolist()), snapped(floats[starts[place] : starts[place + 1]], bits))
    chosen = full[plain]
    if len(chosen):
        rows = np.repeat(plain, np.diff(np.append(begins, len(used))))
        points, steps, errors, centres = _of_plain(used[rows], np.diff(starts)[chosen], ends.only(plain))
        grids.points[starts[0] : starts[-1]][rows] = points
        grids.steps[chosen], grids.errors[chosen], grids.centres[chosen] = steps, errors, centres
    return grids


def _put(grids: Grids, place: int, rows: slice, one: Snapped) -> None:
    """Puts the grid of one set to those of all."""
    grids.points[rows], grids.steps[place], grids.errors[place], grids.centres[place] = one.points, one.step, one.error, one.centre


def _finest(lows: NDArray[np.float64], highs: NDArray[np.float64], bits: int) -> _Ends:
    """The least exponents with which the whole numbers have at most `bits` bits."""
    fractions, powers = np.frexp((highs / 2 - lows / 2).max(axis=1))
    exponents: NDArray[np.int64] = np.maximum(least_exponent(fractions, powers.astype(np.int64), bits), FINEST)
    with np.errstate(over="ignore", invalid="ignore"):
        while True:
            ends = _Ends(exponents, *(np.rint(np.ldexp(part, -exponents[:, np.newaxis])) for part in (lows, highs)))
            wide = (ends.highs - ends.lows > 2 << bits).any(axis=1) & ends.are_plain()
            if not wide.any():
                return ends
            exponents = exponents + wide


def _of_plain(floats: NDArray[np.float64], sizes: NDArray[np.intp], ends: _Ends) -> Grids:
    """The grids of sets with plain ends, all of which have points."""
    begins = np.cumsum(sizes) - sizes
    exponents = ends.exponents.repeat(sizes)[:, np.newaxis]
    steps = np.ldexp(floats, -exponents)
    whole = np.rint(steps)
    moved = np.where(whole == 0, floats, np.ldexp(steps - whole, exponents))
    errors = np.maximum.reduceat(np.abs(moved, out=moved).max(axis=1), begins)
    numbers = whole.astype(np.int64)
    shifts = np.where(errors > 0, 0, _shifts(np.bitwise_or.reduceat(np.bitwise_or.reduce(numbers, axis=1), begins), ends.exponents))
    lows, highs = (part.astype(np.int64) >> shifts[:, np.newaxis] for part in (ends.lows, ends.highs))
    middles = lows + (highs - lows) // 2
    numbers >>= shifts.repeat(sizes)[:, np.newaxis]
    numbers -= middles.repeat(sizes, axis=0)
    return Grids(numbers.astype(np.int32), np.ldexp(1.0, ends.exponents + shifts), errors, middles.astype(object))


def _shifts(common: NDArray[np.int64], exponents: NDArray[np.int64]) -> NDArray[np.int64]:
    """By how many powers of two the step of each exact grid can be greater: up to 1 if that has room, else as far as it goes.

    `common` has the bits of all whole numbers of a set, which are not all 0.
    """
    most = np.frexp((common & -common).astype(np.float64))[1].astype(np.int64) - 1
    return np.where(exponents > 0, most, np.minimum(most, -exponents))
