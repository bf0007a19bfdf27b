"""Whole numbers near floats, on a grid whose step is a power of two."""
from __future__ import annotations

import operator
from fractions import Fraction
from math import frexp, inf, isfinite, ldexp, nextafter
from typing import Any, NamedTuple, Sequence, Tuple

import numpy as np
from numpy.typing import NDArray

from ._arrays import floats_of

BITS_LIMIT = 30
"""The greatest number of bits of the whole numbers: coordinates go to 2 to this power, either way."""

FINEST = -1074
"""All floats are whole multiples of 2 to this power."""

_FEW, _ROWS = 64, 256
_NORMAL = 1022
_USUAL = 0.5**900

# Whole numbers below this are floats, and so are their differences.
_WHOLE = 1 << 52


class Snapped(NamedTuple):
    """Whole numbers near floats: float i is about ``(points[i] + centre) * step``."""

    points: NDArray[np.int32]  # (n, 3)
    step: float  # a power of two
    centre: tuple[int, int, int]
    error: float  # the greatest distance along an axis from a float to its point, exactly


class Ends(NamedTuple):
    """The least and the greatest float on each axis."""

    lows: list[float]
    highs: list[float]


def ends_of(floats: NDArray[np.float64]) -> Ends:
    """The ends of some floats: of few, sorting is the fastest way."""
    if len(floats) <= _FEW:
        rising = np.sort(floats, 0)
        return Ends(rising[0].tolist(), rising[-1].tolist())
    return Ends(_along_axes(np.minimum, floats), _along_axes(np.maximum, floats))


def _along_axes(choice: np.ufunc, floats: NDArray[np.float64]) -> list[float]:
    """The least or the greatest float on each axis: numpy is fast in long rows."""
    if len(floats) >= _ROWS:
        whole = len(floats) // _ROWS * _ROWS
        floats = np.concatenate([choice.reduce(floats[:whole].reshape(-1, 3 * _ROWS)).reshape(-1, 3), floats[whole:]])
    ends: list[float] = choice.reduce(floats).tolist()
    return ends


def joined_ends(ends: Sequence[Ends]) -> Ends:
    """The ends of the floats of several ends."""
    lows, highs = (zip(*part) for part in zip(*ends))
    return Ends(list(map(min, lows)), list(map(max, highs)))


def _steps_of(numbers: list[float], exponent: int) -> list[int]:
    """Floats in steps of 2 to an exponent, each rounded once."""
    try:
        return [round(ldexp(number, -exponent)) for number in numbers]
    except OverflowError:  # where an axis has one float
        return [round(Fraction(number) / Fraction(2) ** exponent) for number in numbers]


def least_exponent(fraction: Any, power: Any, bits: int) -> Any:
    """An exponent from which on the steps may have room, by half the extent, fraction * 2^power: of numbers or of arrays.

    With the exponent power - bits - 1 the extent is from 2^(bits + 1) steps on. If it is more than that and four, the exponent
    is too low, since rounding the ends takes one step off at most, and dividing them by two less than one.
    """
    return power - bits - 1 + (fraction > 0.5 + 0.5**bits)


class Rounded(NamedTuple):
    """The steps of some floats of a grid from its middle, and what tells of them whether the step can be greater."""

    points: NDArray[np.int32]  # (n, 3)
    error: float
    common: int  # the bits of all steps from the least on, where there is no error


class Grid(NamedTuple):
    """The finest grid with room for all floats that have some ends: so it is known before the floats are, which may come in parts."""

    exponent: int  # its step is 2 to this power
    lows: list[int]  # the steps of the least float on each axis
    highs: list[int]  # and of the greatest
    fixed: list[bool]  # which axes have one float: such an axis may be too far out for so small a step
    error: float  # by how much these were rounded

    def rounded(self, floats: NDArray[np.float64]) -> Rounded:
        """The steps of some of the floats."""
        exponent, lows, highs, fixed, _ = self
        ways = middles = [(low + high) // 2 for low, high in zip(lows, highs)]
        if True in fixed:
            floats, ways = np.where(fixed, 0.0, floats), [0 if one else middle for one, middle in zip(fixed, middles)]
        # By a product, which is faster, where the power of two is a float of full precision.
        steps = floats * ldexp(1.0, -exponent) if -_NORMAL <= exponent <= _NORMAL else np.ldexp(floats, -exponent)
        whole = np.rint(steps)
        error = _error(floats, steps - whole, whole, exponent)
        if not -_WHOLE < min(ways) <= max(ways) < _WHOLE:  # no float has both the start of an axis and the half of its length
            firsts = [0 if one else low for one, low in zip(fixed, lows)]
            whole -= np.array(firsts, np.float64)
            ways = list(map(operator.sub, ways, firsts))
        whole -= np.array(ways, np.float64)
        points = whole.astype(np.int32)
        if error:
            return Rounded(points, error, 0)
        least = np.array(list(map(operator.sub, lows, middles)), np.int32)
        return Rounded(points, error, int(np.bitwise_or.reduce((points - least).ravel())))

    def snapped(self, found: Rounded, reading: float = 0.0) -> Snapped:
        """The steps of some floats as whole numbers, by the error and the bits of all floats: if there is no error the step may grow.

        The error of reading them is added.
        """
        points, error, common = found
        error = max(error, self.error)
        shift = 0 if error else self._shift(common)
        x, y, z = [((low >> shift) + (high >> shift)) // 2 for low, high in zip(self.lows, self.highs)]
        if shift:
            ways = [(low + high) // 2 - (middle << shift) for low, high, middle in zip(self.lows, self.highs, (x, y, z))]
            points = ((points + np.array(ways, np.int64)) >> shift).astype(np.int32)
        return Snapped(points, ldexp(1.0, self.exponent + shift), (x, y, z), nextafter(error + reading, inf) if reading else error)

    def _shift(self, common: int) -> int:
        """By how many powers of two the step of an exact grid can be greater: up to 1 if that has room, else as far as it goes."""
        for low in self.lows:
            common |= low
        most = (common & -common).bit_length() - 1
        if self.exponent > 0:
            return most
        return min(most, -self.exponent) if common else -self.exponent


def grid_of(ends: Ends, bits: int) -> Grid:
    """The grid with the least step, a power of two, with which the whole numbers have at most `bits` bits.

    Raises ValueError if bits is not from 1 to 30, or a float is not finite.
    """
    if not 1 <= bits <= BITS_LIMIT:
        raise ValueError(f"bits must be from 1 to {BITS_LIMIT}")
    lows, highs = ends
    if not isfinite(sum(lows + highs)) and not all(map(isfinite, lows + highs)):  # the sum is faster
        raise ValueError("points must be finite")
    exponent, fixed = FINEST, list(map(operator.eq, lows, highs))
    if lows != highs:
        exponent = max(least_exponent(*frexp(max([high / 2 - low / 2 for low, high in zip(lows, highs)])), bits), FINEST)
    while True:
        starts, stops = _steps_of(lows, exponent), _steps_of(highs, exponent)
        if max(map(operator.sub, stops, starts)) <= 2 << bits:
            break
        exponent += 1
    error = 0.0
    if True in fixed:
        step = Fraction(2) ** exponent
        error = float(max(abs(Fraction(low) - start * step) for low, start, one in zip(lows, starts, fixed) if one))
    return Grid(exponent, starts, stops, fixed, error)


def _error(floats: NDArray[np.float64], moved: NDArray[np.float64], whole: NDArray[np.float64], exponent: int) -> float:
    """The greatest distance between floats and whole steps, by how far the steps were moved. Each one is a float, so none is rounded."""
    if exponent > 0:  # a small float may have become 0, or have lost digits; it is as far from 0 as it was
        return float(np.abs(np.where(whole == 0, floats, np.ldexp(moved, exponent))).max())
    return ldexp(moved.item(np.abs(moved, out=moved).argmax()), exponent)


def snap(points: Any, bits: int = BITS_LIMIT) -> Snapped:
    """Returns whole numbers of at most `bits` bits for floats, on a grid whose step is a power of two.

    If a grid that has room holds all floats, they become points of it exactly, and the error is 0: the step is 1, or the greatest
    below 1 that does, or the greatest of all if 1 has no room. Else each float goes to the nearest point of the finest grid that
    has room, so the error is at most about 2^-(bits + 1) of the longest side of the box.

    Raises
    ------
    TypeError
        The points are not real numbers, or one of them is no float64 exactly.
    ValueError
        The shape is not (n, 3), there is no point, a number is not finite, or bits is not from 1 to 30.
    """
    return snapped(floats_of(points, finite=False), operator.index(bits))


def snapped(floats: NDArray[np.float64], bits: int) -> Snapped:
    """The same of float64."""
    if not len(floats):
        raise ValueError("there is no point")
    ends = ends_of(floats)
    usual = _usual(floats, ends, bits)
    if usual:
        return usual
    grid = grid_of(ends, bits)
    return grid.snapped(grid.rounded(floats))


def _usual(floats: NDArray[np.float64], ends: Ends, bits: int) -> Snapped | None:
    """The same in fewer steps, where all axes have an extent of usual size, the step is 1 at most, and there is an error; else None."""
    halves = [high / 2 - low / 2 for low, high in zip(*ends)]
    if not (1 <= bits <= BITS_LIMIT and _USUAL < min(halves) and sum(halves) < 1 / _USUAL):
        return None
    for exponent in range(least_exponent(*frexp(max(halves)), bits), 1):
        factor = ldexp(1.0, -exponent)
        lows, highs = [[round(end * factor) for end in part] for part in ends]
        if max(map(operator.sub, highs, lows)) <= 2 << bits:
            x, y, z = [(low + high) // 2 for low, high in zip(lows, highs)]
            steps = floats * factor
            whole = np.rint(steps)
            error = _error(floats, steps - whole, whole, exponent)
            if not error or not -_WHOLE < min(x, y, z) <= max(x, y, z) < _WHOLE:
                break
            whole -= np.array((x, y, z), np.float64)
            return Snapped(whole.astype(np.int32), ldexp(1.0, exponent), (x, y, z), error)
    return None
