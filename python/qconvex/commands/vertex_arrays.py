"""Many vertices as arrays, by numpy: the same numbers as those of lists."""
from __future__ import annotations

import re
from fractions import Fraction
from typing import Any, List, Optional, Tuple

import numpy as np

from .exact_numbers import Vertices
from .off_files import Malformed

BELOW_ONE = re.compile(rb"[eE]-([0-9]+)")
EXACT_POWER = 22  # the greatest power of ten that is a float
ROOM = 1 << 61  # what is less is added and doubled in 64 bits


def of_decimals(text: bytes, behind: int) -> Optional[Vertices]:
    """The vertices of right lines of three decimals, with so many digits behind a point at most; None where floats don't tell them.

    A decimal of 49 bits is less than half a unit from the nearest float, times a power of ten that is a float.
    """
    most = max([behind, *(behind + int(size) for size in BELOW_ONE.findall(text))])
    numbers = np.fromstring(text, np.float64, sep=" ")
    if most > EXACT_POWER or np.abs(numbers).max() * 10.0**most > 1 << 49:
        return None
    return Vertices(np.rint(numbers * 10.0**most).astype(np.int64).reshape(-1, 3).T, 10**most, 10)


def of_floats(axes: Any) -> Vertices:
    """The vertices of floats, which are finite."""
    if not np.isfinite(axes).all():
        raise Malformed("a coordinate is not finite")
    return Vertices(axes.astype(np.float64), 1, 2)


def of_records(data: bytes, types: str, chosen: List[int]) -> Vertices:
    """The vertices of records of bytes, whose types are those of struct, by three of their places."""
    records = np.frombuffer(data, np.dtype([(str(place), types[0] + letter) for place, letter in enumerate(types[1:])]))
    return of_floats(np.stack([records[str(place)].astype(np.float64) for place in chosen]))


def common_of(axes: Any) -> Tuple[int, int]:
    """The greatest number that divides all, as a whole number and its divisor; of floats it is a power of two."""
    if axes.dtype.kind == "i":
        return int(np.gcd.reduce(axes, None)), 1
    fractions, powers = np.frexp(axes[axes != 0])
    whole = np.ldexp(fractions, 53).astype(np.int64)
    least = int((np.frexp((whole & -whole).astype(float))[1] + powers).min(initial=2000)) - 54
    return (0, 1) if least > 1900 else (1 << max(least, 0), 1 << max(-least, 0))


def divided(numbers: Any, top: int, start: int, bottom: int, shift: int) -> Tuple[Any, int, Fraction]:
    """(number * top - start) / bottom - shift, rounded, with how many were rounded and by how much at most.

    It is an OverflowError where 64 bits don't do.
    """
    reach = max(-numbers.min().item(), numbers.max().item())
    if numbers.dtype.kind == "f":
        if bottom > 1 or start or top & (top - 1) or not 0 < top < ROOM or max(Fraction(reach) * top, Fraction(abs(shift))) > ROOM:
            raise OverflowError
        steps = numbers * float(top)
        whole = np.rint(steps)
        moved = np.abs(steps - whole)
        return whole.astype(np.int64) - shift, np.count_nonzero(moved), Fraction(moved.max().item())
    if max((reach // bottom + 1) * abs(top) + abs(shift), bottom * abs(top) + abs(start)) > ROOM:
        raise OverflowError
    if bottom == 1:
        return numbers * top - (start + shift), 0, Fraction(0)
    whole, left = np.divmod(numbers, bottom)
    more, left = np.divmod(left * top - start, bottom)
    whole = whole * top + more
    up = (2 * left > bottom) | (2 * left == bottom) & (whole % 2 == 1)
    most = np.where(up, bottom - left, left).max().item()
    return whole + up - shift, np.count_nonzero(left), Fraction(most, bottom)
