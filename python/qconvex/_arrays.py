"""Arrays of the numbers that are given, of which none is rounded in silence."""
from __future__ import annotations

from decimal import Decimal
from numbers import Real
from typing import Any

import numpy as np
from numpy.typing import NDArray

_DIGITS = 53  # of a float64
_DOUBLE = np.dtype(np.float64)


def numbers_of(points: Any) -> NDArray[Any]:
    """Returns an array of what is given, in which numpy has rounded nothing, nor filled in what is masked."""
    if isinstance(points, np.ma.MaskedArray) and np.any(points.mask):
        raise TypeError("points must be numbers, and some are masked")
    given: NDArray[Any] = np.asarray(points)
    if given.dtype.kind == "f" and not hasattr(points, "__array__"):  # a list: numpy makes whole numbers of several types floats
        return np.asarray(points, dtype=object)
    return given


def floats_of(points: Any, *, finite: bool = True) -> NDArray[np.float64]:
    """Returns numbers of any real type as an (n, 3) array of float64, a copy, which are finite if this is not looked at elsewhere.

    Raises TypeError if they are not real numbers, or one is no float64 exactly, and ValueError if the shape or a number is wrong.
    """
    given = points if type(points) is np.ndarray else numbers_of(points)
    if given.dtype.kind not in "fiuO":
        raise TypeError(f"points must be real numbers, and are {given.dtype}")
    if given.ndim != 2 or given.shape[1] != 3:
        raise ValueError(f"points must have the shape (n, 3), and have {given.shape}")
    floats = given.copy() if given.dtype is _DOUBLE else _exact_floats_of(given)
    if finite and not np.isfinite(floats).all():
        raise ValueError("points must be finite")
    return floats


def _exact_floats_of(given: NDArray[Any]) -> NDArray[np.float64]:
    """The float64 of numbers of any type, exactly."""
    if given.dtype.kind == "O":
        return _floats_of_objects(given)
    with np.errstate(over="ignore"):
        floats = given.astype(np.float64, order="C")
    if given.dtype.itemsize >= 8 and given.dtype != np.float64 and not _is_exact(given, floats):
        raise TypeError(f"points are {given.dtype}, and some of them no float64 exactly")
    return floats


def _is_exact(given: NDArray[Any], floats: NDArray[np.float64]) -> bool:
    """Whether long doubles, or whole numbers of 64 bits, are all float64."""
    if given.dtype.kind == "f":
        return np.array_equal(given, floats.astype(given.dtype), equal_nan=True)
    sizes = np.abs(given).astype(np.uint64)  # also of the least number, whose size int64 does not hold
    lowest = np.maximum(sizes & (~sizes + np.uint64(1)), np.uint64(1))
    return bool((sizes // lowest < np.uint64(1 << _DIGITS)).all())


def _floats_of_objects(given: NDArray[np.object_]) -> NDArray[np.float64]:
    """The float64 of objects that are real numbers."""
    kinds = set(map(type, given.flat))
    for kind in kinds:
        if not issubclass(kind, (Real, Decimal)) or issubclass(kind, bool):
            raise TypeError(f"points must be real numbers, and some are {kind.__name__}")
    try:
        floats = given.astype(np.float64, order="C")
    except OverflowError:
        raise TypeError("points are beyond the range of float64") from None
    if kinds - {float, np.float64}:
        exact = (int(one) if isinstance(one, np.integer) else one for one in given.flat)
        pairs = zip(given.flat, exact, floats.ravel().tolist())
        wrong = next((number for number, one, near in pairs if one != near and one == one), None)
        if wrong is not None:
            raise TypeError(f"points must be float64, and the {type(wrong).__name__} {wrong} is none exactly")
    return floats
