"""The whole points of a mesh's vertices: on which grid, how many coordinates were rounded, and by how much at most.

`snap` keeps the same rule for floats. If all coordinates are whole at a power of the base in which they are written, ten for
decimals and two for binary numbers, and these whole numbers have room, they are taken as they are, at the least power from 1
on, or below 1 where only that has room. Else they are rounded to the finest grid with room whose step is a power of two.
"""
from __future__ import annotations

from fractions import Fraction
from itertools import chain
from math import floor, gcd
from typing import Any, List, NamedTuple, Optional, Tuple

from .._limits import COORDINATE_LIMIT
from .exact_numbers import Vertices

Fractions = Tuple[Fraction, ...]


class Map(NamedTuple):
    """How a mesh is turned into whole numbers."""

    scale: Fraction
    centre: Fractions


class Rounded(NamedTuple):
    """The whole points of vertices along each axis, how many coordinates were rounded, and by how much at most."""

    axes: List[Any]  # three lists of whole numbers, or three arrays of int64
    changed: int
    most: Fraction

    def ends(self) -> List[Tuple[int, int]]:
        """The least and the greatest coordinate on each axis."""
        return [(min(part), max(part)) if isinstance(part, list) else (part.min(), part.max()) for part in self.axes]

    @property
    def points(self) -> List[Tuple[int, ...]]:
        """The whole points."""
        return list(zip(*(part if isinstance(part, list) else part.tolist() for part in self.axes)))


class Box:
    """The least and the greatest coordinate on each axis, and the centre, if one is given."""

    def __init__(self, vertices: Vertices, centre: Optional[Fractions] = None) -> None:
        self.ends, self.divisor, _ = vertices.ends()
        self.centre = centre

    def middle(self, scale: Fraction) -> Fractions:
        """The centre: the given one, or the middle of the box on the grid."""
        if self.centre:
            return self.centre
        steps = (along_axis(ends, self.divisor, Fraction(0), scale)[0] for ends in self.ends)
        return tuple((low + high) // 2 / scale for low, high in steps)

    def has_room(self, scale: Fraction) -> bool:
        """Whether all whole points are in range."""
        axes = zip(self.ends, self.middle(scale))
        reach = (along_axis(ends, self.divisor, middle * scale, scale)[0] for ends, middle in axes)
        return all(abs(number) <= COORDINATE_LIMIT for number in chain.from_iterable(reach))

    def extent(self) -> Fraction:
        """The greatest distance along an axis between two vertices, or between a vertex and the given centre."""
        centre = self.centre or [Fraction(low, self.divisor) for low, _ in self.ends]
        return max(abs(Fraction(end, self.divisor) - part) for ends, part in zip(self.ends, centre) for end in ends)


def map_of_vertices(vertices: Vertices, scale: Optional[Fraction] = None, centre: Optional[Fractions] = None) -> Map:
    """The map by the rule, with a scale or a centre that is given."""
    box = Box(vertices, centre)
    if scale is None:
        scale = next((exact for exact in exact_scales(vertices, centre) if box.has_room(exact)), None) or finest_scale(box)
    return Map(scale, box.middle(scale))


def exact_scales(vertices: Vertices, centre: Optional[Fractions]) -> List[Fraction]:
    """The least power of the base at which all coordinates and a given centre are whole, from 1 on and of all powers."""
    if isinstance(vertices.axes, list):
        common, divisor = gcd(*chain.from_iterable(vertices.axes)), 1
    else:
        from .vertex_arrays import common_of

        common, divisor = common_of(vertices.axes)
    scale = Fraction(vertices.divisor * divisor)
    while common and common % vertices.base == 0:
        common, scale = common // vertices.base, scale / vertices.base
    scale = scale if common else Fraction(1)
    for part in centre or ():
        while gcd((part * scale).denominator, vertices.base) > 1:
            scale *= vertices.base
    return [max(scale, Fraction(1)), scale]


def finest_scale(box: Box) -> Fraction:
    """The greatest power of two with room."""
    extent = box.extent()
    power = extent.denominator.bit_length() - extent.numerator.bit_length() + COORDINATE_LIMIT.bit_length() + 2
    while not box.has_room(Fraction(2) ** power):
        power -= 1
    return Fraction(2) ** power


def along_axis(numbers: Any, divisor: int, offset: Fraction, scale: Fraction) -> Tuple[Any, int, Fraction]:
    """The whole numbers of one axis, how many were rounded, and by how much at most, in units of the grid.

    n / divisor * scale - offset is (n * top - start) / bottom - shift, and the remainder of the division decides how to round.
    Of an array it is an OverflowError where 64 bits don't do.
    """
    shift = floor(offset)
    offset -= shift
    bottom = divisor * offset.denominator * scale.denominator
    top, start = offset.denominator * scale.numerator, offset.numerator * divisor * scale.denominator
    common = gcd(bottom, top, start)
    bottom, top, start = bottom // common, top // common, start // common
    if not isinstance(numbers, list):
        from .vertex_arrays import divided

        return divided(numbers, top, start, bottom, shift)
    if bottom == 1:
        return [number * top - start - shift for number in numbers], 0, Fraction(0)
    whole: List[int] = []
    count = most = 0
    for number in numbers:
        quotient, left = divmod(number * top - start, bottom)
        if left:
            count += 1
            up = 2 * left > bottom or 2 * left == bottom and quotient % 2
            quotient, left = (quotient + 1, bottom - left) if up else (quotient, left)
            if left > most:
                most = left
        whole.append(quotient - shift)
    return whole, count, Fraction(most, bottom)


def rounded(vertices: Vertices, by: Map) -> Rounded:
    """The whole points of the vertices."""
    try:
        axes = [along_axis(part, vertices.divisor, middle * by.scale, by.scale) for part, middle in zip(vertices.axes, by.centre)]
    except OverflowError:
        return rounded(vertices.listed(), by)
    wholes, counts, mosts = zip(*axes)
    return Rounded(list(wholes), sum(counts), max(mosts) / abs(by.scale))


def decimals_of(size: Fraction) -> str:
    """A size from 0 on, exactly: in decimals where these end soon, else as a fraction."""
    divisor, places = size.denominator, 0
    while divisor > 1 and gcd(divisor, 10) > 1 and places < 40:
        divisor, places = divisor // gcd(divisor, 10), places + 1
    if divisor > 1:
        return str(size)
    digits = str(size.numerator * 10**places // size.denominator).rjust(places + 1, "0")
    return digits[: len(digits) - places] + ("." + digits[-places:] if places else "")
