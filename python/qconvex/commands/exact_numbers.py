"""Coordinates of files as whole numbers over one divisor: decimals as they are written, and binary numbers as they are."""
from __future__ import annotations

import re
from decimal import Context, Decimal
from importlib import import_module
from itertools import chain
from typing import Any, List, NamedTuple, Optional, Sequence, Tuple, Union

from .off_files import Malformed, Row

MANY = 1 << 15  # so many vertices are read sooner by numpy, which takes a while to load
# A coordinate of a mesh has fewer decimals than this: the smallest double has 1074.
MOST_DECIMALS = 2000
EXACT = Context(prec=10**6)
DECIMAL = re.compile(r"[+-]?([0-9]+\.?[0-9]*|\.[0-9]+)([eE][+-]?[0-9]+)?")
# Each digit as 0, and a decimal in such digits, whose exponent has three at most.
ZEROS = bytes.maketrans(b"123456789", b"000000000")
OF_ZEROS = re.compile(rb"[+-]?(0{1,999}\.?0{0,999}|\.0{1,999})([eE][+-]?0{1,3})?")


class Vertices(NamedTuple):
    """Vertices as whole numbers: coordinate k of a vertex is its number on axis k divided by the divisor."""

    axes: Any  # three lists of whole numbers; or an array (3, n) of int64, or of float64 with the divisor 1
    divisor: int  # a power of the base
    base: int  # ten for decimals, two for binary numbers

    def listed(self) -> Vertices:
        """The same with lists."""
        return self if isinstance(self.axes, list) else self.of_list(self.axes.T.ravel().tolist())

    def ends(self) -> Vertices:
        """The least coordinates and the greatest ones."""
        if isinstance(self.axes, list):
            return self._replace(axes=[[min(part), max(part)] for part in self.axes])
        return self.of_list([*self.axes.min(1).tolist(), *self.axes.max(1).tolist()])

    def of_list(self, numbers: List[Any]) -> Vertices:
        """Some numbers of the array, three for each vertex."""
        return self._replace(axes=along_axes(numbers)) if self.axes.dtype.kind == "i" else of_numbers(numbers)


def along_axes(numbers: List[int]) -> List[List[int]]:
    """Numbers, three for each vertex, in a list for each axis."""
    return [numbers[axis::3] for axis in range(3)]


def arrays_for(rows: int, name: str = "vertex_arrays") -> Any:
    """The module for many vertices, where there are so many and numpy is installed; else None."""
    try:
        return import_module(f"..{name}", __name__) if rows >= MANY else None
    except ImportError:
        return None


def of_lines(text: bytes, separator: Optional[bytes] = None) -> Optional[Vertices]:
    """The vertices of lines of three decimals, with blanks or a separator between; None of other lines, and of very long numbers.

    All lines with the same shape are looked at together.
    """
    shapes = [list(map(bytes.strip, shape.split(separator))) for shape in set(text[:-1].translate(ZEROS).split(b"\n"))]
    if not all(len(words) == 3 and all(map(OF_ZEROS.fullmatch, words)) for words in shapes):
        return None
    text = text.replace(separator, b" ") if separator else text
    decimals = {len(word.partition(b".")[2]) for word in chain.from_iterable(shapes)}
    arrays = arrays_for(text.count(b"\n"))
    found: Optional[Vertices] = arrays.of_decimals(text, max(decimals)) if arrays else None
    if found:
        return found
    if len(decimals) == 1 and b"e" not in text and b"E" not in text:
        numbers, most = list(map(int, text.replace(b".", b"").split())), decimals.pop()
    else:
        numbers, most = of_decimals(text.lower().decode("ascii").split())
    return Vertices(along_axes(numbers), 10**most, 10)


def of_decimals(words: List[str]) -> Tuple[List[int], int]:
    """Decimals as whole numbers, and the greatest number of digits behind the point."""
    exponents = {place: int(word.partition("e")[2]) for place, word in enumerate(words) if "e" in word}
    for place in exponents:
        words[place] = words[place].partition("e")[0]
    behind = [len(word) - 1 - point if (point := word.find(".")) >= 0 else 0 for word in words]
    for place, exponent in exponents.items():
        behind[place] -= exponent
    most = max(0, max(behind))
    powers = [10**power for power in range(most - min(behind) + 1)]
    numbers = map(int, " ".join(words).replace(".", "").split())
    return [number * powers[most - size] for number, size in zip(numbers, behind)], most


def of_words(rows: Sequence[Row]) -> Vertices:
    """The vertices of rows of three decimal words."""
    are_three = all(len(words) == 3 for _, words in rows)
    found = of_lines("".join(",".join(words) + "\n" for _, words in rows).encode(), b",") if are_three else None
    if found:
        return found
    words = list(chain.from_iterable(words for _, words in rows))
    if not are_three or not all(map(DECIMAL.fullmatch, words)):
        raise Malformed(fault_of(rows))
    numbers, decimals = of_any_words(words)
    return Vertices(along_axes(numbers), 10**decimals, 10)


def fault_of(rows: Sequence[Row]) -> str:
    """What is wrong with the first row that is not three decimal words."""
    for line, words in rows:
        wrong = next((word for word in words if not DECIMAL.fullmatch(word)), None)
        if wrong is not None or len(words) != 3:
            return f"line {line}: " + (f"{wrong} is no number" if wrong else f"a vertex has {len(words)} coordinates")
    raise AssertionError("all rows are right")


def of_any_words(words: List[str]) -> Tuple[List[int], int]:
    """Decimals as `of_decimals` has them, of any length; those with very many digits are refused."""
    numbers = list(map(Decimal, words))
    decimals = max([0, *(-int(number.as_tuple().exponent) for number in numbers)])
    if decimals > MOST_DECIMALS or any(number.adjusted() > MOST_DECIMALS for number in numbers):
        raise Malformed(f"a coordinate has more than {MOST_DECIMALS} digits before or behind the point")
    return [int(number.scaleb(decimals, EXACT)) for number in numbers], decimals


def of_numbers(numbers: Sequence[Union[int, float]]) -> Vertices:
    """The vertices of a list of whole numbers and floats, three for each."""
    try:
        ratios = [number.as_integer_ratio() for number in numbers]
    except (OverflowError, ValueError):
        raise Malformed("a coordinate is not finite") from None
    divisor = max((low for _, low in ratios), default=1)  # each is a power of two
    return Vertices(along_axes([high * (divisor // low) for high, low in ratios]), divisor, 2)
