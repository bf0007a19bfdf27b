"""The corners of the triangles of stl files as arrays, by numpy: each once, and which of them each triangle has."""
from __future__ import annotations

import re
from functools import reduce
from operator import or_
from typing import Any, List, Optional, Tuple

import numpy as np

from .exact_numbers import Vertices, of_lines
from .vertex_arrays import of_floats

TRIANGLES = np.dtype([("normal", "V12"), ("corners", "<u4", (3, 3)), ("attribute", "V2")])
# How the lines of a facet begin; behind these three have numbers, the others an end.
FACET = re.compile(
    rb"([ \t]*facet normal )[^\n]*\n([ \t]*outer loop\n)([ \t]*vertex )[^\n]*\n\3[^\n]*\n\3[^\n]*\n([ \t]*endloop\n)([ \t]*endfacet\n)"
)
LINES, CORNERS = 7, slice(2, 5)  # of a facet, and which are its corners
NEWLINE, WORD, WORDS = 10, 8, 8  # a corner has at most so many words of memory
MIX = np.cumprod(np.full(WORDS, 0x9E3779B97F4A7C15, np.uint64))  # odd numbers without a pattern
KEPT = np.array([(1 << 8 * count) - 1 for count in range(WORD + 1)], np.uint64)
NUMBERS = b"0123456789+-.eE\n"

Corners = Tuple[Vertices, Any]  # with an array (triangles, 3)


def of_records(data: bytes) -> Corners:
    """The corners of a file of bytes behind its head."""
    rows = np.frombuffer(data, TRIANGLES)["corners"].reshape(-1, 3)
    firsts, numbers = distinct(rows.astype(np.uint64))
    return of_floats(rows.take(firsts, 0).view("<f4").T), numbers.reshape(-1, 3)


def of_text(data: bytes) -> Optional[Corners]:
    """The corners of a text whose facets have one layout and stand between its first line and its last; None of others."""
    begin, end = data.find(b"\n") + 1, data.rfind(b"\n", 0, data.rfind(b"endsolid")) + 1
    layout, last_line = FACET.match(data, begin), data[end:].strip()
    if not layout or not data.startswith(b"solid") or last_line.split()[:1] != [b"endsolid"]:
        return None
    if b"\n" in last_line or b"\0" in data or b"\r" in data:
        return None
    ends = np.flatnonzero(np.frombuffer(data, np.uint8, end - begin, begin) == NEWLINE) + begin
    if len(ends) % LINES:
        return None
    starts, ends = np.append(begin, ends[:-1] + 1).reshape(-1, LINES), ends.reshape(-1, LINES)
    first, loop, vertex, *last = layout.groups()
    heads = [first, loop, vertex, vertex, vertex, *last]
    if len(data) - starts[-1, -1] < max(map(len, heads)):
        return None  # a window would end behind the text
    if any((windows(data, f"S{len(head)}")[starts[:, place]] != head).any() for place, head in enumerate(heads)):
        return None
    corners = starts[:, CORNERS].ravel() + len(vertex)
    return of_lines_at(data, corners, ends[:, CORNERS].ravel() - corners)


def of_lines_at(data: bytes, starts: Any, sizes: Any) -> Optional[Corners]:
    """The corners whose numbers begin at these places and are so many bytes; None of long ones, and where blanks differ."""
    if sizes.max() > WORD * WORDS:
        return None
    firsts, numbers = distinct(np.stack(columns_of(data, starts, sizes), 1))
    lines = [data[start : start + size] for start, size in zip(starts[firsts].tolist(), sizes[firsts].tolist())]
    text = b"\n".join([*lines, b""])
    if text.translate(None, NUMBERS) != b"  " * len(lines) and len({tuple(line.split()) for line in lines}) < len(lines):
        return None  # the same words, with other blanks between
    vertices = of_lines(text)
    return (vertices, numbers.reshape(-1, 3)) if vertices else None


def windows(data: bytes, kind: str) -> Any:
    """What stands at each byte, read as a type."""
    size = np.dtype(kind).itemsize
    return np.ndarray(len(data) - size + 1, kind, data, strides=(1,))


def columns_of(data: bytes, starts: Any, sizes: Any) -> List[Any]:
    """The bytes of texts in words of memory, with 0 behind their ends. A word of more bytes follows the last text."""
    words, whole = windows(data, "<u8"), int(sizes.min()) - WORD
    return [
        words[(starts + place).clip(max=len(words) - 1)] & (KEPT[-1] if place <= whole else KEPT.take((sizes - place).clip(0, WORD)))
        for place in range(0, int(sizes.max()), WORD)
    ]


def distinct(rows: Any) -> Tuple[Any, Any]:
    """The places of the rows (n, k) of words that none before equals, and which of these each row equals.

    A table has the first row of each slot, and few slots have others.
    """
    bits, places = len(rows).bit_length() + 1, np.arange(len(rows))
    slots = (rows @ MIX[: rows.shape[1]] >> np.uint64(64 - bits)).astype(np.intp)
    table = np.zeros(1 << bits, np.intp)
    table[slots[::-1]] = places[::-1]
    found = table.take(slots)
    first = rows.take(found, 0)
    others = reduce(or_, (first != rows).T).nonzero()[0]
    seen: dict[Tuple[int, ...], int] = {}
    found[others] = [seen.setdefault(tuple(row), place) for row, place in zip(rows[others].tolist(), others.tolist())]
    are_first = found == places
    return are_first.nonzero()[0], (are_first.cumsum() - 1).take(found)
