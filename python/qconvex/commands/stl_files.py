"""The corners of the triangles of stl files, of text and of bytes."""
from __future__ import annotations

import struct
from itertools import chain
from typing import Any, List, Optional, Sequence, Tuple, Union

from .exact_numbers import Vertices, arrays_for, of_numbers, of_words
from .off_files import Malformed, lines_of

HEAD, TRIANGLE = 84, struct.Struct("<12x12s12s12s2x")
FACET_BYTES = 200  # of a text, or some more

# A corner by its bytes, or by its words.
Corner = Union[bytes, Tuple[str, ...]]


def count_of(data: bytes) -> int:
    """The number of triangles that a file of bytes announces."""
    return int.from_bytes(data[80:HEAD], "little")


def is_binary(data: bytes) -> bool:
    """Whether a file has the bytes of the triangles that it announces."""
    return len(data) == HEAD + count_of(data) * TRIANGLE.size


def corners_of(data: bytes) -> Sequence[Corner]:
    """The corners of all triangles, three for each."""
    if is_binary(data):
        return list(chain.from_iterable(TRIANGLE.iter_unpack(data[HEAD:])))
    return [words for _, words in corners_of_text(data)]


def corners_of_text(data: bytes) -> List[Tuple[int, Tuple[str, ...]]]:
    """The corners of a text with their lines, three to each facet."""
    if not data.lstrip().startswith(b"solid"):
        raise Malformed(f"it has {len(data)} bytes; {count_of(data)} triangles have {HEAD + count_of(data) * TRIANGLE.size}")
    split = [(line, text.split()) for line, text in enumerate(lines_of(data.decode("utf-8", "replace")), 1)]
    rows = [row for row in split if row[1]]
    corners = 0
    for line, words in rows:
        if words[0] == "endfacet" and corners != 3 or words[0] == "endsolid" and corners:
            raise Malformed(f"line {line}: a facet has {corners} corners")
        corners = 0 if words[0] == "endfacet" else corners + (words[0] == "vertex")
    if rows[-1][1][0] != "endsolid":
        raise Malformed(f"line {rows[-1][0]}: the text ends before its endsolid")
    return [(line, tuple(words[1:4])) for line, words in rows if words[0] == "vertex"]


def many_triangles(data: bytes) -> Optional[Tuple[Vertices, Any]]:
    """The distinct corners of many triangles, and which of them each triangle has, by numpy; None where every line has to be looked at."""
    binary = is_binary(data)
    triangles = count_of(data) if binary else len(data) // FACET_BYTES
    arrays = arrays_for(triangles // 2, "stl_arrays")  # a closed mesh has two triangles for each vertex
    if not arrays:
        return None
    found: Optional[Tuple[Vertices, Any]] = arrays.of_records(data[HEAD:]) if binary else arrays.of_text(data)
    return found


def of_stl(data: bytes) -> Vertices:
    """The corners of the triangles of an stl file, each once."""
    many = many_triangles(data)
    if many:
        return many[0]
    if is_binary(data):
        corners = dict.fromkeys(corners_of(data))
        return of_numbers(list(struct.unpack(f"<{3 * len(corners)}f", b"".join(corners))))  # type: ignore[arg-type]
    lines = {words: line for line, words in corners_of_text(data)}
    return of_words([(line, list(words)) for words, line in lines.items()])
