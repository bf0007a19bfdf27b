"""Points of tables, exactly: rows of decimals with blanks, commas, tabs or semicolons, texts as rbox writes them, and numpy's arrays."""
from __future__ import annotations

import io
import re
from typing import List, Optional

from .exact_numbers import Vertices, of_lines, of_numbers, of_words
from .off_files import COUNT, Malformed, Row, lines_of, text_of_numbers

SEPARATORS = ";,\t"
AXES = ["x", "y", "z"]
NUMBER_STARTS = "0123456789+-."
# The header of a point file, with a comment behind the 3, and a row of names.
HEAD = re.compile(rb"3(?: +[^-+.0-9 \t\v\f\r\n][^\r\n]*)?\n([0-9]{1,9})\n")
NAMES = re.compile(rb"x([ ;,\t])y\1z\n")


def rows_of_table(data: bytes) -> List[Row]:
    """The rows of a table, without empty lines and comments. The first of SEPARATORS in its first row parts all rows."""
    lines = lines_of(data.decode("utf-8-sig", "replace"))
    numbered = [(place, text) for place, line in enumerate(lines, 1) if (text := line.split("#")[0].strip())]
    separator = next((sign for sign in SEPARATORS if numbered and sign in numbered[0][1]), None)
    return [(place, [word.strip(" \"'") for word in text.split(separator)]) for place, text in numbered]


def of_plain_table(data: bytes) -> Optional[Vertices]:
    """The points of a table of three columns of decimals, with x, y and z above them or not; None of any other."""
    names = NAMES.match(data)
    body = (data[names.end() :] if names else data).rstrip(b"\n") + b"\n"
    first = data[: data.find(b"\n")]
    separator = next((bytes([sign]) for sign in SEPARATORS.encode() if sign in first), None)
    return of_lines(body, separator) if text_of_numbers(body.replace(separator or b" ", b" "), body.count(b"\n")) else None


def of_table(data: bytes) -> Vertices:
    """The points of a table: its columns x, y and z where its first row names them, else the first three."""
    plain = of_plain_table(data)
    if plain:
        return plain
    rows = rows_of_table(data)
    if not rows:
        raise Malformed("there are no points")
    names = [name.lower() for name in rows[0][1]]
    columns = [0, 1, 2]
    if not any(word[:1] in NUMBER_STARTS or word in ("nan", "inf") for word in names):
        del rows[0]
        if set(AXES) <= set(names):
            columns = list(map(names.index, AXES))
        elif len(names) > 3:
            raise Malformed(f"line 1: of {len(names)} columns none is named x, y or z")
    for line, words in rows:
        if len(words) != len(names) or len(words) < 3:
            raise Malformed(f"line {line}: a row has {len(words)} numbers, the first one {len(names)}; a point has three at least")
    return of_words([(line, [words[column] for column in columns]) for line, words in rows])


def of_point_text(data: bytes) -> Vertices:
    """The points of a point file, of decimals, too, as rbox writes them; of a text without its header those of its rows."""
    head = HEAD.match(data)
    text = text_of_numbers(data[head.end() :], int(head[1])) if head else None
    plain = of_lines(text) if text else None
    if plain:
        return plain
    rows = [(line, numbers_of(text)) for line, text in enumerate(lines_of(data.decode("utf-8", "replace")), 1)]
    rows = [row for row in rows if row[1]]
    if rows and len(rows[0][1]) == 3:
        return of_table(data)
    header: List[str] = []
    while rows and len(header) < 2:
        header += rows.pop(0)[1]
    if len(header) != 2 or "3" not in header or not all(map(COUNT.fullmatch, header)):
        raise Malformed("a point file begins with 3 and the number of points, each on a line")
    count = int(header[1] if header[0] == "3" else header[0])
    if len(rows) != count:
        raise Malformed(f"the header counts {count} points, and {len(rows)} rows follow")
    for line, words in rows:
        if len(words) != 3:
            raise Malformed(f"line {line}: a point has {len(words)} numbers")
    return of_words(rows)


def numbers_of(line: str) -> List[str]:
    """The words of a line before its comment, which the first word begins that has no digit, sign or point in front."""
    words = line.split()
    return words[: next((place for place, word in enumerate(words) if word[0] not in NUMBER_STARTS), len(words))]


def of_npy(data: bytes) -> Vertices:
    """The points of an array (n, 3) of numpy, of whole numbers or of floats with 64 bits at most."""
    try:
        import numpy
    except ImportError:
        raise Malformed("numpy is missing, which reads .npy") from None
    try:
        array = numpy.load(io.BytesIO(data), allow_pickle=False)
    except (ValueError, EOFError) as wrong:
        raise Malformed(f"no array of numpy: {wrong}") from None
    if getattr(array, "ndim", 0) != 2 or array.shape[1] != 3:
        raise Malformed(f"points have the shape (n, 3), not {getattr(array, 'shape', None)}")
    if array.dtype.kind not in "iuf" or array.dtype.itemsize > 8:
        raise Malformed(f"points are whole numbers or floats of 64 bits at most, not {array.dtype}")
    from .vertex_arrays import of_floats

    if array.dtype.kind == "f":
        return of_floats(array.T)
    is_short = abs(array.astype(float)).max(initial=0) < 1 << 61
    return Vertices(array.T.astype("int64"), 1, 2) if is_short else of_numbers(array.ravel().tolist())
