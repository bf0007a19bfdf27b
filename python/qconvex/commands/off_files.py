"""Faces as programs write them: OFF texts, ours and those of others, and the text of Qhull's option `o`."""
from __future__ import annotations

import re
import sys
from fractions import Fraction
from typing import Any, List, NamedTuple, Optional, Sequence, Tuple, Union

from . import contents
from .part_lines import end_of_line

# A whole number where it is whole.
Number = Union[int, Fraction]

# The words of a line, with its number from 1 on.
Row = Tuple[int, List[str]]

# The greatest absolute value of an exponent: those of doubles stay below 325. An exact number has about that many digits.
MOST_EXPONENT = 2000
EXPONENT = re.compile(r"[eE]([-+]?\d[\d_]*)$")
# What may stand before OFF: texture, colours and normals behind the three coordinates.
KEYWORD = re.compile(r"(ST)?C?N?OFF", re.IGNORECASE)
COUNT = re.compile("[0-9]+")
# How programs begin a text that has nothing but numbers then.
OF_NUMBERS = b"0123456789+-.eE \n"
PLAIN = re.compile(rb"OFF\n([0-9]{1,9}) ([0-9]{1,9})( [0-9]{1,9})?\n")


class Faces(NamedTuple):
    """The points that faces name by their places, each with three exact numbers, and the faces as lists of places."""

    points: List[Tuple[Number, ...]]
    faces: List[List[int]]


class Malformed(Exception):
    """A text that is no OFF text."""


def number(word: str) -> Number:
    """A number, exactly: whole where it is whole."""
    if word.lstrip("+-").isdecimal():
        return int(word)
    exponent = EXPONENT.search(word)
    if exponent and abs(int(exponent[1])) > MOST_EXPONENT:
        raise Malformed(f"the exponent of {word} is beyond {MOST_EXPONENT}")
    value = Fraction(word)
    return value.numerator if value.denominator == 1 else value


def lines_of(text: str) -> List[str]:
    """The lines of a text, whichever of the three line ends it has."""
    return text.replace("\r\n", "\n").replace("\r", "\n").split("\n")


def rows_of(text: str) -> List[Row]:
    """The rows of words, without comments, empty lines and the keyword."""
    bare = re.sub("#[^\r\n]*", "", text) if "#" in text else text
    split = ((place, line.split()) for place, line in enumerate(lines_of(bare), 1))
    rows = [row for row in split if row[1]]
    if not rows:
        return rows
    line, (keyword, *rest) = rows[0]
    if keyword.upper().endswith("OFF"):
        if not KEYWORD.fullmatch(keyword) or rest[:1] == ["BINARY"]:
            raise Malformed(f"line {line}: of OFF texts, those with three coordinates are read")
        return [(line, rest), *rows[1:]] if rest else rows[1:]
    return rows[1:] if rows[0][1] == ["3"] else rows


def text_of_numbers(body: bytes, count: int) -> Optional[bytes]:
    """A text with a line end at its end, if it has so many lines, none of them empty, of the letters of numbers; else None."""
    text = body if body.endswith(b"\n") else body + b"\n"
    if text.count(b"\n") != count or text.translate(None, OF_NUMBERS) or text[:1] in b" \n" or b"\n " in text or b"\n\n" in text:
        return None
    return text


def lines_at(text: bytes, start: int, count: int) -> bytes:
    """Some lines of a text from one on."""
    return text[end_of_line(text, start) if start else 0 : end_of_line(text, start + count) if count else 0]


def plain_parts(data: bytes) -> Optional[Tuple[bytes, bytes]]:
    """The lines of the points and of the faces of a text of numbers; None where `rows_of` has to look."""
    head = PLAIN.match(data)
    points, faces = map(int, head.groups()[:2]) if head else (0, 0)
    text = text_of_numbers(data[head.end() :], points + faces) if head else None
    return (lines_at(text, 0, points), lines_at(text, points, faces)) if text else None


def parts_of(rows: List[Row]) -> Tuple[List[Row], List[Row]]:
    """The rows of the points and of the faces, after the row of their counts, which has to count them right."""
    line, counts = rows[0] if rows else (1, [])
    if len(counts) == 1 and COUNT.fullmatch(counts[0]):
        later = next((place for place, words in rows if words == ["OFF"]), None)
        if later:
            raise Malformed(f"line {later}: the OFF text begins here, behind another output: give what `qconvex off` writes alone")
        raise Malformed("this is a point file, without faces: qconvex off < FILE writes the hull with its faces")
    if len(counts) < 2 or not all(map(COUNT.fullmatch, counts[:2])):
        raise Malformed(f"line {line}: no OFF text: the numbers of points and faces are missing")
    points, faces = map(int, counts[:2])
    if len(rows) != 1 + points + faces:
        raise Malformed(f"line {line}: {points} points and {faces} faces are announced, and {len(rows) - 1} rows follow")
    width = len(rows[1][1]) if points else 3
    for line, row in rows[1 : points + 1]:
        if len(row) != width or width < 3:
            raise Malformed(f"line {line}: a point has {len(row)} numbers" + f", the first one has {width}" * (width > 2))
    return rows[1 : points + 1], rows[points + 1 :]


def face_of(row: Row, count: int) -> List[int]:
    """The places that a face names."""
    line, words = row
    try:
        size = int(words[0])
        places = list(map(int, words[1 : size + 1]))
    except ValueError:
        size, places = 0, []
    if size < 1 or len(places) < size or min(places) < 0 or max(places) >= count:
        raise Malformed(f"line {line}: no face of {count} points: {' '.join(words)}")
    return places


def read_off(text: str) -> Faces:
    """The points and the faces of a text, one row each."""
    points, faces = parts_of(rows_of(text))
    rows = [words[:3] for _, words in points]
    try:
        found = wholes_of(rows) or [tuple(map(number, words)) for words in rows]
    except (ValueError, ZeroDivisionError) as wrong:
        raise Malformed(f"no OFF text: {wrong}") from wrong
    return Faces(found, [face_of(row, len(points)) for row in faces])


def wholes_of(rows: List[List[str]]) -> Optional[List[Tuple[Number, ...]]]:
    """The numbers of rows of three words if all are whole, by the shortest way; else None."""
    try:
        return [(int(x), int(y), int(z)) for x, y, z in rows]
    except ValueError:
        return None


def read_off_file(path: str) -> Faces:
    """The points and the faces of a file, or of standard input where the path is `-`; a wrong file ends the script."""
    try:
        return read_off(contents.text_of(path))
    except Malformed as wrong:
        sys.exit(f"{path}: {wrong}")


def off_text(points: Sequence[Sequence[Any]], faces: Sequence[List[int]]) -> str:
    """Points and faces as an OFF text."""
    edges = {frozenset(pair) for face in faces for pair in zip(face, face[1:] + face[:1]) if pair[0] != pair[1]}
    lines = ["OFF", f"{len(points)} {len(faces)} {len(edges)}"]
    lines += [" ".join(map(str, point)) for point in points]
    lines += [" ".join(map(str, [len(face), *face])) for face in faces]
    return "".join(f"{line}\n" for line in lines)
