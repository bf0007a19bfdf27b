"""The vertices of ply files, text and binary, by the places that the header gives to x, y and z."""
from __future__ import annotations

import struct
from itertools import chain
from typing import List, NamedTuple, Tuple

from .exact_numbers import Vertices, arrays_for, of_lines, of_numbers, of_words
from .off_files import COUNT, Malformed, Row, lines_at, lines_of, text_of_numbers

# The types of ply, by struct's letters.
TYPES = dict(zip("char uchar short ushort int uint float double".split(), "bBhHiIfd"))
TYPES.update(zip("int8 uint8 int16 uint16 int32 uint32 float32 float64".split(), "bBhHiIfd"))
ORDERS = {"binary_little_endian": "<", "binary_big_endian": ">", "ascii": ""}


class Element(NamedTuple):
    """An element of a ply file: its name, how many rows it has, and the words of each of its properties."""

    name: str
    rows: int
    properties: List[List[str]]

    def has_list(self) -> bool:
        """Whether one of its properties is a list."""
        return any(words[0] == "list" for words in self.properties)


class Header(NamedTuple):
    """The header of a ply file."""

    elements: List[Element]
    order: str  # of the bytes; none for text
    lines: int
    end: int  # where the body begins

    def rows(self) -> int:
        """The rows of all elements."""
        return sum(element.rows for element in self.elements)

    def vertex(self) -> Tuple[List[Element], Element]:
        """The elements before the vertices, and that of the vertices, which has x, y and z."""
        names = [element.name for element in self.elements]
        if "vertex" not in names:
            raise Malformed("the ply file has no element vertex")
        place = names.index("vertex")
        element = self.elements[place]
        if not {"x", "y", "z"} <= {words[-1] for words in element.properties}:
            raise Malformed("the element vertex of the ply file has no x, y and z")
        return self.elements[:place], element


def header_of(data: bytes) -> Header:
    """The header of a ply file."""
    mark = data.find(b"end_header")
    if not data.startswith(b"ply") or mark < 0:
        raise Malformed("the header of a ply file is missing")
    end = mark + len(b"end_header")
    end += 2 if data[end : end + 2] == b"\r\n" else 1
    elements: List[Element] = []
    order = None
    lines = lines_of(data[:end].decode("ascii", "replace"))[:-1]
    for place, words in enumerate(map(str.split, lines), 1):
        try:
            if words[:1] == ["format"]:
                order = ORDERS.get(words[1])
            elif words[:1] == ["element"]:
                elements.append(Element(words[1], count_of(words[2]), []))
            elif words[:1] == ["property"]:
                elements[-1].properties.append(property_of(words[1:]))
                if elements[-1].name == "vertex" and words[1] == "list":
                    raise Malformed(f"line {place}: a vertex has a list, {words[-1]}, which this reader does not read")
        except (IndexError, KeyError, ValueError):
            raise Malformed(f"line {place}: {' '.join(words)} is no {words[0]} of a ply file") from None
    if order is None:
        raise Malformed("the format of the ply file is unknown")
    return Header(elements, order, len(lines), end)


def count_of(word: str) -> int:
    """A number from 0 on."""
    if not COUNT.fullmatch(word):
        raise ValueError
    return int(word)


def property_of(words: List[str]) -> List[str]:
    """The words of a property, which names types that are known."""
    types = words[1:3] if words[0] == "list" else words[:1]
    if len(words) != len(types) + (2 if words[0] == "list" else 1) or not all(name in TYPES for name in types):
        raise ValueError
    return words


def of_ply(data: bytes) -> Vertices:
    """The vertices of a ply file."""
    header = header_of(data)
    return of_ply_bytes(data[header.end :], header) if header.order else of_ply_text(data[header.end :], header)


def ply_rows(body: bytes, header: Header) -> List[Row]:
    """The rows of a text, one for each that its header counts."""
    split = ((line, text.split()) for line, text in enumerate(lines_of(body.decode("utf-8", "replace")), header.lines + 1))
    rows = [row for row in split if row[1] and row[1][0] != "comment"]
    wanted = header.rows()
    if len(rows) != wanted:
        raise Malformed(f"the header of the ply file counts {wanted} rows, and {len(rows)} rows follow line {header.lines}")
    return rows


def of_ply_text(body: bytes, header: Header) -> Vertices:
    """The vertices of a text, behind the rows of the elements before."""
    before, element = header.vertex()
    places = [[words[-1] for words in element.properties].index(axis) for axis in "xyz"]
    first = sum(other.rows for other in before)
    text = text_of_numbers(body, header.rows()) if places == [0, 1, 2] else None
    plain = of_lines(lines_at(text, first, element.rows)) if text else None
    if plain:
        return plain
    found = ply_rows(body, header)[first : first + element.rows]
    for line, words in found:
        if len(words) != len(element.properties):
            raise Malformed(f"line {line}: a vertex has {len(words)} numbers; its properties are {len(element.properties)}")
    return of_words([(line, [words[place] for place in places]) for line, words in found])


def of_ply_bytes(body: bytes, header: Header) -> Vertices:
    """The vertices of bytes, behind those of the elements before, which must have no lists."""
    before, element = header.vertex()
    names = [words[-1] for words in element.properties]
    x, y, z = map(names.index, "xyz")
    row = layout_of(element, header.order)
    first = sum(other.rows * layout_of(other, header.order).size for other in before)
    end = first + element.rows * row.size
    if len(body) < end:
        raise Malformed(f"the ply file has {len(body)} bytes behind its header; its vertices end at byte {end}")
    arrays = arrays_for(element.rows)
    if arrays:
        vertices: Vertices = arrays.of_records(body[first:end], row.format, [x, y, z])
        return vertices
    rows = row.iter_unpack(body[first:end])
    return of_numbers(list(chain.from_iterable((row[x], row[y], row[z]) for row in rows)))


def layout_of(element: Element, order: str) -> struct.Struct:
    """How the bytes of an element are laid out."""
    if element.has_list():
        raise Malformed(f"the element {element.name} of the ply file has a list, and comes before the vertices")
    return struct.Struct(order + "".join(TYPES[words[0]] for words in element.properties))
