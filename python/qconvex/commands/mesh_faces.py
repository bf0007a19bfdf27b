"""The faces of meshes, each as the places of its corners among the vertices: in off, obj, stl and ply."""
from __future__ import annotations

import re
import struct
from typing import Any, Iterator, List, Optional, Sequence, Tuple, Union

from .off_files import Malformed, face_of, lines_at, lines_of, parts_of, plain_parts, rows_of, text_of_numbers
from .ply_files import TYPES, Element, header_of, ply_rows
from .stl_files import corners_of, many_triangles

Face = List[int]
Faces = Union[List[Face], Any]  # lists, or an array (n, corners)
# How lines of an OBJ text begin that have neither a vertex nor a face.
OBJ_OTHER = re.compile(rb"(v[npt]|[#a-eg-uw-zA-Z].?)?", re.DOTALL)


def lists_of(faces: Faces) -> List[Face]:
    """The faces as lists."""
    lists: List[Face] = faces if isinstance(faces, list) else faces.tolist()
    return lists


def array_of(text: bytes, first: Optional[int], count: int) -> Optional[Any]:
    """The faces of lines, behind the number of corners of each or from a number on that the first vertex has; None if they are
    not whole numbers with blanks between, as many in each line, or name none of so many vertices."""
    from .off_arrays import numbers_of

    found = numbers_of(text)
    if found is None or (found[1] != found[1][0]).any():
        return None
    rows = found[0].reshape(len(found[1]), -1)
    if first is None and (rows[:, 0] != rows.shape[1] - 1).any():
        return None
    rows = rows[:, 1:] if first is None else rows - first
    return rows if rows.size and 0 <= rows.min() and rows.max() < count else None


def faces_of_off(data: bytes) -> Faces:
    """The faces of an OFF text."""
    plain = plain_parts(data)
    found = array_of(plain[1], None, plain[0].count(b"\n")) if plain else None
    if found is not None:
        return found
    points, faces = parts_of(rows_of(data.decode("utf-8", "replace")))
    return [face_of(row, len(points)) for row in faces]


def plain_obj(data: bytes) -> Optional[Tuple[bytes, bytes]]:
    """What lines of an OBJ text have behind v, and behind f, if those of each kind follow each other; None where each has to be looked at.

    It is nothing where there are no such lines.
    """
    rest, parts = b"\n%b\n" % data, []
    for head in b"\nv ", b"\nf ":
        first, last = rest.find(head), rest.rfind(head)
        if first < 0:
            parts.append(b"")
            continue
        end = rest.find(b"\n", last + 1)
        lines = rest[first:end]
        if lines.count(b"\n") != lines.count(head):
            return None
        parts.append(lines.replace(head, b"\n")[1:] + b"\n")
        rest = rest[:first] + rest[end:]
    if b"\r" in data or not all(OBJ_OTHER.fullmatch(line[:2]) for line in rest.split(b"\n")):
        return None
    return parts[0], parts[1]


def faces_of_obj(data: bytes) -> Faces:
    """The faces of an OBJ text. Numbers below 0 count back from the last vertex before the face."""
    plain = plain_obj(data)
    found = array_of(plain[1], 1, plain[0].count(b"\n")) if plain and plain[1] else None
    if found is not None:
        return found
    vertices, faces = 0, []
    for line, text in enumerate(lines_of(data.decode("utf-8", "replace")), 1):
        words = text.split("#")[0].split()
        vertices += words[:1] == ["v"]
        if words[:1] != ["f"]:
            continue
        try:
            numbers = [int(word.split("/")[0]) for word in words[1:]]
        except ValueError:
            numbers = [0]
        faces.append((line, [number - 1 if number > 0 else vertices + number if number else -1 for number in numbers]))
    return [checked(line, face, vertices) for line, face in faces]


def checked(line: int, face: Face, vertices: int) -> Face:
    """A face all of whose corners are vertices."""
    if not face or not all(0 <= corner < vertices for corner in face):
        raise Malformed(f"line {line}: no face of {vertices} vertices")
    return face


def faces_of_stl(data: bytes) -> Faces:
    """The triangles of an stl file."""
    many = many_triangles(data)
    if many:
        return many[1]
    corners: Sequence[object] = corners_of(data)
    places = {corner: place for place, corner in enumerate(dict.fromkeys(corners))}
    found = [places[corner] for corner in corners]
    return [found[place : place + 3] for place in range(0, len(found), 3)]


def faces_of_ply(data: bytes) -> Faces:
    """The faces of a ply file: the lists of its element face."""
    header = header_of(data)
    counts = {element.name: element.rows for element in header.elements}
    face = next((element for element in header.elements if element.name == "face"), None)
    if face is None or [words[0] for words in face.properties].count("list") != 1:
        raise Malformed("the ply file has no element face with one list")
    if header.order:
        faces = list(lists_of_bytes(data, header.end, header.elements, header.order))
    else:
        first = sum(element.rows for element in header.elements[: header.elements.index(face)])
        text = text_of_numbers(data[header.end :], header.rows()) if len(face.properties) == 1 else None
        found = array_of(lines_at(text, first, face.rows), None, counts["vertex"]) if text else None
        if found is not None:
            return found
        rows = ply_rows(data[header.end :], header)[first : first + face.rows]
        before = [words[0] for words in face.properties].index("list")
        faces = [face_of((line, words[before:]), counts["vertex"]) for line, words in rows]
    return [checked(header.lines, corners, counts["vertex"]) for corners in faces]


def lists_of_bytes(data: bytes, at: int, elements: Sequence[Element], order: str) -> Iterator[Face]:
    """The lists of the element face, behind the elements before it."""
    for element in elements:
        for _ in range(element.rows):
            for words in element.properties:
                at, numbers = property_at(data, at, words, order)
                if element.name == "face" and words[0] == "list":
                    yield numbers


def property_at(data: bytes, at: int, words: Sequence[str], order: str) -> Tuple[int, List[int]]:
    """Where the property ends that begins at a byte, and its numbers."""
    try:
        count = 1
        if words[0] == "list":
            (count,) = struct.unpack_from(order + TYPES[words[1]], data, at)
            at += struct.calcsize(order + TYPES[words[1]])
        layout = f"{order}{count}{TYPES[words[-2]]}"
        return at + struct.calcsize(layout), list(struct.unpack_from(layout, data, at))
    except struct.error:
        raise Malformed("the ply file ends before its last face") from None


FACES = {".off": faces_of_off, ".obj": faces_of_obj, ".ply": faces_of_ply, ".stl": faces_of_stl}
