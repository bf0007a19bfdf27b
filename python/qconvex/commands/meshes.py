"""The vertices and the faces of meshes, and the points of tables, by the endings of their files."""
from __future__ import annotations

import os
import sys
from typing import Callable, List, Mapping, Sized, TypeVar

from . import contents
from .exact_numbers import Vertices, of_lines, of_words
from .mesh_faces import FACES, Faces, plain_obj
from .off_files import Malformed, Row, lines_of, parts_of, plain_parts, rows_of
from .ply_files import of_ply
from .stl_files import of_stl
from .tables import of_npy, of_point_text, of_table

Read = TypeVar("Read", bound=Sized)


def text_of(data: bytes) -> str:
    """The text of a mesh."""
    return data.decode("utf-8", "replace")


def first_three(rows: List[Row], start: int) -> List[Row]:
    """Of each row the three words from a start on."""
    return [(line, words[start : start + 3]) for line, words in rows]


def of_off(data: bytes) -> Vertices:
    """The vertices of an OFF text; of COFF and its like the first three numbers of each row."""
    plain = plain_parts(data)
    return (of_lines(plain[0]) if plain else None) or of_words(first_three(parts_of(rows_of(text_of(data)))[0], 0))


def of_obj(data: bytes) -> Vertices:
    """The vertices of an OBJ text: its lines that begin with v. A weight other than 1 is refused."""
    plain = plain_obj(data)
    found = of_lines(plain[0]) if plain else None
    if found:
        return found
    split = ((line, text.split("#")[0].split()) for line, text in enumerate(lines_of(text_of(data)), 1))
    rows = [(line, words) for line, words in split if words[:1] == ["v"]]
    for line, words in rows:
        if len(words) == 5 and words[4].rstrip("0").rstrip(".") != "1":
            raise Malformed(f"line {line}: a vertex has the weight {words[4]}")
    return of_words(first_three(rows, 1))


READERS = {".off": of_off, ".obj": of_obj, ".ply": of_ply, ".stl": of_stl}
READERS.update({".xyz": of_table, ".csv": of_table, ".tsv": of_table, ".txt": of_point_text, ".npy": of_npy})


def vertices_of_mesh(path: str) -> Vertices:
    """The vertices of a file; one that can't be read ends the process."""
    return read(path, READERS)


def faces_of_mesh(path: str) -> Faces:
    """The faces of a file, by the places of their corners among its vertices; one that can't be read ends the process."""
    return read(path, FACES)


def read(path: str, readers: Mapping[str, Callable[[bytes], Read]]) -> Read:
    """What the reader for a file's ending reads in it, which is something."""
    ending = os.path.splitext(path)[1].lower()
    if ending not in readers:
        sys.exit(f"{path}: the files that are read end with {', '.join(readers)}")
    try:
        found = readers[ending](contents.bytes_of(path))
        if not (len(found.axes[0]) if isinstance(found, Vertices) else len(found)):
            raise Malformed("there are no vertices" if isinstance(found, Vertices) else "there are no faces")
        return found
    except Malformed as wrong:
        sys.exit(f"{path}: {wrong}")
