"""The texts of `hullfacets` of many faces, written by numpy: what the loops write, byte for byte."""
from __future__ import annotations

from itertools import chain
from typing import Any, Callable, Dict, Iterable, Iterator, List, Sequence

from .closed_surfaces import Surface
from .number_texts import Field, blocks_of, each, rows

try:
    import numpy as np
except ImportError:
    np = None  # type: ignore[assignment]


def without_first(count: int, blocks: Iterator[bytes]) -> Iterator[bytes]:
    """The text without its first bytes."""
    return chain([next(blocks)[count:]], blocks)


def records(between: str, fields: List[Field]) -> Iterator[bytes]:
    """The records with a text between each two."""
    return without_first(len(between), blocks_of([fields[0]._replace(before=between + fields[0].before), *fields[1:]]))


def text_blocks(hull: Surface, _indices: Sequence[int]) -> Iterable[bytes]:
    """What is told of a hull, in lines."""
    facets = [
        each("facet ", np.arange(len(hull.normals))),
        rows(": normal ", " ", hull.normals),
        each(", offset ", hull.levels),
        Field(", corners ", " ", hull.corners, hull.offsets),
        Field(", neighbours ", " ", hull.neighbours, hull.offsets),
    ]
    corners = [
        each("corner ", np.arange(len(hull.points))),
        rows(": point ", " ", hull.points),
        Field(", facets ", " ", hull.around, hull.degrees),
    ]
    head = b"six times the volume: %d\n" % hull.six_volumes
    return chain([head], records("\n", facets), [b"\n"], records("\n", corners), [b"\n"])


def json_blocks(hull: Surface, indices: Sequence[int]) -> Iterable[bytes]:
    """The same as one JSON object, as Python's module json writes it."""
    facets = [
        rows('{"normal": [', ", ", hull.normals),
        each('], "offset": ', hull.levels),
        Field(', "corners": [', ", ", hull.corners, hull.offsets),
        Field('], "neighbours": [', ", ", hull.neighbours, hull.offsets),
    ]
    corners = [rows('{"point": [', ", ", hull.points), Field('], "facets": [', ", ", hull.around, hull.degrees)]
    ends = ["]}", "]}"]
    if indices:
        given = np.array(indices, np.int64)
        facets.append(Field('], "indices": [', ", ", given[hull.corners], hull.offsets))
        corners.append(each('], "index": ', given))
        ends[1] = "}"
    counts = len(hull.points), len(hull.corners) // 2, len(hull.normals)
    head = b'{"six_volumes": %d, "f_vector": [%d, %d, %d], "facets": [' % (hull.six_volumes, *counts)
    middle = f'{ends[0]}], "corners": ['.encode()
    foot = f"{ends[1]}]}}\n".encode()
    return chain([head], records(f"{ends[0]}, ", facets), [middle], records(f"{ends[1]}, ", corners), [foot])


def normaliz_blocks(hull: Surface, _indices: Sequence[int]) -> Iterable[bytes]:
    """An input file of Normaliz."""
    head = b"amb_space 3\ninhom_inequalities %d\n" % len(hull.normals)
    return chain([head], records("\n", [rows("", " ", -hull.normals), each(" ", hull.levels)]), [b"\n"])


def lrs_blocks(hull: Surface, _indices: Sequence[int]) -> Iterable[bytes]:
    """An H-representation for lrs."""
    head = b"hull\nH-representation\nbegin\n%d 4 integer\n" % len(hull.normals)
    return chain([head], records("\n", [each("", hull.levels), rows(" ", " ", -hull.normals)]), [b"\nend\n"])


def polymake_blocks(hull: Surface, _indices: Sequence[int]) -> Iterable[bytes]:
    """A script of polymake."""
    head = b'use application "polytope";\ndeclare $p = new Polytope<Rational>(VERTICES=>['
    vertices = records("],", [rows("[1, ", ", ", hull.points)])
    facets = records("],", [each("[", hull.levels), rows(", ", ", ", -hull.normals)])
    return chain([head], vertices, [b"]], LINEALITY_SPACE=>[], FACETS=>["], facets, [b"]], AFFINE_HULL=>[]);\n"])


def data_of(ids: Sequence[int], points: Any, corners: Any, offsets: Any) -> str:
    """What `hullview` shows of a hull, in JSON: the indices of its points, their places, which are whole, and its faces."""
    parts = records("],[", [rows("", ",", points)]), records("],[", [Field("", ",", corners, offsets)])
    texts = ",".join(map(str, ids)), *(b"".join(blocks).decode("ascii") for blocks in parts)
    return '{"ids":[%s],"points":[[%s]],"faces":[[%s]]}' % texts


BLOCKS: Dict[str, Callable[[Surface, Sequence[int]], Iterable[bytes]]] = {
    "text": text_blocks,
    "json": json_blocks,
    "normaliz": normaliz_blocks,
    "polymake": polymake_blocks,
    "lrs": lrs_blocks,
}


def blocks_in_form(hull: Surface, indices: Sequence[int], form: str) -> Iterable[bytes]:
    """The text of a hull in a form, with the indices that corners have in the input, where there are any."""
    return BLOCKS[form](hull, indices)
