"""Reads the faces of a hull and gives the exact normals, offsets, neighbours and incidences, and six times the volume.

    hullfacets [FILE]                      FILE is the OFF text of `off`; standard input where none is named
    hullfacets --form json [FILE]          the same as one JSON object, with the numbers of vertices, edges and faces
    hullfacets --form normaliz [FILE]      the inequalities, and the equations of a flat set, as an input file of Normaliz,
    hullfacets --form polymake [FILE]      as a script of polymake that makes the polytope $p of vertices and facets,
    hullfacets --form lrs [FILE]           or as an H-representation for lrs

FILE may also be the text of `Fx off`: then JSON names the corners by their indices in the input as well. All numbers are
whole. The points of the hull are the points p with `normal . p <= offset` for every facet; normal and offset have no common
divisor. The neighbours of a facet stand in the order of its sides: the first lies beyond the
side from its first corner to its second. Of each corner the facets are listed in their order round it, counterclockwise
from outside. A flat hull has one facet without neighbours, and the volume 0; a line or a point has none. The forms for
other programs describe those, too: by the equations of their plane, line or place, and what bounds them in it.

    qconvex off < examples/unit-cube.txt | hullfacets
    qconvex Fx off < examples/unit-cube.txt | hullfacets --form json
"""
from __future__ import annotations

import argparse
import gc
import json
import signal
import sys
from math import gcd
from typing import Any, Dict, Iterable, Iterator, List, Optional, Sequence, Tuple

from . import contents
from .closed_surfaces import arrays_of, surface_of
from .halfspaces import FORMS
from .off_arrays import arrays_of_text
from .off_files import COUNT, Faces, Malformed, read_off
from .surface_forms import blocks_in_form
from .vectors import Vector, cross, dot, minus, polygon_normal

# The facet at each side, by the corners of the side.
Owners = Dict[Tuple[int, int], int]


def plane(points: Sequence[Vector], face: List[int]) -> Tuple[List[int], int]:
    """The normal and the offset of a face's plane, without a common divisor."""
    corners = [points[corner] for corner in face]
    normal = polygon_normal(corners)
    offset = dot(normal, corners[0])
    divisor = gcd(*normal, offset)
    return [part // divisor for part in normal], offset // divisor


def sides(face: List[int]) -> Iterator[Tuple[int, int]]:
    """The sides of a face, in order."""
    return zip(face, face[1:] + face[:1])


def six_volumes(points: Sequence[Vector], faces: Sequence[List[int]]) -> int:
    """Six times the volume: the sum over the triangles of all faces."""
    total = 0
    for face in faces:
        first = minus(points[face[0]], points[0])
        for one, other in zip(face[1:], face[2:]):
            total += dot(cross(minus(points[one], points[0]), minus(points[other], points[0])), first)
    return total


def incidences(points: Sequence[Vector], faces: Sequence[List[int]], owner: Owners) -> List[List[int]]:
    """Of each corner the facets round it."""
    around: List[List[int]] = [[] for _ in points]
    for place, face in enumerate(faces):
        for corner in face:
            around[corner].append(place)
    return [in_order(corner, places, faces, owner) for corner, places in enumerate(around)]


def in_order(corner: int, places: List[int], faces: Sequence[List[int]], owner: Owners) -> List[int]:
    """The facets round a corner, the lowest first, counterclockwise from outside."""
    order = places[:1]
    while len(order) < len(places):
        face = faces[order[-1]]
        order.append(owner[corner, face[face.index(corner) - 1]])
    return order


def described(points: Sequence[Vector], faces: Sequence[List[int]]) -> Dict[str, Any]:
    """All that is told of a hull."""
    solid = [face for face in faces if len(face) > 2]
    numbers = [len(points), sum(map(len, solid)) // 2, len(solid)] if len(solid) > 1 else [len(points)] * (2 if solid else 1)
    owner = {side: place for place, face in enumerate(solid) for side in sides(face)}
    facets = []
    for face in solid:
        normal, offset = plane(points, face)
        neighbours = [owner[end, start] for start, end in sides(face) if (end, start) in owner]
        facets.append({"normal": normal, "offset": offset, "corners": face, "neighbours": neighbours})
    around = incidences(points, solid, owner)
    corners = [{"point": list(point), "facets": places} for point, places in zip(points, around)]
    return {"six_volumes": six_volumes(points, faces), "f_vector": numbers, "facets": facets, "corners": corners}


def with_indices(told: Dict[str, Any], indices: Sequence[int]) -> Dict[str, Any]:
    """The same with the indices that corners have in the input."""
    for facet in told["facets"]:
        facet["indices"] = [indices[corner] for corner in facet["corners"]]
    for corner, index in zip(told["corners"], indices):
        corner["index"] = index
    return told


def joined(numbers: List[int]) -> str:
    """Numbers with blanks between; the text of a list is the fastest way to these."""
    return str(numbers)[1:-1].replace(",", "") or "none"


def lines_of(hull: Dict[str, Any]) -> Iterator[str]:
    """What is told of a hull, in lines."""
    yield f"six times the volume: {hull['six_volumes']}"
    for place, facet in enumerate(hull["facets"]):
        yield (
            f"facet {place}: normal {joined(facet['normal'])}, offset {facet['offset']}, "
            f"corners {joined(facet['corners'])}, neighbours {joined(facet['neighbours'])}"
        )
    for place, corner in enumerate(hull["corners"]):
        yield f"corner {place}: point {joined(corner['point'])}, facets {joined(corner['facets'])}"


def whole_points(hull: Faces) -> Optional[List[Vector]]:
    """The points, if all of their coordinates are whole."""
    if any(part != int(part) for point in hull.points for part in point):
        return None
    return [(int(x), int(y), int(z)) for x, y, z in hull.points]


def in_form(points: Sequence[Vector], faces: Sequence[List[int]], indices: Sequence[int], form: str) -> Iterable[str]:
    """The lines of a form."""
    if form in FORMS:
        return FORMS[form](points, faces)
    told = described(points, faces)
    return [json.dumps(with_indices(told, indices) if indices else told)] if form == "json" else lines_of(told)


def parted(data: bytes) -> Tuple[List[int], bytes]:
    """What stands before an OFF text where it is the text of `Fx off`, a count and as many indices; and the OFF text."""
    start = max(data.find(b"OFF"), 0)
    words = data[:start].decode("utf-8", "replace").split()
    if not words or not all(map(COUNT.fullmatch, words)):
        return [], data
    return list(map(int, words)), data[start:]


def indices_of(before: List[int], count: int) -> List[int]:
    """The indices that stand before an OFF text, one for each of its points, or none."""
    if before and not len(before) - 1 == before[0] == count:
        raise Malformed(f"{len(before) - 1} indices stand before the OFF text, which has {count} points")
    return before[1:]


def expect_outward(volume: int) -> None:
    """Ends the process if six times the volume is negative: the normals would point inside."""
    if volume < 0:
        sys.exit("hullfacets: the faces run clockwise seen from outside")


def blocks_of(data: bytes, form: str) -> Iterable[bytes]:
    """The text in a form of the hull in a file, in blocks: of many faces by numpy, where it is there, else by loops."""
    before, body = parted(data)
    surface = surface_of(arrays_of_text(body))
    if surface:
        expect_outward(surface.six_volumes)
        return blocks_in_form(surface, indices_of(before, len(surface.points)), form)
    hull = read_off(body.decode("utf-8", "replace"))
    indices, points = indices_of(before, len(hull.points)), whole_points(hull)
    if not hull.faces or points is None:
        sys.exit("hullfacets: a hull has faces, and whole coordinates")
    surface = surface_of(arrays_of(points, hull.faces))
    expect_outward(surface.six_volumes if surface else six_volumes(points, hull.faces))
    if surface:
        return blocks_in_form(surface, indices, form)
    return [f"{line}\n".encode() for line in in_form(points, hull.faces, indices, form)]


def main() -> None:
    """Writes what is asked on standard output; a file that is no hull ends the process with a line that says why."""
    parser = argparse.ArgumentParser(prog="hullfacets", description=__doc__, formatter_class=argparse.RawDescriptionHelpFormatter)
    parser.add_argument("--form", choices=["text", "json", *FORMS], default="text", help="the form of the answer (default text)")
    parser.add_argument("--json", action="store_const", dest="form", const="json", help="the same as --form json")
    parser.add_argument("file", nargs="?", default="-", metavar="FILE", help="the text of `off` (default: standard input)")
    options = parser.parse_args()
    signal.signal(signal.SIGPIPE, signal.SIG_DFL)
    if hasattr(sys, "set_int_max_str_digits"):
        sys.set_int_max_str_digits(0)  # products of coordinates have more digits than newer versions write by themselves
    gc.disable()  # what is made stays to the end
    try:
        blocks = blocks_of(contents.bytes_of(options.file), options.form)
    except Malformed as wrong:
        sys.exit(f"{options.file}: {wrong}")
    except (KeyError, ZeroDivisionError):  # a side of one face alone, or a face whose corners lie in one line
        sys.exit("hullfacets: the faces are no closed surface; scripts/tools/check_hull.py says what is wrong")
    sys.stdout.buffer.writelines(blocks)


if __name__ == "__main__":
    main()
