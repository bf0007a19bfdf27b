"""The texts of a hull for other programs."""
from __future__ import annotations

from typing import Any, NamedTuple

import numpy as np
from numpy.typing import NDArray

from .commands.number_texts import GROUPS, RECORDS, digit_groups, text_of


class Drawn(NamedTuple):
    """The places of the vertices, and the faces in flat lists by the numbers of these vertices, from 0 on."""

    places: NDArray[Any]
    corners: NDArray[np.intp]
    offsets: NDArray[np.intp]

    def polygons(self) -> Drawn:
        """The same without faces of one or two corners, of which a hull has one alone."""
        return self._replace(offsets=self.offsets[:1]) if len(self.corners) < 3 else self


def _rows(form: str, numbers: NDArray[Any]) -> str:
    """A text for each row. Python formats many numbers at once in a tenth of the time of a row at a time."""
    return form * len(numbers) % tuple(numbers.ravel().tolist())


def _places(drawn: Drawn, before: str = "") -> str:
    """A line for each vertex."""
    return _rows(f"{before}%r %r %r\n", drawn.places)


def _faces(drawn: Drawn, before: str, first: int = 0) -> str:
    """A line for each face: a prefix, in which {} is the number of its corners, and the corners."""
    sizes = np.diff(drawn.offsets).tolist()
    forms = {size: before.format(size) + " %d" * size + "\n" for size in set(sizes)}
    return "".join([forms[size] for size in sizes]) % tuple((drawn.corners[: drawn.offsets[-1]] + first).tolist())


def off_text(drawn: Drawn, edges: int) -> str:
    """Geomview's OFF: the counts, the vertices, and of each face the number of its corners and these, from 0 on."""
    return f"OFF\n{len(drawn.places)} {len(drawn.offsets) - 1} {edges}\n" + _places(drawn) + _faces(drawn, "{}")


def obj_text(drawn: Drawn) -> str:
    """Wavefront's OBJ: the vertices, and the corners of each face of three corners or more, from 1 on."""
    return _places(drawn, "v ") + _faces(drawn.polygons(), "f", 1)


def ply_text(drawn: Drawn) -> str:
    """Stanford's PLY, as text: the vertices as whole numbers or doubles, and the faces of three corners or more."""
    solid = drawn.polygons()
    kind = "int" if drawn.places.dtype.kind == "i" else "double"
    head = f"ply\nformat ascii 1.0\nelement vertex {len(drawn.places)}\n" + "".join(f"property {kind} {axis}\n" for axis in "xyz")
    head += f"element face {len(solid.offsets) - 1}\nproperty list int int vertex_indices\nend_header\n"
    return head + _places(drawn) + _faces(solid, "{}")


def stl_text(places: NDArray[Any], triangles: NDArray[np.intp], normals: NDArray[np.float64]) -> str:
    """STL, as text: the normal and the corners of each triangle, which are numbers of places."""
    lines = np.array(_rows("vertex %r %r %r\n", places).encode("ascii").splitlines(keepends=True), "S")
    blocks = [b"solid hull\n"]
    for start in range(0, len(triangles), RECORDS):
        chosen = triangles[start : start + RECORDS]
        x, y, z = _units(normals[start : start + RECORDS].T)
        texts = "facet normal ", x, " ", y, " ", z, "\nouter loop\n", *map(lines.take, chosen.T), "endloop\nendfacet\n"
        blocks.append(text_of([np.array(text, "S") for text in texts], len(chosen)))
    return b"".join([*blocks, b"endsolid hull\n"]).decode("ascii")


def _units(normals: NDArray[np.float64]) -> NDArray[np.bytes_]:
    """The texts of unit normals as the nearest float32, by which they are read back: with twelve decimals, or nine digits."""
    near = normals.astype(np.float32).astype(np.float64)
    sizes = np.abs(near)
    digits = np.rint(sizes * 1e12).astype(np.int64)  # of the exact product, which has 24 bits and 28
    groups = [GROUPS + digits // GROUPS**place % GROUPS for place in (2, 1, 0)]
    heads = np.array([b"\0\0000.", b"\0-0."], "S4").view(np.uint32).take((near < 0).astype(np.intp))
    texts: NDArray[np.bytes_] = np.stack([heads, *map(digit_groups(b"0").take, groups)], axis=-1).view("S16")[..., 0]
    for number in -1.0, 0.0, 1.0:
        texts[near == number] = repr(number)
    tiny = (sizes < 2.0**-16) & (sizes != 0)
    texts[tiny] = [f"{number:.8e}" for number in near[tiny].tolist()]
    return texts
