"""The inequalities and equations of a hull, and the texts in which other programs read them."""
from __future__ import annotations

from math import gcd
from typing import Iterable, List, NamedTuple, Sequence, Tuple

from .vectors import Vector, cross, dot, minus, polygon_normal, times

# The numbers b and a of b + a . p.
Row = Tuple[int, ...]

AXES: Tuple[Vector, ...] = ((1, 0, 0), (0, 1, 0), (0, 0, 1))


class Halfspaces(NamedTuple):
    """What a hull is: the points p with b + a . p >= 0 for each inequality (b, a), and = 0 for each equation."""

    inequalities: List[Row]
    equations: List[Row]


def row_of(normal: Vector, offset: int) -> Row:
    """The row of `normal . p <= offset`, without a common divisor. Zeros alone raise ZeroDivisionError."""
    row = (offset, *times(-1, normal))
    divisor = gcd(*row)
    return tuple(number // divisor for number in row)


def halfspaces_of(points: Sequence[Vector], faces: Sequence[Sequence[int]]) -> Halfspaces:
    """The inequalities and equations of a hull of any dimension."""
    if len(faces) > 1:
        planes = ((polygon_normal([points[corner] for corner in face]), points[face[0]]) for face in faces)
        return Halfspaces([row_of(normal, dot(normal, point)) for normal, point in planes], [])
    corners = [points[corner] for corner in faces[0]]
    of_dimension = {1: of_place, 2: of_segment}
    return of_dimension.get(len(corners), of_polygon)(corners)


def of_polygon(corners: List[Vector]) -> Halfspaces:
    """A plane, and in it what bounds the polygon along each side."""
    normal = polygon_normal(corners)
    sides = ((cross(minus(end, start), normal), start) for start, end in zip(corners, corners[1:] + corners[:1]))
    return Halfspaces([row_of(out, dot(out, start)) for out, start in sides], [row_of(normal, dot(normal, corners[0]))])


def of_segment(corners: List[Vector]) -> Halfspaces:
    """A line, and on it the two ends. Equal ends raise ZeroDivisionError, as a polygon without a plane does."""
    start, end = corners
    along = minus(end, start)
    ends = [row_of(along, dot(along, end)), row_of(times(-1, along), -dot(along, start))]
    moved = next(place for place, part in enumerate(along) if part)
    across = [cross(along, axis) for place, axis in enumerate(AXES) if place != moved]
    return Halfspaces(ends, [row_of(vector, dot(vector, start)) for vector in across])


def of_place(corners: List[Vector]) -> Halfspaces:
    """One point."""
    return Halfspaces([], [row_of(axis, dot(axis, corners[0])) for axis in AXES])


def lines_of(rows: Iterable[Row]) -> List[str]:
    """Rows of numbers as lines."""
    return [" ".join(map(str, row)) for row in rows]


def normaliz_text(points: Sequence[Vector], faces: Sequence[Sequence[int]]) -> List[str]:
    """An input file of Normaliz: the constant stands last."""
    hull = halfspaces_of(points, faces)
    lines = ["amb_space 3"]
    for kind, rows in zip(("inequalities", "equations"), hull):
        if rows:
            lines += [f"inhom_{kind} {len(rows)}", *lines_of((*row[1:], row[0]) for row in rows)]
    return lines


def lrs_text(points: Sequence[Vector], faces: Sequence[Sequence[int]]) -> List[str]:
    """An H-representation for lrs: the equations stand first."""
    hull = halfspaces_of(points, faces)
    count = len(hull.equations)
    linearity = [" ".join(map(str, ["linearity", count, *range(1, count + 1)]))] if count else []
    rows = hull.equations + hull.inequalities
    return ["hull", "H-representation", *linearity, "begin", f"{len(rows)} 4 integer", *lines_of(rows), "end"]


def polymake_text(points: Sequence[Vector], faces: Sequence[Sequence[int]]) -> List[str]:
    """A script of polymake that makes the polytope $p of its vertices and its facets; its own script() reads it, too."""
    hull = halfspaces_of(points, faces)
    parts: dict[str, Sequence[Row]] = {
        "VERTICES": [(1, *point) for point in points],
        "LINEALITY_SPACE": [],
        "FACETS": hull.inequalities,
        "AFFINE_HULL": hull.equations,
    }
    told = ", ".join(f"{name}=>[{','.join(str(list(row)) for row in rows)}]" for name, rows in parts.items())
    return ['use application "polytope";', f"declare $p = new Polytope<Rational>({told});"]


FORMS = {"normaliz": normaliz_text, "polymake": polymake_text, "lrs": lrs_text}
