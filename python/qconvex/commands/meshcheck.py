"""Says whether the faces of a mesh are the convex hull of its vertices: points and faces of one file, with decimals or not.

    meshcheck MESH                     MESH is an off, obj, ply or stl file, of text or of bytes
    meshcheck --points POINTS MESH     the hull of the points of another file, of any kind that meshpoints reads

The verdict is exact. The faces may be cut into pieces in any way, such as triangles, and may stand in any order; each runs
counterclockwise seen from outside, or clockwise with --clockwise. A vertex that no face names is a point as well, and has to lie
inside. Of another file each point may be named that has the coordinates of the vertex.

The points are put on a grid of whole numbers as meshpoints does, and the proved library judges the faces. A grid holds about nine
digits. Coordinates that have more are judged by the same rules in Python, which is tested, not proved, and takes a time that grows
as the number of points times that of the faces. With --rounded the library judges the nearest points of the finest grid in their
place, and it says by how much they were moved.

On standard output it writes `all right`, or what is wrong with which face, by its position from 0 on, or with which side, by the
positions of two points. The exit status is 0 for `all right`, 1 for what is wrong, 2 for a command line that is refused, 3 where
memory is out, and 5 where a file can't be read, or its points have more digits than a grid holds and lie in one plane.
"""
from __future__ import annotations

import argparse
import gc
import signal
import sys
from math import lcm
from typing import Any, List, Optional, Tuple

from .exact_faces import fault_of
from .exact_numbers import Vertices
from .grids import map_of_vertices, rounded
from .mesh_faces import FACES, Faces, lists_of
from .meshes import faces_of_mesh, vertices_of_mesh
from .meshpoints import report
from .off_files import Malformed

RIGHT = "all right"
WRONG, MEMORY, UNREAD = 1, 3, 5


def places_among(points: Vertices, vertices: Vertices) -> List[int]:
    """The position of each vertex among points, by its coordinates; where there is none, the number of points."""
    points, vertices = points.listed(), vertices.listed()
    common = lcm(points.divisor, vertices.divisor)
    mine, theirs = (
        list(zip(*([number * (common // given.divisor) for number in axis] for axis in given.axes))) for given in (points, vertices)
    )
    positions = {point: place for place, point in reversed(list(enumerate(mine)))}
    return [positions.get(point, len(mine)) for point in theirs]


def points_and_faces(mesh: str, points: Optional[str]) -> Tuple[Vertices, Faces]:
    """The points to judge by, and the faces of a mesh by the positions of these."""
    vertices, faces = vertices_of_mesh(mesh), faces_of_mesh(mesh)
    if points is None:
        return vertices, faces
    given = vertices_of_mesh(points)
    places = places_among(given, vertices)
    return given, [[places[corner] for corner in face] for face in lists_of(faces)]


def reason_of(vertices: Vertices, faces: Faces, may_round: bool) -> str:
    """What is wrong with faces, or that all is right."""
    found = rounded(vertices, map_of_vertices(vertices))
    if found.changed and not may_round:
        return fault_of([(x, y, z) for x, y, z in zip(*vertices.listed().axes)], lists_of(faces)) or RIGHT
    if found.changed:
        report(found)
    return reason_of_library(found.axes, faces)


def reason_of_library(axes: List[Any], faces: Any) -> str:
    """What the library says. It is Malformed that there is none."""
    try:
        import numpy

        from .._checks import check
    except ImportError as missing:
        raise Malformed(f"meshcheck: {missing}") from None
    try:
        return check(numpy.array(axes).T, faces).reason
    except ValueError as refused:
        raise Malformed(f"meshcheck: {refused}") from None


def arguments() -> argparse.Namespace:
    """The command line."""
    parser = argparse.ArgumentParser(prog="meshcheck", description=__doc__, formatter_class=argparse.RawDescriptionHelpFormatter)
    parser.add_argument("--points", metavar="POINTS", help="a file with the points, in place of the mesh's own vertices")
    parser.add_argument("--clockwise", action="store_true", help="the faces run clockwise seen from outside")
    parser.add_argument("--rounded", action="store_true", help="judge the nearest points of a grid where none holds all digits")
    parser.add_argument("mesh", metavar="MESH", help="a file whose name ends with one of " + " ".join(FACES))
    return parser.parse_args()


def main() -> int:
    """Writes the verdict, and returns the status."""
    options = arguments()
    signal.signal(signal.SIGPIPE, signal.SIG_DFL)
    gc.disable()  # what is made stays to the end
    try:
        vertices, faces = points_and_faces(options.mesh, options.points)
        reason = reason_of(vertices, [face[::-1] for face in lists_of(faces)] if options.clockwise else faces, options.rounded)
    except Malformed as wrong:
        print(wrong, file=sys.stderr)
        return UNREAD
    except MemoryError:
        print("meshcheck: out of memory", file=sys.stderr)
        return MEMORY
    except SystemExit as ended:  # a file that can't be read
        print(ended.code, file=sys.stderr)
        return UNREAD
    print(reason)
    return 0 if reason == RIGHT else WRONG


if __name__ == "__main__":
    sys.exit(main())
