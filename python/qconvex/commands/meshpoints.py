"""Makes a point file of a mesh's vertices, scaled to whole numbers; and turns the hull back to the mesh's own units.

    meshpoints MESH > points.txt                the vertices of an off, obj, ply or stl file, of text or of bytes, or the points
                                                of a table: xyz, csv or tsv, txt as rbox writes it, or npy
    meshpoints --faces points.txt HULL > hull.off          the faces of another mesh, on the grid of these points
    meshpoints --back points.txt < hull.off > hull-in-units.off

The vertices are put on a grid of whole numbers, and on standard error it says `exact` if none of them moved. Decimals are
taken as they are written, and the numbers of a binary file as they are: the grid has the least power of ten, or of two, at
which all of them are whole. If these whole numbers have no room in the range of coordinates, the vertices are rounded to the
finest grid with room whose step is a power of two, halves to the even number of steps, and it says how many coordinates were
rounded, and by how much at most, exactly. `ConvexHull.from_floats` does the same with floats in Python.

A vertex v becomes the whole point (v - centre) * scale. By itself the centre is the middle of the mesh's bounding box, put on
the grid; --scale and --centre give others. Both stand as exact fractions in a comment of the file's first line, where --back
finds them. Rounding moves a point by at most half a step. It does change which points lie in one plane: faces that were flat
and slanted fall into triangles, and of corners that are mirror images one may be moved another way than the other. With
--centre 0,0,0 a mesh that is symmetric to the origin's planes stays so, since -v is rounded to minus what v is.
"""
from __future__ import annotations

import argparse
import gc
import re
import signal
import sys
from fractions import Fraction

from .._limits import COORDINATE_LIMIT, POINT_LIMIT
from . import contents, off_files
from .grids import Fractions, Map, Rounded, decimals_of, map_of_vertices, rounded
from .mesh_faces import lists_of
from .meshes import READERS, faces_of_mesh, vertices_of_mesh
from .off_files import Malformed, Number, off_text, read_off_file
from .point_streams import lines_of

NOTE = re.compile(r"scale (\S+) centre (\S+) (\S+) (\S+)")


def write_points(found: Rounded, by: Map) -> None:
    """Writes the point file."""
    if any(max(high, -low) > COORDINATE_LIMIT for low, high in found.ends()):
        sys.exit(f"meshpoints: with this scale a coordinate is beyond {COORDINATE_LIMIT}")
    print(3, "scale", by.scale, "centre", *by.centre)
    print(len(found.axes[0]))
    if isinstance(found.axes[0], list):
        sys.stdout.write("".join(map("%d %d %d\n".__mod__, zip(*found.axes))))
    else:
        import numpy

        sys.stdout.flush()
        sys.stdout.buffer.write(lines_of(numpy.stack(found.axes, 1)))
    report(found)
    if len(found.axes[0]) > POINT_LIMIT:
        print(f"more than {POINT_LIMIT} points: hullmany takes them", file=sys.stderr)


def report(found: Rounded) -> None:
    """Says how many coordinates were rounded, and by how much at most."""
    rounding = f"{found.changed} of {3 * len(found.axes[0])} coordinates were rounded, by at most {decimals_of(found.most)}"
    print(rounding if found.changed else "exact: no coordinate was rounded", file=sys.stderr)


def number(word: str) -> Fraction:
    """A number of the command line or of a point file's first line."""
    try:
        return Fraction(off_files.number(word))
    except (Malformed, ValueError, ZeroDivisionError):
        raise argparse.ArgumentTypeError(f"{word!r} is no number such as 1000 or 1/3") from None


def scale_of(word: str) -> Fraction:
    """A scale, which is above 0: another one turns the faces inside out."""
    scale = number(word)
    if scale <= 0:
        raise argparse.ArgumentTypeError("a scale is above 0")
    return scale


def map_of(path: str) -> Map:
    """The map that a point file's first line tells."""
    found = NOTE.search(contents.text_of(path).split("\n", 1)[0])
    if not found:
        sys.exit(f"{path}: its first line has no scale and centre")
    try:
        return Map(scale_of(found[1]), tuple(map(number, found.groups()[1:])))
    except argparse.ArgumentTypeError as wrong:
        sys.exit(f"{path}: {wrong}")


def decimal(value: Number) -> str:
    """A number in decimals: exactly where it has few, else as near as a double is."""
    value = Fraction(value)
    return str(value.numerator) if value.denominator == 1 else repr(float(value))


def write_back(by: Map) -> None:
    """Writes the hull of standard input in the mesh's units."""
    hull = read_off_file("-")
    points = [[decimal(part / by.scale + middle) for part, middle in zip(point, by.centre)] for point in hull.points]
    sys.stdout.write(off_text(points, hull.faces))


def write_faces(path: str, by: Map) -> None:
    """Writes the faces of a mesh as OFF, with its vertices on a grid."""
    found = rounded(vertices_of_mesh(path), by)
    sys.stdout.write(off_text(found.points, lists_of(faces_of_mesh(path))))
    report(found)


def vector(words: str) -> Fractions:
    """Three numbers with commas between."""
    parts = tuple(map(number, words.split(",")))
    if len(parts) != 3:
        raise argparse.ArgumentTypeError(f"{words!r} is not three numbers with commas between")
    return parts


def main() -> None:
    parser = argparse.ArgumentParser(prog="meshpoints", description=__doc__, formatter_class=argparse.RawDescriptionHelpFormatter)
    parser.add_argument("--scale", type=scale_of, help="how many units of the grid one unit of the mesh has, as 1000 or 1/3")
    parser.add_argument("--centre", type=vector, metavar="X,Y,Z", help="what becomes the origin (write --centre=-1,0,0)")
    parser.add_argument("--back", metavar="POINTS", help="turn the faces of standard input to the units of this file's mesh")
    parser.add_argument("--faces", metavar="POINTS", help="write the faces of MESH as OFF, on the grid of this file")
    parser.add_argument("mesh", nargs="?", metavar="MESH", help="a file whose name ends with one of " + " ".join(READERS))
    options = parser.parse_args()
    signal.signal(signal.SIGPIPE, signal.SIG_DFL)
    gc.disable()  # what is made stays to the end
    if options.back:
        write_back(map_of(options.back))
        return
    if not options.mesh:
        parser.error("a MESH is wanted, or --back")
    if options.faces:
        write_faces(options.mesh, map_of(options.faces))
        return
    vertices = vertices_of_mesh(options.mesh)
    by = map_of_vertices(vertices, options.scale, options.centre)
    write_points(rounded(vertices, by), by)


if __name__ == "__main__":
    main()
