#!/usr/bin/env python3
"""Makes the point sets of examples/ that need a rule: those on which rounding fails, lattice polytopes, and a mesh.

    scripts/make/example_sets.py NAME > FILE      NAME is one of those below

    sliver4         four corners; one lies a single lattice step over the middle of the others' face
    roof5           the same and another corner, so that the face is one of a roof
    bowl122         a bowl of 11 by 11 points on a slanted paraboloid, and a point that closes it
    basis           the 123 lattice points of a ball of radius 3, written in another basis of the lattice
    octahedron      the 56,601 lattice points with |x| + |y| + |z| <= 40, each at most 20
    reeve           the 32,426 lattice points of a Reeve tetrahedron of height 7, thirty times as large
    ball            the 113,081 lattice points of a ball of radius 30
    ball7           the 1,419 lattice points of a ball of radius 7
    knot            a tube along the trefoil knot, as an OBJ mesh in decimals
    dodecahedron    the regular dodecahedron's corners, as an OFF mesh in decimals

The slanted sets stand on three vectors whose determinant is 1: u = (M, M-1, 0), v = (0, M, M-1), w = (1, 2, 1). So they
make the whole lattice, but u and v are long and the lattice steps from plane to plane along them are tiny.
"""
import math
import sys
from pathlib import Path

sys.path.insert(0, str(Path(__file__).resolve().parents[1]))
from lib import package  # noqa: E402,F401
from qconvex.commands.point_files import text_of  # noqa: E402
from qconvex.commands.vectors import cross, dot, minus, plus, times  # noqa: E402


def slanted(size):
    """Three vectors of determinant 1, two of them long."""
    return (size, size - 1, 0), (0, size, size - 1), (1, 2, 1)


def combined(vectors, factors):
    """The sum of the vectors, each as many times as its factor says."""
    total = (0, 0, 0)
    for factor, vector in zip(factors, vectors):
        total = plus(total, times(factor, vector))
    return total


def sliver4():
    u, v, w = slanted(300_000)
    return [(0, 0, 0), times(3, u), times(3, v), combined((u, v, w), (1, 1, 1))]


def roof5():
    return [*sliver4(), (0, 900_000, 0)]


def bowl122():
    size, side = 100_000, range(-5, 6)
    bowl = [combined(slanted(size), (i, j, i * i + j * j)) for i in side for j in side]
    return [*bowl, (5 * size, -5 * size, 5 * size)]


# The rows of a matrix of determinant 1, so that x, y, z -> x a + y b + z c keeps the lattice.
BASIS = ((1, 166, 147), (-176, -29_215, -26_084), (47, 7_991, -33_158))


def ball(radius):
    """The lattice points of a ball."""
    side = range(-radius, radius + 1)
    return [(x, y, z) for x in side for y in side for z in side if x * x + y * y + z * z <= radius * radius]


def basis():
    return [tuple(dot(row, point) for row in BASIS) for point in ball(3)]


def reeve():
    """The lattice points on the inner side of each of the four planes."""
    corners = [times(30, corner) for corner in ((0, 0, 0), (1, 0, 0), (0, 1, 0), (1, 1, 7))]
    planes = [corners[:place] + corners[place + 1 :] + [corners[place]] for place in range(4)]
    inward = [(cross(minus(b, a), minus(c, a)), a, d) for a, b, c, d in planes]
    inward = [(normal if dot(normal, minus(d, a)) > 0 else times(-1, normal), a) for normal, a, d in inward]
    box = ((x, y, z) for x in range(31) for y in range(31) for z in range(211))
    return [point for point in box if all(dot(normal, minus(point, a)) >= 0 for normal, a in inward)]


def octahedron():
    side = range(-20, 21)
    return [(x, y, z) for x in side for y in side for z in side if abs(x) + abs(y) + abs(z) <= 40]


# The mesh.

AROUND, ALONG, RADIUS = 10, 60, 0.6


def trefoil(angle):
    """A point of the knot."""
    return (
        math.sin(angle) + 2 * math.sin(2 * angle),
        math.cos(angle) - 2 * math.cos(2 * angle),
        -1.2 * math.sin(3 * angle),
    )


def unit(vector):
    """The vector of length 1 of the same direction."""
    return times(1 / math.sqrt(dot(vector, vector)), vector)


def ring(angle):
    """The points of the tube round a point of the knot."""
    centre, way = trefoil(angle), unit(minus(trefoil(angle + 0.01), trefoil(angle - 0.01)))
    side = unit(cross(way, (0, 0, 1)))
    up = cross(side, way)
    turns = [2 * math.pi * k / AROUND for k in range(AROUND)]
    return [combined((centre, side, up), (1, RADIUS * math.cos(t), RADIUS * math.sin(t))) for t in turns]


def knot_text():
    """The tube, with three digits, as an OBJ text."""
    points = [point for k in range(ALONG) for point in ring(2 * math.pi * k / ALONG)]
    lines = ["# a tube along the trefoil knot", *("v %.3f %.3f %.3f" % point for point in points)]
    for k in range(ALONG):
        for i in range(AROUND):
            here, there = k * AROUND, (k + 1) % ALONG * AROUND
            after = (i + 1) % AROUND
            lines.append("f %d %d %d %d" % (here + i + 1, here + after + 1, there + after + 1, there + i + 1))
    return "".join(f"{line}\n" for line in lines)


def dodecahedron_text():
    """The corners of the regular dodecahedron with five digits, as an OFF text without faces."""
    golden, signs = (1 + math.sqrt(5)) / 2, (-1.0, 1.0)
    points = [(x, y, z) for x in signs for y in signs for z in signs]
    for short in (-1 / golden, 1 / golden):
        for long in (-golden, golden):
            points += [(0.0, short, long), (short, long, 0.0), (long, 0.0, short)]
    rows = "".join("%.5f %.5f %.5f\n" % point for point in points)
    return f"OFF\n{len(points)} 0 0\n{rows}"


MESHES = {"knot": knot_text, "dodecahedron": dodecahedron_text}
SETS = {"sliver4": sliver4, "roof5": roof5, "bowl122": bowl122, "basis": basis, "octahedron": octahedron, "reeve": reeve}
SETS |= {"ball": lambda: ball(30), "ball7": lambda: ball(7)}


def main():
    if len(sys.argv) != 2 or sys.argv[1] not in {*SETS, *MESHES}:
        is_help = sys.argv[1:] in (["--help"], ["-h"])
        print(__doc__.strip(), file=sys.stdout if is_help else sys.stderr)
        sys.exit(0 if is_help else 2)
    name = sys.argv[1]
    sys.stdout.write(MESHES[name]() if name in MESHES else text_of(SETS[name](), name))


if __name__ == "__main__":
    main()
