#!/usr/bin/env python3
"""How often Qhull is wrong, or refuses, on the same solid written in random bases of the lattice.

    scripts/studies/lattice_bases.py [--sets N] [--seed N] [--entries S,S,..] [--ordinary]

A basis of the lattice is a matrix of whole numbers with determinant 1: here L U, L and U triangular with ones on the
diagonal and random entries up to the square root of S. It maps lattice points to lattice points and faces to faces, and changes
nothing but how long and slanted the solid is: its coordinates grow up to about 3 S. The solids are the 123 lattice points of
a ball of radius 3, 30 of them corners, and the 27 points of a cube.

Each answer of Qhull (option `o`) and of this program (`off`) is checked by check_hull.py, exactly. With --ordinary come
the seeded families of bench/points.py and grids instead. The sets are seeded: the same seed gives the same sets.
"""
import argparse
import os
import random
import shutil
import subprocess
import sys
from collections import Counter
from fractions import Fraction
from math import isqrt
from pathlib import Path
from types import SimpleNamespace

sys.path.insert(0, str(Path(__file__).resolve().parents[1]))
from lib import package  # noqa: E402,F401
from lib.limits import COORDINATE_LIMIT  # noqa: E402
from lib.paths import BENCH, PROGRAM, TOP, built  # noqa: E402
from make.example_sets import ball  # noqa: E402
from tools.check_hull import Checker, Wrong, check  # noqa: E402
from qconvex.commands.meshes import vertices_of_mesh  # noqa: E402
from qconvex.commands.meshpoints import Map, rounded  # noqa: E402
from qconvex.commands.off_files import Malformed, read_off  # noqa: E402
from qconvex.commands.point_files import text_of  # noqa: E402
from qconvex.commands.vectors import dot  # noqa: E402

sys.path.insert(0, str(BENCH))
from points import FAMILIES  # noqa: E402

SETS = 100
ENTRIES = [100, 1_000, 10_000, 30_000, 60_000, 100_000]
OPTIONS = SimpleNamespace(whole=False, unoriented=False)
CUBE = [(x, y, z) for x in range(3) for y in range(3) for z in range(3)]
SOLIDS = {"ball of 123 points": ball(3), "cube of 27 points": CUBE}
COUNTS = [1_000, 10_000, 100_000]


def product(a, b):
    """The product of two matrices, each a tuple of rows."""
    return tuple(tuple(dot(row, column) for column in zip(*b)) for row in a)


def random_basis(rng, size):
    """A matrix of determinant 1 with entries up to about a size."""
    root = isqrt(size)
    a, b, c, d, e, f = (rng.randint(-root, root) for _ in range(6))
    return product(((1, 0, 0), (a, 1, 0), (b, c, 1)), ((1, d, e), (0, 1, f), (0, 0, 1)))


def verdict(command, points):
    """`right`, `wrong` or `refused`: what a program answers of the points."""
    done = subprocess.run(command, input=text_of(points), capture_output=True, text=True)
    if done.returncode:
        return "refused"
    try:
        check(Checker(points), read_off(done.stdout), OPTIONS)
    except (Wrong, Malformed):
        return "wrong"
    return "right"


def counted(sets):
    """Counts the verdicts on Qhull and on this program over some sets."""
    qhull, ours = Counter(), Counter()
    for points in sets:
        qhull[verdict(["qhull", "o"], points)] += 1
        ours[verdict([PROGRAM, "off"], points)] += 1
    return qhull, ours


def row(name, qhull, ours):
    """A row of the table."""
    total = sum(qhull.values())
    return f"| {name} | {total} | {qhull['wrong']} | {qhull['refused']} | {ours['right']} |"


def bases(options):
    """The rows of the solids in random bases."""
    print("| Solid, entries up to S | sets | Qhull wrong | Qhull refused | this program right |")
    print("|---|---|---|---|---|")
    for name, points in SOLIDS.items():
        for size in options.entries:
            rng = random.Random(options.seed)
            matrices = [random_basis(rng, size) for _ in range(options.sets)]
            sets = [[tuple(dot(line, point) for line in matrix) for point in points] for matrix in matrices]
            sets = [one for one in sets if max(abs(part) for point in one for part in point) <= COORDINATE_LIMIT]
            print(row(f"{name}, {size}", *counted(sets)), flush=True)


def grids():
    """Boxes of a grid, all their points."""
    sides = [(a, b, c) for a in (2, 5, 10) for b in (3, 20) for c in (4, 30)]
    return [[(x, y, z) for x in range(a) for y in range(b) for z in range(c)] for a, b, c in sides]


def meshes():
    """The mesh of examples/ on grids of several widths."""
    vertices, centre = vertices_of_mesh(os.path.join(TOP, "examples", "knot.obj")), (Fraction(0),) * 3
    scales = map(Fraction, [10, 100, 1_000, 10_000, 100_000])
    return [rounded(vertices, Map(scale, centre)).points for scale in scales]


def ordinary(options):
    """The rows of ordinary sets."""
    print("| Sets | number | Qhull wrong | Qhull refused | this program right |")
    print("|---|---|---|---|---|")
    for name in ("ball", "cube", "cube-surface", "grid", "paraboloid", "sphere"):
        counts = [count for count in COUNTS if count < 100_000 or name not in ("paraboloid", "sphere")]
        sets = [FAMILIES[name](random.Random(options.seed), count) for count in counts]
        print(row(f"{name}, {counts[0]} to {counts[-1]} points", *counted(sets)), flush=True)
    print(row("boxes of a grid", *counted(grids())), flush=True)
    print(row("a mesh at five scales", *counted(meshes())), flush=True)


def numbers(words):
    """Whole numbers with commas between."""
    return [int(word) for word in words.split(",")]


def arguments():
    parser = argparse.ArgumentParser(description=__doc__, formatter_class=argparse.RawDescriptionHelpFormatter)
    parser.add_argument("--sets", type=int, default=SETS, help=f"how many bases for each S (default {SETS})")
    parser.add_argument("--seed", type=int, default=1, help="the seed of the sets (default 1)")
    parser.add_argument("--entries", type=numbers, default=ENTRIES, metavar="S,S,..", help="the sizes S of the entries")
    parser.add_argument("--ordinary", action="store_true", help="families of bench/points.py and grids in place of the solids")
    return parser.parse_args()


def main():
    options = arguments()
    built(PROGRAM)
    if not shutil.which("qhull"):
        sys.exit("qhull is missing (Debian's package qhull-bin)")
    if options.ordinary:
        ordinary(options)
    else:
        bases(options)


if __name__ == "__main__":
    main()
