#!/usr/bin/env python3
"""Hulls of 4 to 4,096 points in one process: the library beside Qhull's, CGAL and Bullet, and the module beside scipy.

    apt-get install libqhull-dev libcgal-dev libbullet-dev libgmp-dev libmpfr-dev python3-scipy
    bench/small.py [--counts 4,8,..] [--families cube,sphere,lattice] [--rounds N]

Each row is some seeded sets of one size, all solid, about 8,192 points together. `small_hulls.cpp` makes them by all libraries in
turn, with what each keeps in memory already, and the least CPU time of the rounds counts, in microseconds a hull. `hulls` is
one call of qconvex_hulls for all sets. The ratios are of qconvex_hull to each peer; the goals are 0.3 of Qhull, 0.8 of CGAL
from 8 points on and 1.0 of Bullet. A `*` marks a peer that finds another number of vertices; where it refuses a set, it
has no time.

In Python `ConvexHull` with all attributes that scipy's constructor computes is compared with it, and one call of `hulls` with
the C call: its goal is 1.5 of that. Needs `make -C c`. The status is 1 where a goal is missed by more than a tenth.
"""
import argparse
import random
import struct
import subprocess
import sys
import tempfile
from pathlib import Path

import numpy as np

import families
import python as module

TOP = Path(__file__).resolve().parents[1]
POINTS_OF_A_ROW = 8192
OVER = 1.1
GOALS = {"qhull": 0.3, "cgal": 0.8, "bullet": 1.0}
LIBRARIES = ["-lqhull_r", "-lLinearMath", "-lgmp", "-lmpfr"]


def lattice(rng, count):
    """Lattice points of a box whose side grows with the count: about half of its points."""
    side = max(2, round((2 * count) ** (1 / 3)))
    return [tuple(rng.randrange(side) for _ in range(3)) for _ in range(count)]


FAMILIES = {"cube": families.cube, "sphere": families.sphere, "lattice": lattice}


def is_solid(points):
    """Returns true if points span space."""
    return np.linalg.matrix_rank(np.array(points, float) - points[0]) == 3


def sets_of(family, count):
    """Solid sets of a size."""
    rng, found = random.Random(count), []
    while len(found) < max(1, POINTS_OF_A_ROW // count):
        points = FAMILIES[family](rng, count)
        if is_solid(points):
            found.append(points)
    return np.array(found, np.int32)


def built(folder):
    """The program that times the libraries."""
    program = Path(folder) / "small"
    flags = ["-O3", "-DNDEBUG", "-std=c++17", "-frounding-math", "-I/usr/include/bullet", f"-I{TOP / 'c'}"]
    sources = [str(TOP / "bench" / "small_hulls.cpp"), str(TOP / "c" / "build" / "libqconvex.a")]
    subprocess.run(["g++", *flags, *sources, "-o", program, *LIBRARIES], check=True)
    return program


def library_times(program, sets, rounds):
    """Microseconds a hull of each library, or None where it refused a set, and the libraries that find other vertices."""
    data = struct.pack("<2Q", len(sets), sets.shape[1]) + sets.tobytes()
    text = subprocess.run([program, str(rounds)], input=data, capture_output=True, check=True).stdout.decode()
    rows = [line.split() for line in text.splitlines()]
    times = {name: float(time) / len(sets) * 1e6 if found != "-1" else None for name, time, found in rows}
    return times, {name for name, _, found in rows if found not in (rows[0][2], "-1")}


def module_times(sets, rounds):
    """Microseconds a hull of the module for Python: alone, with all attributes, scipy's, and in one call."""
    few = sets[: max(1, 256 // sets.shape[1])]
    decimal = few.astype(float)
    whole, starts = sets.reshape(-1, 3), np.arange(len(sets) + 1) * sets.shape[1]
    works = {
        "module": (lambda _: [module.ConvexHull(points) for points in few], len(few)),
        "all": (lambda _: [module.hull_with_all(points) for points in few], len(few)),
        "scipy": (lambda _: [module.TheirHull(points) for points in decimal], len(few)),
        "module hulls": (lambda _: module.hulls(whole, starts), len(sets)),
    }
    times = {name: [] for name in works}
    for _ in range(rounds):
        for name, (work, _) in works.items():
            module.timed(work, None, times[name])
    return {name: min(times[name]) / count * 1e6 for name, (_, count) in works.items()}


def missed_goals(count, times):
    """The goals that a row misses."""
    goals = {name: goal for name, goal in GOALS.items() if count >= 8 or name != "cgal"}
    missed = [name for name, goal in goals.items() if times[name] and times["hull"] > goal * OVER * times[name]]
    if count >= 8 and times["all"] > OVER * times["scipy"]:
        missed.append("scipy")
    return missed + (["hulls"] if times["module hulls"] > 1.5 * OVER * times["hulls"] else [])


def cells_of(family, count, times, others):
    """A row of the table."""
    ratios = ["%.2f" % (times["hull"] / times[name]) if times[name] else "" for name in GOALS]
    names = ["hull", "hulls", "qhull", "cgal", "bullet"]
    libraries = ["%.1f%s" % (times[name], "*" * (name in others)) if times[name] else "refused" for name in names]
    module = ["%.1f" % times[name] for name in ("module hulls", "module", "all", "scipy")]
    return [family, str(count), *libraries, *ratios, *module, "%.2f" % (times["all"] / times["scipy"])]


def main():
    parser = argparse.ArgumentParser(description=__doc__, formatter_class=argparse.RawDescriptionHelpFormatter)
    parser.add_argument("--counts", default="4,8,16,64,256,1024,4096")
    parser.add_argument("--families", default="cube,sphere,lattice")
    parser.add_argument("--rounds", type=int, default=20)
    given = parser.parse_args()
    head = ["family", "points", "hull", "hulls", "Qhull", "CGAL", "Bullet", "to Qhull", "to CGAL", "to Bullet"]
    head += ["Python hulls", "ConvexHull", "with all", "scipy", "to scipy", "missed"]
    print("| " + " | ".join(head) + " |\n|" + "---|" * len(head))
    status = 0
    with tempfile.TemporaryDirectory() as folder:
        program = built(folder)
        for family in given.families.split(","):
            for count in map(int, given.counts.split(",")):
                sets = sets_of(family, count)
                times, others = library_times(program, sets, given.rounds)
                times.update(module_times(sets, given.rounds))
                missed = missed_goals(count, times)
                status = status or bool(missed)
                print("| " + " | ".join([*cells_of(family, count, times, others), " ".join(missed)]) + " |", flush=True)
    return int(status)


if __name__ == "__main__":
    sys.exit(main())
