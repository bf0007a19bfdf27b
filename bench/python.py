#!/usr/bin/env python3
"""qconvex.ConvexHull beside scipy.spatial.ConvexHull, in one process, as rows of a table.

    bench/python.py [--counts 1000,10000,100000,1000000] [--families cube,ball,sphere] [--rounds N]

Each row is one seeded set of points, which lies in memory as both want it: int32 for this module, float64 for scipy. Both make the hull
in turn, round after round, at least N times, and of few points often enough for 200,000 points together; the least CPU time of each counts.
scipy's constructor computes the triangles, their neighbours and equations, the area and the volume, so the second column of this module's
times is with all of these. Needs numpy, scipy and the library of `make -C c`.
"""
import argparse
import sys
import time
from pathlib import Path

import numpy as np
from scipy.spatial import ConvexHull as TheirHull

import points as families

sys.path.insert(0, str(Path(__file__).resolve().parents[1] / "scripts"))
from lib import package  # noqa: E402,F401
from qconvex import ConvexHull, hulls  # noqa: E402


__all__ = ["ConvexHull", "TheirHull", "hulls"]


def hull_with_all(points):
    """This module's hull with all that scipy's constructor computes."""
    hull = ConvexHull(points)
    return hull, (hull.simplices, hull.neighbors, hull.equations, hull.area, hull.volume)


def timed(work, points, times):
    """The result of some work, and its CPU time noted."""
    start = time.process_time()
    result = work(points)
    times.append(time.process_time() - start)
    return result


def row(family, count, rounds):
    """One row: the family, the count, the extreme points, whether both find the same, the times, and their ratios."""
    whole = np.array(families.points_of(family, count), np.int32)
    decimal = whole.astype(np.float64)
    bare, full, theirs = [], [], []
    for _ in range(rounds):
        hull = timed(ConvexHull, whole, bare)
        timed(hull_with_all, whole, full)
        other = timed(TheirHull, decimal, theirs)
    same = set(map(tuple, whole[hull.vertices].tolist())) == set(map(tuple, whole[other.vertices].tolist()))
    cells = [family, str(count), str(len(hull.vertices)), "yes" if same else "NO"]
    cells += ["%.5f" % min(times) for times in (bare, full, theirs)]
    return "| " + " | ".join(cells + ["%.1f" % (min(theirs) / min(times)) for times in (bare, full)]) + " |"


def main():
    parser = argparse.ArgumentParser(description=__doc__, formatter_class=argparse.RawDescriptionHelpFormatter)
    parser.add_argument("--counts", default="1000,10000,100000,1000000")
    parser.add_argument("--families", type=families.names_of, default="cube,ball,sphere")
    parser.add_argument("--rounds", type=int, default=3)
    given = parser.parse_args()
    print("| family | points | extreme | same as scipy's | hull s | with all s | scipy s | times | times with all |\n" + "|---" * 9 + "|")
    for family in given.families:
        for count in map(int, given.counts.split(",")):
            print(row(family, count, max(given.rounds, 200_000 // count)), flush=True)


if __name__ == "__main__":
    main()
