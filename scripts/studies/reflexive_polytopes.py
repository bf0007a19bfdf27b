#!/usr/bin/env python3
"""Compares the hulls of reflexive polytopes with what PALP says of them: vertices, facets, incidences and volumes.

    scripts/studies/reflexive_polytopes.py [--seed N]          needs numpy, Debian's package palp, and the library of `make -C c`

`class.x` makes the reflexive polytopes of dimension three from the weight systems of `cws.x`, 4,318 of the 4,319. All lattice
points of all of them, in random order in each, go into one call of `qconvex.hulls`. Then each hull is compared with what
`poly.x` says: the vertices; the facets, each as an inequality a . p + 1 >= 0 with whole a; which vertices lie on which
facet; and six times the volume. The status is 1 where anything differs.
"""
import argparse
import re
import shutil
import subprocess
import sys
import tempfile
from itertools import accumulate
from math import gcd
from pathlib import Path
from typing import NamedTuple

import numpy as np

sys.path.insert(0, str(Path(__file__).resolve().parents[1]))
from lib import package  # noqa: E402,F401
from qconvex import hulls  # noqa: E402


PROGRAMS = ["cws.x", "class.x", "poly.x"]
HEAD = re.compile(r"(\d+) (\d+)  (Points of P|Vertices of P|Vertices of P-dual <-> Equations of P)\s*$")
VOLUME = re.compile(r"vol=(\d+),")


class Polytope(NamedTuple):
    """What poly.x says of a polytope."""

    points: list
    vertices: list
    facets: list  # a of a . p + 1 >= 0
    incidences: list  # of each facet the places of its vertices
    volume: int


def output(*command, folder, given=""):
    """What a program of PALP prints."""
    return subprocess.run(command, cwd=folder, input=given, check=True, capture_output=True, text=True).stdout


def polytopes_text(folder):
    """All reflexive polytopes that the weight systems give, as poly.x reads them."""
    lines = [line for kind in ("-w3", "-c3") for line in output("cws.x", kind, folder=folder).splitlines()]
    weights = [re.split(r"  [rt]+$|M:", line)[0] for line in lines]
    with open(f"{folder}/weights.txt", "w", encoding="ascii") as target:
        target.writelines(f"{line}\n" for line in weights)
    output("class.x", "-po", "list.bin", "weights.txt", "log.txt", folder=folder)
    return output("class.x", "-b2a", "-pi", "list.bin", folder=folder)


def rows_of(lines, count, columns):
    """A table in rows of three; of points that stand side by side the columns."""
    table = [tuple(map(int, next(lines).split())) for _ in range(count)]
    return list(zip(*table)) if count == 3 and columns != 3 else table


def told_of(text):
    """The polytopes that poly.x tells of, one after the other."""
    lines, parts = iter(text.splitlines()), {}
    for line in lines:
        head, volume = HEAD.match(line), VOLUME.match(line)
        if head:
            parts[head[3].split()[-1] if "dual" in head[3] else head[3]] = rows_of(lines, int(head[1]), int(head[2]))
        elif line.startswith("v[2]:"):
            bits = line.split()[1:]
            parts["incidences"] = [[place for place, bit in enumerate(reversed(word)) if bit == "1"] for word in bits]
        elif volume:
            parts["volume"] = int(volume[1])
        if len(parts) == len(Polytope._fields):
            yield Polytope(parts["Points of P"], parts["Vertices of P"], parts["P"], parts["incidences"], parts["volume"])
            parts = {}


def facets_of(hull):
    """The facets of a hull: of each the vertices on it, by its inequality."""
    firsts = np.cumsum([0, *(len(face) - 2 for face in hull.faces[:-1])])
    found = {}
    for face, normal in zip(hull.faces, hull.normals[firsts].tolist()):
        offset = sum(part * factor for part, factor in zip(hull.points[face[0]].tolist(), normal))
        divisor = gcd(*normal, offset)
        inequality = (offset // divisor, *(-factor // divisor for factor in normal))
        found[inequality] = frozenset(map(tuple, hull.points[face].tolist()))
    return found


def differences(polytope, hull):
    """What differs between a polytope and a hull."""
    facets = {
        (1, *facet): frozenset(polytope.vertices[place] for place in places)
        for facet, places in zip(polytope.facets, polytope.incidences)
    }
    pairs = {
        "vertices": (set(polytope.vertices), set(map(tuple, hull.points[hull.vertices].tolist()))),
        "facets and incidences": (facets, facets_of(hull)),
        "volume": (polytope.volume, hull.six_volumes),
        "edges": (len(polytope.vertices) + len(facets) - 2, hull.nedges),
    }
    return [name for name, (theirs, ours) in pairs.items() if theirs != ours]


def main():
    parser = argparse.ArgumentParser(description=__doc__, formatter_class=argparse.RawDescriptionHelpFormatter)
    parser.add_argument("--seed", type=int, default=1, help="of the order of the points (default 1)")
    options = parser.parse_args()
    if not all(map(shutil.which, PROGRAMS)):
        sys.exit("PALP is missing (Debian's package palp)")
    with tempfile.TemporaryDirectory() as folder:
        text = polytopes_text(folder)
        polytopes = list(told_of(output("poly.x", "-fpveiB", folder=folder, given=text)))
    rng = np.random.default_rng(options.seed)
    sets = [rng.permutation(np.array(polytope.points, np.int32)) for polytope in polytopes]
    found = hulls(np.concatenate(sets), [0, *accumulate(map(len, sets))])
    wrong = 0
    for number, polytope in enumerate(polytopes):
        differing = differences(polytope, found[number])
        wrong += bool(differing)
        if differing:
            print(f"DIFFERENT: polytope {number}: {', '.join(differing)}: vertices {polytope.vertices}")
    points, facets = sum(map(len, sets)), sum(len(polytope.facets) for polytope in polytopes)
    print(f"{len(polytopes)} polytopes with {points} lattice points and {facets} facets: {wrong} differ")
    return int(wrong > 0 or not polytopes)


if __name__ == "__main__":
    sys.exit(main())
