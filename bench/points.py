#!/usr/bin/env python3
"""Writes a seeded point file of a family, or of its image under a linear map.

    bench/points.py cube 1048576 > points.txt
    bench/points.py sphere-shuffled@leaf 1000000 > points.txt

`FAMILY@MAP` is the image of a family under a map to three whole sums, within 2^30: a shear, a thin plate, a needle, a rotation, a box
aslant, or one long axis.
"""
import random
import sys
from pathlib import Path

from families import ORDINARY, SIZE, WORST

sys.path.insert(0, str(Path(__file__).resolve().parents[1] / "scripts"))
from lib.usage import names_given  # noqa: E402

__all__ = ["FAMILIES", "SIZE"]
FAMILIES = {**ORDINARY, **WORST}

# Of a point within 2^20 each image is within 2^30.
MAPS = {
    "shear-10": lambda x, y, z: (x + 10 * y, y, z),
    "shear-1000": lambda x, y, z: (x + 1000 * y, y, z),
    "shears": lambda x, y, z: (x + 30 * y, y + 30 * (x + 30 * y), z),
    "shears-all": lambda x, y, z: (x + 9 * y, y + 9 * z, z + 9 * (x + 9 * y)),
    "plate": lambda x, y, z: (500 * x, 500 * y, z >> 14),
    "leaf": lambda x, y, z: (500 * x, 500 * y, 300 * x + 400 * y + (z >> 7)),
    "leaf-of-one": lambda x, y, z: (990 * x, 990 * y, (-5 * 990 * x + 7 * 990 * y) // 12 + (z >> 20)),
    "needle": lambda x, y, z: (900 * x, 700 * x + (y >> 7), 500 * x - (y >> 6) + (z >> 8)),
    "box": lambda x, y, z: (480 * x + 32 * y + 12 * z, 160 * x + 48 * y - 24 * z, 240 * x - 96 * y - 8 * z),
    "turn-3": lambda x, y, z: (2 * x - y + 2 * z, 2 * x + 2 * y - z, 2 * z + 2 * y - x),
    "turn-7": lambda x, y, z: (6 * x + 2 * y + 3 * z, 2 * x + 3 * y - 6 * z, 3 * x - 6 * y - 2 * z),
    "long-x": lambda x, y, z: (1000 * x, y, z),
    "long-z": lambda x, y, z: (x, y, 1000 * z),
}

# Names of several families together.
GROUPS = {
    "solid": ["cube", "ball", "sphere", "paraboloid", "grid", "cube-surface"],
    "ordinary": list(ORDINARY),
    "worst": list(WORST),
    "images": [f"{family}@{word}" for family in WORST for word in MAPS],
}


def family_of(name):
    """Returns what makes the points of a family, or of its image under a map; None if there is none of this name."""
    family, at, word = name.partition("@")
    if family not in FAMILIES or (at and word not in MAPS):
        return None
    if not at:
        return FAMILIES[family]
    return lambda rng, count: [MAPS[word](*point) for point in FAMILIES[family](rng, count)]


def names_of(text):
    """Returns the families of a list of names with commas, which may be groups; an unknown name ends the script."""
    names = [family for name in text.split(",") for family in GROUPS.get(name, [name])]
    for name in names:
        if family_of(name) is None:
            sys.exit(f"{name} is no family: bench/points.py --help lists them")
    return names


def points_of(name, count):
    """The points of a family, from seed 1."""
    return family_of(name)(random.Random(1), count)


def main():
    names = names_given(f"{__doc__.strip()}\n\nThe families are {', '.join(FAMILIES)}. The maps are {', '.join(MAPS)}.")
    if len(names) != 2 or family_of(names[0]) is None:
        sys.exit("name a family, or FAMILY@MAP, and a number of points; --help lists them")
    points = points_of(names[0], int(names[1]))
    sys.stdout.write("3\n%d\n" % len(points))
    sys.stdout.writelines("%d %d %d\n" % p for p in points)


if __name__ == "__main__":
    main()
