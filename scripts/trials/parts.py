#!/usr/bin/env python3
"""Compares hulls that are joined from parts with those of one thread, on degenerate sets.

    scripts/trials/parts.py [--seconds N] [--seed N]

The program is `scripts/trials/programs/part_ways`, which `scripts/make/programs.py part_ways` builds. It cuts each set into 2 to 16 parts,
however small it is, and says whether the hull of the parts, all joined at their seams, came out, and whether it is that of one thread: in
dimension, extreme ids, faces and edges. It says the same of the parts that are joined where that seems to pay.

joined      small sets of lib/small_sets.py, and larger ones: the families of bench/ and their unions on coarse lattices, where most points lie
            in planes of many points, with a few points beside them, moved and turned at random; `joined` counts hulls that came out
"""
import subprocess
import sys
from pathlib import Path

sys.path.insert(0, str(Path(__file__).resolve().parents[1]))
from lib import trials  # noqa: E402
from lib.hull_oracle import file_of  # noqa: E402
from lib.paths import BENCH, PART_WAYS  # noqa: E402
from lib.small_sets import combined, in_range, sheared, small_set, small_vector  # noqa: E402

sys.path.insert(0, str(BENCH))
from families import ORDINARY, SIZE, WORST  # noqa: E402

# How many sets one run of the program takes.
TOGETHER = 200
COUNTS = [20, 40, 80, 150, 400]
RADII = [2, 3, 5, 7, 9, 12, 100, 10_000, SIZE]


def octahedron(rng, count):
    """On the eight faces of an octahedron."""
    points = []
    for _ in range(count):
        a, b = sorted(rng.randint(0, SIZE) for _ in range(2))
        points.append(tuple(rng.choice([-1, 1]) * part for part in (a, b - a, SIZE - b)))
    return points


FAMILIES = {**ORDINARY, **{name: make for name, make in WORST.items() if "tent" not in name}, "octahedron": octahedron}


def on_lattice(rng, family):
    """The points of a family of bench/ on a lattice that is fine or coarse."""
    points, radius = FAMILIES[family](rng, rng.choice(COUNTS)), rng.choice(RADII)
    size = max(max(map(abs, point)) for point in points) or 1
    return [tuple(round(part * radius / size) for part in point) for point in points] if size > radius else points


def large_set(rng):
    """A set in range, and the name of its family."""
    while True:
        family = rng.choice(sorted(FAMILIES))
        points = on_lattice(rng, family)
        if rng.random() < 0.1:
            way = small_vector(rng, 20)
            points += [combined(way, (1, point)) for point in on_lattice(rng, rng.choice(sorted(FAMILIES)))]
        moved = sheared(rng, points) if rng.random() < 0.4 else points
        points = moved if in_range(moved) else points
        points += [combined(rng.choice(points), (1, small_vector(rng, 1))) for _ in range(rng.choice([0, 0, 1, 3]))]
        rng.shuffle(points)
        if in_range(points):
            return points, family


def joined(_given, rng):
    """Sets whose hulls are made of parts."""
    program = trials.need(PART_WAYS, "scripts/make/programs.py part_ways builds it")
    while True:
        sets = [small_set(rng) if rng.random() < 0.2 else large_set(rng) for _ in range(TOGETHER)]
        tasks = [(rng.randint(2, 16), file_of(points)) for points, _ in sets]
        text = b"".join(b"%02d%06d\n" % (parts, len(data)) + data for parts, data in tasks)
        lines = subprocess.run([program], input=text, stdout=subprocess.PIPE, check=True).stdout.decode().splitlines()
        if len(lines) != len(tasks):
            yield "runs", f"{len(lines)} lines for {len(tasks)} sets"
        for (_, family), (parts, data), line in zip(sets, tasks, lines):
            words = line.split()
            kind = "joined" if words[0] == "same" else f"not joined, {family}"
            yield kind, None if set(words) <= {"same", "none"} else f"{line} in {parts} parts, of {data!r}"


if __name__ == "__main__":
    trials.main(__doc__, {"joined": joined})
