#!/usr/bin/env python3
"""Writes the run of the program that the gate makes with both compilers: crates/qconvex/args, stdin and stdout, and
the points once more for a test of the gate, which counts what the tree joins of them.

    scripts/make/stored_run.py [--check]      from the top of the repository

The points are 200 on a sphere, a lattice of 64 that sticks out of it, so that faces have points within them and within
their edges, and some points given again, in a seeded order, in a file with comments and blanks. The program takes them
in blocks of 3 with 7 workers, joined in the tree up to its root, and writes all outputs. Three things are not reached:
the interior filter, which takes larger sets; a pass that gives up; and points in a line or a plane. What the program has
to write is the text of lib/hull_oracle.py, a hull over all triples; that takes a minute. --check writes nothing, and its
status is 1 if a file differs.
"""
import argparse
import random
import sys
import textwrap
from pathlib import Path

sys.path.insert(0, str(Path(__file__).resolve().parents[1]))
from lib.hull_oracle import hull_text  # noqa: E402


FOLDER = Path("crates/qconvex")
TEST = Path("crates/qh_tests_serve/src/tests/workers/stored_points.rt")
ARGS = ["--block", "3", "--workers", "7", "rank", "s", "Fx", "off", "offt"]
OUTPUTS = ["rank", "s", "Fx", "off", "offt"]
SEED = 20261123
RADIUS = 1000
ON_SPHERE = 200
REPEATED = 20
LATTICE = range(-150, 151, 100)
LATTICE_HEIGHT = 1000


def sphere_point(generator):
    """Returns a point near the sphere, in a random direction, uniform over the sphere."""
    direction = [generator.gauss(0, 1) for _ in range(3)]
    length = sum(x * x for x in direction) ** 0.5
    return tuple(round(RADIUS * x / length) for x in direction)


def made_points():
    generator = random.Random(SEED)
    points = [sphere_point(generator) for _ in range(ON_SPHERE)]
    points += [(x, y, z + LATTICE_HEIGHT) for x in LATTICE for y in LATTICE for z in LATTICE]
    points += generator.sample(points, REPEATED)
    generator.shuffle(points)
    return points


def point_file(points):
    """The points as a file: some lines have a comment, some blanks, and one has two points."""
    lines = ["3 a sphere and a lattice", str(len(points))]
    for index, (x, y, z) in enumerate(points):
        blank = "\t" if index % 7 == 0 else " "
        lines.append(blank.join(map(str, (x, y, z))) + (" # point %d" % index if index % 11 == 0 else ""))
    lines[3:5] = [" ".join(lines[3:5])]
    return "\n".join(lines) + "\n"


def test_file(text):
    """The point file as a constant of the tests, with several of its lines in one."""
    lines = (line.replace("\t", "\\t").replace(" ", "\xa0") + "\\n" for line in text.splitlines())
    rows = textwrap.wrap(" ".join(lines), 130, break_on_hyphens=False)
    wrapped = "\\\n    ".join(row.replace(" ", "").replace("\xa0", " ") for row in rows)
    return (
        "//! The points of the stored run, as `scripts/make/stored_run.py` writes them.\n\n"
        f'pub const STORED: &str = "\\\n    {wrapped}";\n'
    )


def main():
    parser = argparse.ArgumentParser(description=__doc__, formatter_class=argparse.RawDescriptionHelpFormatter)
    parser.add_argument("--check", action="store_true", help="write nothing, and fail where a file differs")
    check = parser.parse_args().check
    points = made_points()
    files = {
        FOLDER / "args": "\n".join(ARGS) + "\n",
        FOLDER / "stdin": point_file(points),
        FOLDER / "stdout": hull_text(points, OUTPUTS)[0].decode(),
        TEST: test_file(point_file(points)),
    }
    differing = [str(path) for path, text in files.items() if not path.exists() or path.read_text() != text]
    if not check:
        for path, text in files.items():
            path.write_text(text)
    what = "differs" if check else "changed"
    print(f"{what}: {', '.join(differing)}" if differing else "all files are as they should be")
    sys.exit(1 if check and differing else 0)


if __name__ == "__main__":
    main()
