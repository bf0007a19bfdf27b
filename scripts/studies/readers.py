#!/usr/bin/env python3
"""Gives `off` and `offt` to every program that is installed and reads OFF, and says what each of them found in the file.

    scripts/studies/readers.py [POINTS]...      without a name: solids of examples/, a prism over 16 corners, 100,000 points

For each program and each set it prints `vertices/faces` for `off` and for `offt`, marked `!` where these are not the
numbers of the text. Programs of triangles alone (marked so) cut the faces of `off` themselves, so that for them the number
of triangles is right in both. `-` stands where a program answers nothing. The status is 1 if a program has lost something
of an `offt`.

Debian's packages: assimp-utils, openscad, meshlab and geomview with xvfb, libcgal-dev with g++ (built here, which takes a
minute). What is missing is left out. A program is stopped after 120 seconds.
"""
import argparse
import os
import random
import re
import subprocess
import sys
import tempfile
from collections import namedtuple
from pathlib import Path

sys.path.insert(0, str(Path(__file__).resolve().parents[1]))
from lib import package  # noqa: E402,F401
from lib.paths import PROGRAM, TOP, built  # noqa: E402
from studies.other_programs import has, run, version  # noqa: E402
from qconvex.commands.off_files import read_off  # noqa: E402
from qconvex.commands.point_files import points_of_file, text_of  # noqa: E402


SOLIDS = ("corner-tetrahedron", "unit-cube", "octahedron-midpoints", "sphere-60", "bowl122")
MANY = 100_000
RADIUS = 1_000_000
SEED = 20261123
# The sides of a polygon with 16 corners, in their order.
SIDES = [(2, 0), (2, 1), (1, 1), (1, 2), (0, 2), (-1, 2), (-1, 1), (-2, 1)]
HEIGHT = 5

# A program that reads OFF: its name, its package, whether it has triangles alone, and what finds vertices and faces of a file.
Reader = namedtuple("Reader", "name package triangles ask")

CGAL = r"""
#include <CGAL/Simple_cartesian.h>
#include <CGAL/Surface_mesh.h>
#include <CGAL/Surface_mesh/IO/OFF.h>
#include <CGAL/boost/graph/helpers.h>
#include <iostream>
int main(int, char **words) {
    CGAL::Surface_mesh<CGAL::Simple_cartesian<double>::Point_3> mesh;
    if (!CGAL::IO::read_OFF(words[1], mesh) || !mesh.is_valid() || !CGAL::is_closed(mesh)) return 1;
    std::cout << mesh.number_of_vertices() << " " << mesh.number_of_faces() << "\n";
}
"""


# The sets.


def prism():
    """A prism over a polygon with 16 corners."""
    x = y = 0
    corners = []
    for a, b in [*SIDES, *((-a, -b) for a, b in SIDES)]:
        corners.append((x, y))
        x, y = x + a, y + b
    return [(x, y, z) for z in (0, HEIGHT) for x, y in corners]


def sphere():
    """Many points near a sphere."""
    generator = random.Random(SEED)
    points = []
    while len(points) < MANY:
        way = [generator.gauss(0, 1) for _ in range(3)]
        length = sum(x * x for x in way) ** 0.5
        points.append(tuple(round(RADIUS * x / length) for x in way))
    return points


def sets_of(paths):
    """The points of each set, by its name."""
    if paths:
        return {os.path.basename(path): points_of_file(path) for path in paths}
    found = {name: points_of_file(os.path.join(TOP, "examples", f"{name}.txt")) for name in SOLIDS}
    return {**found, "prism-16": prism(), f"sphere-{MANY}": sphere()}


# How each program is asked for what it found: numbers of vertices and faces, or None.


def pair(patterns, text):
    """The first numbers that the patterns find, or None."""
    found = [re.search(pattern, text, re.MULTILINE) for pattern in patterns]
    return tuple(int(match.group(1)) for match in found) if all(found) else None


def ask_assimp(path, _folder):
    return pair([r"^Vertices:\s+(\d+)", r"^Faces:\s+(\d+)"], run(["assimp", "info", path]).stdout)


def counts_of(path):
    """The counts of an OFF file that a program wrote."""
    if not os.path.exists(path):
        return None
    with open(path, encoding="utf-8", errors="replace") as source:
        return pair([r"OFF\s+(\d+)", r"OFF\s+\d+\s+(\d+)"], source.read(4096))


def ask_openscad(path, folder):
    scene, written = os.path.join(folder, "scene.scad"), os.path.join(folder, "written.off")
    with open(scene, "w", encoding="utf-8") as target:
        target.write(f'import("{path}");\n')
    run(["openscad", "-o", written, scene])
    return counts_of(written)


def ask_meshlab(path, folder):
    written = os.path.join(folder, "written.off")
    run(["xvfb-run", "-a", "meshlabserver", "-i", path, "-o", written])
    return counts_of(written)


def ask_geomview(path, folder):
    words, written = os.path.join(folder, "words.gcl"), os.path.join(folder, "written.off")
    with open(words, "w", encoding="utf-8") as target:
        target.write(f'(geometry hull < "{path}")\n(write geometry "{written}" hull)\n(exit)\n')
    run(["xvfb-run", "-a", "geomview", "-nopanels", "-noinit", "-c", words])
    return counts_of(written)


def cgal_in(folder):
    """What asks CGAL, once its program is built."""
    source, program = os.path.join(folder, "read.cpp"), os.path.join(folder, "read")
    with open(source, "w", encoding="utf-8") as target:
        target.write(CGAL)
    subprocess.run(["g++", "-O1", "-DCGAL_DISABLE_GMP", "-DCGAL_NDEBUG", "-o", program, source], check=True)
    return lambda path, _folder: pair([r"^(\d+)", r"^\d+ (\d+)"], run([program, path]).stdout)


def readers(folder):
    """The programs that are there."""
    found = []
    if has("assimp"):
        found.append(Reader("assimp", "assimp-utils", True, ask_assimp))
    if has("openscad"):
        found.append(Reader("OpenSCAD", "openscad", False, ask_openscad))
    if has("meshlabserver", "xvfb-run"):
        found.append(Reader("MeshLab", "meshlab", True, ask_meshlab))
    if has("geomview", "xvfb-run"):
        found.append(Reader("Geomview", "geomview", False, ask_geomview))
    if has("g++") and os.path.exists("/usr/include/CGAL/Surface_mesh.h"):
        found.append(Reader("CGAL", "libcgal-dev", False, cgal_in(folder)))
    return found


# The table.


def written(points, output, path):
    """Writes an output to a file, and tells its numbers of vertices, faces and triangles."""
    text = run([PROGRAM, output], text_of(points)).stdout
    with open(path, "w", encoding="utf-8") as target:
        target.write(text)
    hull = read_off(text)
    return len(hull.points), len(hull.faces), sum(len(face) - 2 for face in hull.faces)


def cell(reader, right, path):
    """What a program found, and whether it is what the text has."""
    vertices, faces, triangles = right
    with tempfile.TemporaryDirectory() as folder:
        found = reader.ask(path, folder)
    agrees = found == (vertices, triangles if reader.triangles else faces)
    return (f"{found[0]}/{found[1]}" if found else "-") + ("" if agrees else " !"), agrees


def main():
    parser = argparse.ArgumentParser(description=__doc__, formatter_class=argparse.RawDescriptionHelpFormatter)
    parser.add_argument("points", nargs="*", metavar="POINTS", help="point files of solids")
    paths = parser.parse_args().points
    built(PROGRAM)
    sets = sets_of(paths)
    lost = False
    with tempfile.TemporaryDirectory() as folder:
        found = readers(folder)
        names = [f"{reader.name} {version(reader.package)}{' (triangles)' if reader.triangles else ''}" for reader in found]
        print("| " + " | ".join(["Set", "output", "of the text", *names]) + " |")
        print("|" + "---|" * (3 + len(found)))
        for name, points in sets.items():
            for output in ("off", "offt"):
                path = os.path.join(folder, "hull.off")
                right = written(points, output, path)
                cells = [cell(reader, right, path) for reader in found]
                lost |= output == "offt" and not all(agrees for _, agrees in cells)
                row = [name, f"`{output}`", f"{right[0]}/{right[1]}", *(shown for shown, _ in cells)]
                print("| " + " | ".join(row) + " |", flush=True)
    sys.exit(1 if lost else 0)


if __name__ == "__main__":
    main()
