#!/usr/bin/env python3
"""Wall seconds for the hull of all lattice points of a polytope: this program, Qhull, normaliz and lrs.

    scripts/studies/lattice_times.py [--limit SECONDS]

The polytopes are those of example_sets.py: an octahedron with its corners cut off, thirty times a Reeve tetrahedron, a ball.
Each program is asked for corners and faces only (`s`, `normaliz -s`, `lrs`) and stopped at the limit. What is not installed
is left out. A run of this program that fails ends the script.
"""
import argparse
import os
import shutil
import subprocess
import tempfile
import time
import sys
from pathlib import Path

sys.path.insert(0, str(Path(__file__).resolve().parents[1]))
from lib import package  # noqa: E402,F401
from lib.paths import PROGRAM  # noqa: E402
from lib.runs import must_succeed  # noqa: E402
from make.example_sets import SETS  # noqa: E402
from qconvex.commands.point_files import text_of  # noqa: E402


LIMIT = 60


def files_of(points, folder):
    """The points in the form of each program, as files."""
    rows = "".join("%d %d %d\n" % point for point in points)
    texts = {
        "points.txt": text_of(points),
        "hull.in": f"amb_space 4\npolytope {len(points)}\n{rows}",
        "hull.ext": f"hull\nV-representation\nbegin\n{len(points)} 4 integer\n"
        + "".join("1 %d %d %d\n" % point for point in points)
        + "end\n",
    }
    for name, text in texts.items():
        with open(os.path.join(folder, name), "w", encoding="ascii") as target:
            target.write(text)


COMMANDS = {
    "this program": ([PROGRAM, "s"], "points.txt"),
    "Qhull": (["qhull", "s"], "points.txt"),
    "normaliz": (["normaliz", "-s", "hull"], None),
    "lrs": (["lrs", "hull.ext"], None),
}


def seconds(command, source, folder, limit):
    """The wall seconds of a run, or that it was stopped."""
    path = os.devnull if source is None else os.path.join(folder, source)
    with open(path, "rb") as stream:
        start = time.monotonic()
        try:
            done = subprocess.run(
                command, stdin=stream, cwd=folder, stdout=subprocess.DEVNULL, stderr=subprocess.DEVNULL, timeout=limit
            )
        except subprocess.TimeoutExpired:
            return f"over {limit}"
        taken = time.monotonic() - start
    if command[0] == PROGRAM:
        must_succeed(command, done.returncode)
    return f"{taken:.3f}"


def main():
    parser = argparse.ArgumentParser(description=__doc__, formatter_class=argparse.RawDescriptionHelpFormatter)
    parser.add_argument("--limit", type=int, default=LIMIT, help=f"seconds after which a program is stopped (default {LIMIT})")
    options = parser.parse_args()
    there = {name: command for name, command in COMMANDS.items() if shutil.which(command[0][0])}
    print("|", " | ".join(["Lattice points of", "number", *there]), "|")
    print("|" + "---|" * (len(there) + 2))
    for name in ("octahedron", "reeve", "ball"):
        points = SETS[name]()
        with tempfile.TemporaryDirectory() as folder:
            files_of(points, folder)
            cells = [seconds(*command, folder, options.limit) for command in there.values()]
        print("|", " | ".join([name, str(len(points)), *cells]), "|", flush=True)


if __name__ == "__main__":
    main()
