#!/usr/bin/env python3
"""Says where this program's CPU time goes: reading, distinct points, the interior filter, surfaces, parts, faces, text.

    apt-get install linux-perf
    bench/phases.py --words off

For each family one seeded file; `perf record` takes samples of one run, and each belongs to the phase of the function that
it is in. The interior filter is the column `filter`. A hull by parts has the hulls of its parts in `surface`, and what cuts
and joins them in `parts`. Functions that are inlined count with their caller, the sort of 64-bit numbers with the distinct
points although the order of faces is one, and that of packed pairs with the faces although a large surface and a hull by
parts begin with one. What the system does (memory, pages, pipes) is a column of its own. A run that fails ends the script.
"""
import argparse
import os
import re
import subprocess
import tempfile

import measure
import points

PHASES = ["read", "distinct", "filter", "surface", "parts", "faces", "text", "system", "else"]

# The phase of the first pattern that a symbol matches. The crates are those of docs/DESIGN.md.
OWNERS = [
    (r"^(qh_write|itoa)::", "text"),
    (r"^(qh_plane|rayon)::", "distinct"),
    (r"^qh_block::(interior|regions)::", "filter"),
    # qh_parts_join compares the borders of faces by the steps round them.
    (r"^qh_(parts|parts_join|parts_guess|places|check)::|^qh_bodies::(borders|closed|order)::|^qh_serve::threaded::", "parts"),
    (r"^qh_bodies::|^qh_block::(faces|hulls|plane_walk|bodies|flat_sets|segment)::", "faces"),
    (r"^qh_polygon::|^qh_surface::named_mesh::", "faces"),
    (r"^(qh_lattice|qh_block|qh_surface|qh_mesh|qh_pred)::", "surface"),
    # A set is mapped before its surface is made. The tree and its workers make lists of extreme ids by surfaces of blocks. Morton order is
    # the start of a surface.
    (r"^(qh_run|qh_board|atomic_table)::|^qh_serve::answers::hull", "surface"),
    # What is inlined in the calls above the crates is mostly the loop that reads.
    (r"^(qh_read|qh_command|qh_serve|qconvex)::", "read"),
    # Every phase has points and ids, and claims calls by threads.
    (r"^(qh_model|qh_threads)::", "else"),
]

# the sorts, by what is moved: a polygon is more than a number
SORTS = re.compile(r"^core::slice::sort")


def sample(command, path, folder):
    """The shares of the symbols of one run: pairs of a symbol and its part of 1."""
    record = os.path.join(folder, "perf.data")
    sampled = ["perf", "record", "-q", "-F", "4000", "-o", record] + command
    with open(path, "rb") as source:
        done = subprocess.run(sampled, stdin=source, stdout=subprocess.DEVNULL, stderr=subprocess.DEVNULL)
    measure.must_succeed(sampled, done.returncode)
    text = subprocess.run(["perf", "report", "-i", record, "--stdio", "--no-children", "--sort", "dso,symbol"],
                          stdout=subprocess.PIPE, stderr=subprocess.DEVNULL, check=True, text=True).stdout
    for line in text.splitlines():
        found = re.match(r"\s*([0-9.]+)%\s+(\S+)\s+\[(.)\]\s+(\S.*?)\s*(?:-\s+-\s*)?$", line)
        if found:
            yield found.group(2), found.group(3), found.group(4), float(found.group(1)) / 100


def sort_phase(name, number_sorts):
    """A sort of numbers is one of distinct points, any other one of faces."""
    kind = re.search(r"<#(\w+)>", name)
    return "distinct" if kind and kind.group(1) in number_sorts else "faces"


def phase(dso, space, name, ours, number_sorts):
    """The phase of a symbol."""
    if space == "k" or dso != ours:
        return "system"
    if SORTS.match(name):
        return sort_phase(name, number_sorts)
    for pattern, owner in OWNERS:
        if re.search(pattern, name):
            return owner
    return "else"


def number_sorts(command, folder):
    """The sorts that a set without faces to sort takes: those of numbers."""
    path = os.path.join(folder, "cube.txt")
    measure.write_points("cube", 200_000, path)
    names = (name for _, _, name, part in sample(command, path, folder) if SORTS.match(name) and part > 0.01)
    return {kind.group(1) for kind in (re.search(r"<#(\w+)>", name) for name in names) if kind}


def main():
    parser = argparse.ArgumentParser(description=__doc__, formatter_class=argparse.RawDescriptionHelpFormatter)
    parser.add_argument("--ours", type=measure.built, default=measure.PROGRAM, help="this program")
    parser.add_argument("--words", default="s", help="the words that it is given")
    parser.add_argument("--count", type=int, default=1000000)
    parser.add_argument("--families", type=points.names_of, default="cube,ball,cube-surface,grid,sphere,paraboloid,flat,line")
    given = parser.parse_args()
    command = [given.ours] + given.words.split()
    print("| Family | CPU s | " + " | ".join(PHASES) + " |")
    print("|---" * (len(PHASES) + 2) + "|")
    with tempfile.TemporaryDirectory() as folder:
        numbers = number_sorts(command, folder)
        path = os.path.join(folder, "points.txt")
        for family in given.families:
            measure.write_points(family, given.count, path)
            cpu = measure.least(command, path, 3).cpu
            parts = dict.fromkeys(PHASES, 0.0)
            for dso, space, name, part in sample(command, path, folder):
                parts[phase(dso, space, name, os.path.basename(given.ours), numbers)] += part
            cells = " | ".join("%.0f" % (100 * parts[name]) for name in PHASES)
            print("| %s | %.3f | %s |" % (family, cpu, cells), flush=True)


if __name__ == "__main__":
    main()
