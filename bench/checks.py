#!/usr/bin/env python3
"""Measures hullcheck beside the making of the hull, on right faces and on each sort of damaged ones.

    bench/checks.py --families sphere,cube,paraboloid --counts 100000,1000000
    bench/checks.py --families worst --counts 100000 --damages

The faces are the triangles of `qhull Qt i`, or this program's `off` or `offt`; with --damages `off`, with each damage of
scripts/lib/damages.py that the set and the limit of coordinates allow. `hullcheck` and `qconvex s` run in turn with `--workers` threads; a
row has the least CPU seconds of each, their ratio, and microseconds a face. The status is 1 if hullcheck gives a wrong verdict or takes
more than `--limit` times as long as the hull.
"""
import argparse
import random
import shutil
import subprocess
import sys
import tempfile
from pathlib import Path

import measure
import points as families

sys.path.insert(0, str(Path(__file__).resolve().parents[1] / "scripts"))
from lib import package  # noqa: E402,F401
from lib.damages import DAMAGES, off_text  # noqa: E402
from lib.limits import COORDINATE_LIMIT  # noqa: E402
from lib.paths import CHECKER, PROGRAM, built  # noqa: E402
from qconvex.commands.off_files import read_off  # noqa: E402
from qconvex.commands.point_files import text_of  # noqa: E402

RIGHT, WRONG = 0, 1


def right_faces(given, points, faces):
    """Writes the faces of a file of points, and returns their number and the words that hullcheck needs for them."""
    by_qhull = given.faces == "qhull"
    command = ["qhull", "Qt", "i"] if by_qhull else [given.ours, given.faces]
    with open(points, "rb") as source, open(faces, "wb") as target:
        subprocess.run(command, stdin=source, stdout=target, check=True)
    with open(faces, "rb") as text:
        words = text.read(64).split()
    return int(words[0 if by_qhull else 2]), ["--indices", "--clockwise"] if by_qhull else []


def damaged(family, count, points, faces):
    """Writes the files of each damage that a set allows, and yields its name and the number of faces."""
    right, hull = families.points_of(family, count), read_off(faces.read_text())
    for damage in DAMAGES:
        made = damage(random.Random(1), right, hull)
        if made is not None and max(abs(part) for point in made[0] for part in point) <= COORDINATE_LIMIT:
            points.write_text(text_of(made[0]), encoding="ascii")
            faces.write_text(off_text(made[1]), encoding="ascii")
            yield damage.__name__, len(made[1].faces)


def sorts(given, family, count, files):
    """Yields each sort of faces of a set: its name, the number of faces, the checker's words, and the status of the right verdict."""
    measure.write_points(family, count, files[0])
    number, words = right_faces(given, *files)
    yield "right", number, words, RIGHT
    for name, number in damaged(family, count, *files) if given.damages else ():
        yield name, number, [], WRONG


def times(given, words, files, wanted):
    """Returns the least CPU seconds of hullcheck, None if its verdict is wrong, and those of the making of the hull."""
    workers, checks, hulls = ["--workers", str(given.workers)], [], []
    for _ in range(given.rounds):
        checks.append(measure.run([given.checker, *workers, *words, *map(str, files)], "/dev/null"))
        hulls.append(measure.run([given.ours, *workers, "s"], files[0]))
        measure.must_succeed([given.ours], hulls[-1].status)
    check = min(one.cpu for one in checks) if all(one.status == wanted for one in checks) else None
    return check, min(one.cpu for one in hulls)


def fault(name, check, ratio, limit):
    """Returns what is wrong with a row, or nothing."""
    if check is None:
        return "the right hull is refused" if name == "right" else f"{name} is not found"
    return f"{name} takes {ratio:.1f} of the time of the hull" if ratio > limit else ""


def rows(given, family, count, folder):
    """Prints the rows of a set, and returns the number of faults."""
    files, faults = (Path(folder) / "points.txt", Path(folder) / "faces.txt"), 0
    for name, number, words, wanted in sorts(given, family, count, files):
        check, hull = times(given, words, files, wanted)
        ratio = 0 if check is None else check / max(hull, measure.RESOLUTION)
        cells = "- | | |" if check is None else f"{check:.3f} | {hull:.3f} | {ratio:.2f} | {check / number * 1e6:.2f}"
        print(f"| {family} | {count} | {number} | {name} | {cells} |", flush=True)
        line = fault(name, check, ratio, given.limit)
        if line:
            faults += 1
            print(f"{family}, {count} points: {line}", file=sys.stderr)
    return faults


def main():
    parser = argparse.ArgumentParser(description=__doc__, formatter_class=argparse.RawDescriptionHelpFormatter)
    parser.add_argument("--ours", type=built, default=PROGRAM)
    parser.add_argument("--checker", type=built, default=CHECKER)
    parser.add_argument("--families", type=families.names_of, default="sphere,cube")
    parser.add_argument("--counts", type=measure.list_of, default="100000")
    parser.add_argument("--faces", choices=["qhull", "off", "offt"], default="qhull" if shutil.which("qhull") else "offt")
    parser.add_argument("--damages", action="store_true", help="each sort of damage of this program's faces, too")
    parser.add_argument("--workers", type=int, default=1)
    parser.add_argument("--rounds", type=int, default=3)
    parser.add_argument("--limit", type=float, default=20.0, help="the most of the time of the hull that a check may take")
    given = parser.parse_args()
    given.faces = "off" if given.damages else given.faces
    print("| family | points | faces | sort | hullcheck | qconvex s | ratio | us a face |\n" + "|---" * 8 + "|")
    with tempfile.TemporaryDirectory() as folder:
        faults = sum(rows(given, family, int(count), folder) for family in given.families for count in given.counts)
    return 1 if faults else 0


if __name__ == "__main__":
    sys.exit(main())
