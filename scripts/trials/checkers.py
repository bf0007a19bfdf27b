#!/usr/bin/env python3
"""Damages right hulls, and shows that check_hull.py and hullcheck find each damage and pass right hulls.

    scripts/trials/checkers.py [--seconds N] [--seed N] [--only damaged,right,damaged-alone,right-alone]

The sets are those of lib/small_sets.py and the damages those of lib/damages.py, and one more: the hull of all points but one. Where hullcheck is
built it has to say the same of each solid set, of faces in any order and beginning at any corner. The parts `alone` run hullcheck only,
which is faster. Right hulls are this program's, whole; Qhull's by the options `o` and `Qt o`, if it names the same points for each facet; and
the triangles of CGAL's program, where both are installed.

damaged, damaged-alone      each damaged hull is found
right, right-alone          each right hull passes
"""
import random
import shutil
import subprocess
import sys
import tempfile
from functools import partial
from pathlib import Path
from types import SimpleNamespace

sys.path.insert(0, str(Path(__file__).resolve().parents[1]))
from lib import package, trials  # noqa: E402,F401
from lib.damages import DAMAGES, off_text, with_faces  # noqa: E402
from lib.limits import COORDINATE_LIMIT  # noqa: E402
from lib.paths import BENCH  # noqa: E402
from lib.small_sets import small_set  # noqa: E402
from tools.check_hull import Checker, Wrong, check, span  # noqa: E402
from qconvex.commands.off_files import read_off  # noqa: E402
from qconvex.commands.point_files import text_of  # noqa: E402

sys.path.insert(0, str(BENCH))
import peers  # noqa: E402

OPTIONS = SimpleNamespace(whole=False, unoriented=False)
CGAL = "/usr/include/CGAL/convex_hull_3.h"


def faces_by(command, points):
    """Returns the faces that a program writes of the points, or None if it fails."""
    done = subprocess.run(command, input=text_of(points).encode(), capture_output=True, check=False)
    text = done.stdout.decode()
    return None if done.returncode or text.startswith("degenerate") else read_off(text)


def point_forgotten(program, rng, points, faces):
    """A damage: the hull of all points but one extreme point."""
    left_out = rng.choice(faces.points)
    others = [point for point in points if point != left_out]
    return (points, faces_by([program, "off"], others)) if others else None


def shuffled(faces):
    """The same faces in another order, beginning at other corners."""
    rng = random.Random(len(faces.faces))
    turned_on = [face[k:] + face[:k] for face in faces.faces for k in [rng.randrange(len(face))]]
    return with_faces(faces, rng.sample(turned_on, len(turned_on)))


class Verdicts:
    """The verdicts of both checkers: of hullcheck where it is built and takes the set, of check_hull.py unless hullcheck runs alone."""

    def __init__(self, given, alone):
        self.alone = alone
        self.checker = given.checker if alone or shutil.which(given.checker) else None
        if alone:
            trials.need(given.checker)

    def by_hullcheck(self, points, faces, words):
        """Returns true if hullcheck accepts the faces."""
        with tempfile.NamedTemporaryFile("w") as source:
            source.write(text_of(points))
            source.flush()
            command = [self.checker, *words, source.name]
            done = subprocess.run(command, input=off_text(shuffled(faces)).encode(), capture_output=True, check=False)
        if done.returncode not in (0, 1):
            raise RuntimeError(f"status {done.returncode}: {done.stderr.decode()}: {points}, {faces}")
        return done.returncode == 0

    def accept(self, points, faces, words=()):
        """Returns whether the faces are accepted. A difference between the checkers ends the trial."""
        in_range = all(abs(part) <= COORDINATE_LIMIT for point in [*points, *faces.points] for part in point)
        by_program = self.checker and in_range and len(span(points)) == 3
        said = self.by_hullcheck(points, faces, words) if by_program else None
        if said is not None and self.alone:
            return said
        try:
            check(Checker(points), faces, OPTIONS)
        except Wrong:
            accepted = False
        else:
            accepted = True
        if said not in (None, accepted):
            raise RuntimeError(f"hullcheck says {said}, check_hull.py {accepted}: {points}, {faces}")
        return accepted


def damaged(alone, given, rng):
    """Damaged hulls."""
    program, verdicts = trials.need(given.program), Verdicts(given, alone)
    damages = {damage.__name__: damage for damage in DAMAGES} | {"point_forgotten": partial(point_forgotten, program)}
    while True:
        for name, damage in damages.items():
            made = None
            while made is None:
                points, _ = small_set(rng)
                made = damage(rng, points, faces_by([program, "off"], points))
            yield name, f"{name} is not found: {made}" if verdicts.accept(*made) else None


def facets(faces):
    """Each facet as the set of its points."""
    return {frozenset(faces.points[corner] for corner in face) for face in faces.faces}


def hulls_of(program, points):
    """Yields hulls of a set by several programs: the name of each, its faces, the words that hullcheck needs, and whether it is right."""
    mine = faces_by([program, "off"], points)
    yield "ours", mine, (), True
    # Of a header's two numbers Qhull takes the smaller as the dimension.
    theirs = faces_by(["qhull", "o"], points) if shutil.which("qhull") and len(points) > 3 else None
    if theirs and facets(theirs) != facets(mine):
        yield "others of Qhull", theirs, ["--clockwise"], False
    elif theirs:
        yield "Qhull's", theirs, ["--clockwise"], True
        yield "Qhull's in triangles", faces_by(["qhull", "Qt", "o"], points), ["--clockwise"], True
    if shutil.which("g++") and Path(CGAL).exists():
        by_cgal = faces_by(peers.command_of("cgal", "off"), points)
        if by_cgal:
            yield "CGAL's", by_cgal, (), True


def right(alone, given, rng):
    """Right hulls, and those of Qhull that are not."""
    program, verdicts = trials.need(given.program), Verdicts(given, alone)
    while True:
        points, _ = small_set(rng)
        for name, faces, words, wanted in hulls_of(program, points):
            accepted = faces is not None and verdicts.accept(points, faces, words)
            yield name, None if accepted == wanted else f"{name}: {'accepted' if accepted else 'refused'}: {points}"


if __name__ == "__main__":
    PARTS = {"damaged": damaged, "right": right}
    alone = {f"{name}-alone": partial(part, True) for name, part in PARTS.items()}
    trials.main(__doc__, {name: partial(part, False) for name, part in PARTS.items()} | alone)
