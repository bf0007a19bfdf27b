#!/usr/bin/env python3
"""Runs every hull program that is installed on the same points, and says which agree.

    scripts/studies/other_programs.py [POINTS]...      the four sets of examples/ on which rounding fails, if none is named

For each program and each set it prints `corners / faces`. Programs of facets count each face once, those of triangles (marked
so) cut it into triangles; lrs counts the two in two programs. `!` marks an answer that is not the hull, `-` that the program
refused, with the name of its error where it has one. Below the table stands which ended with status 0 and a wrong hull,
and what they warned of. What is right is what this program answers, once check_hull.py has passed it, which looks at the
points and the faces alone.

Debian's packages: qhull-bin, normaliz, lrslib, polymake, libcgal-dev with g++ (built here, which takes a minute),
python3-scipy, python3-open3d, meshlab with xvfb. What is missing is left out. A program is stopped after 120 seconds.
"""
import argparse
import os
import re
import shutil
import subprocess
import sys
import tempfile
from collections import namedtuple
from pathlib import Path
from types import SimpleNamespace

sys.path.insert(0, str(Path(__file__).resolve().parents[1]))
from lib import package  # noqa: E402,F401
from lib.paths import PROGRAM, TOP, built  # noqa: E402
from tools.check_hull import Checker, check  # noqa: E402
from qconvex.commands.off_files import off_text, read_off  # noqa: E402
from qconvex.commands.point_files import points_of_file, text_of  # noqa: E402

SETS = [os.path.join(TOP, "examples", f"{name}.txt") for name in ("sliver4", "roof5", "bowl122", "basis")]
# Debian's own Python, for whose packages it is asked.
PYTHON = "/usr/bin/python3"
PEERS = os.path.join(TOP, "bench", "peers.py")
TIME_LIMIT = 120

# What a program answers: numbers of corners and faces, either may be None; or why not; its exit status, and what it warns of.
Answer = namedtuple("Answer", "corners faces why status warning")
# A program: its name, the package whose version counts, whether its faces are triangles, how it is asked, whether it is there.
Program = namedtuple("Program", "name package triangles ask there")


def run(command, text="", folder=None):
    """A finished run; one that takes too long has status 124."""
    try:
        return subprocess.run(
            command, input=text, cwd=folder, capture_output=True, text=True, timeout=TIME_LIMIT, errors="replace"
        )
    except subprocess.TimeoutExpired:
        return SimpleNamespace(returncode=124, stdout="", stderr="stopped")


def text_in(path):
    """The text of a file that a program wrote, or an empty text if there is no file."""
    return Path(path).read_text(encoding="utf-8") if os.path.exists(path) else ""


def numbers(patterns, text):
    """The first number that each pattern finds, or None."""
    found = [re.search(pattern, text, re.MULTILINE) for pattern in patterns]
    return [match and int(match.group(1)) for match in found]


def refusal(done):
    """The name of an error of Qhull, or the last words of a program."""
    text = done.stderr + done.stdout
    error = re.search(r"QH6\d+", text)
    if error:
        return error.group()
    return "stopped" if done.returncode == 124 else "no hull"


def answer_of(done, corners, faces):
    """Returns the numbers that a run found, or why there is no answer."""
    why = refusal(done) if corners is None and faces is None else ""
    warning = re.search(r"QH7\d+", done.stderr + done.stdout)
    return Answer(corners, faces, why, done.returncode, f" (warns: {warning.group()})" if warning else "")


# How each is asked.


def ask_ours(points):
    done = run([PROGRAM, "s"], text_of(points))
    return answer_of(done, *numbers([r"extreme points: (\d+)", r"facets: (\d+)"], done.stdout))


def ask_qhull(*options):
    """Qhull with options."""

    def ask(points):
        done = run(["qhull", "s", *options], text_of(points))
        kind = r"(?:simplicial )?" if options else ""
        patterns = [r"Number of vertices: (\d+)", rf"Number of {kind}facets: (\d+)"]
        return answer_of(done, *numbers(patterns, done.stderr + done.stdout))

    return ask


def ask_normaliz(points):
    rows = "".join("%d %d %d\n" % point for point in points)
    with tempfile.TemporaryDirectory() as folder:
        with open(os.path.join(folder, "hull.in"), "w", encoding="ascii") as target:
            target.write(f"amb_space 4\npolytope {len(points)}\n{rows}")
        done = run(["normaliz", "-s", "hull"], folder=folder)
        text = text_in(os.path.join(folder, "hull.out"))
    return answer_of(done, *numbers([r"^(\d+) extreme rays", r"^(\d+) support hyperplanes"], text))


def ask_lrs(points):
    rows = "".join("1 %d %d %d\n" % point for point in points)
    with tempfile.TemporaryDirectory() as folder:
        path = os.path.join(folder, "hull.ext")
        with open(path, "w", encoding="ascii") as target:
            target.write(f"hull\nV-representation\nbegin\n{len(points)} 4 integer\n{rows}end\n")
        done, corners = run(["lrs", path]), run(["redund", path])
    faces = numbers([r"facets=(\d+)"], done.stdout)[0]
    return answer_of(done, numbers([r"^(\d+) 4 rational"], corners.stdout)[0], faces)


def ask_polymake(points):
    rows = ",".join("[1,%d,%d,%d]" % point for point in points)
    words = f'my $p = new Polytope(POINTS=>[{rows}]); print "corners ", $p->N_VERTICES, " faces ", $p->N_FACETS;'
    done = run(["polymake", words])
    return answer_of(done, *numbers([r"corners (\d+)", r"faces (\d+)"], done.stdout))


def ask_cgal(kind, folder):
    """CGAL's hull, built with one of its kernels."""
    program = os.path.join(folder, kind)
    subprocess.run([sys.executable, PEERS, kind, program], check=True)

    def ask(points):
        done = run([program], text_of(points))
        return answer_of(done, *numbers([r"^(\d+)", r"^\d+ (\d+)"], done.stdout))

    return ask


SCIPY = """
import sys, numpy, scipy.spatial
points = numpy.array([line.split()[:3] for line in sys.stdin.readlines()[2:]], float)
hull = scipy.spatial.ConvexHull(points)
print(len(hull.vertices), len(hull.simplices))
"""
OPEN3D = """
import sys, numpy, open3d
points = numpy.array([line.split()[:3] for line in sys.stdin.readlines()[2:]], float)
mesh, _ = open3d.geometry.PointCloud(open3d.utility.Vector3dVector(points)).compute_convex_hull()
print(len(mesh.vertices), len(mesh.triangles))
"""


def ask_python(words):
    """A few lines of Python with Debian's packages."""

    def ask(points):
        done = run([PYTHON, "-c", words], text_of(points))
        return answer_of(done, *numbers([r"^(\d+)", r"^\d+ (\d+)"], done.stdout))

    return ask


MESHLAB = '<!DOCTYPE FilterScript>\n<FilterScript>\n <filter name="Convex Hull"/>\n</FilterScript>\n'


def ask_meshlab(points):
    with tempfile.TemporaryDirectory() as folder:
        for name, text in (("points.off", off_text(points, [])), ("hull.mlx", MESHLAB)):
            with open(os.path.join(folder, name), "w", encoding="ascii") as target:
                target.write(text)
        words = ["xvfb-run", "-a", "meshlabserver", "-i", "points.off", "-o", "hull.off", "-s", "hull.mlx"]
        done = run(words, folder=folder)
        text = text_in(os.path.join(folder, "hull.off"))
    return answer_of(done, *numbers([r"^OFF\s+(\d+)", r"^OFF\s+\d+ (\d+)"], text))


def has(*commands):
    """Returns true if all of these commands are installed."""
    return all(map(shutil.which, commands))


def has_module(name):
    """Returns true if Debian's Python has a module."""
    return os.path.exists(PYTHON) and run([PYTHON, "-c", f"import {name}"]).returncode == 0


def programs(folder):
    """The programs that are there, this one first."""
    cgal = has("g++") and os.path.exists("/usr/include/CGAL/convex_hull_3.h")
    known = [
        Program("normaliz", "normaliz", False, ask_normaliz, has("normaliz")),
        Program("lrs", "lrslib", False, ask_lrs, has("lrs", "redund")),
        Program("polymake", "polymake", False, ask_polymake, has("polymake")),
        Program("CGAL, exact predicates", "libcgal-dev", True, cgal and ask_cgal("cgal", folder), cgal),
        Program("CGAL, plain double", "libcgal-dev", True, cgal and ask_cgal("cgal-plain", folder), cgal),
        Program("Qhull", "qhull-bin", False, ask_qhull(), has("qhull")),
        Program("Qhull with QJ", "qhull-bin", True, ask_qhull("QJ"), has("qhull")),
        Program("scipy", "python3-scipy", True, ask_python(SCIPY), has_module("scipy")),
        Program("Open3D", "python3-open3d", True, ask_python(OPEN3D), has_module("open3d")),
        Program("MeshLab", "meshlab", True, ask_meshlab, has("meshlabserver", "xvfb-run")),
    ]
    return [Program("this program", None, False, ask_ours, True), *(program for program in known if program.there)]


def version(package):
    """The version of a Debian package, without Debian's own part."""
    if not package or not has("dpkg-query"):
        return ""
    found = run(["dpkg-query", "-W", "-f", "${Version}", package]).stdout
    return re.split(r"[+-]", found)[0]


# What is right, and who agrees.


def right_hull(points):
    """The numbers of corners and facets, and of triangles, of the hull, checked."""
    hull = read_off(run([PROGRAM, "off"], text_of(points)).stdout)
    check(Checker(points), hull, SimpleNamespace(whole=True, unoriented=False))
    triangles = sum(len(face) - 2 for face in hull.faces)
    return len(hull.points), {False: len(hull.faces), True: triangles}


def agrees(program, answer, right):
    """Returns true if an answer has the right numbers."""
    corners, faces = right
    return answer.corners == corners and answer.faces == faces[program.triangles]


def cell(program, answer, right):
    """An answer in the table."""
    if answer.why:
        return f"- ({answer.why})"
    mark = "" if agrees(program, answer, right) else " !"
    return f"{answer.corners}/{answer.faces}{mark}"


def table(found, sets):
    """The table of all programs over the sets, row by row."""
    answers = {program: [program.ask(points) for points, _ in sets.values()] for program in found}
    rows = [["Program", "version", *sets, "right"], ["---"] * (len(sets) + 3)]
    for program in found:
        rights = [right for _, right in sets.values()]
        cells = [cell(program, *pair) for pair in zip(answers[program], rights)]
        good = sum(agrees(program, *pair) for pair in zip(answers[program], rights))
        name = program.name + (" (triangles)" if program.triangles else "")
        rows.append([name, version(program.package), *cells, f"{good} of {len(sets)}"])
    return rows, answers


def wrong_with_success(answers, sets):
    """The programs that ended with status 0 and another hull, and where."""
    for program, given in answers.items():
        wrong = [
            name + answer.warning
            for (name, (_, right)), answer in zip(sets.items(), given)
            if not answer.why and answer.status == 0 and not agrees(program, answer, right)
        ]
        if wrong:
            yield f"{program.name} answers another hull with status 0: {', '.join(wrong)}"


def main():
    parser = argparse.ArgumentParser(description=__doc__, formatter_class=argparse.RawDescriptionHelpFormatter)
    parser.add_argument("files", nargs="*", default=SETS, metavar="POINTS", help="point files")
    options = parser.parse_args()
    built(PROGRAM)
    sets = {}
    for path in options.files:
        points = points_of_file(path)
        sets[os.path.splitext(os.path.basename(path))[0]] = (points, right_hull(points))
    with tempfile.TemporaryDirectory() as folder:
        rows, answers = table(programs(folder), sets)
    for row in rows:
        print("|", " | ".join(row), "|")
    print()
    for line in wrong_with_success(answers, sets):
        print(line)


if __name__ == "__main__":
    main()
