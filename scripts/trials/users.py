#!/usr/bin/env python3
"""Does the work of six users with what was built, and has each answer judged by another program or by theory.

    scripts/trials/users.py [--seconds N] [--seed N] [--only mesh,sets,lattice,floats,files,projects]

mesh        200,000 floats of a bumpy ball by `ConvexHull.from_floats`, and as a mesh by meshpoints and the program: one set of corners,
            Euler's formula, and nearly the volume that scipy finds
sets        100,000 small sets in one call of c/qconvex.hpp, by 4 workers: boxes, octahedra and tetrahedra with points inside, whose
            numbers of corners, faces and edges are known
lattice     lattice points near a ball: the facets that hullfacets writes for Normaliz, lrs and polymake, each where it is installed, have
            the corners, or the volume, of the hull
floats      floats whose hull Qhull makes, put on a grid by meshpoints: hullcheck says of Qhull's faces what check_hull.py says
files       points in ten files by hullmany, whole numbers and floats: the corners are those of the box that was put among them, and of
            floats it says by how much they were moved. From --seconds 60 on they are 10^6, and from 600 on 10^7
projects    the project of examples/cmake and a package installed by pip, with the library as it is installed in a new folder

Nothing is built but the programs of the trials. A part that misses a program or a package is left out.
"""
import math
import re
import shutil
import subprocess
import sys
import tempfile
from fractions import Fraction
from pathlib import Path

sys.path.insert(0, str(Path(__file__).resolve().parents[1]))
from lib import package, trials  # noqa: E402,F401
from lib.hull_oracle import file_of  # noqa: E402
from lib.paths import PYTHON, TOP  # noqa: E402
from trials.library import README_PRINTS, lines_of_readme  # noqa: E402

COMMANDS, LIBRARY = PYTHON / "bin", TOP / "c/build/libqconvex.a"
SYSTEM = "/usr/bin/python3"
FLOATS, SETS = 200_000, 100_000
# How many points in files, and from how many seconds on.
COUNTS = {10_000_000: 600, 1_000_000: 60, 100_000: 0}
SETS_IN_C = """
#include "qconvex.hpp"
#include <iostream>
#include <random>
int main(int, char **words) {
    std::mt19937 random(std::stoul(words[2]));
    std::vector<qconvex::Point> points;
    std::vector<std::size_t> starts = {0};
    for (std::size_t set = 0; set < std::stoul(words[1]); set++) {
        const std::int32_t a = 1 + random() % 1000, b = 1 + random() % 1000, c = 1 + random() % 1000;
        if (set % 3 == 0) for (int k = 0; k < 8; k++) points.push_back({k & 1 ? a : -a, k & 2 ? b : -b, k & 4 ? c : -c});
        if (set % 3 == 1) for (int s : {-1, 1}) points.insert(points.end(), {{s * a, 0, 0}, {0, s * b, 0}, {0, 0, s * c}});
        if (set % 3 == 2) points.insert(points.end(), {{-a, -b, -c}, {3 * a, -b, -c}, {-a, 3 * b, -c}, {-a, -b, 3 * c}});
        for (unsigned more = random() % 5; more > 0; more--) points.push_back({0, 0, 0});
        starts.push_back(points.size());
    }
    const std::size_t wanted[3][3] = {{8, 6, 12}, {6, 8, 12}, {4, 4, 6}};
    std::size_t wrong = 0;
    const auto answers = qconvex::hulls(points, starts, 4);
    for (std::size_t set = 0; set < answers.size(); set++) {
        const qconvex::Hull &hull = answers[set].hull;
        const std::size_t *numbers = wanted[set % 3];
        wrong += hull.extremes.size() != numbers[0] || hull.face_count() != numbers[1] || hull.edges != numbers[2];
    }
    std::cout << answers.size() << ' ' << wrong << '\\n';
}
"""


def output(*command, **settings):
    """What a command prints; one that fails breaks the part off."""
    run = subprocess.run(list(map(str, command)), stdout=subprocess.PIPE, stderr=subprocess.DEVNULL, text=True, check=True, **settings)
    return run.stdout


def numpy_and_scipy():
    """The two packages, without which a part is left out."""
    try:
        import numpy
        from scipy import spatial
    except ImportError as missing:
        raise trials.LeftOut(str(missing)) from None
    return numpy, spatial


def write_mesh(path, points):
    """Writes floats as the vertices of an obj file, exactly."""
    path.write_text("".join(f"v {x!r} {y!r} {z!r}\n" for x, y, z in points.tolist()), encoding="ascii")


def directions(numpy, rng, count):
    """Random directions."""
    found = numpy.random.default_rng(rng.getrandbits(32)).normal(size=(count, 3))
    return found / numpy.linalg.norm(found, axis=1)[:, None]


def mesh(given, rng):
    """A mesh of floats."""
    numpy, spatial = numpy_and_scipy()
    program = trials.need(given.program)
    try:
        from qconvex import ConvexHull
    except (ImportError, OSError) as missing:
        raise trials.LeftOut(str(missing)) from None
    while True:
        ways = directions(numpy, rng, FLOATS)
        points = ways * (1 + 0.1 * numpy.sin(9 * ways).prod(axis=1))[:, None]
        hull, theirs = ConvexHull.from_floats(points), spatial.ConvexHull(points)
        euler = len(hull.vertices) - hull.nedges + len(hull.faces)
        yield "hulls", None if euler == 2 else f"{euler} by Euler's formula"
        yield "volumes", None if math.isclose(hull.volume, theirs.volume, rel_tol=1e-6) else f"{hull.volume}, not {theirs.volume}"
        with tempfile.TemporaryDirectory() as room:
            write_mesh(Path(room, "ball.obj"), points)
            text = output(COMMANDS / "meshpoints", Path(room, "ball.obj"))
        corners = list(map(int, output(program, "Fx", input=text).split()[1:]))
        yield "meshes", None if corners == hull.vertices.tolist() else "meshpoints and from_floats lead to other corners"


def sets(_given, rng):
    """Many small sets in C++."""
    compiler = trials.need("g++")
    trials.need(str(LIBRARY), "make -C c has to be run first")
    with tempfile.TemporaryDirectory() as room:
        Path(room, "sets.cpp").write_text(SETS_IN_C, encoding="ascii")
        output(compiler, "-std=c++17", "-O2", "-pthread", "-I", TOP / "c", "-o", Path(room, "sets"), Path(room, "sets.cpp"), LIBRARY)
        while True:
            said = output(Path(room, "sets"), SETS, rng.getrandbits(32))
            yield "calls", None if said == f"{SETS} 0\n" else f"sets and wrong ones: {said}"


def corners_of_normaliz(room, text):
    """The corners that Normaliz finds for inequalities."""
    (room / "facets.in").write_text(text, encoding="ascii")
    output("normaliz", "--VerticesOfPolyhedron", room / "facets.in")
    block = re.search(r"vertices of polyhedron:\n((?: .*\n)+)", (room / "facets.out").read_text(encoding="ascii"))[1]
    return {tuple(int(word) for word in row.split()[:3]) for row in block.splitlines() if row.split()[3] == "1"}


def corners_of_lrs(room, text):
    """The corners that lrs finds for inequalities."""
    (room / "facets.ine").write_text(text, encoding="ascii")
    rows = output("lrs", room / "facets.ine").partition("rational\n")[2].partition("end")[0].splitlines()
    return {tuple(map(int, row.split()[1:])) for row in rows if row.split()[0] == "1"}


OTHERS = {"normaliz": corners_of_normaliz, "lrs": corners_of_lrs}


def volume_of_polymake(room, script):
    """Six times the volume that polymake finds for the facets."""
    facets = re.search(r"FACETS=>(\[.*\]), AFFINE_HULL", script)[1]
    (room / "facets.pl").write_text(f'use application "polytope";\nprint 6 * (new Polytope<Rational>(INEQUALITIES=>{facets}))->VOLUME;\n')
    return output("polymake", "--script", room / "facets.pl")


def lattice(given, rng):
    """Lattice polytopes for programs of lattice geometry."""
    program = trials.need(given.program)
    found = [name for name in (*OTHERS, "polymake") if shutil.which(name)]
    if not found:
        raise trials.LeftOut("Normaliz, lrs and polymake are missing")
    print(f"lattice: beside {', '.join(found)}", flush=True)
    with tempfile.TemporaryDirectory() as folder:
        room = Path(folder)
        while True:
            radius = rng.randint(2, 6)
            points = [tuple(rng.randint(-radius, radius) for _ in range(3)) for _ in range(rng.randint(8, 40))]
            text = output(program, "off", input=file_of(points).decode())
            corners = {tuple(map(int, row.split())) for row in text.splitlines()[2 : 2 + int(text.split()[1])]}
            for name in found:
                facets = output(COMMANDS / "hullfacets", "--form", name, input=text)
                if name == "polymake":
                    volume = output(COMMANDS / "hullfacets", input=text).splitlines()[0].rpartition(" ")[2]
                    got, want = volume_of_polymake(room, facets), volume
                else:
                    got, want = OTHERS[name](room, facets), corners
                yield name, None if got == want else f"{name}: {got}, not {want}"


def floats(given, rng):
    """Another program's hull of floats."""
    numpy, _ = numpy_and_scipy()
    checker, qhull = trials.need(given.checker), trials.need("qhull", "Debian's qhull-bin has it")
    with tempfile.TemporaryDirectory() as folder:
        room = Path(folder)
        while True:
            points = directions(numpy, rng, 300) * rng.choice([1, numpy.random.default_rng(rng.getrandbits(32)).random((300, 1))])
            # Of some sets a face lies in a plane, which the grid does not keep.
            points = numpy.maximum(points, rng.choice([-1, -0.5]) * points[0, 0] ** 2)
            write_mesh(room / "floats.obj", points)
            (room / "grid.txt").write_text(output(COMMANDS / "meshpoints", room / "floats.obj"), encoding="ascii")
            text = "3\n300\n" + "\n".join(" ".join(map(repr, row)) for row in points.tolist())
            faces = output(qhull, "Qt", "i", input=text)
            (room / "faces.off").write_text(off_of(room / "grid.txt", faces), encoding="ascii")
            ours = subprocess.run([checker, "--clockwise", room / "grid.txt", room / "faces.off"], capture_output=True, check=False)
            theirs = subprocess.run([TOP / "scripts/tools/check_hull.py", room / "grid.txt", room / "faces.off"], capture_output=True, check=False)
            same = ours.returncode == theirs.returncode and ours.returncode in (0, 1)
            yield ("wrong faces" if ours.returncode else "right faces"), None if same else f"{ours} and {theirs} of {points.tolist()}"


def off_of(grid, faces):
    """The OFF text of faces by the indices of points."""
    rows, triangles = grid.read_text(encoding="ascii").splitlines()[2:], faces.splitlines()[1:]
    return "\n".join(["OFF", f"{len(rows)} {len(triangles)} 0", *rows, *(f"3 {row}" for row in triangles), ""])


def files(given, rng):
    """Points in ten files."""
    numpy, _ = numpy_and_scipy()
    program = trials.need(given.program)
    count, end = next(count for count, seconds in COUNTS.items() if given.seconds >= seconds), 1 << 30
    box = numpy.array([[x, y, z] for x in (-end, end) for y in (-end, end) for z in (-end, end)])
    with tempfile.TemporaryDirectory() as room:
        while True:
            points = numpy.random.default_rng(rng.getrandbits(32)).uniform(1 - end, end - 1, size=(count, 3))
            places = sorted(rng.sample(range(count), 8))
            points[places] = box
            for kind, most in ("int32", None), ("float64", Fraction(numpy.abs(points - numpy.rint(points)).max()) / end):
                names = [Path(room, f"{number}.npy") for number in range(10)]
                for name, part in zip(names, numpy.array_split(points / end if most else points.astype(kind), 10)):
                    numpy.save(name, part)
                words = [word for name in names for word in ("--file", name)] + (["--bits", "30"] if most else [])
                command = [SYSTEM, COMMANDS / "hullmany", "--quiet", "--run", program, "--part", count // 13, "--jobs", "2", *words, "Fx"]
                said = subprocess.run(list(map(str, command)), capture_output=True, text=True, check=True)
                told = Fraction(said.stderr.split()[-1]) if most else None
                same = said.stdout.split() == ["8", *map(str, places)] and told == most
                yield f"of {count} points, {kind}", None if same else f"{said.stdout[:200]} {said.stderr}, not {places} {most}"


def projects(_given, _rng):
    """Projects that use what is installed."""
    trials.need(str(LIBRARY), "make -C c has to be run first")
    with tempfile.TemporaryDirectory() as folder:
        room = Path(folder)
        output("make", "-s", "-C", "c", "install", f"PREFIX={room / 'usr'}", cwd=TOP)
        if shutil.which("cmake"):
            output("cmake", "-S", TOP / "examples/cmake", "-B", room / "build", f"-DCMAKE_PREFIX_PATH={room / 'usr'}")
            output("cmake", "--build", room / "build")
            said = output(room / "build/faces", input=(TOP / "examples/unit-cube.txt").read_text(encoding="ascii"))
            yield "CMake", None if said == (TOP / "examples/cmake/unit-cube.out").read_text(encoding="ascii") else said
        shutil.copytree(PYTHON, room / "python", ignore=shutil.ignore_patterns("build", "*.egg-info"))
        shutil.copy(room / "usr/lib/libqconvex.so", room / "python/qconvex")
        pip = [SYSTEM, "-m", "pip", "install", "-q", "--no-build-isolation", "--no-deps", "--no-index", "--target", room / "packages", room / "python"]
        try:
            output(*pip, cwd=room)
        except subprocess.CalledProcessError:
            raise trials.LeftOut("python3 has no pip, setuptools or wheel") from None
        said = output(SYSTEM, "-c", lines_of_readme("python"), cwd=room, env={"PYTHONPATH": str(room / "packages")})
        yield "pip", None if said == README_PRINTS else said


if __name__ == "__main__":
    trials.main(__doc__, {"mesh": mesh, "sets": sets, "lattice": lattice, "floats": floats, "files": files, "projects": projects})
