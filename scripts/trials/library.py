#!/usr/bin/env python3
"""Tries the library for C and the module for Python: their tests, their hulls beside the program and scipy, and what is installed.

    scripts/trials/library.py [--seconds N] [--seed N] [--only tests,hulls,installed]

tests       runs all tests of the library that `make -C c` built, in C and in Python, and the programs in C and Python of README
hulls       sets of lib/small_sets.py, and some of up to 200,000 points of the families of bench/: the program's `rank Fx off` has to be what the
            library's lists make; the neighbours of a triangle have to share its sides; no point may be above an equation. Where scipy finds the
            same vertices, its volume and area have to be the library's: it rounds them
installed   installs programs and library into a folder of its own, uses them there, by pkg-config and CMake, too, and removes them

It proves and builds nothing: what is not built is left out. KIT is the folder of the Rattle kit, needed only if `rt doc` doesn't name it.
"""
import importlib.util
import os
import re
import shutil
import subprocess
import sys
import tempfile
from pathlib import Path

sys.path.insert(0, str(Path(__file__).resolve().parents[1]))
from lib import package, trials  # noqa: E402,F401
from lib.hull_oracle import file_of  # noqa: E402
from lib.paths import BENCH, CHECKER, PROGRAM, PYTHON, TOP  # noqa: E402
from lib.small_sets import small_set  # noqa: E402

sys.path.insert(0, str(BENCH))
import families  # noqa: E402

BUILD = TOP / "c" / "build"
README_PRINTS = "8 extreme points, 6 faces, 12 edges\n"
# Of how many sets one is large.
LARGE = 50
CMAKE = """cmake_minimum_required(VERSION 3.13)
project(cube C)
find_package(qconvex %s REQUIRED)
foreach(kind qconvex static)
    add_executable(cube_${kind} cube.c)
    target_link_libraries(cube_${kind} qconvex::${kind})
endforeach()
"""


def done(*command, **settings):
    """Runs a command from the top, and returns what it says and whether it succeeded."""
    environment = {**os.environ, **settings.pop("env", {})}
    run = subprocess.run(list(map(str, command)), cwd=settings.pop("cwd", TOP), env=environment, capture_output=True, text=True, **settings)
    return run.stdout + run.stderr * (run.returncode != 0), run.returncode == 0


def fault(name, wanted, *command, **settings):
    """Returns what is wrong with a command that has to succeed and, if something is wanted, to print it; or None."""
    said, succeeded = done(*command, **settings)
    return None if succeeded and wanted in (None, said) else f"{name}: {said[-2000:]}"


# The tests.


def lines_of_readme(language):
    """The code block of README in a language."""
    return re.search(rf"```{language}\n(.*?)```", (TOP / "README.md").read_text(encoding="utf-8"), re.DOTALL)[1]


def tests(_given, _rng):
    """All tests of the library and of the module."""
    # Without these `make -C c test` would prove the library first.
    for part in (TOP / "crates/qconvex_c/out/libqconvex_c.a", BUILD / "libqconvex.a", BUILD / "libqconvex.so"):
        trials.need(str(part), "make -C c has to be run first")
    yield "in C", fault("make -C c test", None, "make", "-s", "-C", "c", "test")
    (BUILD / "readme.c").write_text(lines_of_readme("c"), encoding="utf-8")
    (BUILD / "readme.py").write_text(lines_of_readme("python"), encoding="utf-8")
    flags = ["-std=c11", "-Wall", "-Wextra", "-Werror", "-I", "c"]
    yield "in C", fault("README's C", None, "gcc", *flags, "-o", BUILD / "readme", BUILD / "readme.c", BUILD / "libqconvex.a")
    yield "in C", fault("README's C", README_PRINTS, BUILD / "readme")
    if not importlib.util.find_spec("numpy"):
        raise trials.LeftOut("numpy is missing: the module for Python was not tried")
    yield "in Python", fault("README's Python", README_PRINTS, sys.executable, BUILD / "readme.py", env={"PYTHONPATH": str(PYTHON)})
    yield "in Python", fault("pytest", None, sys.executable, "-m", "pytest", "-q", cwd=PYTHON)


# The hulls.


def text_of(hull):
    """What the program writes for `rank Fx off`, of the library's lists."""
    numbers = {vertex: number for number, vertex in enumerate(hull.vertices.tolist())}
    lines = ["%d %d %d" % (len(hull.points), hull.distinct, hull.dimension), str(len(numbers)), *map(str, numbers)]
    lines += ["OFF", "%d %d %d" % (len(numbers), len(hull.faces), hull.nedges)]
    lines += ["%d %d %d" % tuple(point) for point in hull.points[hull.vertices].tolist()]
    lines += [" ".join(map(str, [len(face)] + [numbers[corner] for corner in face.tolist()])) for face in hull.faces]
    return "\n".join(lines) + "\n"


def mesh_fault(numpy, hull):
    """Returns what is wrong with the triangles of a solid, or None: neighbours share sides, and no corner is above a plane."""
    triangles, neighbors = hull.simplices, hull.neighbors
    for corner in range(3):
        other = triangles[neighbors[:, corner]]
        if not all((other == end[:, None]).any(axis=1).all() for end in numpy.delete(triangles, corner, axis=1).T):
            return "a neighbour that does not share the side"
    some = hull.points[hull.vertices][:200].astype(object)
    normals, corners = hull.normals[:200].astype(object), hull.points[triangles[:200, 0]].astype(object)
    above = ((normals @ some.T) > (normals * corners).sum(axis=1)[:, None]).any()
    return "a corner above the plane of a triangle" if above else None


def beside_scipy(numpy, spatial, hull):
    """Returns what scipy says of a set, and how its volume and area differ, or None."""
    try:
        theirs = spatial.ConvexHull(hull.points.astype(numpy.float64))
    except (spatial.QhullError, ValueError):
        return "scipy refuses", None
    ours, others = ({tuple(point) for point in hull.points[one.vertices].tolist()} for one in (hull, theirs))
    if ours != others:
        return "scipy has other vertices", None
    pairs = (hull.volume, theirs.volume), (hull.area, theirs.area)
    same = all(numpy.isclose(*pair, rtol=1e-7) for pair in pairs)
    return "scipy has the same", None if same else f"scipy's volume or area: {pairs}"


def some_set(rng, number):
    """A small set, or sometimes a large one."""
    if number % LARGE:
        return small_set(rng)[0]
    return families.ORDINARY[rng.choice(sorted(families.ORDINARY))](rng, rng.choice([1000, 20_000, 200_000]))


def hulls(given, rng):
    """Hulls of the module beside the program and scipy."""
    try:
        import numpy
        from scipy import spatial
        from qconvex import ConvexHull
    except (ImportError, OSError) as missing:
        raise trials.LeftOut(str(missing)) from None
    program, number = trials.need(given.program), 0
    while True:
        number += 1
        points = some_set(rng, number)
        hull = ConvexHull(numpy.array(points))
        want = subprocess.run([program, "rank", "Fx", "off"], input=file_of(points), capture_output=True, check=True).stdout.decode()
        found = None if text_of(hull) == want else "another text than the program's"
        kind, differs = beside_scipy(numpy, spatial, hull)
        found = found or differs or (mesh_fault(numpy, hull) if hull.dimension == 3 else None)
        yield f"dimension {hull.dimension}, {kind}", f"{found}: {len(points)} points that begin with {points[:20]}" if found else None


# What is installed.


def completed(prefix, *words):
    """What a shell completes of a command line."""
    script = '. "$0"; COMP_WORDS=("$@"); COMP_CWORD=$(($# - 1)); _qconvex_exact; echo "${COMPREPLY[@]}"'
    return done("bash", "-c", script, prefix / "share/bash-completion/completions/qconvex-exact", *words)[0]


def by_packages(prefix, room, wanted):
    """Yields the faults of programs that find the library by pkg-config and by CMake, where they are there."""
    cube, search = TOP / "c/cube.c", {"LD_LIBRARY_PATH": str(prefix / "lib")}
    if shutil.which("pkg-config"):
        flags = done("pkg-config", "--cflags", "--libs", "qconvex", env={"PKG_CONFIG_PATH": str(prefix / "lib/pkgconfig")})[0].split()
        yield fault("gcc by pkg-config", None, "gcc", "-o", room / "packaged", cube, *flags)
        yield fault("pkg-config", wanted, room / "packaged", env=search)
    if shutil.which("cmake"):
        version = re.search(r'#define QCONVEX_VERSION "(.*)"', (prefix / "include/qconvex.h").read_text())[1]
        project = room / "project"
        project.mkdir()
        shutil.copy(cube, project)
        (project / "CMakeLists.txt").write_text(CMAKE % version, encoding="ascii")
        yield fault("cmake", None, "cmake", "-S", project, "-B", project / "build", f"-DCMAKE_PREFIX_PATH={prefix}")
        yield fault("cmake --build", None, "cmake", "--build", project / "build")
        yield fault("CMake, the shared library", wanted, project / "build/cube_qconvex", env=search)
        yield fault("CMake, the static library", wanted, project / "build/cube_static", env={"LD_LIBRARY_PATH": ""})


def uses(prefix, room):
    """Yields the faults of what was installed."""
    program, cube = prefix / "bin/qconvex-exact", TOP / "examples/unit-cube.txt"
    yield fault("the program", "8 8 3\n", "sh", "-c", '"$0" rank < "$1"', program, cube)
    yield fault("the checker", "all right\n", "sh", "-c", '"$0" off < "$1" | "$2" "$1"', program, cube, prefix / "bin/hullcheck")
    page = (prefix / "share/man/man1/qconvex-exact.1").read_text(encoding="utf-8")
    yield None if ".TH QCONVEX-EXACT " in page else "the page has another name"
    for words, wanted in ((["qconvex-exact", "o"], "off offt\n"), (["qconvex-exact", "--from", ""], "qhull off\n")):
        said = completed(prefix, *words)
        yield None if said == wanted else f"completion of {words}: {said}"
    wanted = done("make", "-s", "-C", "c", "build/cube")[0] + done(BUILD / "cube")[0]
    flags = ["-I", prefix / "include", TOP / "c/cube.c", "-L", prefix / "lib", "-lqconvex"]
    yield fault("gcc by the shared library", None, "gcc", "-o", room / "plain", *flags)
    yield fault("the shared library", wanted, room / "plain", env={"LD_LIBRARY_PATH": str(prefix / "lib")})
    yield from by_packages(prefix, room, wanted)


def installed(_given, _rng):
    """The installation, its use and its removal."""
    for part in (PROGRAM, CHECKER, str(BUILD / "libqconvex.so")):
        trials.need(part, "make and make -C c have to be run first")
    with tempfile.TemporaryDirectory() as folder:
        room, prefix = Path(folder), Path(folder) / "usr"
        words = {"install": [f"PREFIX={prefix}", "NAME=qconvex-exact"], "uninstall": [f"PREFIX={prefix}", "NAME=qconvex-exact"]}
        for step, names in words.items():
            for place in (".", "c"):
                yield step, fault(f"make -C {place} {step}", None, "make", "-s", "-C", place, step, *names)
            for found in uses(prefix, room) if step == "install" else ():
                yield "uses", found
            (prefix / "lib/another").touch()
        left = [str(path.relative_to(prefix)) for path in prefix.rglob("*") if not path.is_dir()]
        yield "uninstall", None if left == ["lib/another"] else f"left: {left}"


if __name__ == "__main__":
    trials.main(__doc__, {"tests": tests, "hulls": hulls, "installed": installed})
