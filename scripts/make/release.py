#!/usr/bin/env python3
"""Makes the files of a release from what was built, and tries each in an empty folder.

    scripts/make/release.py [FOLDER]        from the top of the repository; FOLDER is dist where none is given

It takes the program, the libraries for C and the shared one for Python as they were built, and makes

    qconvex-VERSION-source.tar.gz               the sources as they were committed last
    qconvex-VERSION-linux-x86_64.tar.gz         bin, lib, include and share, to be unpacked anywhere; in bin stand the commands
                                                of python/bin, too, which need Python 3
    qconvex-exact_VERSION_amd64.deb             the same for Debian under /usr, beside Qhull's program qconvex: the program
                                                and its page are called qconvex-exact
    qconvex-VERSION-py3-none-linux_x86_64.whl   the package for Python, with the library in it
    SHA256SUMS                                  the checksums of these

Needed: make, gcc, git, gzip, dpkg-deb, and for the wheel python3 with pip, setuptools and wheel (PYTHON names another
interpreter).
"""
import hashlib
import os
import shutil
import subprocess
import sys
import tarfile
import tempfile
from pathlib import Path

sys.path.insert(0, str(Path(__file__).resolve().parents[1]))
from lib.paths import PROGRAM, TOP  # noqa: E402
from lib.usage import names_given  # noqa: E402

PYTHON = os.environ.get("PYTHON", "/usr/bin/python3")
PAGES = ["README.md", "CHANGELOG.md", "docs/PROGRAM.md", "docs/PYTHON.md", "docs/LIBRARY.md", "docs/FAULTS.md", "docs/TUTORIAL.md"]
CUBE = TOP / "examples/unit-cube.txt"
CONTROL = """Package: qconvex-exact
Version: {version}
Architecture: amd64
Maintainer: {maintainer}
Depends: libc6
Recommends: python3, python3-numpy
Section: science
Priority: optional
Description: exact and proved convex hull of whole-number points in space
 The extreme points and every face as a polygon, counterclockwise from outside,
 none missed. The program is called qconvex-exact, and hullcheck checks the
 faces of any program; the library for C has its header, qconvex.pc and a CMake
 package. Commands such as hullexplain and meshpoints need Python 3.
"""


def output(*command, **options):
    """What a command prints."""
    return subprocess.run(command, check=True, stdout=subprocess.PIPE, text=True, cwd=options.pop("cwd", TOP), **options).stdout


def installed(prefix, name, below=""):
    """Installs program and libraries."""
    places = [f"PREFIX={prefix}", f"DESTDIR={below}"]
    output("make", "-s", "install", f"NAME={name}", *places)
    output("make", "-s", "-C", "c", "install", *places)


def add_commands(tree):
    """Adds the commands of Python to a tree, with their pages: hullexplain and those beside it, which need no library."""
    home, pages = tree / "share/qconvex/python", tree / "share/man/man1"
    for part in ("bin", "qconvex"):
        shutil.copytree(TOP / "python" / part, home / part, ignore=shutil.ignore_patterns("__pycache__", "*.so"))
    for folder in (tree / "bin", pages):
        folder.mkdir(parents=True, exist_ok=True)
    for path in (home / "bin").iterdir():
        if not path.suffix:
            (tree / "bin" / path.name).symlink_to(Path("../share/qconvex/python/bin") / path.name)
    output(PYTHON, TOP / "python/man/man_pages.py", pages)


def sources(folder, version):
    """The archive of the sources."""
    made = folder / f"qconvex-{version}-source.tar.gz"
    output("git", "archive", f"--prefix=qconvex-{version}/", "-o", made, "HEAD")
    return made


def tarball(folder, version, room):
    """The archive of a tree that can be unpacked anywhere."""
    name = f"qconvex-{version}-linux-x86_64"
    installed(room / name, "qconvex")
    add_commands(room / name)
    pages = room / name / "share/doc/qconvex"
    pages.mkdir(parents=True)
    for page in PAGES:
        shutil.copy(TOP / page, pages)
    made = folder / f"{name}.tar.gz"
    with tarfile.open(made, "w:gz") as archive:
        archive.add(room / name, name)
    return made


def debian_package(folder, version, room):
    """The package for Debian."""
    tree = room / "debian"
    installed("/usr", "qconvex-exact", tree)
    add_commands(tree / "usr")
    subprocess.run(["gzip", "-9n", *(tree / "usr/share/man/man1").iterdir()], check=True)
    (tree / "DEBIAN").mkdir()
    maintainer = output("git", "log", "-1", "--format=%an <%ae>").strip()
    (tree / "DEBIAN/control").write_text(CONTROL.format(version=version, maintainer=maintainer))
    (tree / "DEBIAN/triggers").write_text("activate-noawait ldconfig\n")
    made = folder / f"qconvex-exact_{version}_amd64.deb"
    output("dpkg-deb", "--root-owner-group", "--build", tree, made)
    return made


def wheel(folder, room):
    """The package for Python."""
    output(PYTHON, "-m", "pip", "wheel", "-q", "--no-build-isolation", "--no-deps", "--no-index", "-w", room / "wheel", "./python")
    made = next((room / "wheel").glob("*.whl"))
    return Path(shutil.copy(made, folder))


def try_tree(tree, program, wanted):
    """Uses what was unpacked: the program, and the shared library by a program of C."""
    with open(CUBE, encoding="utf-8") as points:
        got = output(tree / "bin" / program, "s", stdin=points)
    if got != wanted:
        sys.exit(f"{tree}: the program answers {got!r}, not {wanted!r}")
    said = output(tree / "bin/hullexplain", CUBE)
    if not said.startswith("No fault"):
        sys.exit(f"{tree}: hullexplain says {said!r}")
    cube = tree.parent / "cube"
    output("gcc", "-o", cube, "-I", tree / "include", TOP / "c/cube.c", "-L", tree / "lib", "-lqconvex")
    print(f"ok: {tree.name}, {output(cube, env={'LD_LIBRARY_PATH': str(tree / 'lib')}).splitlines()[0]}")


def try_wheel(made, room):
    """Installs the wheel into a folder, and makes a hull with it."""
    packages = room / "packages"
    output(PYTHON, "-m", "pip", "install", "-q", "--no-deps", "--no-index", "--target", packages, made)
    code = "import qconvex; print(len(qconvex.ConvexHull([[0, 0, 0], [1, 0, 0], [0, 1, 0], [0, 0, 1]]).vertices))"
    got = output(PYTHON, "-c", code, cwd=room, env={"PYTHONPATH": str(packages)}).strip()
    if got != "4":
        sys.exit(f"{made.name}: a tetrahedron has {got} corners")
    print(f"ok: {made.name}")


def main():
    folder = Path([*names_given(__doc__), "dist"][0]).resolve()
    folder.mkdir(parents=True, exist_ok=True)
    version = output("scripts/make/version.py").strip()
    with open(CUBE, encoding="utf-8") as points:
        wanted = output(PROGRAM, "s", stdin=points)
    with tempfile.TemporaryDirectory() as temporary:
        room = Path(temporary)
        made = [tarball(folder, version, room), debian_package(folder, version, room), wheel(folder, room)]
        for number, unpack in enumerate([["tar", "-xzf", made[0], "-C"], ["dpkg-deb", "-x", made[1]]]):
            tree = room / f"tried{number}"
            tree.mkdir()
            output(*unpack, tree)
        try_tree(next((room / "tried0").iterdir()), "qconvex", wanted)
        try_tree(room / "tried1/usr", "qconvex-exact", wanted)
        try_wheel(made[2], room)
    made.append(sources(folder, version))
    sums = [f"{hashlib.sha256(path.read_bytes()).hexdigest()}  {path.name}\n" for path in made]
    (folder / "SHA256SUMS").write_text("".join(sums))
    print("".join(sums), end="")


if __name__ == "__main__":
    main()
