"""Builds the package with the shared library in it, for the one platform that the library is for."""
import platform
import re
import shutil
import subprocess
import sys
from pathlib import Path

from setuptools import setup
from setuptools.command.build_py import build_py
from wheel.bdist_wheel import bdist_wheel

HERE = Path(__file__).resolve().parent
PAGES = HERE / "man" / "man_pages.py"
PLACES = [HERE / "qconvex" / "libqconvex.so", HERE.parent / "c" / "build" / "libqconvex.so"]
# The versions of the C library whose symbols a shared library wants, as they stand in it.
WANTED = re.compile(rb"\0GLIBC_(\d+)\.(\d+)")


def library():
    """Where the shared library is; the build ends where there is none."""
    found = [place for place in PLACES if place.exists()]
    if not found:
        sys.exit(f"the shared library is missing: `make -C c` puts it to {PLACES[-1]}")
    return found[0]


def platform_of(path):
    """The platforms of a shared library: Linux with the newest version of the C library that it wants, or a newer one."""
    major, minor = max((tuple(map(int, found)) for found in WANTED.findall(path.read_bytes())), default=(2, 17))
    return f"manylinux_{major}_{minor}_{platform.machine()}"


class WithLibrary(build_py):
    """Puts the library beside the modules."""

    def run(self):
        source = library()
        super().run()
        shutil.copyfile(source, Path(self.build_lib) / "qconvex" / "libqconvex.so")


class ForPlatform(bdist_wheel):
    """Names the platform, since the library is for no other; any Python of the third version can load it."""

    def finalize_options(self):
        super().finalize_options()
        self.root_is_pure = False

    def get_tag(self):
        return "py3", "none", platform_of(library())


if PAGES.exists():  # a source archive has the manual pages themselves
    subprocess.run([sys.executable, PAGES], check=True)
setup(cmdclass={"build_py": WithLibrary, "bdist_wheel": ForPlatform})
