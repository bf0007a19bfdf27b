"""The wheel: its name has the C library that the shared library wants, pip takes it, and what it installs makes a hull."""
from __future__ import annotations

import importlib.util
import os
import re
import shutil
import subprocess
import sys
from pathlib import Path

import pytest

from qconvex import _library

HERE = Path(__file__).resolve().parents[1]
MISSING = [name for name in ("pip", "setuptools", "wheel") if importlib.util.find_spec(name) is None]
pytestmark = pytest.mark.skipif(bool(MISSING), reason=f"{' and '.join(MISSING)} missing")


def pip(*words, **options):
    """What pip says."""
    command = [sys.executable, "-m", "pip", "-q", "--disable-pip-version-check", *map(str, words)]
    return subprocess.run(command, check=True, capture_output=True, text=True, **options)


@pytest.fixture(scope="module")
def wheel(tmp_path_factory):
    """A wheel of a copy of the package, with the library that the tests use."""
    tree = tmp_path_factory.mktemp("tree")
    shutil.copytree(HERE, tree / "python", ignore=shutil.ignore_patterns("build", "*.egg-info", "__pycache__", ".*"))
    shutil.copyfile(_library._path(), tree / "python" / "qconvex" / "libqconvex.so")
    pip("wheel", "--no-build-isolation", "--no-deps", "--no-index", "-w", tree / "made", tree / "python")
    return next((tree / "made").glob("*.whl"))


@pytest.mark.skipif(shutil.which("objdump") is None, reason="objdump is missing")
def test_the_name_has_the_c_library_that_is_wanted(wheel):
    symbols = subprocess.run(["objdump", "-T", _library._path()], check=True, capture_output=True, text=True).stdout
    major, minor = max(tuple(map(int, found)) for found in re.findall(r"GLIBC_(\d+)\.(\d+)", symbols))
    assert re.fullmatch(rf"qconvex-[0-9.]+-py3-none-manylinux_{major}_{minor}_x86_64\.whl", wheel.name)


def test_the_wheel_is_installed_and_makes_a_hull(wheel, tmp_path):
    pip("install", "--no-deps", "--no-index", "--target", tmp_path / "packages", wheel)
    code = "import qconvex; print(qconvex.__file__, len(qconvex.ConvexHull([[0, 0, 0], [1, 0, 0], [0, 1, 0], [0, 0, 1]]).faces))"
    kept = {name: value for name, value in os.environ.items() if name != "QCONVEX_LIBRARY"}
    environment = {**kept, "PYTHONPATH": str(tmp_path / "packages")}
    done = subprocess.run([sys.executable, "-c", code], check=True, capture_output=True, text=True, cwd=tmp_path, env=environment)
    assert done.stdout.split() == [str(tmp_path / "packages" / "qconvex" / "__init__.py"), "4"]
    for place in ("bin/meshcheck", "share/man/man1/meshcheck.1"):
        assert (tmp_path / "packages" / place).exists()
