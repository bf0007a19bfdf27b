"""The types, by mypy where it is there: what the package says passes, and what no caller may hand in is refused."""
from __future__ import annotations

import shutil
import subprocess
from pathlib import Path

import pytest

ROOT = Path(__file__).parents[1]
MYPY = shutil.which("mypy")
pytestmark = pytest.mark.skipif(MYPY is None, reason="mypy is missing")


def checked(*words: str) -> subprocess.CompletedProcess[str]:
    """What mypy says."""
    return subprocess.run([str(MYPY), "--cache-dir=/dev/null", *words], cwd=ROOT, capture_output=True, text=True)


def test_the_package_passes() -> None:
    said = checked()
    assert said.returncode == 0, said.stdout


CALLS = ['ConvexHull("abc")', "ConvexHull(7)", 'snap([[0.5, 0.5, 0.5]], bits="30")', "check([[0, 0, 0]], 7)"]


@pytest.mark.parametrize("call", CALLS)
def test_a_wrong_argument_is_refused(call: str, tmp_path: Path) -> None:
    user = tmp_path / "user.py"
    user.write_text(f"from qconvex import ConvexHull, check, snap\n\n{call}\n")
    said = checked("--strict", str(user))
    assert said.returncode == 1 and "arg-type" in said.stdout, said.stdout


USER = """
import numpy as np
from qconvex import ConvexHull, FloatHull, hulls

floats = np.zeros((4, 3))
whole: ConvexHull = hulls([[0, 0, 0]], [0, 1], workers=2)[0]
one: FloatHull = hulls(floats, [0, 4], bits=30)[0]
some: list[FloatHull] = hulls([[0.5, 1, 2]], [0, 1], bits=9, workers=2)[:]
errors: list[float] = [hull.snap_error for hull in hulls(floats, [0, 4], bits=30)]
"""


def test_many_hulls_have_their_types(tmp_path: Path) -> None:
    user = tmp_path / "user.py"
    user.write_text(USER)
    said = checked("--strict", str(user))
    assert said.returncode == 0, said.stdout
