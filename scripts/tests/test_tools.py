"""Unit tests of scripts/tools/check_hull.py and extremes_of_part.sh; `python3 -m unittest discover scripts/tests`."""
import subprocess
import sys
import tempfile
import unittest
from pathlib import Path

sys.path.insert(0, str(Path(__file__).resolve().parents[1]))
from lib.hull_oracle import hull_text  # noqa: E402
from lib.paths import TOP  # noqa: E402

CUBE = TOP / "examples" / "unit-cube.txt"
POINTS = [(x, y, z) for x in (0, 1) for y in (0, 1) for z in (0, 1)]
TOOLS = TOP / "scripts" / "tools"


def checked(text):
    """The status of check_hull.py, and what it printed, for the faces of the cube in a text."""
    done = subprocess.run([sys.executable, TOOLS / "check_hull.py", CUBE, "-"], input=text, capture_output=True, text=True)
    return done.returncode, done.stdout


class CheckHull(unittest.TestCase):
    TEXT = hull_text(POINTS, ["off"])[0].decode()

    def test_the_cube_passes(self):
        self.assertEqual(checked(self.TEXT), (0, "all right: 8 corners, 6 faces\n"))

    def test_its_triangles_pass(self):
        self.assertEqual(checked(hull_text(POINTS, ["offt"])[0].decode())[0], 0)

    def test_a_face_that_is_missing_is_found(self):
        lines = self.TEXT.splitlines()
        lines[1] = "8 5 12"
        self.assertEqual(checked("\n".join(lines[:-1]) + "\n")[0], 1)

    def test_a_face_that_is_turned_is_found(self):
        self.assertEqual(checked(self.TEXT.replace("4 0 1 3 2", "4 0 2 3 1"))[0], 1)


class ExtremesOfPart(unittest.TestCase):
    def test_the_lines_of_the_vertices_come_out(self):
        with tempfile.TemporaryDirectory() as folder:
            program = Path(folder) / "qconvex"
            program.write_text("#!/bin/sh\ncat > /dev/null\nprintf 'OFF\\n1 1 0\\n5 5 5\\n1 0\\n'\n")
            program.chmod(0o755)
            done = subprocess.run(
                [TOOLS / "extremes_of_part.sh"], input="5 5 5\n5 5 5\n", env={"QCONVEX": str(program), "PATH": "/usr/bin:/bin"},
                capture_output=True, text=True,
            )
        self.assertEqual((done.returncode, done.stdout), (0, "5 5 5\n"))


if __name__ == "__main__":
    unittest.main()
