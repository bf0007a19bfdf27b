"""Looks whether each script starts: `--help` prints how to use it, by the path where it stands, and does nothing else."""
import os
import subprocess
import sys
import unittest
from pathlib import Path

sys.path.insert(0, str(Path(__file__).resolve().parents[1]))
from lib.paths import TOP  # noqa: E402

FOLDERS = ["scripts/tools", "scripts/make", "scripts/gate", "scripts/trials", "scripts/studies", "bench"]
# What a script may miss on a machine without the library for C, or without numpy and scipy.
MISSING = ("libqconvex.so", "No module named 'numpy'", "No module named 'scipy'")


def scripts():
    """The scripts that can be run, each with its command: shell scripts, and those in Python with a main function."""
    for folder in FOLDERS:
        for path in sorted((TOP / folder).glob("*.py")):
            if "__main__" in path.read_text(encoding="utf-8"):
                yield path, [sys.executable, path]
        for path in sorted((TOP / folder).glob("*.sh")):
            yield path, ["sh", path]
    yield TOP / "scripts/trials/all", [sys.executable, TOP / "scripts/trials/all"]


class Starts(unittest.TestCase):
    def test_each_script_says_how_to_use_it(self):
        for path, command in scripts():
            with self.subTest(script=path.name):
                done = subprocess.run([*command, "--help"], cwd=TOP, capture_output=True, text=True, timeout=60)
                if any(missing in done.stderr for missing in MISSING):
                    continue
                self.assertEqual(done.returncode, 0, done.stderr)
                self.assertIn(str(path.relative_to(TOP)), done.stdout)

    def test_each_script_can_be_run_by_its_path(self):
        for path, _ in scripts():
            with self.subTest(script=path.name):
                self.assertTrue(os.access(path, os.X_OK))
                self.assertTrue(path.read_bytes().startswith(b"#!"))

    def test_a_wrong_name_is_told_on_standard_error(self):
        command = [sys.executable, TOP / "scripts/make/example_sets.py", "no-such-set"]
        done = subprocess.run(command, capture_output=True, text=True)
        self.assertEqual((done.returncode, done.stdout), (2, ""))
        self.assertIn("example_sets.py NAME", done.stderr)

    def test_each_script_is_listed(self):
        listed = (TOP / "scripts" / "README.md").read_text(encoding="utf-8")
        for path in (TOP / "scripts").glob("*/*"):
            if path.suffix in (".py", ".sh", ".c") and path.parent.name != "tests":
                with self.subTest(script=path.name):
                    self.assertIn(f"`{path.name}`", listed)


if __name__ == "__main__":
    unittest.main()
