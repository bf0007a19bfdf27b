"""Tests of the trials with programs that stand in for qconvex: one that answers by the oracles, and ones that are wrong."""
import os
import random
import re
import subprocess
import sys
import tempfile
import time
import unittest
from pathlib import Path

sys.path.insert(0, str(Path(__file__).resolve().parents[1]))
from lib import trials  # noqa: E402
from lib.file_oracle import Fault, off_points_of, points_of  # noqa: E402
from lib.limits import COORDINATE_LIMIT  # noqa: E402
from lib.mutated_files import FEW, MANY, valid_file  # noqa: E402
from lib.paths import TOP  # noqa: E402
from trials import parts  # noqa: E402

RIGHT = f"""#!{sys.executable}
import sys
sys.path.insert(0, {str(TOP / "scripts")!r})
from lib.file_oracle import Fault, off_points_of, points_of
from lib.hull_oracle import hull_text
sys.set_int_max_str_digits(0)
words = sys.argv[1:]
try:
    points = (off_points_of if "--from" in words else points_of)(sys.stdin.buffer.read())
except Fault as fault:
    sys.stderr.buffer.write(fault.message)
    sys.exit(1)
sys.stdout.buffer.write(hull_text(points, [word for word in ("rank", "s", "Fx", "off", "offt") if word in words])[0])
"""
WRONG = "#!/bin/sh\ncat > /dev/null\necho 1 1 0\n"
# No trial of these tests may find rt.
PATH = "/usr/bin:/bin"


class Stands(unittest.TestCase):
    def tried(self, name, program, *words):
        """The status of a trial, and the numbers of what it tried and what was wrong."""
        with tempfile.TemporaryDirectory() as folder:
            path = Path(folder) / "qconvex"
            path.write_text(program)
            path.chmod(0o755)
            command = [sys.executable, TOP / f"scripts/trials/{name}.py", "--program", path, "--checker", "/no/hullcheck", "--without-rt", *words]
            done = subprocess.run(command, env={**os.environ, "PATH": PATH}, capture_output=True, text=True)
        found = re.search(r"^(\d+) tried, (\d+) wrong\n\Z", done.stdout, re.MULTILINE)
        self.assertIsNotNone(found, done.stdout + done.stderr)
        return done.returncode, int(found[1]), int(found[2])

    def test_a_program_that_is_right_passes(self):
        for name, only in (("sets", "oracle"), ("bytes", "points,off"), ("checkers", "damaged,right")):
            with self.subTest(trial=name):
                status, tried, wrong = self.tried(name, RIGHT, "--seconds", "1", "--only", only)
                self.assertEqual((status, wrong), (0, 0))
                self.assertGreater(tried, 0)

    def test_a_program_that_is_wrong_is_found(self):
        for name, only in (("sets", "oracle"), ("devices", "program")):
            with self.subTest(trial=name):
                status, _, wrong = self.tried(name, WRONG, "--seconds", "1", "--only", only)
                self.assertEqual(status, 1)
                self.assertGreater(wrong, 0)

    def test_what_misses_something_or_runs_rt_is_left_out(self):
        self.assertEqual(self.tried("workers", RIGHT), (0, 0, 0))
        self.assertEqual(self.tried("refusals", RIGHT, "--only", "checker,calls"), (0, 0, 0))


class Skeleton(unittest.TestCase):
    def test_a_part_without_end_is_closed_when_its_time_is_over(self):
        closed = []

        def part():
            try:
                while True:
                    yield "kind", None
            finally:
                closed.append(True)

        self.assertTrue(list(trials.outcomes_until(time.monotonic() + 0.01, part())))
        self.assertEqual(closed, [True])

    def test_a_program_that_is_missing_leaves_a_part_out(self):
        self.assertEqual(Path(trials.need("sh")).name, "sh")
        self.assertRaises(trials.LeftOut, trials.need, "/no/such/program")


class Inputs(unittest.TestCase):
    def test_valid_files_are_read(self):
        rng = random.Random(1)
        for number in range(300):
            off = number % 2 == 1
            data = valid_file(rng, off, FEW if number % 3 else MANY)
            try:
                self.assertTrue((off_points_of if off else points_of)(data))
            except Fault as fault:
                self.fail(f"{fault.message}: {data}")

    def test_sets_for_parts_are_in_range(self):
        rng = random.Random(1)
        for _ in range(60):
            points, _ = parts.large_set(rng)
            self.assertLessEqual(max(abs(part) for point in points for part in point), COORDINATE_LIMIT)


if __name__ == "__main__":
    unittest.main()
