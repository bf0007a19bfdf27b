"""Tests of bench/ and scripts/studies that need no build: `python3 -m unittest discover scripts/tests`."""
import argparse
import itertools
import os
import re
import subprocess
import sys
import tempfile
import unittest
from pathlib import Path
from types import SimpleNamespace
from unittest import mock

sys.path.insert(0, str(Path(__file__).resolve().parents[1]))
from lib.limits import COORDINATE_LIMIT  # noqa: E402
from lib.paths import BENCH, TOP  # noqa: E402
from make.prove import crates_below  # noqa: E402
from studies import lattice_times  # noqa: E402

sys.path.append(str(BENCH))
import families  # noqa: E402
import measure  # noqa: E402
import phases  # noqa: E402
import points  # noqa: E402

# Crates of laws, which have no code that runs.
LAWS = {"qh_laws"}
PEER_OF_ONE_SET = "#!/bin/sh\nhead -n 1 > /dev/null\necho 5 4\n"


class FailedRuns(unittest.TestCase):
    def test_a_peer_may_fail_and_a_build_of_this_program_may_not(self):
        own, peer = measure.Column("4", ["true"], True), measure.Column("peer", ["false"], False)
        runs = measure.runs_in_turn([own, peer], os.devnull, 3)
        self.assertEqual([[run.status for run in column] for column in runs], [[0, 0, 0], [1]])
        with self.assertRaises(SystemExit) as caught:
            measure.runs_in_turn([own, measure.Column("1", ["false", "s"], True), own], os.devnull, 2)
        self.assertEqual(caught.exception.code, "false s ended with status 1")

    def test_a_peer_is_stopped_at_its_limit(self):
        endless = measure.Column("peer", ["sh", "-c", "while :; do :; done"], False)
        (_, (run,)) = measure.runs_in_turn([measure.Column("4", ["true"], True), endless], os.devnull, 2, 1)
        self.assertEqual(run.status, "limit")

    def test_lattice_times_ends_where_this_program_fails(self):
        with tempfile.TemporaryDirectory() as folder, mock.patch.object(lattice_times, "PROGRAM", "false"):
            with self.assertRaises(SystemExit) as caught:
                lattice_times.seconds(["false", "s"], None, folder, 60)
            self.assertEqual(caught.exception.code, "false s ended with status 1")
            self.assertRegex(lattice_times.seconds(["sh", "-c", "exit 1"], None, folder, 60), r"^\d+\.\d{3}$")


class Ratios(unittest.TestCase):
    FOUND = {
        "1": {"wall": 2.0, "cpu": 2.0, "memory": 9, "status": 0}, "4": {"wall": 1.0, "cpu": 3.0, "memory": 9, "status": 0},
        "qhull": {"wall": 4.0, "cpu": 4.0, "memory": 9, "status": 0}, "cgal": {"wall": 9.0, "cpu": 5.0, "memory": 9, "status": "limit"},
        "bullet": None,
    }  # fmt: skip

    def value(self, text):
        given = SimpleNamespace(show=["wall"], peers=["qhull", "cgal", "bullet"])
        return measure.ratio_of(given, measure.ratio(text)[1], self.FOUND)

    def test_a_ratio_is_of_the_first_number_shown_or_of_one_that_is_named(self):
        self.assertEqual(self.value("4/1"), (0.5, True))
        self.assertEqual(self.value("cpu:4/1=1.4"), (1.5, False))

    def test_the_fastest_peer_counts_and_one_that_refuses_has_no_ratio(self):
        self.assertEqual(self.value("cpu:4/peers"), (0.75, True))
        self.assertEqual(self.value("4/bullet=1"), (None, True))

    def test_differences_below_the_resolution_are_within_a_limit(self):
        self.assertEqual(self.value("4/1=0.4999"), (0.5, True))

    def test_what_is_no_ratio_is_refused(self):
        for text in ("4", "time:4/1", "4/1=x", "median:4/1"):
            self.assertRaises(argparse.ArgumentTypeError, measure.ratio, text)


class Measure(unittest.TestCase):
    """The whole script, with a stand-in for this program and for a peer."""

    def measured(self, *words):
        with tempfile.TemporaryDirectory() as folder:
            program = Path(folder) / "program"
            program.write_text(PEER_OF_ONE_SET)
            program.chmod(0o755)
            command = [BENCH / "measure.py", "--ours", program, "--counts", "10,100", "--rounds", "2", *words, "--command", f"peer={program}"]
            return subprocess.run([sys.executable, *command], capture_output=True, text=True)

    def test_a_row_has_a_cell_for_each_program_and_ratio(self):
        done = self.measured("--families", "cube@leaf,line", "--workers", "1,4", "--show", "wall,extreme", "--ratios", "4/1=999,4/peer")
        rows = [line.split(" | ") for line in done.stdout.splitlines() if line.startswith("| ")]
        self.assertEqual(rows[0], ["| family", "points", "output", "1", "4", "peer", "4/1=999", "4/peer |"])
        self.assertEqual([row[:3] for row in rows[1:]], [[f"| {name}", count, "s"] for name in ("cube@leaf", "line") for count in ("10", "100")])
        self.assertTrue(all(re.fullmatch(r"\d\.\d{3}/5", cell) for row in rows[1:] for cell in row[3:6]))
        self.assertEqual(done.returncode, 0)

    def test_a_ratio_above_its_limit_and_an_unknown_column_end_it(self):
        self.assertEqual(self.measured("--families", "line", "--ratios", "4/peer=0").returncode, 1)
        self.assertIn("4/3 is no ratio of two columns", self.measured("--families", "line", "--ratios", "4/3").stderr)
        self.assertIn("none is no family", self.measured("--families", "none").stderr)


class Checks(unittest.TestCase):
    """bench/checks.py, with a stand-in for this program and a checker that accepts everything."""

    def test_a_damage_that_is_accepted_is_told(self):
        with tempfile.TemporaryDirectory() as folder:
            program, checker = Path(folder) / "program", Path(folder) / "checker"
            program.write_text("#!/bin/sh\ncat > /dev/null\nprintf 'OFF\\n3 1 3\\n0 0 0\\n4 0 0\\n0 4 0\\n3 0 1 2\\n'\n")
            checker.write_text("#!/bin/sh\necho all right\n")
            for path in (program, checker):
                path.chmod(0o755)
            words = ["--ours", program, "--checker", checker, "--families", "line", "--counts", "9", "--rounds", "1", "--damages"]
            done = subprocess.run([sys.executable, BENCH / "checks.py", *words], capture_output=True, text=True)
        self.assertEqual(done.returncode, 1)
        self.assertIn("| line | 9 | 1 | right | 0.", done.stdout)
        self.assertIn("line, 9 points: lost is not found", done.stderr)
        self.assertNotIn("right", done.stderr)


class Families(unittest.TestCase):
    def test_images_are_within_the_limit(self):
        corners = list(itertools.product((-points.SIZE, points.SIZE), repeat=3))
        for word, image in points.MAPS.items():
            with self.subTest(map=word):
                self.assertLessEqual(max(abs(c) for corner in corners for c in image(*corner)), COORDINATE_LIMIT)

    def test_an_image_is_named_by_its_family_and_its_map(self):
        self.assertIs(points.family_of("prism"), families.WORST["prism"])
        self.assertIsNone(points.family_of("prism@none"))
        self.assertIsNone(points.family_of("none@leaf"))
        self.assertEqual([z % 1000 for _, _, z in points.points_of("circles@long-z", 8)], [0] * 8)


class Phases(unittest.TestCase):
    def phase(self, name):
        return phases.phase("qconvex", ".", name, "qconvex", set())

    def test_each_crate_of_the_program_has_a_phase(self):
        self.addCleanup(os.chdir, os.getcwd())
        os.chdir(TOP)
        for crate in sorted(set(crates_below(["qconvex"])) - LAWS):
            with self.subTest(crate=crate):
                self.assertTrue(any(re.search(pattern, f"{crate}::x::y") for pattern, _ in phases.OWNERS))

    def test_each_pattern_has_a_column(self):
        self.assertEqual({owner for _, owner in phases.OWNERS} - set(phases.PHASES), set())

    def test_modules_that_a_pattern_names_are_there(self):
        for pattern, _ in phases.OWNERS:
            for crate, modules in re.findall(r"\b(qh_\w+)::\(?(\w[\w|]*)", pattern):
                for module in modules.split("|"):
                    with self.subTest(module=f"{crate}::{module}"):
                        self.assertTrue((TOP / "crates" / crate / "src" / f"{module}.rt").exists())

    def test_functions_of_one_crate_may_have_several_phases(self):
        for name, wanted in [
            ("qh_block::faces::new_face", "faces"), ("qh_bodies::unsorted_faces::UnsortedFaces::push", "faces"),
            ("qh_block::solids::solid_mesh", "surface"), ("qh_bodies::tallies::corners", "faces"),
            ("qh_run::unions::union", "surface"),
            ("qh_serve::threaded::Threaded::finish", "parts"), ("qh_serve::serving::serve", "read"),
            ("qh_block::regions::sieves::x", "filter"), ("qh_parts::seam::rings::x", "parts"), ("memcpy", "else"),
        ]:  # fmt: skip
            with self.subTest(name=name):
                self.assertEqual(self.phase(name), wanted)


if __name__ == "__main__":
    unittest.main()
