"""Tests of make/prove.py, with a command `rt` that proves nothing."""
import os
import subprocess
import sys
import tempfile
import time
import unittest
from pathlib import Path
from unittest import mock

sys.path.insert(0, str(Path(__file__).resolve().parents[1] / "make"))
import prove  # noqa: E402

RT = """#!/bin/sh
mkdir -p out
case $(basename "$PWD") in
program) touch out/program.stamp; exit 2 ;;
refused) echo refused; exit 1 ;;
wrong) echo wrong; exit 1 ;;
killed) kill -9 $$ ;;
slow) sleep 0.5; mkdir out/rlib ;;
long) echo $$ > ../../../../../number; exec sleep 60 ;;
esac
"""


class Proved(unittest.TestCase):
    def setUp(self):
        folder = tempfile.TemporaryDirectory()
        self.addCleanup(folder.cleanup)
        self.lane = Path(folder.name)
        for name, top in [("program", "main"), ("refused", "main"), ("library", "lib"), ("wrong", "lib")]:
            (self.lane / "crates" / name / "src").mkdir(parents=True)
            (self.lane / "crates" / name / "src" / f"{top}.rt").touch()
        (self.lane / "rt").write_text(RT)
        (self.lane / "rt").chmod(0o755)
        path = mock.patch.dict(os.environ, PATH=f"{self.lane}:{os.environ['PATH']}")
        path.start()
        self.addCleanup(path.stop)

    def test_a_program_is_proved_whatever_it_ends_with(self):
        self.assertEqual(prove.proved("program", self.lane, 2), "")

    def test_what_rt_said_of_a_refused_program_is_told(self):
        self.assertEqual(prove.proved("refused", self.lane, 2), "refused\n")

    def test_a_library_is_proved_where_rt_ends_with_0(self):
        self.assertEqual(prove.proved("library", self.lane, 2), "")
        self.assertEqual(prove.proved("wrong", self.lane, 2), "wrong\n")

    def test_a_crate_whose_rt_says_nothing_is_not_proved(self):
        (self.lane / "crates" / "killed" / "src").mkdir(parents=True)
        self.assertEqual(prove.proved("killed", self.lane, 2), "rt ended with status -9\n")

    def test_a_run_that_is_terminated_ends_rt_and_leaves_no_copy(self):
        (self.lane / "crates" / "long" / "src").mkdir(parents=True)
        (self.lane / "crates.txt").write_text("long:\n")
        (self.lane / "HANDLES").touch()
        run = subprocess.Popen([sys.executable, prove.__file__, "long"], cwd=self.lane, env={**os.environ, "JOBS": "1"})
        number = self.lane / "number"
        while not number.exists() or not number.read_text():
            time.sleep(0.01)
        run.terminate()
        self.assertEqual(run.wait(), 143)
        self.assertFalse(Path("/proc", number.read_text().strip()).exists() or (self.lane / "build/prove").exists())

    def test_what_is_proved_while_another_crate_fails_comes_back(self):
        (self.lane / "crates" / "slow" / "src").mkdir(parents=True)
        (self.lane / "crates.txt").write_text("wrong:\nslow:\nlibrary: wrong slow\n")
        (self.lane / "HANDLES").touch()
        done = subprocess.run(
            [sys.executable, prove.__file__, "library"], cwd=self.lane, env={**os.environ, "JOBS": "2"}, capture_output=True, text=True
        )
        self.assertEqual((done.returncode, done.stderr), (1, "wrong\nwrong is NOT PROVED\n"))
        self.assertIn("slow is proved (1 of 3, 1 process)", done.stdout)
        self.assertTrue((self.lane / "crates/slow/out/rlib").is_dir())
        self.assertFalse((self.lane / "crates/library/out").exists() or (self.lane / "build/prove").exists())


class Make(unittest.TestCase):
    def test_make_proves_the_programs_in_one_run_and_only_once(self):
        makefile = Path(prove.__file__).resolve().parents[2] / "Makefile"
        with tempfile.TemporaryDirectory() as folder:
            (Path(folder) / "c").mkdir()
            (Path(folder) / "c/Makefile").write_text("all:\n\techo the library\n")
            for wanted in [["scripts/make/prove.py qconvex hullcheck", "echo the library"], ["echo the library"]]:
                done = subprocess.run(["make", "-n", "-f", makefile, "everything"], cwd=folder, capture_output=True, text=True, check=True)
                found = [it for it in done.stdout.splitlines() if it.startswith(("scripts/make/prove.py", "echo the library"))]
                self.assertEqual(found, wanted)
                for name in ["qconvex", "hullcheck"]:
                    (Path(folder) / "crates" / name / "out").mkdir(parents=True, exist_ok=True)
                    (Path(folder) / "crates" / name / "out" / name).touch(mode=0o755)


if __name__ == "__main__":
    unittest.main()
