"""Tests of make/programs.py, with a command `rt` that proves nothing."""
import os
import subprocess
import sys
import tempfile
import time
import unittest
from pathlib import Path

PROGRAMS = Path(__file__).resolve().parents[1] / "make" / "programs.py"
RT = """#!/bin/sh
[ "$*" = ci ] && [ -d .git ] && [ -f HANDLES ] || exit 2
{ cat crates.txt; find crates -type f | sort; cat crates/program/src/main.rt; } > ../../seen
echo "rt: $(cut -d: -f1 crates.txt | cut -d' ' -f1 | head -n 1) proved"
if [ -e crates/program/src/wrong ]; then
    echo 'what is wrong'
    echo 'rt: program NOT PROVED'
    echo '1 passed, 1 failed'
    exit 1
fi
if [ -e crates/program/src/long ]; then
    echo $$ > ../../number
    exec sleep 60
fi
mkdir -p crates/program/out
echo made > crates/program/out/program
"""


class Programs(unittest.TestCase):
    def setUp(self):
        folder = tempfile.TemporaryDirectory()
        self.addCleanup(folder.cleanup)
        self.top = Path(folder.name)
        for file in ["program/src/main.rt", "program/must-fail/a.edit", "program/out/earlier", "below/src/lib.rt", "beside/src/lib.rt"]:
            (self.top / "crates" / file).parent.mkdir(parents=True, exist_ok=True)
            (self.top / "crates" / file).touch()
        (self.top / "crates.txt").write_text("# NAME: NEEDS\nbelow:\nprogram: below std\nbeside: below\n")
        (self.top / "HANDLES").touch()
        (self.top / "rt").write_text(RT)
        (self.top / "rt").chmod(0o755)

    def made(self, *words):
        environment = {**os.environ, "PATH": f"{self.top}:{os.environ['PATH']}"}
        return subprocess.run([sys.executable, PROGRAMS, *words], cwd=self.top, env=environment, capture_output=True, text=True)

    def test_the_program_is_made_by_the_gate_over_its_crates_alone(self):
        done = self.made("program")
        self.assertEqual(done.returncode, 0)
        self.assertIn(" s  below proved\n", done.stdout)
        self.assertEqual((self.top / "crates/program/out/program").read_text(), "made\n")
        self.assertTrue((self.top / "crates/program/out/earlier").exists())
        self.assertFalse((self.top / "build/programs").exists())

    def write(self, path, text):
        (self.top / path).parent.mkdir(parents=True, exist_ok=True)
        (self.top / path).write_text(text)

    def test_other_crates_wrong_bodies_tests_and_what_was_built_are_not_copied(self):
        self.write("crates/program/src/main.rt", "mod text;\n#[cfg(test)]\nmod tests;\n\nfn main() {}\n")
        self.write("crates/program/src/tests.rt", "mod a;\n")
        self.write("crates/program/src/tests/a.rt", "")
        self.made("program")
        wanted = ["below:", "program: below std", "crates/below/src/lib.rt", "crates/program/src/main.rt"]
        self.assertEqual((self.top / "seen").read_text(), "\n".join([*wanted, "mod text;", "", "fn main() {}", ""]))

    def test_tests_of_libraries_and_what_no_line_names_are_copied(self):
        self.write("crates/below/src/lib.rt", "#[cfg(test)]\nmod tests;\n")
        self.write("crates/below/src/tests.rt", "")
        self.write("crates/program/src/tests.rt", "")
        self.made("program")
        seen = (self.top / "seen").read_text().split("\n")
        self.assertIn("crates/below/src/tests.rt", seen)
        self.assertIn("crates/program/src/tests.rt", seen)

    def test_what_the_gate_says_of_a_crate_that_failed_is_told(self):
        (self.top / "crates/program/src/wrong").touch()
        done = self.made("program")
        self.assertEqual(done.returncode, 1)
        self.assertIn(" s  program NOT PROVED\n", done.stdout)
        self.assertEqual(done.stderr, "what is wrong\n1 passed, 1 failed\n")
        self.assertFalse((self.top / "crates/program/out/program").exists() or (self.top / "build/programs").exists())

    def test_a_run_that_is_terminated_ends_the_gate_and_leaves_no_copy(self):
        (self.top / "crates/program/src/long").touch()
        environment = {**os.environ, "PATH": f"{self.top}:{os.environ['PATH']}"}
        run = subprocess.Popen([sys.executable, PROGRAMS, "program"], cwd=self.top, env=environment, stdout=subprocess.DEVNULL)
        while not (self.top / "number").exists() or not (self.top / "number").read_text():
            time.sleep(0.01)
        while run.poll() is None:
            run.terminate()
            time.sleep(0.001)
        self.assertEqual(run.returncode, 143)
        self.assertFalse(Path("/proc", (self.top / "number").read_text().strip()).exists())
        self.assertFalse((self.top / "build/programs").exists())

    def test_what_is_no_program_is_refused_before_anything_is_proved(self):
        self.assertEqual(self.made("nothing").stderr, "nothing is no crate of crates.txt\n")
        self.assertEqual(self.made("program", "below").stderr, "below is no program\n")
        self.assertFalse((self.top / "seen").exists())


if __name__ == "__main__":
    unittest.main()
