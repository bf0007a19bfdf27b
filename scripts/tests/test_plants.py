"""Looks whether the trials that plant bodies still find the lines that they replace, each once in its file."""
import sys
import unittest
from pathlib import Path

sys.path.insert(0, str(Path(__file__).resolve().parents[1]))
from lib.bodies import ALL_TRIPLES, ALWAYS_MEMORY, ROWS, TURNED, WITHOUT_ROOT, WORKERS  # noqa: E402
from lib.paths import TOP  # noqa: E402
from trials import workers  # noqa: E402


class Plants(unittest.TestCase):
    def test_each_line_stands_once(self):
        for _, file, edits in [*WORKERS, ALL_TRIPLES, WITHOUT_ROOT, *ALWAYS_MEMORY]:
            for old, _ in edits:
                with self.subTest(file=file, old=old):
                    self.assertEqual((TOP / file).read_text(encoding="utf-8").count(old), 1)

    def test_each_comparison_that_is_turned_round_stands_somewhere(self):
        rows = "".join(path.read_text(encoding="utf-8") for path in (TOP / ROWS / "src/tests").rglob("*.rt"))
        for old, _ in TURNED:
            with self.subTest(old=old):
                self.assertRegex(rows, old)

    def test_a_body_that_does_not_compile_is_told_apart(self):
        for said, wanted in [
            ("test a ... ok\ntest result: ok. 1 passed\nrun=ended status=0 runners=1 proved=no\n", workers.PASS),
            ("test a ... FAILED\nrun=ended status=1 runners=1 proved=no\n", workers.FAIL),
            ("run=no-answer runners=1 proved=no\n", workers.FAIL),
            ("error: a type\nrun=none proved=no\n", workers.NOT_RUN),
            ("", workers.NOT_RUN),
        ]:
            with self.subTest(said=said):
                self.assertEqual(workers.outcome_of(said), wanted)
                self.assertEqual(workers.fault("a body", said, workers.FAIL) is None, wanted == workers.FAIL)

    def test_one_line_states_the_runs_of_boards(self):
        self.assertEqual((TOP / workers.BOARD_RUNS).read_text(encoding="utf-8").count("\nconst RUNS: u32 = "), 1)


if __name__ == "__main__":
    unittest.main()
