"""Unit tests of scripts/gate/doc_commands.py: `python3 -m unittest discover scripts/tests`, from the top of the repository."""
import sys
import tempfile
import unittest
from pathlib import Path
from unittest import mock

sys.path.insert(0, str(Path(__file__).resolve().parents[1]))
from gate import doc_commands  # noqa: E402


class Commands(unittest.TestCase):
    def test_commands_with_what_they_print(self):
        text = "Text.\n\n<!-- needs: qhull; long -->\n\n    $ one \\\n    > two\n    said\n\n    $ three\n"
        first, second = doc_commands.commands(text)
        self.assertEqual((first.words, first.wanted, first.line), ("one \\\ntwo", ["said"], 5))
        self.assertEqual((second.words, second.wanted, second.marks), ("three", [], ["needs: qhull", "long"]))

    def test_what_was_printed_before_the_time_limit_is_kept(self):
        chosen = doc_commands.commands("    $ echo one\n    one\n    $ sleep 5\n    $ echo two\n    two\n")
        with tempfile.TemporaryDirectory() as folder, mock.patch.object(doc_commands, "TIME_LIMIT", 1):
            texts = doc_commands.printed(chosen, folder)
        self.assertEqual(texts, [["one"], []])

    def test_any_lines_and_times_may_differ(self):
        agrees = lambda marks, wanted, lines: doc_commands.agrees(doc_commands.Command("", wanted, 1, marks), lines)  # noqa: E731
        self.assertTrue(agrees([], ["a", "...", "z"], ["a", "b", "c", "z"]))
        self.assertTrue(agrees(["seconds vary"], ["took 0.12 s"], ["took  3.45 s"]))
        self.assertFalse(agrees([], ["took 0.12 s"], ["took 3.45 s"]))


if __name__ == "__main__":
    unittest.main()
