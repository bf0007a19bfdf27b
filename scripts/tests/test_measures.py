"""Unit tests of scripts/gate/measures.py: `python3 -m unittest discover scripts/tests`, from the top of the repository."""
import contextlib
import io
import sys
import unittest
from pathlib import Path

sys.path.insert(0, str(Path(__file__).resolve().parents[1]))
from gate.measures import (  # noqa: E402
    Count, above, forbidden_words, functions_of, parameter_counts, parts_of, riddle_count, size_counts, word_count,
)


class Parameters(unittest.TestCase):
    def test_commas_in_brackets_part_nothing(self):
        self.assertEqual(parts_of("a: (X, Y), b: Vec<P, Q>, f: fn(A, B) -> C"), ["a: (X, Y)", "b: Vec<P, Q>", "f: fn(A, B) -> C"])

    def test_what_is_handed_on_is_left_out(self):
        text = "fn new<'a, T: Model>(&mut self, rt: &Runtime, alloc: Global, a: T, b: &'a [u8]) -> T { }"
        self.assertEqual(list(functions_of(text)), [("new", ["a: T", "b: &'a [u8]"])])

    def test_a_word_that_begins_a_list_is_no_function(self):
        self.assertEqual(list(functions_of("/// the fn of a type\nfn one() {}")), [("one", [])])

    def test_long_lists_and_bare_bools(self):
        longest, longer, bools = parameter_counts([("f.rt", "fn f(a: A, b: B, c: C, d: D, e: E, g: bool) {}")])
        self.assertEqual((len(longest.places), longer.places, bools.places), (6, ["f.rt: f: 6"], ["f.rt: f"]))


class Sizes(unittest.TestCase):
    def test_long_files_and_long_lines(self):
        files, lines = size_counts([("a", "x\n" * 300), ("b", "x\n" * 301), ("c", "x" * 160 + "\n" + "x" * 161)])
        self.assertEqual((files.places, lines.places), (["b: 301"], ["c:2"]))


class Riddles(unittest.TestCase):
    def test_riddles_are_counted_in_comments_and_pages_outside_of_code(self):
        texts = [
            (Path("a.rt"), "/// Tells what is left.\nlet told = ask(stands); // `told`\n"),
            (Path("b.antt"), "-- told, and asked\ntold : Told\n"),
            (Path("c.md"), "It stands in `told`, a standard.\n"),
        ]
        self.assertEqual(riddle_count(texts).places, ["a.rt:1", "a.rt:1", "b.antt:1", "b.antt:1", "c.md:1"])


class Words(unittest.TestCase):
    TABLE = (
        "## Words that are not used\n\n| Not used | Instead |\n|---|---|\n| so many | n |\n| `raised` | `biased` |\n"
        "\n## Sources\n| no | x |\n"
    )

    def test_the_table_is_read(self):
        self.assertEqual(forbidden_words(self.TABLE), [("so many", False), ("raised", True)])

    def test_whole_words_are_counted(self):
        text = "so many\nso manyfold\n/// Whether so many"
        self.assertEqual(word_count([("a", text)], "so many").places, ["a:1", "a:3"])
        self.assertEqual(word_count([("a", text)], "/// Whether").places, ["a:3"])

    def test_a_count_above_its_limit_is_a_fault(self):
        with contextlib.redirect_stdout(io.StringIO()):
            self.assertTrue(above(Count("so many", ["a:1"]), {}, False))
            self.assertFalse(above(Count("so many", ["a:1"]), {"so many": 1}, False))


if __name__ == "__main__":
    unittest.main()
