"""Tests of `gate/homes.py`: lemmas that are stated in two places, and names that are imported for nothing."""
import sys
import unittest
from pathlib import Path

sys.path.insert(0, str(Path(__file__).resolve().parents[1]))
from gate import homes  # noqa: E402

USES = "use Rattle.std.specs.Prelude.{ℤ, pos, ◌<ℤ◌}\n"
FIRST = USES + """
-- above 0
pub above : (x : ℤ) → pos 0 <ℤ x → pos 1 <ℤ x
above x h = omega
"""
RENAMED = USES + """
over : (n : ℤ) →
    pos 0 <ℤ n → pos 1 <ℤ n
over n h = grind
"""
LOCAL = USES + """
module _ (y : ℤ) where
  above : (x : ℤ) → pos 0 <ℤ x → y <ℤ x
  above x h = omega
"""
GOAL = USES + """
pub returns-clause-value : goal.returns-clause-value
returns-clause-value c = c.value
"""


class Homes(unittest.TestCase):
    def test_statements_with_other_names_for_what_they_bind(self):
        self.assertEqual(homes.homes([("a", FIRST), ("b", RENAMED)]), [["a: above", "b: over"]])

    def test_statements_of_what_surrounds_them(self):
        self.assertEqual(homes.homes([("a", LOCAL), ("b", LOCAL)]), [])

    def test_goals(self):
        self.assertEqual(homes.homes([("a", GOAL), ("b", GOAL)]), [])

    def test_another_statement(self):
        self.assertEqual(homes.homes([("a", FIRST), ("b", RENAMED.replace("pos 1", "pos 2"))]), [])


class Imports(unittest.TestCase):
    def test_names_that_are_used(self):
        self.assertEqual(homes.unused(FIRST), [])

    def test_names_and_operators_that_are_not(self):
        text = FIRST.replace("◌<ℤ◌", "◌<ℤ◌, ◌+ℤ◌, Sets.In, holds as is_held")
        self.assertEqual(homes.unused(text), ["◌+ℤ◌", "Sets.In", "holds as is_held"])

    def test_a_name_in_a_comment(self):
        text = "ghost use Rattle.std.specs.Prelude.{length, IfOk};\n\n// the length\nfn f() ensures { IfOk result }\n"
        self.assertEqual(homes.unused(text), ["length"])

    def test_a_name_behind_dashes_in_quotes(self):
        text = 'use Rattle.faces.specs.Layouts.{Lines}\n\nof word = cond (word == codes "--lines") Lines word\n'
        self.assertEqual(homes.unused(text), [])

    def test_what_is_passed_on(self):
        self.assertEqual(homes.unused("pub use Rattle.std.proofs.Bool.{cases_eq as same_or}\n"), [])


if __name__ == "__main__":
    unittest.main()
