"""Unit tests of scripts/gate/links.py: `python3 -m unittest discover scripts/tests`, from the top of the repository."""
import sys
import unittest
from pathlib import Path

sys.path.insert(0, str(Path(__file__).resolve().parents[1]))
from gate.links import TOP, anchors, fault_of, links, slug  # noqa: E402


class Slugs(unittest.TestCase):
    def test_punctuation_goes_and_blanks_become_hyphens(self):
        self.assertEqual(slug("Beside Qhull's qconvex"), "beside-qhulls-qconvex")
        self.assertEqual(slug("Platforms, limits, licence"), "platforms-limits-licence")
        self.assertEqual(slug("What `off` [says](x.md)"), "what-off-says")

    def test_headings_in_code_are_none(self):
        self.assertEqual(anchors("# One\n```sh\n# two\n```\n## Three"), {"one", "three"})


class Links(unittest.TestCase):
    def test_links_in_code_and_with_a_scheme_are_left_out(self):
        text = "[a](b.md) `[c](d.md)`\n```\n[e](f.md)\n```\n[g](https://h.example)\n<img src=\"i.svg\">"
        self.assertEqual(list(links(text)), [(1, "b.md"), (6, "i.svg")])

    def test_two_links_in_a_line(self):
        self.assertEqual(list(links("[![a](b.svg)](c.md#d)")), [(1, "b.svg"), (1, "c.md#d")])


class Faults(unittest.TestCase):
    def test_a_file_that_is_not_there(self):
        self.assertEqual(fault_of(TOP / "README.md", "docs/NONE.md"), "no such file")

    def test_a_heading_that_is_not_there(self):
        self.assertEqual(fault_of(TOP / "README.md", "docs/FAULTS.md#none"), "no such heading")
        self.assertIsNone(fault_of(TOP / "README.md", "docs/FAULTS.md#2-badnumber"))


if __name__ == "__main__":
    unittest.main()
