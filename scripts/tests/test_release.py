"""Unit tests of scripts/make/release.py: what it makes without a build."""
import subprocess
import sys
import tarfile
import tempfile
import unittest
from pathlib import Path

sys.path.insert(0, str(Path(__file__).resolve().parents[1] / "make"))
import release  # noqa: E402


class Release(unittest.TestCase):
    def setUp(self):
        folder = tempfile.TemporaryDirectory()
        self.addCleanup(folder.cleanup)
        self.room = Path(folder.name)

    def test_a_tree_has_the_commands_and_their_pages(self):
        release.add_commands(self.room / "usr")
        (self.room / "usr").rename(self.room / "moved")
        names = {path.name for path in (release.TOP / "python/bin").iterdir() if path.is_file() and not path.suffix}
        self.assertEqual({path.name for path in (self.room / "moved/bin").iterdir()}, names)
        self.assertEqual({path.stem for path in (self.room / "moved/share/man/man1").iterdir()}, names)
        for name in names:
            done = subprocess.run([self.room / "moved/bin" / name, "--help"], capture_output=True, text=True)
            self.assertTrue(done.stdout.startswith(f"usage: {name} "), done.stderr)
        said = subprocess.run([self.room / "moved/bin/hullexplain", release.CUBE], capture_output=True, text=True).stdout
        self.assertTrue(said.startswith("No fault: 8 points"), said)

    @unittest.skipUnless((release.TOP / ".git").exists(), "the sources have no history")
    def test_the_sources_are_those_that_were_committed(self):
        with tarfile.open(release.sources(self.room, "1.2.3")) as archive:
            self.assertIn("qconvex-1.2.3/crates.txt", archive.getnames())


if __name__ == "__main__":
    unittest.main()
