"""Unit tests of scripts/lib: `python3 -m unittest discover scripts/tests`, from the top of the repository."""
import os
import random
import subprocess
import sys
import tempfile
import unittest
from pathlib import Path

sys.path.insert(0, str(Path(__file__).resolve().parents[1]))
from lib import package  # noqa: E402,F401
from lib.copies import copy_crates, give_library, replace_once  # noqa: E402
from lib.file_oracle import Fault, off_points_of, points_of  # noqa: E402
from lib.hull_oracle import file_of, hull_text  # noqa: E402
from lib.limits import BYTE_LIMIT, COORDINATE_LIMIT, POINT_LIMIT, limits_in  # noqa: E402
from lib.paths import TOP, built  # noqa: E402
from lib.processes import seconds_with_children_in, stats_below  # noqa: E402
from lib.runs import must_succeed  # noqa: E402
from lib.usage import known  # noqa: E402
from qconvex.commands.point_files import read, triples  # noqa: E402
from tools.check_hull import Box, dot  # noqa: E402

CUBE = [(x, y, z) for x in (0, 1) for y in (0, 1) for z in (0, 1)]


class Limits(unittest.TestCase):
    def test_the_limits_are_those_of_the_documents(self):
        self.assertEqual((COORDINATE_LIMIT, POINT_LIMIT, BYTE_LIMIT), (1073741824, 1048576, 268435456))

    def test_shifts_and_underscores_are_read(self):
        self.assertEqual(limits_in("pub const A: u32 = 1 << 4;\npub const B_C: u64 = 1_000;"), {"A": 16, "B_C": 1000})


class Paths(unittest.TestCase):
    def test_the_top_is_that_of_the_repository(self):
        self.assertTrue((TOP / "crates.txt").is_file())

    def test_a_program_that_is_missing_ends_the_script(self):
        self.assertEqual(built("sh"), "sh")
        self.assertRaises(SystemExit, built, str(TOP / "no-such-program"))


class Usage(unittest.TestCase):
    def test_a_name_that_is_no_choice_ends_the_script(self):
        self.assertEqual(known(["b"], ["a", "b"]), ["b"])
        self.assertEqual(known([], ["a", "b"]), [])
        with self.assertRaises(SystemExit) as caught:
            known(["c"], ["a", "b"])
        self.assertEqual(caught.exception.code, "c is none of: a, b")


class Copies(unittest.TestCase):
    def setUp(self):
        folder = tempfile.TemporaryDirectory()
        self.addCleanup(folder.cleanup)
        self.folder = Path(folder.name)

    def test_what_was_built_is_not_copied(self):
        for file in ("crates.txt", "HANDLES", "crates/one/src/lib.rt", "crates/one/out/one"):
            (self.folder / "top" / file).parent.mkdir(parents=True, exist_ok=True)
            (self.folder / "top" / file).touch()
        self.addCleanup(os.chdir, os.getcwd())
        os.chdir(self.folder / "top")
        copy_crates(self.folder / "copy")
        found = [str(path.relative_to(self.folder / "copy")) for path in (self.folder / "copy").rglob("*") if path.is_file()]
        self.assertEqual(sorted(found), ["HANDLES", "crates.txt", "crates/one/src/lib.rt"])

    def test_a_library_is_given_if_it_was_proved(self):
        library = self.folder / "top/crates/one/out/rlib"
        library.mkdir(parents=True)
        (library / "stamp").write_text("new")
        given = self.folder / "copy/crates/one/out/rlib"
        given.mkdir(parents=True)
        (given / "older").touch()
        for name in ("one", "two"):
            give_library(name, self.folder / "top", self.folder / "copy")
        found = [str(path.relative_to(self.folder / "copy")) for path in (self.folder / "copy").rglob("*") if path.is_file()]
        self.assertEqual(found, ["crates/one/out/rlib/stamp"])

    def test_a_text_that_stands_twice_is_not_replaced(self):
        path = self.folder / "file"
        path.write_text("one two two")
        self.assertEqual(replace_once(path, [("one", "1"), ("1 t", "3 t")]), "one two two")
        self.assertEqual(path.read_text(), "3 two two")
        self.assertRaises(SystemExit, replace_once, path, [("two", "2")])
        self.assertEqual(path.read_text(), "3 two two")


class Processes(unittest.TestCase):
    def test_a_process_and_its_child_are_found(self):
        with subprocess.Popen(["sleep", "60"]) as child:
            below = stats_below(os.getpid())
            self.assertTrue({os.getpid(), child.pid} <= set(below))
            self.assertEqual(set(stats_below(child.pid)), {child.pid})
            child.kill()
        self.assertGreater(seconds_with_children_in(below[os.getpid()]), 0)


class Runs(unittest.TestCase):
    def test_a_run_that_failed_ends_the_script_with_its_command_and_status(self):
        must_succeed(["qconvex", "s"], 0)
        for status, how in ((3, "status 3"), (-9, "signal 9")):
            with self.assertRaises(SystemExit) as caught:
                must_succeed(["./a folder/qconvex", "s"], status)
            self.assertEqual(caught.exception.code, f"'./a folder/qconvex' s ended with {how}")


class Boxes(unittest.TestCase):
    def test_a_point_above_is_found_where_there_is_one(self):
        generator = random.Random(1)
        points = list({tuple(generator.randint(-9, 9) for _ in range(3)) for _ in range(300)})
        box = Box(points)
        for _ in range(100):
            normal, offset = tuple(generator.randint(-5, 5) for _ in range(3)), generator.randint(-60, 60)
            found = box.above(normal, offset)
            self.assertEqual(found is not None, any(dot(normal, point) > offset for point in points))
            self.assertTrue(found is None or dot(normal, found) > offset)


class HullOracle(unittest.TestCase):
    def test_a_cube(self):
        text, dimension = hull_text(CUBE, ["rank", "Fx"])
        self.assertEqual((text, dimension), (b"8 8 3\n8\n0\n1\n2\n3\n4\n5\n6\n7\n", 3))

    def test_flat_sets(self):
        self.assertEqual(hull_text([(0, 0, 0), (2, 0, 0), (0, 2, 0), (2, 2, 0), (1, 1, 0)], ["Fx"])[0], b"4\n0\n1\n2\n3\n")
        self.assertEqual(hull_text([(5, 5, 5)], ["rank"])[0], b"1 1 0\n")


class FileOracle(unittest.TestCase):
    def test_what_is_written_is_read(self):
        self.assertEqual(points_of(file_of(CUBE)), CUBE)

    def test_each_fault_has_its_number_and_line(self):
        for data, message in [(b"", b"qconvex: 1: NoHeader\n"), (b"3\n1\n1 x", b"qconvex: 7: Short\n"),
                              (b"3\n1\n1 2 .5", b"qconvex: 2: BadNumber at line 3\n"), (b"4 1", b"qconvex: 3: NotThree\n"),
                              (b"3 0", b"qconvex: 4: Count\n"), (b"3 1 1 1\n1 1", b"qconvex: 6: Long at line 2\n")]:
            with self.assertRaises(Fault) as caught:
                points_of(data)
            self.assertEqual(caught.exception.message, message)

    def test_an_off_file_has_a_keyword(self):
        self.assertEqual(off_points_of(b"OFF # 1\n1 0 0 7 8 9 junk"), [(7, 8, 9)])
        with self.assertRaises(Fault) as caught:
            off_points_of(b"COFF")
        self.assertEqual(caught.exception.name, "NotOff")

    def test_the_package_reads_the_same(self):
        for data in [file_of(CUBE), b"3 a\n1\n1 2 3", b"1 3 x\n1 2 3 # 4"]:
            self.assertEqual(triples(read(data).numbers), points_of(data))


if __name__ == "__main__":
    unittest.main()
