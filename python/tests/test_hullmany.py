"""hullmany: any parts, jobs and failing commands give the answer of one run of the built program."""
import os
import random
import re
import signal
import subprocess
import sys
import tempfile
import time
import unittest
from pathlib import Path
from unittest import mock

from qconvex.commands import part_runs
from qconvex.commands.part_lines import Part, Refused
from qconvex.commands.point_streams import opened

TOP = Path(__file__).resolve().parents[2]
PROGRAM = str(TOP / "crates" / "qconvex" / "out" / "qconvex")
COMMAND = [sys.executable, str(TOP / "python" / "bin" / "hullmany"), "--quiet"]


def hullmany(data, *words):
    return subprocess.run([*COMMAND, *map(str, words)], input=data, capture_output=True)


def whole(data, *outputs):
    return subprocess.run([PROGRAM, *outputs], input=data, capture_output=True)


def points_of(rng, count, size):
    return [[rng.randint(-size, size) for _ in range(3)] for _ in range(count)]


def regular(points, end="\n"):
    return f"3\n{len(points)}\n" + "".join("%d %d %d" % tuple(point) + end for point in points)


def commented(rng, points):
    ends = ["\n", "\r\n", " # 7 7\n", "\n\n", " x 1\n# 5 5 5\n", " # not a line end: \r 5 5 5\n"]
    return f"3 # of three\n{len(points)}\n" + "".join("%d %d %d%s" % (*point, rng.choice(ends)) for point in points)


def any_lines(rng, points):
    """Words in lines of any number, also behind the header and after some regular lines."""
    words = [str(number) for point in points for number in point]
    text, place = f"{len(points)} 3 {words.pop(0)}\n", 0
    while place < len(words):
        count = 3 if rng.random() < 0.5 else rng.randint(1, 7)
        text += " ".join(words[place : place + count]) + "\n"
        place += count
    return text


def late(rng, points):
    """Regular at first."""
    cut = rng.randint(0, len(points))
    rest = any_lines(rng, points[cut:]).split("\n", 1) if cut < len(points) else ["", ""]
    first = rest[0].split()[2:]
    return f"3\n{len(points)}\n" + regular(points[:cut]).split("\n", 2)[2] + " ".join(first) + "\n" + rest[1]


def files_of(folder, points):
    """Files of several kinds with some of the points each."""
    rows = [",".join(map(str, point)) for point in points]
    texts = {"a.csv": "\n".join(["x,y,z", *rows[:50]]), "b.csv": "\r\n".join(rows[50:90]).replace(",", ";")}
    texts["c.txt"] = regular(points[90:200]).rstrip()
    texts["d.txt"] = f"{len(points) - 200} 3 {points[200][0]}\n" + regular(points[200:], " # a\n").split("\n", 2)[2].split(" ", 1)[1]
    for name, text in texts.items():
        (folder / name).write_text(text)
    return [str(folder / name) for name in texts]


class Streams(unittest.TestCase):
    """Several files as one. The program is not needed."""

    def test_files_follow_one_another(self):
        points = points_of(random.Random(10), 300, 1 << 30)
        with tempfile.TemporaryDirectory() as folder:
            files = files_of(Path(folder), points)
            with opened(files) as stream:
                text = re.sub("# a", "", stream.read().decode()).split()
            self.assertEqual(text, regular(points).split())
            with opened([files[2]]) as stream:
                self.assertEqual(stream.read().decode(), Path(files[2]).read_text())

    def test_arrays_of_numpy(self):
        try:
            import numpy
        except ImportError:
            self.skipTest("numpy is missing")
        points = points_of(random.Random(12), 70000, 1 << 30)
        with tempfile.TemporaryDirectory() as folder:
            file = str(Path(folder) / "points.npy")
            numpy.save(file, points)
            with opened([file, file]) as stream:
                self.assertEqual(stream.read().decode(), regular(points + points))
            for wrong in (numpy.zeros((2, 3)), numpy.zeros((2, 2), int)):
                numpy.save(file, wrong)
                with self.assertRaises(Refused):
                    opened([file])


@unittest.skipUnless(os.path.exists(PROGRAM), "the program is not built")
class Tests(unittest.TestCase):
    def same(self, data, *words):
        got, want = hullmany(data, *words, "Fx", "off"), whole(data, "Fx", "off")
        self.assertEqual((got.stdout, got.returncode), (want.stdout, 0), got.stderr)
        return got

    def test_any_parts_of_any_text(self):
        rng = random.Random(4)
        for _ in range(5):
            for write in (lambda r, p: regular(p), commented, any_lines, late):
                points = points_of(rng, rng.randint(1, 300), rng.choice([1, 3, 20, 1 << 30]))
                self.same(write(rng, points).encode(), "--part", rng.choice([5, 40, 300]), "--jobs", rng.choice([1, 4]))

    def test_flat_sets_with_repeats_in_and_across_parts(self):
        rng = random.Random(5)
        for dimension in range(3):
            for _ in range(5):
                few = [point[:dimension] + [3] * (3 - dimension) for point in points_of(rng, 12, 3)]
                self.same(regular([rng.choice(few) for _ in range(70)]).encode(), "--part", rng.choice([5, 9]))

    def test_a_file_in_place_of_standard_input(self):
        data = regular(points_of(random.Random(6), 500, 99)).encode()
        with tempfile.NamedTemporaryFile() as file:
            file.write(data)
            file.flush()
            self.assertEqual(hullmany(b"", "--file", file.name, "--part", 100, "off").stdout, whole(data, "off").stdout)

    def test_several_files(self):
        points = points_of(random.Random(11), 500, 99)
        with tempfile.TemporaryDirectory() as folder:
            files = files_of(Path(folder), points)
            got = hullmany(b"", *(word for file in files for word in ("--file", file)), "--part", 60, "Fx", "off")
            self.assertEqual(got.stdout, whole(regular(points).encode(), "Fx", "off").stdout, got.stderr)

    def test_failed_parts_are_tried_again(self):
        data = regular(points_of(random.Random(7), 600, 99)).encode()
        for failing in ("sh -c 'kill -9 $$' --", f"sh -c '{PROGRAM} \"$@\" | head -c 900' --", "echo", "exit 7;"):
            got = self.same(data, "--part", 100, "--run", failing, "--run", PROGRAM)
            self.assertIn(b"its part is tried again", got.stderr)

    def test_a_command_that_fails_now_and_then_is_enough(self):
        data = regular(points_of(random.Random(8), 600, 99)).encode()
        with tempfile.TemporaryDirectory() as folder:
            marks = " || ".join(f"mkdir {folder}/{mark} 2> /dev/null" for mark in "ab")
            flaky = f"sh -c '{marks} || exec {PROGRAM} \"$@\"; exit 255' --"
            self.same(data, "--part", 50, "--run", flaky, "--jobs", 1)
            got = hullmany(data, "--part", 50, "--run", "exit 255;", "--retries", 2)
            self.assertEqual(got.returncode, 1)
            self.assertIn(b"status 255, at the last of 3 tries", got.stderr)

    def test_refusals(self):
        cases = [
            (b"", b"no header"),
            (b"4\n2\n", b"neither number of the header is 3"),
            (b"3\n0\n", b"there are no points"),
            (b"3\n2\n1 2 3\n", b"1 points; the header counts 2"),
            (b"3\n1\n1 2 3\n4 5 6\n", b"2 points; the header counts 1"),
            (b"3\n2\n1 2 3\n4 5\n", b"the input ends 1 numbers before the end of a point"),
            (b"3\n4\n" + b"1 2 3\n" * 3 + b"1 2.5 3\n", b"line 6: "),
            (b"3\n4\n" + b"1 2 3\n" * 3 + b"1 2.5 3\n", b"BadNumber"),
            (b"3\n1\n1 2 1073741825\n", b"Range"),
        ]
        for data, why in cases:
            got = hullmany(data, "--part", 2)
            self.assertEqual((got.returncode, got.stdout), (1, b""))
            self.assertIn(why, got.stderr)

    def test_too_many_extreme_points_are_counted(self):
        points = [[x, y, x * x + y * y] for x in range(-525, 525) for y in range(-525, 525)]
        got = hullmany(regular(points).encode(), "--jobs", 4)
        self.assertIn(b"1102500 points are extreme in their parts; the program takes 1048576 at once", got.stderr)


class Ends(unittest.TestCase):
    """How it ends early. The program is not needed."""

    def test_an_interrupt_begins_no_other_part(self):
        data = regular(points_of(random.Random(9), 400, 99)).encode()
        with tempfile.TemporaryDirectory() as folder:
            begun = Path(folder) / "begun"
            words = ["--part", "100", "--jobs", "1", "--run", f"echo begun >> {begun}; sleep 60;"]
            running = subprocess.Popen(
                [*COMMAND, *words], stdin=subprocess.PIPE, stdout=subprocess.PIPE, stderr=subprocess.PIPE, start_new_session=True,
                preexec_fn=lambda: signal.signal(signal.SIGINT, signal.SIG_DFL),
            )
            running.stdin.write(data)
            running.stdin.close()
            running.stdin = None
            for _ in range(200):
                if begun.exists() and begun.read_text():
                    break
                time.sleep(0.05)
            os.killpg(running.pid, signal.SIGINT)
            said, told = running.communicate(timeout=30)
            self.assertEqual((running.returncode, said, told), (1, b"", b"hullmany: interrupted\n"))
            self.assertEqual(begun.read_text(), "begun\n")

    def test_a_command_is_free_again_after_any_error(self):
        runs = part_runs.Runs(["command"], 1, 3)
        with mock.patch.object(part_runs, "attempt", side_effect=OSError("no space")):
            with self.assertRaises(OSError):
                runs.answer(Part(b"1 2 3\n", 1, 2))
        self.assertEqual(runs.free, ["command"])
