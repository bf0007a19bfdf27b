#!/usr/bin/env python3
"""Tests of picture.py, over faces that are written here: nothing is mirrored, each edge is drawn once.

    scripts/tests/test_picture.py
"""
import re
import sys
import tempfile
import unittest
from collections import Counter
from pathlib import Path

sys.path.insert(0, str(Path(__file__).resolve().parents[1]))
from tools.picture import Panel, mesh_of, panels_of, svg, view_from  # noqa: E402


CUBE_POINTS = [(x, y, z) for x in (0, 1) for y in (0, 1) for z in (0, 1)]
# Counterclockwise from outside.
CUBE_FACES = [[0, 1, 3, 2], [0, 2, 6, 4], [0, 4, 5, 1], [1, 5, 7, 3], [2, 3, 7, 6], [4, 6, 7, 5]]
CUBE = Panel(CUBE_POINTS, CUBE_FACES, [], "")
SQUARE = Panel([(0, 0, 0), (2, 0, 0), (2, 2, 0), (0, 2, 0)], [[0, 1, 2, 3]], [], "")
SEGMENT = Panel([(0, 0, 0), (2, 2, 2)], [[0, 1]], [], "")
POINT = Panel([(5, 5, 5)], [[0]], [], "")
EYES = [(5, 9, 4), (1, 2, 3), (-3, 1, 2), (2, -5, -1), (-1, -2, -3), (0.1, 0.2, 9)]
UP = (0, 0, 1)


def read(reader, text):
    """What a reader makes of a file with a text."""
    with tempfile.NamedTemporaryFile("w") as file:
        file.write(text)
        file.flush()
        return reader(file.name)


def polygons(text):
    """The filled faces, as lists of places on the page."""
    shapes = re.findall(r'<polygon class="face" points="([^"]*)"', text)
    return [[tuple(map(float, pair.split(","))) for pair in shape.split()] for shape in shapes]


def lines(text, kind):
    """The lines of a kind, as unordered pairs of places."""
    found = re.findall(rf'<path class="{kind}" d="M(\S+) L(\S+)"', text)
    return Counter(frozenset(ends) for ends in found)


def area(shape):
    """The area of a shape, positive if it runs counterclockwise to one who looks at the page, where y runs down."""
    return sum(bx * ay - ax * by for (ax, ay), (bx, by) in zip(shape, shape[1:] + shape[:1])) / 2


class Pictures(unittest.TestCase):
    def test_front_faces_run_counterclockwise(self):
        for eye in EYES:
            shapes = polygons(svg([CUBE], view_from(eye, UP)))
            self.assertEqual(len(shapes), 3, eye)
            for shape in shapes:
                self.assertGreater(area(shape), 1, eye)

    def test_the_axes_are_where_one_who_stands_there_sees_them(self):
        # From in front of the page, y away from the eye: x runs to the right and z up.
        text = svg([Panel([(0, 0, 0), (1, 0, 0), (0, 0, 1)], [[0, 1, 2]], [], "")], view_from((0, -1, 0), UP))
        (ox, oy), (rx, ry), (ux, uy) = polygons(text)[0]
        self.assertGreater(rx, ox)
        self.assertEqual(ry, oy)
        self.assertEqual(ux, ox)
        self.assertLess(uy, oy)

    def test_each_edge_is_drawn_once_and_dashed_where_it_is_behind(self):
        for eye in EYES:
            text = svg([CUBE], view_from(eye, UP))
            seen, hidden = lines(text, "edge"), lines(text, "hidden")
            self.assertEqual((len(seen), len(hidden)), (9, 3), eye)
            self.assertEqual(set((seen + hidden).values()), {1}, eye)
        self.assertRegex(text, r"\.hidden {[^}]*stroke-dasharray")

    def test_flat_sets_lines_and_points(self):
        view = view_from(EYES[0], UP)
        for eye in EYES:
            self.assertEqual(len(polygons(svg([SQUARE], view_from(eye, UP)))), 1)
        self.assertEqual(len(lines(svg([SQUARE], view), "edge")), 4)
        self.assertEqual(len(lines(svg([SEGMENT], view), "edge")), 1)
        self.assertEqual(svg([SEGMENT], view).count("<circle"), 2)
        self.assertEqual(svg([POINT], view).count("<circle"), 1)

    def test_a_picture_can_be_shown_at_any_size_on_any_page(self):
        text = svg([CUBE, POINT], view_from(EYES[0], UP))
        self.assertRegex(text, r'viewBox="0 0 480 \d+"')
        self.assertIn("prefers-color-scheme: dark", text)

    def test_any_title_is_text(self):
        text = svg([Panel(CUBE_POINTS, CUBE_FACES, [], "1 < 2 & 3")], view_from(EYES[0], UP))
        self.assertIn(">1 &lt; 2 &amp; 3</text>", text)

    def test_negative_indices_of_a_mesh_count_back_from_the_face(self):
        vertices = "v 0 0 0\nv 1 0 0\nv 0 1 0\n"
        mesh = read(mesh_of, f"{vertices}f 1/7 2//3 3\nf -3/1 -1 -2\nv 5 5 5\nf -1 1 2\n")
        self.assertEqual(mesh.faces, [[0, 1, 2], [0, 2, 1], [3, 0, 1]])
        for word in ("0", "4", "-4"):
            with self.assertRaises(SystemExit) as caught:
                read(mesh_of, f"{vertices}f 1 2 {word}\n")
            self.assertIn("a face names no vertex of 3", caught.exception.code)

    def test_a_text_without_faces_is_refused(self):
        with self.assertRaises(SystemExit) as caught:
            read(lambda path: panels_of([path], [""]), "OFF\n1 0 0\n0 0 0\n")
        self.assertIn("there is no face to draw", caught.exception.code)

    def test_the_eye_may_stand_straight_above(self):
        for axis in ((1, 0, 0), (0, 1, 0), (0, 0, 1)):
            self.assertEqual(len(polygons(svg([CUBE], view_from(axis, axis)))), 1)

    def test_lines_are_thinner_where_there_are_many(self):
        def width(side):
            points = [(x, y, 0) for x in range(side) for y in range(side)]
            faces = [[x * side + y, (x + 1) * side + y, (x + 1) * side + y + 1, x * side + y + 1]
                     for x in range(side - 1) for y in range(side - 1)]  # fmt: skip
            text = svg([Panel(points, faces, [], "")], view_from(UP, (0, 1, 0)))
            return float(re.search(r'stroke-width="([\d.]+)"', text)[1])

        self.assertGreater(width(3), 2 * width(30))


if __name__ == "__main__":
    unittest.main()
