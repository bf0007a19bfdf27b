"""Tests of scripts/tools/check_hull.py on surfaces that are convex at each side: only those that go round once are hulls."""
import itertools
import sys
import tempfile
import unittest
from pathlib import Path
from types import SimpleNamespace

sys.path.insert(0, str(Path(__file__).resolve().parents[1]))
from tools.check_hull import Checker, Faces, Wrong, check, dot, faces_of_file, points_of_file, triangle_normal  # noqa: E402

OPTIONS = SimpleNamespace(whole=False, unoriented=False)
# The corners of an icosahedron, nearly: the long side of its golden rectangles is 1618 for 1000.
CORNERS = [
    corner
    for a, b in itertools.product((-1000, 1000), (-1618, 1618))
    for corner in [(0, a, b), (a, b, 0), (b, 0, a)]
]  # fmt: skip


def is_near(i, j):
    """Returns true if two corners are joined by an edge of the icosahedron."""
    return sum((p - q) ** 2 for p, q in zip(CORNERS[i], CORNERS[j])) < 2200**2


def is_far(i, j):
    """Returns true if two corners are neither joined by an edge nor opposite."""
    return not is_near(i, j) and any(p + q for p, q in zip(CORNERS[i], CORNERS[j]))


def triangles(is_side):
    """The triangles whose sides pass a test, counterclockwise seen from outside."""
    found = []
    for face in itertools.combinations(range(12), 3):
        if all(is_side(i, j) for i, j in itertools.combinations(face, 2)):
            a, b, c = (CORNERS[corner] for corner in face)
            found.append(list(face) if dot(triangle_normal(a, b, c), a) > 0 else list(face)[::-1])
    return found


def told(points, faces):
    """What the checker says."""
    try:
        return check(Checker(points), Faces(CORNERS, faces), OPTIONS)
    except Wrong as wrong:
        return f"wrong: {wrong}"


def read(reader, text):
    """What a reader makes of a file with a text."""
    with tempfile.NamedTemporaryFile("w") as file:
        file.write(text)
        file.flush()
        return reader(file.name)


class Surfaces(unittest.TestCase):
    def test_an_icosahedron_is_right(self):
        self.assertEqual(told(CORNERS, triangles(is_near)), "12 corners, 20 faces")

    def test_points_within_need_no_face(self):
        self.assertEqual(told([*CORNERS, (0, 0, 0), (1, 2, 3)], triangles(is_near)), "12 corners, 20 faces")

    def test_a_point_outside_is_found(self):
        self.assertIn("lies outside its plane", told([*CORNERS, (1500, 1500, 1500)], triangles(is_near)))

    def test_a_star_goes_round_more_than_once(self):
        faces = triangles(is_far)
        self.assertEqual(len(faces), 20)
        self.assertEqual(told(CORNERS, faces), "wrong: faces 0 and 4 lie one behind the other")

    def test_a_dent_is_found(self):
        faces = triangles(is_near)
        first = faces[0]
        dented = [[12 if corner == first[0] else corner for corner in face] for face in faces]
        inner = tuple(part // 3 for part in CORNERS[first[0]])
        try:
            said = check(Checker([*CORNERS, inner]), Faces([*CORNERS, inner], dented), OPTIONS)
        except Wrong as wrong:
            said = str(wrong)
        self.assertIn("lies outside its plane", said)


class Files(unittest.TestCase):
    def test_a_header_has_the_dimension_first_or_last(self):
        for header in ("3 corners\n2", "2 3 # and then"):
            self.assertEqual(read(points_of_file, f"{header}\n0 0 +1 \n-2 3 4 end\n"), [(0, 0, 1), (-2, 3, 4)])

    def test_too_few_numbers_are_refused(self):
        self.assertRaises(ValueError, read, points_of_file, "3\n2\n0 0 0\n")

    def test_a_keyword_may_stand_before_the_counts(self):
        rows = "1 1 0\n0 1.0 0.5\n1 0\n"
        for text in (f"OFF\n{rows}", f"OFF {rows}", f"3\n{rows}", rows):
            faces = read(faces_of_file, text)
            self.assertEqual((faces.points, faces.faces), ([(0, 1, 0.5)], [[0]]))

    def test_no_point_is_refused(self):
        self.assertRaises(ValueError, read, points_of_file, "3\n0\n")

    def test_a_face_that_is_cut_off_is_refused(self):
        self.assertRaises(ValueError, read, faces_of_file, "OFF\n3 1 0\n0 0 0\n1 0 0\n0 1 0\n4 0 1 2\n")

    def test_an_exponent_without_end_is_refused(self):
        text = "OFF\n1 1 0\n0 1 %s\n1 0\n"
        self.assertEqual(read(faces_of_file, text % "25e-1").points, [(0, 1, 2.5)])
        self.assertEqual(read(faces_of_file, text % "1E+2000").points, [(0, 1, 10**2000)])
        for word in ("1e999999999", "-1.5E-999999999", "1e999_999_999", "1e" + 5000 * "9"):
            self.assertRaises(ValueError, read, faces_of_file, text % word)

    def test_a_face_of_no_point_is_refused(self):
        self.assertRaises(ValueError, read, faces_of_file, "OFF\n1 1 0\n0 0 0\n1 1\n")


if __name__ == "__main__":
    unittest.main()
