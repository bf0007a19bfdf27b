"""Rows of checks: right surfaces of a cube in several forms, scipy's triangles, and what is wrong with others."""
from __future__ import annotations

import ctypes

import numpy as np
import pytest

import qconvex
from qconvex import ConvexHull, Verdict, _checks, check
from test_hull import CUBE, CUBE_FACES

TRIANGLES = [[a, b, c] for a, b, c, d in CUBE_FACES] + [[c, d, a] for a, b, c, d in CUBE_FACES]


def test_a_cube_in_any_form():
    for faces in (CUBE_FACES, TRIANGLES, np.array(CUBE_FACES), np.array(TRIANGLES, np.uint64), ConvexHull(CUBE).faces):
        assert check(CUBE, faces) == Verdict(right=True, reason="all right")
    assert check(CUBE, (face for face in CUBE_FACES)) and check(CUBE, iter(np.array(TRIANGLES)))
    turned = [face[2:] + face[:2] for face in CUBE_FACES[::-1]]
    assert check(np.array(CUBE, np.int8), np.array(turned, np.int8))
    assert check(CUBE + [CUBE[0]], [[8, 1, 3, 2], *CUBE_FACES[1:]])


def test_a_face_that_is_wrong():
    inward = check(CUBE, [*CUBE_FACES[:5], CUBE_FACES[5][::-1]])
    assert not inward and inward.face == 5 and inward.edge is None and inward.point in (0, 1, 2, 3)
    assert inward.reason == f"face 5: point {inward.point} is above its plane"
    for number in (8, -1, 2**31, 2**32, -(2**32), 2**63, 2**70):
        beyond = check(CUBE, [CUBE_FACES[0], [0, 2, 6, number]])
        assert (beyond.right, beyond.face, beyond.point) == (False, 1, None) and "no point" in beyond.reason
    assert check(CUBE, np.array([[0, 1, 3], [0, -1, 2]])).face == 1
    assert check(CUBE, [[], *CUBE_FACES]).reason == "face 0: its first three corners are no points in a plane"
    assert check(CUBE, [[0, 1, 3, 2, 1]]).reason == "face 0: the polygon of its plane is another"


def test_an_edge_that_is_wrong():
    missing = check(CUBE, TRIANGLES[1:])
    assert not missing and missing.face is None and missing.edge is not None and set(missing.edge) < {0, 1, 3}
    assert missing.reason == "the side from point {} to point {} is open".format(*missing.edge)
    twice = check(CUBE, TRIANGLES + TRIANGLES)
    assert not twice and twice.edge is not None and "more than one face" in twice.reason


def test_flat_sets():
    square = [[0, 0, 5], [2, 0, 5], [2, 2, 5], [0, 2, 5], [1, 1, 5]]
    for points in (square, square[:1], [[0, 0, 0], [1, 2, 3], [2, 4, 6]]):
        assert check(points, ConvexHull(points).faces)
    other = check(square, ConvexHull(square).simplices)
    assert not other and other.reason == "the polygons are others" and other.face is other.edge is None


def test_no_face():
    for faces in ([], np.zeros((0, 3), int)):
        assert check(CUBE, faces).reason == "the polygons are others"


def test_refusals():
    with pytest.raises(ValueError, match="no point"):
        check(np.zeros((0, 3), int), CUBE_FACES)
    with pytest.raises(ValueError, match="coordinate"):
        check([[0, 2**31, 0]], CUBE_FACES)
    with pytest.raises(TypeError, match="whole numbers"):
        check(np.zeros((3, 3)), CUBE_FACES)
    with pytest.raises(TypeError, match="indices"):
        check(CUBE, [[0.0, 1.0, 3.0]])
    with pytest.raises(TypeError, match="indices"):
        check(CUBE, np.zeros((1, 3)))
    for faces in (np.array([0, 1, 3]), [[[0, 1, 3]]], [0, 1, 3]):
        with pytest.raises(ValueError, match="face"):
            check(CUBE, faces)


def test_a_verdict_stays_as_it_is():
    verdict = check(CUBE, CUBE_FACES)
    with pytest.raises(AttributeError):
        verdict.right = False
    assert qconvex.check is check and qconvex.Verdict is Verdict


def test_the_verdict_of_the_library_has_the_places_of_the_header():
    places = [getattr(_checks._Verdict, name).offset for name, _kind in _checks._Verdict._fields_]
    assert places == [0, 4, 8, 12, 16] and ctypes.sizeof(_checks._Verdict) == 24


def turned_outward(points, hull):
    """The triangles of scipy, counterclockwise seen from outside."""
    a, b, c = (points[hull.simplices[:, corner]].astype(float) for corner in range(3))
    inward = (np.cross(b - a, c - a) * hull.equations[:, :3]).sum(axis=1) < 0
    return np.where(inward[:, None], hull.simplices[:, ::-1], hull.simplices)


def test_triangles_of_scipy():
    spatial = pytest.importorskip("scipy.spatial")
    random = np.random.default_rng(5)
    for reach in (1000, 10**8):
        points = random.integers(-reach, reach + 1, (300, 3))
        simplices = turned_outward(points, spatial.ConvexHull(points))
        assert check(points, simplices)
        assert not check(points, simplices[1:])
        simplices[0] = simplices[0, ::-1]
        assert check(points, simplices).face == 0


def test_hulls_of_random_points():
    random = np.random.default_rng(6)
    for reach in (1, 2, 9, 10**6):
        points = random.integers(-reach, reach + 1, (100, 3))
        hull = ConvexHull(points)
        assert check(points, hull.faces) and check(points, hull.simplices)
        assert not check(points, hull.faces[:-1])
