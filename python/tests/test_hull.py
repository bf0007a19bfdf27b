"""Rows of hulls: expected values are Geomview's OFF of a cube, counts and volumes of known solids, and scipy's."""
from __future__ import annotations

import ctypes

import numpy as np
import pytest

import qconvex
from qconvex import COORDINATE_LIMIT, POINT_LIMIT, ConvexHull, _library

CUBE = [[x, y, z] for x in (0, 1) for y in (0, 1) for z in (0, 1)]
CUBE_FACES = [[0, 1, 3, 2], [0, 2, 6, 4], [0, 4, 5, 1], [1, 5, 7, 3], [2, 3, 7, 6], [4, 6, 7, 5]]
OCTAHEDRON = [[1, 0, 0], [-1, 0, 0], [0, 1, 0], [0, -1, 0], [0, 0, 1], [0, 0, -1]]


def test_cube():
    hull = ConvexHull(CUBE)
    assert hull.dimension == 3 and hull.distinct == 8 and hull.nedges == 12
    assert hull.vertices.tolist() == list(range(8)) and hull.vertices.dtype == np.int32
    assert [face.tolist() for face in hull.faces] == CUBE_FACES
    assert hull.simplices.shape == (12, 3) and hull.simplices.dtype == np.int32
    assert hull.simplices[:2].tolist() == [[0, 1, 3], [0, 3, 2]]
    assert hull.six_volumes == 6 and hull.volume == 1.0 and hull.area == 6.0
    assert hull.equations[0].tolist() == [-1.0, 0.0, 0.0, 0.0] and hull.equations[-1].tolist() == [1.0, 0.0, 0.0, -1.0]
    assert hull.nsimplex == 12


def test_octahedron():
    hull = ConvexHull(OCTAHEDRON)
    assert (len(hull.faces), hull.nedges, hull.six_volumes) == (8, 12, 8)
    assert np.isclose(hull.area, 4 * 3**0.5)


def test_neighbors_share_the_side_opposite_to_a_corner():
    for points in (CUBE, OCTAHEDRON, np.random.default_rng(3).integers(-9, 10, (200, 3))):
        hull = ConvexHull(points)
        for number, triangle in enumerate(hull.simplices.tolist()):
            for corner in range(3):
                other = hull.neighbors[number, corner]
                assert number in hull.neighbors[other]
                assert set(triangle) & set(hull.simplices[other].tolist()) == set(triangle) - {triangle[corner]}


def test_flat_sets():
    square = ConvexHull([[0, 0, 5], [2, 0, 5], [2, 2, 5], [0, 2, 5], [1, 1, 5]])
    assert (square.dimension, square.nedges, square.area, square.volume) == (2, 4, 4.0, 0.0)
    assert [face.tolist() for face in square.faces] == [[0, 1, 2, 3]]
    assert square.neighbors.tolist() == [[-1, 1, -1], [-1, -1, 0]]
    segment = ConvexHull([[0, 0, 0], [2, 4, 6], [1, 2, 3]])
    assert (segment.dimension, segment.nedges, segment.area, segment.six_volumes) == (1, 1, 0.0, 0)
    assert segment.vertices.tolist() == [0, 1] and segment.simplices.shape == segment.neighbors.shape == (0, 3)
    assert segment.equations.shape == (0, 4)
    point = ConvexHull([[7, 7, 7], [7, 7, 7]])
    assert (point.dimension, point.distinct, point.vertices.tolist()) == (0, 1, [0])
    assert [face.tolist() for face in point.faces] == [[0]]


@pytest.mark.parametrize("kind", [np.int8, np.int16, np.int32, np.int64, np.uint8, np.uint16, np.uint32, np.uint64])
def test_every_integer_type_and_layout(kind):
    cube = np.array(CUBE, kind)
    for points in (cube, np.asfortranarray(cube), np.repeat(cube, 2, axis=0)[::2]):
        assert [face.tolist() for face in ConvexHull(points).faces] == CUBE_FACES


def test_limits_of_coordinates():
    ends = np.array(CUBE) * 2 * COORDINATE_LIMIT - COORDINATE_LIMIT
    hull = ConvexHull(ends)
    assert hull.six_volumes == 6 * (2 * COORDINATE_LIMIT) ** 3 and hull.volume == float((2 * COORDINATE_LIMIT) ** 3)
    assert hull.normals[0].tolist() == [-((2 * COORDINATE_LIMIT) ** 2), 0, 0]
    for far in (COORDINATE_LIMIT + 1, -COORDINATE_LIMIT - 1, -(2**31), 2**31, 2**40, -(2**63), 2**70):
        with pytest.raises(ValueError, match="coordinate"):
            ConvexHull([[0, 0, 0], [0, far, 0]])
    for far, kind in ((COORDINATE_LIMIT + 1, np.int32), (-(2**31), np.int32), (2**32 - 1, np.uint32), (2**64 - 1, np.uint64)):
        with pytest.raises(ValueError, match="coordinate"):
            ConvexHull(np.array([[0, 0, 0], [0, far, 1]], kind))


def test_floats_are_refused_with_a_way_to_scale():
    for points in ([[0.5, 0, 0]], np.zeros((3, 3)), [[float("nan"), 0, 0]], np.zeros((3, 3), np.float16)):
        with pytest.raises(TypeError, match="multiply them by a scale"):
            ConvexHull(points)


def test_other_refusals():
    for points in ([], [1, 2, 3], [[1, 2]], np.zeros((2, 3, 3), int)):
        with pytest.raises(ValueError, match="shape"):
            ConvexHull(points)
    with pytest.raises(ValueError, match="no point"):
        ConvexHull(np.zeros((0, 3), int))
    with pytest.raises(ValueError, match="more than 1048576"):
        ConvexHull(np.zeros((POINT_LIMIT + 1, 3), np.int32))
    with pytest.raises(TypeError):
        ConvexHull([["0", "0", "0"]])
    with pytest.raises(TypeError):
        ConvexHull(np.zeros((1, 3), bool))


def test_room_is_asked_for_again_where_it_is_too_little(monkeypatch):
    monkeypatch.setattr(_library, "_rooms", [_library._Room(1, 1, 1)])
    for _ in range(2):
        assert [face.tolist() for face in ConvexHull(CUBE).faces] == CUBE_FACES
        assert [len(part) for part in (_library._rooms[0].extremes, _library._rooms[0].offsets, _library._rooms[0].corners)] == [8, 23, 24]


def test_hulls_of_few_points_share_no_memory():
    hulls = [ConvexHull(np.array(CUBE) * scale) for scale in (1, 0, 2)]
    assert [len(hull.corners) for hull in hulls] == [24, 1, 24]
    assert [face.tolist() for face in hulls[0].faces] == CUBE_FACES and not np.shares_memory(hulls[0].corners, hulls[2].corners)


def test_triangles_and_normals_are_those_of_the_library():
    random = np.random.default_rng(11)
    fans = _library.LIBRARY.qconvex_fans
    fans.argtypes = [ctypes.c_void_p, ctypes.c_size_t, ctypes.c_void_p] + 2 * [ctypes.c_void_p, ctypes.c_size_t]
    for reach, flatten in ((3, (1, 1, 1)), (COORDINATE_LIMIT, (1, 1, 1)), (9, (1, 1, 0)), (9, (1, 0, 0))):
        points = (random.integers(-reach, reach + 1, (100, 3)) * flatten).astype(np.int32)
        hull, count = ConvexHull(points), ctypes.c_size_t()
        triangles, normals = np.zeros((200, 3), np.uint32), np.zeros((200, 3), np.int64)
        rooms = (triangles.ctypes.data, triangles.size, normals.ctypes.data, normals.size)
        assert fans(points.ctypes.data, len(points), ctypes.addressof(count), *rooms) == 0
        assert np.array_equal(hull.simplices, triangles[: count.value])
        assert np.array_equal(hull.normals, normals[: count.value])


def test_agrees_with_scipy():
    spatial = pytest.importorskip("scipy.spatial")
    random = np.random.default_rng(7)
    for reach in (3, 20, 1000, 2**26):
        points = random.integers(-reach, reach + 1, (500, 3))
        ours, theirs = ConvexHull(points), spatial.ConvexHull(points.astype(float))
        assert {tuple(p) for p in points[ours.vertices]} == {tuple(p) for p in points[theirs.vertices]}
        assert np.isclose(ours.volume, theirs.volume, rtol=1e-9) and np.isclose(ours.area, theirs.area, rtol=1e-9)
        assert len(ours.simplices) == len(theirs.simplices) and ours.nsimplex == theirs.nsimplex


def test_exported_names():
    names = ["COORDINATE_LIMIT", "ConvexHull", "FloatHull", "FloatHulls", "Hulls", "POINT_LIMIT", "Snapped", "Verdict", "__version__"]
    assert sorted(qconvex.__all__) == [*names, "check", "checks", "hulls", "snap"]
