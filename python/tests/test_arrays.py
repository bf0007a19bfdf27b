"""What points may be, what becomes of them, and the texts of a hull: a cube's OFF is Geomview's, read back by hand."""
from __future__ import annotations

import numpy as np
import pytest

import qconvex
from qconvex import COORDINATE_LIMIT, ConvexHull, check, hulls

CUBE = [[x, y, z] for x in (0, 1) for y in (0, 1) for z in (0, 1)]
CUBE_OFF = """OFF
8 6 12
0 0 0
0 0 1
0 1 0
0 1 1
1 0 0
1 0 1
1 1 0
1 1 1
4 0 1 3 2
4 0 2 6 4
4 0 4 5 1
4 1 5 7 3
4 2 3 7 6
4 4 6 7 5
"""


def test_a_copy_cannot_be_written_and_the_given_array_can():
    given = np.array(CUBE, np.int32)
    hull = ConvexHull(given)
    given[0] = 9
    assert hull.points[0].tolist() == [0, 0, 0]
    with pytest.raises(ValueError):
        hull.points[0] = 1
    other = np.array(CUBE, np.int32)
    assert ConvexHull(other, copy=False).points is other and other.flags.writeable


def test_memory_that_is_not_aligned_is_copied_first():
    room = np.zeros(8 * 12 + 1, np.uint8)
    given = room[1:].view(np.int32).reshape(8, 3)
    given[:] = CUBE
    assert not given.flags.aligned
    for copy in (True, False):
        hull = ConvexHull(given, copy=copy)
        assert hull.points.flags.aligned and len(hull) == 6


def test_whole_numbers_in_objects_and_lists():
    for given in (np.array(CUBE, object), [[np.int64(number) for number in point] for point in CUBE], tuple(map(tuple, CUBE))):
        assert ConvexHull(given).vertices.tolist() == list(range(8))
    assert ConvexHull(np.array([[COORDINATE_LIMIT, 0, 0], [0, 0, 0]], object)).dimension == 1
    for far in (COORDINATE_LIMIT + 1, -COORDINATE_LIMIT - 1, 10**30):
        with pytest.raises(ValueError, match="coordinate"):
            ConvexHull(np.array([[far, 0, 0], [0, 0, 0]], object))
    with pytest.raises(TypeError, match="are str:"):
        ConvexHull(np.array([["a", 0, 0]], object))
    mixed = [[np.uint64(x), np.int64(y), z] for x, y, z in CUBE]
    assert check(mixed, ConvexHull(mixed).faces) and hulls(mixed, [np.uint64(0), np.int64(8)])[0].dimension == 3
    with pytest.raises(TypeError, match="are float: "):
        ConvexHull([[0.5, 1, 2]])
    with pytest.raises(TypeError, match="masked"):
        ConvexHull(np.ma.masked_greater(np.array(CUBE), 0))


def test_what_a_hull_says_of_itself():
    hull = ConvexHull(CUBE)
    assert repr(hull) == "<ConvexHull of 8 points: dimension 3, 8 vertices, 6 faces>"
    assert (len(hull), hull.npoints, hull.ndim) == (6, 8, 3)
    assert hull.min_bound.tolist() == [0, 0, 0] and hull.max_bound.tolist() == [1, 1, 1]
    assert hull.volume is hull.volume and hull.faces is hull.faces
    assert qconvex.__version__.count(".") == 2


def test_texts():
    hull = ConvexHull(CUBE)
    assert hull.to_off() == CUBE_OFF
    lines = hull.to_obj().splitlines()
    assert lines[:2] == ["v 0 0 0", "v 0 0 1"] and lines[8] == "f 1 2 4 3" and len(lines) == 14
    assert ConvexHull([[5, 5, 5]]).to_off() == "OFF\n1 1 0\n5 5 5\n1 0\n"


def test_a_picture():
    matplotlib = pytest.importorskip("matplotlib")
    matplotlib.use("Agg")
    axes = ConvexHull(CUBE).plot()
    assert len(axes.collections) == 1 and axes.get_xlim() == (0.0, 1.0)
    assert ConvexHull(CUBE).plot(axes, alpha=0.3) is axes and len(axes.collections) == 2
    assert len(ConvexHull([[0, 0, 0], [1, 2, 3]]).plot().lines) == 1
