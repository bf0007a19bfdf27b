"""Threads that share the work: the hull, the hulls and the verdicts are those of one thread."""
from __future__ import annotations

import numpy as np
import pytest

from qconvex import COORDINATE_LIMIT, POINT_LIMIT, ConvexHull, _library, _workers, check, checks, hulls
from test_hulls import CUBE, same

COUNT = _workers._LEAST


SHAPES = [(9, [1, 1, 1]), (1000, [1, 1, 1]), (50, [1, 1, 0]), (50, [0, 1, 0]), (0, [1, 1, 1]), (COORDINATE_LIMIT, [1, 1, 1])]


@pytest.mark.parametrize("reach, shape", SHAPES)
def test_the_hull_of_parts_is_that_of_all(reach, shape, monkeypatch):
    points = np.random.default_rng(reach).integers(-reach, reach + 1, (400, 3)) * shape
    one = ConvexHull(points)
    monkeypatch.setattr(_workers, "_LEAST", 1)
    monkeypatch.setattr(_workers, "_SAMPLE", 50)
    monkeypatch.setattr(_workers, "_SHARE", 2)
    for workers in (2, 3, 8, -1, np.int64(4)):
        same(ConvexHull(points, workers=workers), one)
        floats = ConvexHull.from_floats(points / 8, workers=workers)
        assert floats.vertices.tolist() == one.vertices.tolist() and floats.distinct == one.distinct


def calls_of(monkeypatch, points, workers):
    """The numbers of points of which the library made hulls."""
    made, sizes = _library.flat_hull, []
    monkeypatch.setattr(_workers, "flat_hull", lambda part: sizes.append(len(part)) or made(part))
    ConvexHull(points, workers=workers)
    return sizes


def test_parts_are_made_where_they_pay(monkeypatch):
    many = np.random.default_rng(1).integers(-3, 4, (COUNT, 3))
    sizes = calls_of(monkeypatch, many, 4)
    assert sizes[1:5] == [COUNT // 4] * 4 and len(sizes) == 6 and sizes[5] < 1400
    assert calls_of(monkeypatch, many[1:], 4) == [COUNT - 1] and calls_of(monkeypatch, many, 1) == [COUNT]
    angles = np.linspace(0, 2 * np.pi, COUNT)
    around = np.rint(np.column_stack([np.cos(angles), np.sin(angles), np.zeros(COUNT)]) * COORDINATE_LIMIT).astype(int)
    assert len(calls_of(monkeypatch, around, 4)) == 2


def test_refusals_are_those_of_one_thread():
    many = np.zeros((COUNT, 3), np.int32)
    many[-1, 2] = COORDINATE_LIMIT + 1
    with pytest.raises(ValueError, match="coordinate"):
        ConvexHull(many, workers=2)
    with pytest.raises(ValueError, match="more than"):
        ConvexHull(np.zeros((POINT_LIMIT + 1, 3), np.int32), workers=2)
    for workers in (0, -2):
        with pytest.raises(ValueError, match="workers"):
            ConvexHull(CUBE, workers=workers)
    with pytest.raises(TypeError):
        ConvexHull(CUBE, workers=1.5)


@pytest.mark.parametrize("workers", [2, 3, 50, -1])
def test_many_sets_by_several_threads(workers):
    rng = np.random.default_rng(7)
    lengths = rng.integers(0, 30, 40)
    points, starts = rng.integers(-9, 10, (lengths.sum() + 5, 3)), 3 + np.concatenate([[0], lengths.cumsum()])
    one, many = hulls(points, starts), hulls(points, starts, workers=workers)
    assert np.array_equal(one.codes, many.codes) and np.array_equal(one.nfaces, many.nfaces)
    for place in np.flatnonzero(one.codes == 0).tolist():
        same(many[place], one[place])
    assert len(hulls(points, [4], workers=workers)) == 0


def test_many_verdicts():
    faces = ConvexHull(CUBE).faces
    told = checks(((CUBE, cut) for cut in (faces, faces[1:], faces[::-1])), workers=2)
    assert list(map(bool, told)) == [True, False, True] and told[1] == check(CUBE, faces[1:])
