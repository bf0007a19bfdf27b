"""Many sets in one call: each has the hull that it has alone, whatever the others are."""
from __future__ import annotations

import numpy as np
import pytest

from qconvex import COORDINATE_LIMIT, POINT_LIMIT, ConvexHull, FloatHull, FloatHulls, hulls

CUBE = [[x, y, z] for x in (0, 1) for y in (0, 1) for z in (0, 1)]
ARRAYS = ("vertices", "corners", "offsets", "simplices", "normals", "neighbors")
NUMBERS = ("dimension", "distinct", "nedges", "npoints", "six_volumes", "area")


def same(one, other):
    for name in ARRAYS:
        mine, theirs = getattr(one, name), getattr(other, name)
        assert mine.dtype == theirs.dtype and np.array_equal(mine, theirs), name
    for name in NUMBERS:
        assert getattr(one, name) == getattr(other, name), name
    for face, wanted in zip(one.faces, other.faces):
        assert np.array_equal(face, wanted)
    assert one.to_off() == other.to_off()


def test_sets_of_any_dimension_and_size():
    rng = np.random.default_rng(5)
    sets = [rng.integers(-4, 5, (size, 3)) * [1, min(shape, 1), shape // 2] for size in range(1, 60) for shape in range(3)]
    starts = np.cumsum([0, *map(len, sets)])
    found = hulls(np.concatenate(sets), starts)
    assert len(found) == len(sets) and not found.codes.any()
    for place, points in enumerate(sets):
        same(found[place], ConvexHull(points))
        assert found.dimension[place] == found[place].dimension and found.nfaces[place] == len(found[place])
        assert found.nvertices[place] == len(found[place].vertices) and found.nedges[place] == found[place].nedges
    same(found[-1], ConvexHull(sets[-1]))
    assert [len(hull) for hull in found] == [len(hull) for hull in found[:]] == found.nfaces.tolist()
    assert repr(found) == f"<Hulls of {len(sets)} sets: {starts[-1]} points, 0 refused>"


def test_a_refused_set_leaves_the_others():
    points = np.array([*CUBE, [0, 0, COORDINATE_LIMIT + 1], *CUBE], np.int64)
    found = hulls(points.astype(np.int32), [0, 8, 8, 9, 17])
    assert found.codes.tolist() == [0, 1, 3, 0]
    same(found[0], ConvexHull(CUBE))
    same(found[3], ConvexHull(CUBE))
    assert found.refusal(0) is None and found.refusal(1) == "there is no point"
    with pytest.raises(ValueError, match="no point"):
        found[1]
    with pytest.raises(ValueError, match="not from -1073741824"):
        found[2]
    with pytest.raises(IndexError):
        found[4]
    large = hulls(np.zeros((POINT_LIMIT + 9, 3), np.int32), [0, POINT_LIMIT + 1, POINT_LIMIT + 9])
    assert large.codes.tolist() == [2, 0] and large[1].dimension == 0


def test_starts():
    assert len(hulls(CUBE, [3])) == 0
    assert hulls(CUBE, [4, 8])[0].dimension == 2
    assert hulls(CUBE, np.array([0, 8], np.uint8))[0].dimension == 3
    for wrong in ([0, 9], [4, 3], [-1, 4], [[0, 8]], [], [0, 1 << 60], [0, 1 << 50], [0, 1 << 70]):
        with pytest.raises(ValueError):
            hulls(CUBE, wrong)
    with pytest.raises(TypeError):
        hulls(CUBE, [0.0, 8.0])
    with pytest.raises(TypeError):
        hulls(np.zeros((4, 3)), [0, 4])


def test_what_is_given_stays_apart():
    points, starts = np.array(CUBE, np.int32), np.array([0, 8])
    found = hulls(points, starts)
    points[:] = 0
    starts[:] = 0
    same(found[0], ConvexHull(CUBE))
    assert not found[0].points.flags.writeable and not found[0].vertices.flags.writeable


def sets_of_floats(rng, count):
    """Sets of few floats: on grids and off them, flat, of one place, far out and close to 0, and without a point."""
    shapes = [
        lambda floats: floats,
        lambda floats: np.rint(floats * 100) / 64,
        lambda floats: floats * [1, 0, 0],
        lambda floats: floats * 0 + 0.3,
        lambda floats: floats * 1e-310,
        lambda floats: floats * 1e300,
        lambda floats: floats + 1e15,
        lambda floats: floats * [1e-300, 1, 1e300],
        lambda floats: np.rint(floats * 3) * 2.0**40,
        lambda floats: np.rint(floats * 2) * [1, 0, 0] + [1e300, 0.1, 7],
    ]
    return [shapes[place % len(shapes)](rng.normal(size=(rng.integers(0, 9), 3))) for place in range(count)]


def same_in_floats(one, other):
    same(one, other)
    assert isinstance(one, FloatHull) and np.array_equal(one.points, other.points)
    assert np.array_equal(one.grid_points, other.grid_points)
    assert (one.scale, one.centre, one.snap_error, one.volume) == (other.scale, other.centre, other.snap_error, other.volume)
    assert np.array_equal(one.coordinates, other.coordinates) and np.array_equal(one.equations, other.equations)


@pytest.mark.parametrize("bits", [1, 10, 30])
@pytest.mark.parametrize("workers", [1, 3])
def test_sets_of_floats(bits, workers):
    sets = sets_of_floats(np.random.default_rng(bits), 120)
    starts = 2 + np.cumsum([0, *map(len, sets)])
    found = hulls(np.concatenate([np.ones((2, 3)), *sets, np.ones((5, 3))]), starts, bits=bits, workers=workers)
    assert isinstance(found, FloatHulls) and found.codes.tolist() == [0 if len(floats) else 1 for floats in sets]
    for place, floats in enumerate(sets):
        if len(floats):
            alone = ConvexHull.from_floats(floats, bits)
            same_in_floats(found[place], alone)
            assert (found.scale[place], found.snap_error[place]) == (alone.scale, alone.snap_error)
        else:
            assert found.refusal(place) == "there is no point"


def test_sets_of_floats_are_asked_for():
    floats = np.array(CUBE) / 2
    for given in (floats, floats.tolist(), floats.astype(np.float32)):
        assert hulls(given, [0, 8], bits=30)[0].volume == 0.125
    pair = hulls(floats / 3, [0, 4, 8], bits=9)
    assert [hull.snap_error for hull in pair[:]] == pair.snap_error.tolist() and pair.snap_error.all()
    assert len(hulls(floats, [3], bits=30)) == 0 and len(hulls(floats, [3, 3], bits=30)) == 1
    with pytest.raises(TypeError, match="bits"):
        hulls(floats, [0, 8])
    for wrong, bits in ((floats * np.nan, 30), (floats, 0), (floats, 31)):
        with pytest.raises(ValueError):
            hulls(wrong, [0, 8], bits=bits)
    with pytest.raises(ValueError, match="starts"):
        hulls(floats, [0, 9], bits=30)
    found = hulls(floats, [0, 8], bits=30)
    floats[:] = 0
    assert found[0].volume == 0.125 and not found[0].points.flags.writeable and not found[0].grid_points.flags.writeable
