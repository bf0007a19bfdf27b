"""Hulls of floats: errors are compared with exact fractions, volumes with scipy's, and grids have none."""
from __future__ import annotations

import math
from decimal import Decimal
from fractions import Fraction

import numpy as np
import pytest

from qconvex import ConvexHull, FloatHull, snap

CUBE = [[x, y, z] for x in (0.0, 1.0) for y in (0.0, 1.0) for z in (0.0, 1.0)]


def errors(floats, snapped):
    """The distance from each number to what stands for it, exactly."""
    return [
        abs(Fraction(float(value)) - (int(whole) + centre) * Fraction(snapped.step))
        for row, wholes in zip(floats, snapped.points)
        for value, whole, centre in zip(row, wholes, snapped.centre)
    ]


@pytest.mark.parametrize("bits", [1, 2, 10, 30])
@pytest.mark.parametrize("scale, offset", [(1.0, 0.0), (1e-9, 3.0), (1e12, -7e13), (5e-324, 0.0), (1e290, 1e300), (1.0, 1e15)])
def test_the_error_is_the_greatest_distance(bits, scale, offset):
    floats = np.random.default_rng(bits).uniform(-1, 1, (40, 3)) * scale + offset
    snapped = snap(floats, bits)
    assert np.abs(snapped.points.astype(np.int64)).max() <= 2**bits
    found = errors(floats, snapped)
    assert max(found) == Fraction(snapped.error)
    assert max(found) <= Fraction(snapped.step) / 2


def test_the_grid_is_the_finest():
    floats = np.random.default_rng(5).uniform(-1, 1, (100, 3))
    for bits in (4, 12, 30):
        snapped = snap(floats, bits)
        sides = floats.max(axis=0) - floats.min(axis=0)
        assert snapped.step / 2 * (2 ** (bits + 1) - 2) < sides.max()


@pytest.mark.parametrize("grid", [1.0, 0.25, 2.0**-20, 2.0**40])
def test_floats_on_a_grid_have_no_error(grid):
    floats = np.random.default_rng(3).integers(-1000, 1000, (50, 3)) * grid + 7 * grid
    snapped = snap(floats)
    assert snapped.error == 0.0 and max(errors(floats, snapped)) == 0


def test_one_point_and_a_plane_far_out():
    assert snap([[1e300, 0.1, -3.0]]).points.tolist() == [[0, 0, 0]]
    floats = [[1e300, y, z] for y in (0.0, 1e-300) for z in (0.0, 1e-300)]
    assert FloatHull(floats).dimension == 2


def test_units_are_those_of_the_floats():
    scipy = pytest.importorskip("scipy.spatial")
    floats = np.random.default_rng(8).normal(size=(500, 3)) * [1.0, 20.0, 300.0] + [1000.0, 0.0, -5.0]
    hull, other = ConvexHull.from_floats(floats), scipy.ConvexHull(floats)
    assert hull.vertices.tolist() == sorted(other.vertices.tolist())
    assert np.isclose(hull.volume, other.volume) and np.isclose(hull.area, other.area)
    assert np.allclose(hull.coordinates, floats, rtol=0, atol=hull.snap_error * 1.01)
    assert np.allclose(hull.min_bound, other.min_bound) and np.allclose(hull.max_bound, other.max_bound)
    heights = floats @ hull.equations[:, :3].T + hull.equations[:, 3]
    assert heights.max() < 1e-5


def test_a_cube_in_other_units():
    hull = ConvexHull.from_floats(np.array(CUBE) / 8 + 3)
    assert (len(hull), hull.nedges, hull.snap_error, hull.volume, hull.area) == (6, 12, 0.0, 1 / 512, 6 / 64)
    assert hull.to_off().splitlines()[2] == "3.0 3.0 3.0"


@pytest.mark.parametrize("points", [[[0.0, 1.0]], [0.0, 1.0, 2.0], [], [[float("nan"), 0, 0]], [[0, float("inf"), 0]]])
def test_what_has_no_whole_numbers_is_refused(points):
    with pytest.raises(ValueError):
        snap(points)


@pytest.mark.parametrize("bits", [0, 31, -1])
def test_bits_are_from_1_to_30(bits):
    with pytest.raises(ValueError):
        snap(CUBE, bits)


# The whole range of floats.


def any_float(rng):
    kind = rng.integers(5)
    if kind == 0:
        return float(rng.integers(0, 2**63, dtype=np.uint64).view(np.float64) * rng.choice([-1, 1]))
    if kind == 1:
        return float(rng.choice([0.0, -0.0, 5e-324, -1.7976931348623157e308, 2.0**1000, 2.0**-140, 2.0**-1022, 1.0]))
    if kind == 2:
        return math.ldexp(int(rng.integers(-(2**52), 2**52)), -1074)
    if kind == 3:
        return math.ldexp(rng.uniform(-1, 1), int(rng.integers(-1000, 1000)))
    return math.ldexp(int(rng.integers(-(2**33), 2**33)), int(rng.choice([-30, 0, 5, 900, -1000])))


def any_points(rng):
    if rng.random() < 0.5:
        return np.array([[any_float(rng) for _ in "xyz"] for _ in range(rng.integers(1, 7))])
    wholes = rng.integers(-(2 ** rng.integers(1, 40)), 2**39, (rng.integers(1, 7), 3)) + float(rng.choice([0, 3, 2.0**20, 2.0**50]))
    return np.ldexp(wholes, rng.integers(-1070, 960))


def has_room(rows, step, bits):
    """Whether the whole numbers of a grid have at most so many bits, each float at the nearest."""
    steps = [[round(number / step) for number in axis] for axis in zip(*rows)]
    return all(max(axis) - min(axis) <= 2 << bits for axis in steps)


@pytest.mark.parametrize("seed", range(5))
def test_any_float_is_where_the_rule_puts_it(seed):
    rng = np.random.default_rng(seed)
    for floats in filter(lambda floats: np.isfinite(floats).all(), (any_points(rng) for _ in range(300))):
        bits = int(rng.choice([1, 2, 5, 29, 30]))
        snapped, rows = snap(floats, bits), [list(map(Fraction, row)) for row in floats.tolist()]
        step, most = Fraction(snapped.step), max(errors(floats, snapped))
        assert most == Fraction(snapped.error) and most <= step / 2 and np.abs(snapped.points.astype(np.int64)).max() <= 2**bits
        if most:
            assert not has_room(rows, step / 2, bits)
        elif step != 1 and any(map(any, rows)):
            assert step < 1 or not has_room(rows, Fraction(1), bits)
            assert any((number / step / 2).denominator > 1 for row in rows for number in row)
        hull = FloatHull(floats, bits)
        assert np.isfinite(hull.coordinates).all() and hull.volume >= 0 and hull.area >= 0
        pairs = zip(hull.coordinates.ravel().tolist(), (number for row in rows for number in row))
        within = [abs(Fraction(place) - number) for place, number in pairs]
        assert max(within) == most or np.abs(floats).max() > 1.79e308


def test_what_moved_out_of_sight_is_told():
    snapped = snap([[0, 0, 0], [2.0**1000, 0, 0], [0, 2.0**1000, 0], [0, 0, 2.0**-140]])
    assert snapped.error == 2.0**-140
    huge = FloatHull(np.array(CUBE) * 1.7e308 - 0.8e308)
    assert np.isfinite(huge.coordinates).all() and huge.volume == huge.area == math.inf
    assert FloatHull(np.array(CUBE) * 2.0**600).area == math.inf and FloatHull(np.array(CUBE) * 2.0**500).area == 6 * 2.0**1000
    assert FloatHull(np.array(CUBE) * 2.0**-530).area == 6 * 2.0**-1060


def test_the_step_is_one_where_one_will_do():
    for floats, step in (([[4.0, 8, 12]], 1), ([[0.5, 0, 0], [7, 1, 2]], 0.5), ([[2.0**40, 0, 0], [0, 0, 0]], 2.0**40)):
        assert snap(floats).step == step and snap(floats).error == 0
    assert snap(CUBE, np.int64(30))[1:] == (1.0, (0, 0, 0), 0.0)


def test_the_points_of_a_hull_are_the_floats():
    floats = np.random.default_rng(2).normal(size=(50, 3))
    hull = ConvexHull.from_floats(floats)
    assert np.array_equal(hull.points, floats) and hull.grid_points.dtype == np.int32
    assert hull.min_bound.tolist() == floats.min(axis=0).tolist() and not hull.points.flags.writeable


REFUSED = {
    "complex128": np.zeros((4, 3), complex), "<U3": [["0.5", "1", "2"]],
    "bool": np.zeros((4, 3), bool), "datetime64": np.zeros((2, 3), "M8[s]"),
    "int64, and some": np.array([[2**53 + 1, 0, 0]]), "uint64, and some": np.array([[2**64 - 1, 0, 0]], np.uint64),
    "the int 9007199254740993": [[2**53 + 1, 0.5, 0]], "the int64 9007199254740993": [[np.int64(2**53 + 1), 0.5, 0]],
    "the Decimal 0.1": [[Decimal("0.1"), 0, 0]], "the Fraction 1/3": [[Fraction(1, 3), 0, 0]],
    "some are NoneType": [[None, 0, 1]], "some are bool": [[True, 0.5, 1]], "beyond the range": [[10**400, 0, 0]],
    "some are str": np.array([["1", 0, 0]], object),
    "some are masked": np.ma.masked_greater(np.arange(12.0).reshape(4, 3), 5), "some are complex": np.array([[1j, 0, 0]], object),
}
if np.finfo(np.longdouble).nmant > 52:
    REFUSED["and some of them no float64"] = np.full((1, 3), 1, np.longdouble) / 3


@pytest.mark.parametrize("reason", REFUSED)
def test_what_is_no_float64_is_refused_by_name(reason):
    with pytest.raises(TypeError, match=reason):
        snap(REFUSED[reason])


def test_what_is_a_float64_is_taken():
    for points in (
        np.array([[2**62, 0, -(2**63)]]), np.array([[2**63, 3, 0]], np.uint64), np.full((1, 3), 0.1, np.longdouble),
        np.full((2, 3), 0.1, np.float32), [[2**60, 0.5, np.float32(0.1)]], [[Decimal("0.5"), Fraction(1, 4), 3]],
        np.ma.masked_greater(np.zeros((2, 3)), 5), np.zeros((2, 3), np.float16),
    ):
        assert max(errors(points, snap(points))) <= Fraction(snap(points).error)


@pytest.mark.parametrize("kind", [np.float64, np.float32, np.longdouble, object])
def test_floats_may_stand_in_any_order(kind):
    floats = np.random.default_rng(6).normal(size=(50, 3)).astype(np.float32).astype(kind)
    wide = np.zeros((100, 6), kind)
    wide[::2, ::2] = floats
    for given in (np.asfortranarray(floats), wide[::2, ::2]):
        assert ConvexHull.from_floats(given).vertices.tolist() == ConvexHull.from_floats(floats.copy()).vertices.tolist()
