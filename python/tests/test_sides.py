"""Sides, inequalities and edges, beside Fractions; texts read back by the readers of meshes; pictures with one scale."""
from __future__ import annotations

from fractions import Fraction

import numpy as np
import pytest

from qconvex import COORDINATE_LIMIT, ConvexHull
from qconvex.commands.meshes import READERS

CUBE = [[x, y, z] for x in (0, 1) for y in (0, 1) for z in (0, 1)]
SHAPES = ([1, 1, 1], [1, 1, 0], [0, 1, 0], [0, 0, 0])


def wanted(hull, places, scale=Fraction(1), centre=(0, 0, 0)):
    """The sides by all inequalities."""
    sides = []
    for place in places.tolist():
        steps = [Fraction(number) / scale - middle for number, middle in zip(place, centre)]
        height = max(sum(a * step for a, step in zip(row, steps)) - row[3] for row in hull.inequalities)
        sides.append(-1 if height > 0 else 0 if hull.dimension < 3 or not height else 1)
    return sides


@pytest.mark.parametrize("reach", [2, 5, 100, COORDINATE_LIMIT])
@pytest.mark.parametrize("shape", SHAPES)
def test_sides_are_those_of_the_inequalities(reach, shape):
    rng = np.random.default_rng(reach)
    for count in (1, 4, 9, 40):
        points = rng.integers(-reach, reach + 1, (count, 3)) * shape
        pairs = points[rng.integers(0, count, (2, 30))]
        hull, places = ConvexHull(points), np.concatenate([points, pairs.sum(axis=0) // 2, rng.integers(-reach, reach + 1, (50, 3))])
        assert hull.sides(places).tolist() == wanted(hull, places)
        beside = places + rng.choice([0, 2.0**-21, -(2.0**-60)], places.shape)
        near = np.concatenate([rng.uniform(-reach, reach, (30, 3)), pairs.mean(axis=0), beside])
        assert hull.sides(near).tolist() == wanted(hull, near) and np.array_equal(hull.contains(near), hull.sides(near) >= 0)
        floats = ConvexHull.from_floats(points * 0.1 + [0, 1e15, -3])
        near = np.concatenate([floats.points, floats.coordinates, floats.points[rng.integers(0, count, (2, 30))].mean(axis=0)])
        assert floats.sides(near).tolist() == wanted(floats, near, Fraction(floats.scale), floats.centre)


@pytest.mark.parametrize("seed", range(4))
def test_a_solid_that_is_nearly_flat(seed):
    rng, far = np.random.default_rng(seed), COORDINATE_LIMIT // 3
    a, b = rng.integers(-far, far, (2, 3))
    u, v = rng.integers(-9, 10, (2, 40, 1)) / 9
    plane = np.rint(u * a + v * b).astype(int)
    hull = ConvexHull(plane)
    places = np.concatenate([plane, plane + [0, 0, 1], plane - [1, 0, 0], rng.integers(-far, far, (20, 3))])
    assert hull.dimension == 3 and hull.sides(places).tolist() == wanted(hull, places)
    assert hull.sides(places / 2).tolist() == wanted(hull, places / 2)


def test_sides_of_other_places():
    hull = ConvexHull(CUBE)
    assert hull.sides(np.zeros((0, 3))).shape == (0,)
    assert hull.contains([[10**15, 0, 0], [-1e300, 0, 0], [5e-324, 0.5, 0.5]]).tolist() == [False, False, True]
    assert hull.sides([[0.5, 0.5, 0.5], [0.5, 0.5, 1], [0.5, 0.5, 1 + 2**-50]]).tolist() == [1, 0, -1]
    for kind, far in ((np.int64, 2**62 + 1), (np.uint64, 2**64 - 1), (np.uint32, 2**32 - 1), (np.int16, 2**15 - 1)):
        assert hull.sides(np.array([[1, 0, 1], [0, far, 0]], kind)).tolist() == [0, -1]
    for scale in (2.0**-997, 2.0**-1070, 2.0**1000):
        far = ConvexHull.from_floats(np.array(CUBE) * scale)
        assert far.sides(np.array([[0.5, 0.5, 0.5], [0.5, 0.5, 1.0], [1.5, 0, 0]]) * scale).tolist() == [1, 0, -1]
    for wrong in ([[0, 0]], [[float("nan"), 0, 0]]):
        with pytest.raises(ValueError):
            hull.contains(wrong)


@pytest.mark.parametrize("shape", SHAPES)
def test_inequalities_and_edges(shape):
    points = np.random.default_rng(1).integers(-COORDINATE_LIMIT, COORDINATE_LIMIT, (60, 3)) * shape
    hull = ConvexHull(points)
    heights = points.astype(object) @ hull.inequalities[:, :3].T - hull.inequalities[:, 3]
    assert heights.max() == 0 and all(np.gcd.reduce(row) == 1 for row in hull.inequalities)
    assert hull.edges.shape == (hull.nedges, 2) and hull.edges.tolist() == sorted(hull.edges.tolist())
    if hull.dimension == 3:
        assert len(hull.inequalities) == len(hull)
        assert all((heights[face, place] == 0).all() for place, face in enumerate(hull.faces))
    square = ConvexHull([[0, 0, 0], [2, 0, 0], [2, 2, 0], [0, 2, 0]])
    assert ConvexHull(CUBE).inequalities[0].tolist() == [-1, 0, 0, 0] and square.edges.tolist() == [[0, 1], [0, 3], [1, 2], [2, 3]]


@pytest.mark.parametrize("form", ["off", "obj", "ply", "stl"])
def test_texts_are_read_back(form):
    for points in (np.array(CUBE) * 7 - 3, np.array(CUBE) * 0.1):
        hull = ConvexHull.from_floats(points)
        text = getattr(hull, f"to_{form}")()
        found = READERS[f".{form}"](text.encode())
        coordinates = [tuple(Fraction(number, found.divisor) for number in place) for place in zip(*found.axes)]
        assert sorted(coordinates) == sorted(tuple(Fraction(repr(number)) for number in place) for place in hull.coordinates.tolist())
    whole = ConvexHull(CUBE)
    assert "property int x" in whole.to_ply() and "4 0 1 3 2\n" in whole.to_ply() and whole.to_stl().count("facet normal -1.0 0.0 0.0") == 2


@pytest.mark.parametrize("scales", [(1, 1, 1), (1, 1, 10**6), (1, 10**3, 10**9)])
def test_normals_of_stl_are_the_nearest_float32(scales):
    points = np.random.default_rng(7).normal(size=(300, 3))
    points = np.rint(points / np.linalg.norm(points, axis=1)[:, np.newaxis] * scales).astype(np.int64)
    hull = ConvexHull(np.concatenate([points, np.diag(scales), -np.diag(scales)]))
    rows = [line.split()[2:] for line in hull.to_stl().splitlines() if line.startswith("facet normal ")]
    assert np.array_equal(np.array(rows, np.float32), hull.equations[:, :3].astype(np.float32))


def test_a_picture_has_one_scale():
    matplotlib = pytest.importorskip("matplotlib")
    matplotlib.use("Agg")
    for points in (np.array(CUBE) * [1, 10, 100], [[0, 0, 5], [9, 0, 5], [0, 3, 5]], [[1, 2, 3]]):
        axes = ConvexHull(points).plot()
        sides = np.ptp([axes.get_xlim(), axes.get_ylim(), axes.get_zlim()], axis=1)
        assert np.allclose(axes._box_aspect / axes._box_aspect.max(), sides / sides.max())
    many = np.random.default_rng(2).normal(size=(700, 3))
    many = ConvexHull.from_floats(many / np.linalg.norm(many, axis=1)[:, np.newaxis]).plot().collections[0]
    assert len(many.get_edgecolor()) == 0 and len(np.unique(many.get_facecolor(), axis=0)) > 100
