"""Meshes for trimesh and Open3D: what they are handed, what is said where they are missing, and what they make of a hull."""
from __future__ import annotations

import sys
from types import SimpleNamespace

import numpy as np
import pytest

from qconvex import ConvexHull

CUBE = [[x, y, z] for x in (0, 2) for y in (0, 2) for z in (0, 2)]
POINTS = np.array([[1, 1, 1], *CUBE, [0, 0, 0]])
SOLIDS = [ConvexHull(POINTS), ConvexHull.from_floats(POINTS / 8), ConvexHull(np.random.default_rng(3).integers(-50, 50, (90, 3)))]


def with_trimesh(monkeypatch):
    """The package trimesh, which hands back what it is handed."""
    monkeypatch.setitem(sys.modules, "trimesh", SimpleNamespace(Trimesh=lambda **given: given))


def with_open3d(monkeypatch):
    """The package Open3D, which hands back what it is handed."""
    lists = SimpleNamespace(Vector3dVector=lambda given: given, Vector3iVector=lambda given: given)
    shapes = SimpleNamespace(TriangleMesh=lambda vertices, triangles: {"vertices": vertices, "faces": triangles})
    monkeypatch.setitem(sys.modules, "open3d", SimpleNamespace(utility=lists, geometry=shapes))


@pytest.mark.parametrize("hull", SOLIDS)
def test_what_is_handed_over(hull, monkeypatch):
    with_trimesh(monkeypatch)
    with_open3d(monkeypatch)
    for given in (hull.to_trimesh(), hull.to_open3d()):
        places, triangles = given["vertices"], given["faces"]
        assert places.dtype == np.float64 and np.array_equal(places, hull.points[hull.vertices])
        assert triangles.shape == (hull.nsimplex, 3) and np.array_equal(hull.vertices[triangles], hull.simplices)
    assert hull.to_trimesh()["process"] is False and hull.to_open3d()["faces"].dtype == np.int32


def test_sets_without_a_volume(monkeypatch):
    with_trimesh(monkeypatch)
    square, line, place = ConvexHull(CUBE[:4]), ConvexHull(CUBE[:2]), ConvexHull(CUBE[:1])
    assert square.to_trimesh()["faces"].tolist() == [[0, 2, 3], [0, 3, 1]]
    assert [hull.to_trimesh()["faces"].shape for hull in (line, place)] == [(0, 3)] * 2
    assert line.to_trimesh()["vertices"].tolist() == [[0, 0, 0], [0, 0, 2]]


@pytest.mark.parametrize("package, method", [("trimesh", "to_trimesh"), ("open3d", "to_open3d")])
def test_a_package_that_is_missing_is_named(package, method, monkeypatch):
    monkeypatch.setitem(sys.modules, package, None)
    with pytest.raises(ImportError, match=rf"{method}\(\) needs the package {package}") as raised:
        getattr(SOLIDS[0], method)()
    assert raised.value.name == package


@pytest.mark.parametrize("hull", SOLIDS)
def test_the_mesh_of_trimesh(hull):
    pytest.importorskip("trimesh", reason="trimesh is missing")
    mesh = hull.to_trimesh()
    assert mesh.is_watertight and mesh.is_winding_consistent and mesh.is_convex
    assert mesh.volume == pytest.approx(hull.volume) and mesh.area == pytest.approx(hull.area)


@pytest.mark.parametrize("hull", SOLIDS)
def test_the_mesh_of_open3d(hull):
    pytest.importorskip("open3d", reason="Open3D is missing")
    mesh = hull.to_open3d()
    assert mesh.is_watertight() and mesh.is_orientable() and len(mesh.vertices) == len(hull.vertices)
    assert mesh.get_volume() == pytest.approx(hull.volume) and mesh.get_surface_area() == pytest.approx(hull.area)
