"""The surface of a hull as the meshes of other packages, which are loaded when one is asked for."""
from __future__ import annotations

from importlib import import_module
from typing import Any

import numpy as np
from numpy.typing import NDArray


def _package(name: str, called: str) -> Any:
    """A package, or ImportError that says who needs it."""
    try:
        return import_module(name)
    except ImportError as missing:
        raise ImportError(f"{called}() needs the package {name}, which could not be imported: {missing}", name=name) from None


def trimesh_of(vertices: NDArray[np.float64], triangles: NDArray[np.intp]) -> Any:
    """A mesh of trimesh that keeps the vertices and the triangles as they are, in their order."""
    return _package("trimesh", "to_trimesh").Trimesh(vertices=vertices, faces=triangles, process=False)


def open3d_of(vertices: NDArray[np.float64], triangles: NDArray[np.intp]) -> Any:
    """A triangle mesh of Open3D."""
    package = _package("open3d", "to_open3d")
    lists = package.utility
    return package.geometry.TriangleMesh(lists.Vector3dVector(vertices), lists.Vector3iVector(triangles.astype(np.int32)))
