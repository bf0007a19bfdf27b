"""The convex hull of whole-number points in space, exact and proved: see `ConvexHull`.

The library is loaded, and numpy with it, when a name that needs it is first asked for.
"""
from __future__ import annotations

from importlib import import_module
from typing import TYPE_CHECKING, Any

from ._limits import COORDINATE_LIMIT, POINT_LIMIT

if TYPE_CHECKING:
    from ._checks import Verdict, check, checks
    from ._floats import FloatHull
    from ._grid import Snapped, snap
    from ._hull import ConvexHull
    from ._hulls import FloatHulls, Hulls, hulls
    from ._library import VERSION as __version__

__all__ = [
    "COORDINATE_LIMIT",
    "POINT_LIMIT",
    "ConvexHull",
    "FloatHull",
    "FloatHulls",
    "Hulls",
    "Snapped",
    "Verdict",
    "__version__",
    "check",
    "checks",
    "hulls",
    "snap",
]

# Where each name stands that needs the library, and what it is called there.
_NEEDS_LIBRARY = {
    "ConvexHull": ("._hull", "ConvexHull"),
    "FloatHull": ("._floats", "FloatHull"),
    "FloatHulls": ("._hulls", "FloatHulls"),
    "Hulls": ("._hulls", "Hulls"),
    "Snapped": ("._grid", "Snapped"),
    "Verdict": ("._checks", "Verdict"),
    "check": ("._checks", "check"),
    "checks": ("._checks", "checks"),
    "hulls": ("._hulls", "hulls"),
    "snap": ("._grid", "snap"),
    "__version__": ("._library", "VERSION"),
}


def __getattr__(name: str) -> Any:
    if name not in _NEEDS_LIBRARY:
        raise AttributeError(f"module {__name__!r} has no attribute {name!r}")
    module, there = _NEEDS_LIBRARY[name]
    found = getattr(import_module(module, __name__), there)
    globals()[name] = found
    return found


def __dir__() -> list[str]:
    return sorted({*globals(), *__all__})
