"""Planes, neighbours and incidences of many faces by numpy, as the loops of `hullfacets` find them, where it is installed."""
from __future__ import annotations

from concurrent.futures import ThreadPoolExecutor
from itertools import chain
from typing import Any, List, NamedTuple, Optional, Sequence, Tuple

from .._limits import COORDINATE_LIMIT, POINT_LIMIT
from .number_texts import PART, PART_BITS, wide_of
from .vectors import Vector

try:
    import numpy as np
except ImportError:
    np = None  # type: ignore[assignment]

# Of fewer faces than this the loops are as fast.
LEAST_FACES = 1000
FACES = 1 << 14  # whose planes are found at once: what they take stays in the processor's cache
CLOSE = float(1 << 60)
PLACE_BITS = 23  # of the sides of a hull of as many points as the program takes


class Arrays(NamedTuple):
    """The points of a hull, and its faces in one list of corners: face j has those from offsets[j] to before offsets[j + 1]."""

    points: Any  # int64, (n, 3)
    corners: Any  # int64
    offsets: Any  # int64


class Surface(NamedTuple):
    """A closed surface, by the places of points and faces."""

    points: Any  # int64, (n, 3)
    corners: Any
    offsets: Any
    neighbours: Any  # the face along each side
    normals: Any  # int64, (faces, 3): without a common divisor
    levels: Any  # normal . p of each face, of int64 or `Wide`
    around: Any  # the faces round each point, the lowest first, counterclockwise
    degrees: Any  # where those of each point begin and the last end
    six_volumes: int


class Sides(NamedTuple):
    """The face that each side belongs to, and the sides before it and behind it."""

    faces: Any
    before: Any
    behind: Any


def arrays_of(points: Sequence[Vector], faces: Sequence[List[int]]) -> Optional[Arrays]:
    """The arrays of lists; None where numpy is missing, or the loops have to look."""
    if np is None or len(faces) < LEAST_FACES or max(abs(part) for point in points for part in point) > COORDINATE_LIMIT:
        return None
    corners = np.fromiter(chain.from_iterable(faces), np.int64)
    return Arrays(np.array(points, np.int64), corners, np.cumsum([0, *map(len, faces)]))


def surface_of(arrays: Optional[Arrays]) -> Optional[Surface]:
    """The surface, if it is closed and its faces are plane; None where the loops have to look."""
    if arrays is None or len(arrays.offsets) <= LEAST_FACES or np.diff(arrays.offsets).min() < 3:
        return None
    points, corners, offsets = arrays
    if len(points) > POINT_LIMIT or len(corners) >> PLACE_BITS:
        return None
    sides = sides_of(offsets)
    with ThreadPoolExecutor(1) as pool:  # numpy lets another thread run
        planes = pool.submit(planes_of, arrays, sides)
        twins = twins_of(corners, corners[sides.behind], len(points))
        around = None if twins is None else faces_around(corners, sides, twins, len(points))
    found = planes.result()
    if around is None or found is None:
        return None
    normals, levels, volume = found
    return Surface(points, corners, offsets, sides.faces[twins], normals, levels, *around, volume)


def sides_of(offsets: Any) -> Sides:
    """The sides of faces."""
    faces = np.repeat(np.arange(len(offsets) - 1), np.diff(offsets))
    before, behind = np.arange(-1, offsets[-1] - 1), np.arange(1, offsets[-1] + 1)
    before[offsets[:-1]], behind[offsets[1:] - 1] = offsets[1:] - 1, offsets[:-1]
    return Sides(faces, before, behind)


def twins_of(starts: Any, ends: Any, count: int) -> Optional[Any]:
    """The side along each side in another face, if each lies along just one other that runs the other way."""
    one, other = (starts < ends).nonzero()[0], (starts > ends).nonzero()[0]
    if len(one) != len(other) or len(one) + len(other) != len(starts):  # a side that is open, or has no length
        return None
    keys, one = sorted_with(starts[one] * count + ends[one], one)
    others, other = sorted_with(ends[other] * count + starts[other], other)
    if (keys != others).any() or (keys[1:] == keys[:-1]).any():
        return None
    twins = np.empty_like(starts)
    twins[one], twins[other] = other, one
    return twins


def sorted_with(keys: Any, places: Any) -> Tuple[Any, Any]:
    """Keys of up to 40 bits in rising order, and with each its place: sorting both in one number is faster than sorting by keys.

    The stable way is the faster one where first corners rise from face to face, as those of `off` do.
    """
    both = np.sort(keys << PLACE_BITS | places, kind="stable")
    return both >> PLACE_BITS, both & (1 << PLACE_BITS) - 1


def faces_around(starts: Any, sides: Sides, twins: Any, count: int) -> Optional[Tuple[Any, Any]]:
    """The faces round each point, the lowest first, counterclockwise, if they close up round each, and where they begin."""
    degrees = np.bincount(starts, minlength=count)
    if len(degrees) != count or not degrees.all():
        return None
    firsts = np.empty(count, np.int64)
    firsts[starts[::-1]] = np.arange(len(starts))[::-1]
    order = np.argsort(-degrees, kind="stable")
    ends, found, following = np.append(0, degrees.cumsum()), np.empty(len(starts), np.int64), twins.take(sides.before)
    now, places = firsts.take(order), ends.take(order)
    for count in np.cumsum(np.bincount(degrees)[:0:-1])[::-1].tolist():  # the points that have more faces than were found
        found[places[:count]] = now[:count]
        places[:count] += 1
        now[:count] = following.take(now[:count])
    return None if (now != firsts.take(order)).any() else (sides.faces.take(found), ends)


def cross(u: Any, v: Any) -> Any:
    """The vector products of the columns of two arrays (3, n)."""
    return np.stack([u[1] * v[2] - u[2] * v[1], u[2] * v[0] - u[0] * v[2], u[0] * v[1] - u[1] * v[0]])


def planes_of(arrays: Arrays, sides: Sides) -> Optional[Tuple[Any, Any, int]]:
    """The normal and the level of each face without a common divisor, if all faces are plane, and six times the volume."""
    places, starts = np.ascontiguousarray(arrays.points.T), arrays.offsets[:-1]
    parts = [planes_at(starts[first : first + FACES], arrays.corners, places) for first in range(0, len(starts), FACES)]
    if None in parts:
        return None
    normals, high, low = (np.concatenate([part[place] for part in parts if part]) for place in range(3))
    volume: Optional[int] = sum(part[3] for part in parts if part)
    if len(arrays.corners) != normals.size:  # other faces than triangles
        volume = volume_of(arrays, sides, places, normals.T)
    return None if volume is None else (normals, wide_of(high, low), volume)


def planes_at(starts: Any, corners: Any, places: Any) -> Optional[Tuple[Any, Any, Any, int]]:
    """Of some faces the normals, the two parts of the levels, and six times the volume below the first three corners of each."""
    firsts, second, third = (places.take(corners.take(starts + place), 1) for place in range(3))
    normals = cross(second - firsts, third - firsts)
    volume = sum_of(*dot(normals, firsts))
    is_short = max(-int(normals.min()), int(normals.max())) < 1 << 31
    few = normals.astype(np.int32) if is_short else normals  # whose divisors are found sooner
    divisors = np.gcd(np.gcd(few[0], few[1]), few[2])
    if not divisors.all():
        return None
    normals = (few // divisors).astype(np.int64)
    return normals.T, *dot(normals, firsts), volume


def volume_of(arrays: Arrays, sides: Sides, places: Any, normals: Any) -> Optional[int]:
    """Six times the volume, if the corners of each face lie in its plane, and none turns back seen from the first."""
    firsts = places.take(arrays.corners[arrays.offsets[:-1]], 1)
    ways = places.take(arrays.corners, 1) - firsts.take(sides.faces, 1)
    inner = np.flatnonzero(sides.before + 2 == sides.behind)
    turns, of_turns = cross(ways.take(inner, 1), ways.take(inner + 1, 1)), sides.faces[inner]
    if not are_plane(normals, ways, sides.faces) or (turns.astype(float) * normals.take(of_turns, 1)).sum(axis=0).min() < 0:
        return None
    return sum_of(*dot(turns, firsts.take(of_turns, 1)))


def are_plane(normals: Any, ways: Any, faces: Any) -> bool:
    """Whether all corners lie in the planes of their faces; what 64 bits don't hold is not 0 in floats either."""
    here = normals.take(faces, 1)
    rounded = np.abs((here.astype(float) * ways).sum(axis=0))
    return not (here * ways).sum(axis=0).any() and not (rounded > CLOSE).any()


def dot(normals: Any, places: Any) -> Tuple[Any, Any]:
    """The scalar products of columns as high * 2^31 + low: normals are at most 2^62 in size, places 2^30, so no sum overflows."""
    if max(-int(normals.min()), int(normals.max())) * max(-int(places.min()), int(places.max())) < 1 << 61:
        products = np.einsum("ij,ij->j", normals, places)
        return products >> PART_BITS, products & PART
    high, low = normals >> PART_BITS, normals & PART
    return (high * places).sum(axis=0), (low * places).sum(axis=0)


def sum_of(high: Any, low: Any) -> int:
    """The sum of all high * 2^31 + low."""
    halves = [(int((part >> 32).sum()) << 32) + int((part & 0xFFFFFFFF).sum()) for part in (high, low)]
    return (halves[0] << PART_BITS) + halves[1]
