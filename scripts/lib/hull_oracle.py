"""A brute-force hull over all triples of points, with which trials compare the program.

It is written from docs/PROGRAM.md and docs/DEFINITIONS.md, over whole numbers of any size, and uses nothing of the package
for Python: every triple of distinct points whose plane leaves none outside gives a face, every pair of a face's points that
has all others to its left gives a side.
"""
from itertools import combinations, permutations


# Vectors.


def minus(p, q):
    return (p[0] - q[0], p[1] - q[1], p[2] - q[2])


def dot(p, q):
    return p[0] * q[0] + p[1] * q[1] + p[2] * q[2]


def cross_product(p, q):
    return (p[1] * q[2] - p[2] * q[1], p[2] * q[0] - p[0] * q[2], p[0] * q[1] - p[1] * q[0])


def cross(a, b, c):
    """The normal of the triangle a, b, c, seen counterclockwise from its tip; zero if they are in line."""
    return cross_product(minus(b, a), minus(c, a))


def negated(p):
    return (-p[0], -p[1], -p[2])


# The hull.


def distinct_ids(points):
    """Of equal points the lowest index stands for all."""
    first = {}
    for index, point in enumerate(points):
        first.setdefault(point, index)
    return sorted(first.values())


def first_normal(points, ids):
    """Returns the normal of some three points that are not in line, or None."""
    for i, j, k in combinations(ids, 3):
        normal = cross(points[i], points[j], points[k])
        if any(normal):
            return normal
    return None


def dimension(points, ids):
    """0 for one point, 1 for a line, 2 for a plane, 3 otherwise."""
    if len(ids) == 1:
        return 0
    normal = first_normal(points, ids)
    if normal is None:
        return 1
    origin = dot(normal, points[ids[0]])
    return 2 if all(dot(normal, points[index]) == origin for index in ids) else 3


def is_side(points, ids, normal, u, v):
    """Returns true if all other points lie to the left of the line from u to v, or between u and v."""
    way = minus(points[v], points[u])
    for w in ids:
        if w in (u, v):
            continue
        offset = minus(points[w], points[u])
        turn = dot(cross_product(way, offset), normal)
        if turn < 0 or turn == 0 and not 0 < dot(way, offset) < dot(way, way):
            return False
    return True


def polygon(points, ids, normal):
    """Returns the corners of points in one plane, counterclockwise seen from the tip of the normal, the least first."""
    following = {u: v for u, v in permutations(ids, 2) if is_side(points, ids, normal, u, v)}
    corners = [min(following)]
    while following[corners[-1]] != corners[0]:
        corners.append(following[corners[-1]])
    if len(corners) != len(following):
        raise AssertionError(f"the sides {following} are no single polygon")
    return corners


def one_sided_heights(points, ids, normal, offset):
    """Returns the heights of all points over a plane, or None if some lie above it and some below."""
    heights, least, greatest = [], 0, 0
    for index in ids:
        height = dot(normal, points[index]) - offset
        least, greatest = min(least, height), max(greatest, height)
        if least < 0 < greatest:
            return None
        heights.append(height)
    return heights


def supporting_planes(points, ids):
    """Returns the members and the outer normal of each plane through three points that has no point outside."""
    planes = {}
    for i, j, k in combinations(ids, 3):
        normal = cross(points[i], points[j], points[k])
        if not any(normal):
            continue
        heights = one_sided_heights(points, ids, normal, dot(normal, points[i]))
        if heights is None:
            continue
        members = tuple(index for index, height in zip(ids, heights) if height == 0)
        planes[members] = normal if max(heights) == 0 else negated(normal)
    return planes


def seen_from_above(normal):
    """The normal or its opposite, whichever has a positive first component that is not zero."""
    return normal if next(component for component in normal if component) > 0 else negated(normal)


def polygons(points, ids, dim):
    """The faces, each beginning with its least vertex, in lexicographic order."""
    if dim == 0:
        return [ids]
    if dim == 1:
        return [sorted([min(ids, key=lambda i: points[i]), max(ids, key=lambda i: points[i])])]
    if dim == 2:
        return [polygon(points, ids, seen_from_above(first_normal(points, ids)))]
    return sorted(polygon(points, members, normal) for members, normal in supporting_planes(points, ids).items())


def edges(faces):
    """The unordered pairs of different neighbours."""
    pairs = {frozenset(pair) for face in faces for pair in zip(face, face[1:] + face[:1])}
    return sum(len(pair) == 2 for pair in pairs)


def fan(face):
    """Returns a face as triangles from its first corner; a face with fewer than three corners is unchanged."""
    return [[face[0], *pair] for pair in zip(face[1:], face[2:])] or [face]


def hull_text(points, outputs):
    """Returns the text that the program has to write of the points for these outputs, and the dimension."""
    ids = distinct_ids(points)
    dim = dimension(points, ids)
    faces = polygons(points, ids, dim)
    triangles = [part for face in faces for part in fan(face)]
    extremes = sorted({index for face in faces for index in face})
    place = {index: number for number, index in enumerate(extremes)}
    lines = {
        "rank": [f"{len(points)} {len(ids)} {dim}"],
        "s": [
            f"Convex hull of {len(points)} points in 3-d:",
            f"  dimension: {dim}",
            f"  distinct points: {len(ids)}",
            f"  extreme points: {len(extremes)}",
            f"  facets: {len(faces)}",
            f"  edges: {edges(faces)}",
        ],
        "Fx": [str(len(extremes)), *map(str, extremes)],
        "off": [
            "OFF",
            f"{len(extremes)} {len(faces)} {edges(faces)}",
            *(" ".join(map(str, points[index])) for index in extremes),
            *(" ".join(map(str, [len(face), *(place[index] for index in face)])) for face in faces),
        ],
        "offt": [
            "OFF",
            f"{len(extremes)} {len(triangles)} {edges(triangles)}",
            *(" ".join(map(str, points[index])) for index in extremes),
            *(" ".join(map(str, [len(face), *(place[index] for index in face)])) for face in triangles),
        ],
    }
    return "".join(f"{line}\n" for output in outputs for line in lines[output]).encode(), dim


def file_of(points):
    """The points as a point file."""
    return "".join(["3\n", f"{len(points)}\n", *(f"{x} {y} {z}\n" for x, y, z in points)]).encode()
