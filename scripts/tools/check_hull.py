#!/usr/bin/env python3
"""Checks exactly whether the faces that some program wrote are the convex hull of the points that it was given.

    scripts/tools/check_hull.py POINTS FACES

POINTS is a point file. FACES is OFF text (ours, CGAL's, MeshLab's, ..) or what Qhull writes for its option `o`; `-` is
standard input. It prints the first face or point that is wrong and ends with status 1, or `all right` with status 0:
each face is a convex polygon of points of the file with all points on or below its plane, each side belongs to two faces
that run along it in opposite ways, and each corner is an extreme point. Together that says that the faces are the whole
hull, each part of it once. The time grows with the number of faces and corners alone, but for points that no face names.
The script needs nothing but Python, and can be copied alone.

Corners are known by their coordinates. These are accepted by themselves, and the last line says so: faces that are parts
of a larger one, such as triangles (--whole refuses them); faces that all run clockwise seen from outside, as Qhull's
do; points that no face names. With --unoriented each face may run either way, as scipy's do. A flat set has to have one
polygon or parts of it, seen from either side; a line its two ends as one face; a point itself.

    crates/qconvex/out/qconvex off < examples/unit-cube.txt | scripts/tools/check_hull.py examples/unit-cube.txt -
"""
import argparse
import re
import sys
from collections import defaultdict, namedtuple
from fractions import Fraction
from math import gcd

# A box with at most this number of points is not split.
FEW = 16

# The greatest absolute value of an exponent: those of doubles stay below 325. An exact number has about that many digits.
MOST_EXPONENT = 2000
EXPONENT = re.compile(r"[eE]([-+]?\d[\d_]*)$")

# The points that faces name by their places, and the faces as lists of places.
Faces = namedtuple("Faces", "points faces")


class Wrong(Exception):
    """What is wrong with the faces."""


def minus(p, q):
    """The vector from q to p."""
    return (p[0] - q[0], p[1] - q[1], p[2] - q[2])


def dot(p, q):
    """The scalar product."""
    return p[0] * q[0] + p[1] * q[1] + p[2] * q[2]


def cross(p, q):
    """The vector product."""
    return (p[1] * q[2] - p[2] * q[1], p[2] * q[0] - p[0] * q[2], p[0] * q[1] - p[1] * q[0])


def triangle_normal(a, b, c):
    """The normal of a triangle, seen counterclockwise from its tip; zero if the corners are in line."""
    return cross(minus(b, a), minus(c, a))


def total_of(vectors):
    """The sum of vectors."""
    return tuple(map(sum, zip((0, 0, 0), *vectors)))


def polygon_normal(points):
    """The normal of a plane polygon, seen counterclockwise from its tip, as long as twice its area."""
    return total_of([triangle_normal(points[0], b, c) for b, c in zip(points[1:], points[2:])])


def lowest_terms(vector):
    """The shortest whole vector of the same direction."""
    divisor = gcd(*vector)
    return tuple(part // divisor for part in vector) if divisor else vector


class Box:
    """Points with their bounds. The box is split in two when a plane needs it that the points may lie above."""

    def __init__(self, points):
        columns = list(zip(*points))
        self.low, self.high = tuple(map(min, columns)), tuple(map(max, columns))
        self.points, self.halves = points, ()

    def part(self):
        """Splits the box in the middle of its longest side. The points are distinct, so neither half is empty."""
        if len(self.points) <= FEW:
            return
        axis = max(range(3), key=lambda k: self.high[k] - self.low[k])
        middle = (self.high[axis] + self.low[axis]) // 2
        below = [point for point in self.points if point[axis] <= middle]
        above = [point for point in self.points if point[axis] > middle]
        self.points, self.halves = (), (Box(below), Box(above))

    def highest(self, normal):
        """A bound of the heights of the points in the direction of a normal."""
        return sum(part * (high if part > 0 else low) for part, low, high in zip(normal, self.low, self.high))

    def above(self, normal, offset):
        """Some point whose height is greater than the offset, or None."""
        boxes = [self]
        while boxes:
            box = boxes.pop()
            if box.highest(normal) <= offset:
                continue
            box.part()
            boxes.extend(box.halves)
            found = next((point for point in box.points if dot(normal, point) > offset), None)
            if found is not None:
                return found
        return None


def span(points):
    """Vectors from the first point that are linearly independent; their number is the dimension of the points."""
    ways = []
    for point in points:
        way = minus(point, points[0])
        if not ways and any(way):
            ways = [way]
        elif len(ways) == 1 and any(cross(ways[0], way)):
            ways.append(way)
        elif len(ways) == 2 and dot(cross(*ways), way):
            return [*ways, way]
    return ways


class Checker:
    """The points of a file, asked about faces."""

    def __init__(self, points):
        self.number = {}
        for number, point in enumerate(points):
            self.number.setdefault(point, number)
        self.ways = span(list(self.number))
        self.total = total_of(self.number)

    def named(self, point):
        """A point as a message names it."""
        return f"point {self.number[point]} ({' '.join(map(str, point))})"

    def polygons(self, faces):
        """The faces as lists of points, each of which is one of the file."""
        found = []
        for place, face in enumerate(faces.faces):
            polygon = [faces.points[corner] for corner in face]
            for corner, point in zip(face, polygon):
                if point not in self.number:
                    raise Wrong(f"face {place}: its corner {corner} ({' '.join(map(str, point))}) is none of the points")
            repeated = next((point for point in polygon if polygon.count(point) > 1), None)
            if repeated is not None:
                raise Wrong(f"face {place} has {self.named(repeated)} twice")
            found.append(polygon)
        if not found:
            raise Wrong("there is no face")
        return found

    def check_polygon(self, place, polygon, normal):
        """Checks that a face is a convex polygon in one plane, counterclockwise seen from the tip of the normal."""
        offset = dot(normal, polygon[0])
        for point in polygon:
            if dot(normal, point) != offset:
                raise Wrong(f"face {place} is not plane: {self.named(point)} lies off it")
        around = zip(polygon[-1:] + polygon, polygon, polygon[1:] + polygon[:1])
        for before, point, after in around:
            turn = dot(triangle_normal(before, point, after), normal)
            if turn == 0:
                raise Wrong(f"face {place}: {self.named(point)} is no corner, it lies in line with its neighbours")
            if turn < 0:
                raise Wrong(f"face {place} is no convex polygon: it turns the wrong way at {self.named(point)}")
        self.check_round(place, polygon, normal)

    def check_round(self, place, polygon, normal):
        """Checks that a polygon that turns left everywhere goes round once: its first corner sees the others in order."""
        first, second = polygon[:2]
        for point, after in zip(polygon[1:], polygon[2:]):
            ahead = dot(triangle_normal(first, point, after), normal) > 0
            if not ahead or dot(triangle_normal(first, second, after), normal) <= 0:
                raise Wrong(f"face {place} is no convex polygon: its sides cross at {self.named(after)}")

    def check_below(self, place, normal, offset, points):
        """Checks that none of some points lies above a face."""
        outside = next((point for point in points if dot(normal, point) > offset), None)
        if outside is not None:
            raise Wrong(f"face {place}: {self.named(outside)} lies outside its plane")

    def check_middle(self, place, polygon, normal):
        """Checks that the middle of all points lies below a face. If it does not, one of the points lies above the face."""
        offset = dot(normal, polygon[0])
        if dot(normal, self.total) >= len(self.number) * offset:
            self.check_below(place, normal, offset, self.number)

    def check_others(self, polygons, normals):
        """Checks that no point that no face names lies above a face."""
        others = list(set(self.number).difference(*polygons))
        box = Box(others) if others else None
        for place, (polygon, normal) in enumerate(zip(polygons, normals)) if box else ():
            outside = box.above(normal, dot(normal, polygon[0]))
            self.check_below(place, normal, dot(normal, polygon[0]), [] if outside is None else [outside])

    def is_inward(self, polygon):
        """Returns true if the middle of all points lies above a face."""
        normal = polygon_normal(polygon)
        return dot(normal, self.total) > len(self.number) * dot(normal, polygon[0])

    def pair_sides(self, polygons):
        """The sides, each with its face; no side may be run along twice."""
        sides = {}
        for place, polygon in enumerate(polygons):
            for side in zip(polygon, polygon[1:] + polygon[:1]):
                if side in sides:
                    ends = " to ".join(map(self.named, side))
                    raise Wrong(f"faces {sides[side]} and {place} both run from {ends}")
                sides[side] = place
        return sides

    def check_bends(self, polygons, normals, sides):
        """Checks that no face bends outward at a side: no corner of the neighbour behind the side lies above this face."""
        for next_place, polygon in enumerate(polygons):
            for start, end, behind in zip(polygon, polygon[1:] + polygon[:1], polygon[2:] + polygon[:2]):
                place = sides[end, start]
                self.check_below(place, normals[place], dot(normals[place], end), [behind])

    def check_once(self, polygons, normals):
        """Checks that the faces go round the middle of all points once: the ray from there through face 0 meets no other."""
        count = len(self.number)
        way = minus([count * part for part in total_of(polygons[0])], [len(polygons[0]) * part for part in self.total])
        for place, (polygon, normal) in enumerate(zip(polygons, normals)):
            if place == 0 or dot(normal, way) <= 0:
                continue
            rays = [minus([count * part for part in point], self.total) for point in polygon]
            if all(dot(way, cross(ray, after)) >= 0 for ray, after in zip(rays, rays[1:] + rays[:1])):
                raise Wrong(f"faces 0 and {place} lie one behind the other")

    def check_corners(self, polygons, normals):
        """Checks that each corner is extreme: the planes of its faces meet in it alone."""
        around = defaultdict(list)
        for polygon, normal in zip(polygons, normals):
            for point in polygon:
                around[point].append(normal)
        for point, planes in around.items():
            if len(span([(0, 0, 0), *planes])) < 3:
                raise Wrong(f"{self.named(point)} is no corner of the hull: it lies within a face or an edge")
        return len(around)


def outward(checker, polygons, unoriented):
    """The faces turned outward, where most of them point inward or any may; and whether they were turned."""
    inward = [checker.is_inward(polygon) for polygon in polygons]
    if not unoriented:
        inward = [2 * sum(inward) > len(inward)] * len(polygons)
    return [polygon[::-1] if turn else polygon for polygon, turn in zip(polygons, inward)], any(inward)


def normals_of(checker, polygons):
    """The normal of each face."""
    normals = []
    for place, polygon in enumerate(polygons):
        normals.append(lowest_terms(polygon_normal(polygon)))
        if len(span(polygon)) < 2:
            raise Wrong(f"face {place} has no plane: its corners {', '.join(map(checker.named, polygon))} are in line")
        if not any(normals[-1]):
            raise Wrong(f"face {place} is no convex polygon: its sides cross")
    return normals


def planes_of(polygons, normals, whole):
    """How many planes the faces lie in."""
    planes = {}
    for place, (polygon, normal) in enumerate(zip(polygons, normals)):
        plane = (normal, dot(normal, polygon[0]))
        if whole and plane in planes:
            raise Wrong(f"faces {planes[plane]} and {place} lie in one plane")
        planes[plane] = place
    return len(planes)


def unpaired(sides):
    """The sides that no face runs along the other way, each with its face."""
    return {side: place for side, place in sides.items() if side[::-1] not in sides}


def check_convex(checker, polygons, normals):
    """Checks that polygons are the surface of a convex body around all points.

    The polygons close up, and the middle of all points lies below each. So all rays from the middle meet the same number of
    them, which is one. Then they bound a body that is star-shaped around the middle, and such a body is convex if it bends
    outward at no side. Points that are no corners are compared with one face after the other.
    """
    for place, (polygon, normal) in enumerate(zip(polygons, normals)):
        checker.check_polygon(place, polygon, normal)
        checker.check_middle(place, polygon, normal)
    sides = checker.pair_sides(polygons)
    for side, place in unpaired(sides).items():
        raise Wrong(f"face {place}: no face has its side from {' to '.join(map(checker.named, side))} as well")
    checker.check_bends(polygons, normals, sides)
    checker.check_once(polygons, normals)
    checker.check_others(polygons, normals)


def check_solid(checker, polygons, options):
    """Checks the faces of a solid set, and says what it has."""
    polygons, turned = outward(checker, polygons, options.unoriented)
    normals = normals_of(checker, polygons)
    check_convex(checker, polygons, normals)
    corners = checker.check_corners(polygons, normals)
    planes = planes_of(polygons, normals, options.whole)
    remarks = [f"{corners} corners, {len(polygons)} faces"]
    remarks += [f"parts of {planes}"] if planes < len(polygons) else []
    remarks += ["clockwise from outside"] if turned and not options.unoriented else []
    return ", ".join(remarks)


def check_border(checker, sides, normal):
    """Checks that each side of the border of a flat set has all points to its left, and joins two extreme points."""
    followers, box = dict(sides), Box(list(checker.number))
    for start, end in sides:
        way = cross(minus(end, start), normal)
        outside = box.above(way, dot(way, start))
        if outside is not None:
            raise Wrong(f"{checker.named(outside)} lies outside the side from {' to '.join(map(checker.named, (start, end)))}")
        if end not in followers or dot(triangle_normal(start, end, followers[end]), normal) <= 0:
            raise Wrong(f"{checker.named(end)} is no corner of the border")
    return followers


def check_flat(checker, polygons, options):
    """Checks the faces of a flat set, and says what it has."""
    normals = normals_of(checker, polygons)
    if options.unoriented:
        against = [dot(normal, normals[0]) < 0 for normal in normals]
        polygons = [polygon[::-1] if back else polygon for polygon, back in zip(polygons, against)]
        normals = [normals[0]] * len(normals)
    for place, (polygon, normal) in enumerate(zip(polygons, normals)):
        if normal != normals[0]:
            raise Wrong(f"face {place} is seen from the other side than face 0")
        checker.check_polygon(place, polygon, normal)
    border = check_border(checker, list(unpaired(checker.pair_sides(polygons))), normals[0])
    if not border:
        raise Wrong("the faces of a flat set have no border")
    within = next((point for polygon in polygons for point in polygon if point not in border), None)
    if within is not None:
        raise Wrong(f"{checker.named(within)} is no corner of the hull: it lies within the polygon")
    if options.whole and len(polygons) > 1:
        raise Wrong("faces 0 and 1 lie in one plane")
    return f"flat, {len(border)} corners" + (f", {len(polygons)} faces, parts of 1" if len(polygons) > 1 else "")


def check_thin(checker, polygons):
    """Checks the one face of a line, its two ends, or of a point, and says what it has."""
    ends = {min(checker.number), max(checker.number)}
    if len(polygons) > 1 or set(polygons[0]) != ends:
        raise Wrong(f"the one face is to have {' and '.join(map(checker.named, sorted(ends)))}")
    return "a line, 2 corners" if len(ends) == 2 else "a point"


def check(checker, faces, options):
    """Returns what the faces have; raises Wrong if they are not the hull."""
    polygons = checker.polygons(faces)
    if len(checker.ways) == 3:
        return check_solid(checker, polygons, options)
    if len(checker.ways) == 2:
        return check_flat(checker, polygons, options)
    return check_thin(checker, polygons)


def number(word):
    """A number, exactly: whole where it is whole."""
    exponent = EXPONENT.search(word)
    if exponent and abs(int(exponent[1])) > MOST_EXPONENT:
        raise ValueError(f"the exponent of {word} is beyond {MOST_EXPONENT}")
    value = Fraction(word)
    return value.numerator if value.denominator == 1 else value


def text_of(path):
    """The text of a file, or of standard input where the path is `-`."""
    with open(0 if path == "-" else path, encoding="latin-1") as source:
        return source.read()


def points_of_file(path):
    """The points of a file: a 3 and their number, in any order, and three whole numbers for each."""
    lines = [re.split(r"(?:^|\s)[^-+.0-9\s]", line, maxsplit=1)[0] for line in text_of(path).split("\n")]
    words = list(map(int, " ".join(lines).split()))
    count = words[1] if words[0] == 3 else words[0]
    if 3 not in words[:2] or len(words) != 2 + 3 * count:
        raise ValueError(f"{count} points are announced, and {len(words) - 2} numbers follow")
    if not count:
        raise ValueError("there is no point")
    return list(zip(words[2::3], words[3::3], words[4::3]))


def faces_of_file(path):
    """The points and the faces of a file, each in a line of its own."""
    rows = [line.split("#")[0].split() for line in text_of(path).split("\n")]
    rows = [row for row in rows if row]
    if rows[0][0].upper().endswith("OFF") or rows[0] == ["3"]:
        rows[0].pop(0)
    rows = [row for row in rows if row]
    points, faces = map(int, rows[0][:2])
    if len(rows) < 1 + points + faces:
        raise ValueError(f"{points} points and {faces} faces are announced, and {len(rows) - 1} rows follow")
    found = [[int(word) for word in row[1 : int(row[0]) + 1]] for row in rows[points + 1 : points + faces + 1]]
    if not all(face and 0 <= min(face) and max(face) < points for face in found):
        raise ValueError(f"a face names no point of {points}")
    if any(len(face) < int(row[0]) for face, row in zip(found, rows[points + 1 :])):
        raise ValueError("a face has fewer corners than it announces")
    return Faces([tuple(map(number, row[:3])) for row in rows[1 : points + 1]], found)


def read(reader, path):
    """What a file has; a wrong one ends the script."""
    try:
        return reader(path)
    except (OSError, ValueError, IndexError, ZeroDivisionError) as wrong:
        sys.exit(f"{path}: {wrong}")


def arguments(words=None):
    """The options of the command line."""
    parser = argparse.ArgumentParser(description=__doc__, formatter_class=argparse.RawDescriptionHelpFormatter)
    parser.add_argument("--whole", action="store_true", help="refuse faces that are parts of a larger one")
    parser.add_argument("--unoriented", action="store_true", help="each face may run either way")
    parser.add_argument("points", metavar="POINTS", help="a point file")
    parser.add_argument("faces", metavar="FACES", help="OFF text or Qhull's `o`; - is standard input")
    return parser.parse_args(words)


def main():
    options = arguments()
    checker, faces = Checker(read(points_of_file, options.points)), read(faces_of_file, options.faces)
    try:
        print("all right:", check(checker, faces, options))
    except Wrong as wrong:
        print("wrong:", wrong)
        sys.exit(1)


if __name__ == "__main__":
    main()
