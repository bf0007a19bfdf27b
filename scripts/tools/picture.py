#!/usr/bin/env python3
"""Draws hulls as SVG, seen from outside without perspective, not mirrored.

    scripts/tools/picture.py [OPTIONS] [FILE]... > hull.svg        OFF texts; several stand side by side; standard input if none

Faces that look at the eye are filled, lighter where they look at the light; each edge is drawn once, dashed where it is
behind. Lines are thinner where there are many. A flat set shows its polygon, a line its two ends, a point itself. The
picture has a view box, so it can be shown at any size, and colours for a light page and a dark one.

    crates/qconvex/out/qconvex off < examples/unit-cube.txt | scripts/tools/picture.py > cube.svg

Of several hulls, the corners that the first has and another lacks are drawn in the other as red dots. With --mesh the faces of
an OBJ mesh in the same units are drawn within. Faces that run clockwise, as Qhull's do, are turned.
"""
import argparse
import functools
import html
import math
import sys
from collections import namedtuple
from pathlib import Path

sys.path.insert(0, str(Path(__file__).resolve().parents[1]))
from lib import package  # noqa: E402,F401
from qconvex.commands.contents import text_of  # noqa: E402
from qconvex.commands.off_files import read_off_file  # noqa: E402
from qconvex.commands.vectors import cross, dot, minus, plus, polygon_normal, times  # noqa: E402


SIZE = 240
MARGIN = 8
TITLE_HEIGHT = 22
EYE = (5.0, 9.0, 4.0)
UP = (0.0, 0.0, 1.0)
STYLE = """
.face { stroke: none; fill-opacity: 0.82 }
.edge { stroke: #1d3b5c; stroke-linecap: round; fill: none }
.hidden { stroke: #8496aa; stroke-dasharray: 3 3; fill: none }
.mesh { stroke: #8a4a22; stroke-width: 0.3 }
.veil { stroke: none; fill-opacity: 0.3 }
.corner { fill: #1d3b5c }
.lost { fill: #d22 }
.title { fill: #1d3b5c; font: 13px sans-serif; text-anchor: middle }
@media (prefers-color-scheme: dark) {
.edge { stroke: #dce9f7 } .hidden { stroke: #7f93a9 } .corner { fill: #dce9f7 }
.lost { fill: #ff6a5a } .title { fill: #dce9f7 }
}"""

# Directions at right angles: to the right, up, and towards the eye; right x up = eye, so nothing is mirrored.
View = namedtuple("View", "right up eye")
# What is drawn side by side: its corners and faces, the corners that it lacks, and its title.
Panel = namedtuple("Panel", "points faces lost title")


def unit(vector):
    """The vector of length 1 of the same direction."""
    return times(1 / math.sqrt(dot(vector, vector)), vector)


def view_from(eye, up):
    """The view of someone who looks from a direction, with another direction upwards on the page."""
    right = next(filter(any, (cross(axis, eye) for axis in (up, (0.0, 1.0, 0.0), (1.0, 0.0, 0.0)))))
    eye, right = unit(eye), unit(right)
    return View(right, cross(eye, right), eye)


def flattened(point, view):
    """Where a point stands on the page; y runs down there."""
    return (dot(point, view.right), -dot(point, view.up))


def sides(face):
    """The sides of a face."""
    return zip(face, face[1:] + face[:1])


def facing(points, faces, view):
    """Of each face how much it looks at the eye: 1 straight, 0 from the side, below 0 away."""
    found = []
    for face in faces:
        normal = polygon_normal([points[corner] for corner in face])
        length = math.sqrt(dot(normal, normal)) or 1
        found.append(dot(normal, view.eye) / length)
    return found


def outward(points, faces):
    """The faces, turned to run counterclockwise from outside where all run the other way."""
    if len(faces) < 2:
        return faces
    middle = times(1 / len(points), [sum(part) for part in zip(*points)])
    normal = polygon_normal([points[corner] for corner in faces[0]])
    inward = dot(normal, minus(points[faces[0][0]], middle)) < 0
    return [face[::-1] for face in faces] if inward else faces


def used(hull):
    """The points that faces name, and the faces by their places among these."""
    corners = sorted({corner for face in hull.faces for corner in face})
    place = {corner: number for number, corner in enumerate(corners)}
    return [hull.points[corner] for corner in corners], [[place[corner] for corner in face] for face in hull.faces]


def panels_of(paths, titles):
    """What is drawn of each file."""
    panels = []
    for path, title in zip(paths, titles):
        points, faces = used(read_off_file(path))
        if not faces:
            sys.exit(f"{path}: there is no face to draw")
        lost = sorted(set(panels[0].points) - set(points)) if panels else []
        panels.append(Panel(points, outward(points, faces), lost, title))
    return panels


# Drawing.


def edges_of(faces, looks):
    """Each edge once, with whether a face that looks at the eye has it."""
    seen = {}
    for face, look in zip(faces, looks):
        for side in sides(face):
            edge = tuple(sorted(side))
            if edge[0] != edge[1]:
                seen[edge] = seen.get(edge, False) or look > 1e-12 or len(faces) == 1
    return seen


def shade(normal, hue, view):
    """The colour of a face: lighter where it looks at a light above the eye, to the left."""
    light = unit(plus(plus(view.eye, times(0.7, view.up)), times(-0.4, view.right)))
    bright = max(0.0, dot(normal, light))
    return f"hsl({hue},{50 - 8 * bright:.0f}%,{44 + 38 * bright:.0f}%)"


def stroke(edges):
    """The width of the lines of a picture, by the number of its edges."""
    return max(0.15, min(1.6, 14 / math.sqrt(max(edges, 1))))


def drawn_faces(panel, place, view, kind="face", hue=209):
    """The faces that look at the eye, those behind first."""
    looks = facing(panel.points, panel.faces, view)
    depths = [sum(dot(panel.points[c], view.eye) for c in face) / len(face) for face in panel.faces]
    for _, look, face in sorted(zip(depths, looks, panel.faces)):
        if len(face) > 2 and (look > 1e-12 or len(panel.faces) == 1):
            normal = polygon_normal([panel.points[corner] for corner in face])
            towards = unit(normal if look > 0 else times(-1, normal))
            shape = " ".join("%.2f,%.2f" % place(panel.points[corner]) for corner in face)
            yield f'<polygon class="{kind}" points="{shape}" fill="{shade(towards, hue, view)}"/>'


def drawn_edges(panel, place, edges, kind, seen, width):
    """The edges that are seen, or those that are not."""
    for (start, end), is_seen in edges.items():
        if is_seen == seen:
            ends = "M%.2f,%.2f L%.2f,%.2f" % (*place(panel.points[start]), *place(panel.points[end]))
            yield f'<path class="{kind}" d="{ends}" stroke-width="{width:.2f}"/>'


def dots(points, place, kind, radius):
    """Points as dots."""
    for point in points:
        yield '<circle class="%s" cx="%.2f" cy="%.2f" r="%.1f"/>' % (kind, *place(point), radius)


def drawn(panel, place, view, width, mesh):
    """The elements of a panel, those behind first."""
    edges = edges_of(panel.faces, facing(panel.points, panel.faces, view))
    yield from drawn_edges(panel, place, edges, "hidden", False, 0.6 * width)
    if mesh:
        yield from drawn_faces(mesh, place, view, "mesh", 24)
    yield from drawn_faces(panel, place, view, "veil" if mesh else "face")
    yield from drawn_edges(panel, place, edges, "edge", True, width)
    if len(edges) <= 1:
        yield from dots(panel.points, place, "corner", 3.0)
    yield from dots(panel.lost, place, "lost", 1.6)


def bounds(points, view):
    """The lowest and the highest places of points on the page."""
    places = list(zip(*(flattened(point, view) for point in points)))
    return [min(part) for part in places], [max(part) for part in places]


def placing(points, view, size):
    """The map from points to the page, into a square without its margin at the left or the top; and its height."""
    low, high = bounds(points, view)
    extent = [top - least for top, least in zip(high, low)]
    factor = (size - 2 * MARGIN) / (max(extent) or 1)
    height = max(size // 4, math.ceil(factor * extent[1] + 2 * MARGIN))
    middle = [(top + least) / 2 for top, least in zip(high, low)]

    def place(point, left=0):
        x, y = flattened(point, view)
        return (left + size / 2 + factor * (x - middle[0]), height / 2 + factor * (y - middle[1]))

    return place, height


def svg(panels, view, size=SIZE, mesh=None):
    """The picture."""
    everything = [point for panel in panels for point in [*panel.points, *panel.lost]]
    place, below = placing(everything, view, size)
    width, height = size * len(panels), below + TITLE_HEIGHT * any(panel.title for panel in panels)
    thick = stroke(max(sum(map(len, panel.faces)) // 2 for panel in panels))
    lines = [
        f'<svg xmlns="http://www.w3.org/2000/svg" viewBox="0 0 {width} {height}" width="{width}" height="{height}">',
        f"<style>{STYLE}</style>",
    ]
    for number, panel in enumerate(panels):
        lines += drawn(panel, functools.partial(place, left=number * size), view, thick, mesh)
        if panel.title:
            lines.append(f'<text class="title" x="{(number + 0.5) * size}" y="{below + 15}">{html.escape(panel.title)}</text>')
    return "\n".join([*lines, "</svg>", ""])


def place_of(word, count):
    """The place of the vertex that a word of an OBJ face names. A negative index counts back from the last vertex so far."""
    index = int(word.split("/")[0])
    return count + index if index < 0 else index - 1


def mesh_of(path):
    """The vertices and the faces of an OBJ file, in numbers of the machine. A face that names no vertex ends the script."""
    points, faces = [], []
    for row in map(str.split, text_of(path).split("\n")):
        if row[:1] == ["v"]:
            points.append(tuple(map(float, row[1:4])))
        elif row[:1] == ["f"]:
            faces.append([place_of(word, len(points)) for word in row[1:]])
    wrong = next((face for face in faces if not all(0 <= place < len(points) for place in face)), None)
    if wrong is not None:
        sys.exit(f"{path}: a face names no vertex of {len(points)}")
    return Panel(points, faces, [], "")


def direction(words):
    """Three numbers with commas between, not all of them 0."""
    x, y, z = map(float, words.split(","))
    if not any((x, y, z)):
        raise ValueError("no direction")
    return (x, y, z)


def arguments():
    parser = argparse.ArgumentParser(description=__doc__, formatter_class=argparse.RawDescriptionHelpFormatter)
    parser.add_argument("--eye", type=direction, default=EYE, metavar="X,Y,Z", help="where the eye is (--eye=-1,0,0)")
    parser.add_argument("--up", type=direction, default=UP, metavar="X,Y,Z", help="what is up on the page")
    parser.add_argument("--size", type=int, default=SIZE, help=f"width of a picture (default {SIZE})")
    parser.add_argument("--mesh", metavar="OBJ", help="a mesh in the units of the faces, drawn within")
    parser.add_argument("--title", action="append", default=[], help="a title below a picture; one for each FILE")
    parser.add_argument("files", nargs="*", default=["-"], metavar="FILE", help="OFF texts")
    return parser.parse_args()


def main():
    options = arguments()
    panels = panels_of(options.files, options.title + [""] * len(options.files))
    mesh = mesh_of(options.mesh) if options.mesh else None
    sys.stdout.write(svg(panels, view_from(options.eye, options.up), options.size, mesh))


if __name__ == "__main__":
    main()
