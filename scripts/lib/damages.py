"""Damages of hulls: each takes a random source, points and their faces, and returns a wrong hull, or None if it can't."""
import sys
from pathlib import Path

sys.path.insert(0, str(Path(__file__).resolve().parents[1]))
from lib import package  # noqa: E402,F401
from qconvex.commands.off_files import Faces  # noqa: E402
from qconvex.commands.vectors import minus, plus, times  # noqa: E402


def with_faces(faces, changed):
    return Faces(faces.points, changed)


def off_text(faces):
    """The OFF text of faces."""
    rows = [[len(faces.points), len(faces.faces), 0], *faces.points, *([len(face), *face] for face in faces.faces)]
    return "OFF\n" + "".join(" ".join(map(str, row)) + "\n" for row in rows)


def some_face(rng, faces, least=3):
    """Returns the position of a face with at least the given number of corners, or None."""
    places = [place for place, face in enumerate(faces.faces) if len(face) >= least]
    return rng.choice(places) if places else None


def with_face(faces, place, *replacing):
    """The faces with others in place of one."""
    return with_faces(faces, faces.faces[:place] + list(replacing) + faces.faces[place + 1 :])


def lost(rng, points, faces):
    return points, with_face(faces, some_face(rng, faces, 1))


def doubled(rng, points, faces):
    place = some_face(rng, faces, 1)
    return points, with_face(faces, place, faces.faces[place], faces.faces[place])


def turned(rng, points, faces):
    place = some_face(rng, faces)
    return (points, with_face(faces, place, faces.faces[place][::-1])) if len(faces.faces) > 1 else None


def crossed(rng, points, faces):
    place = some_face(rng, faces, 4)
    if place is None:
        return None
    face = list(faces.faces[place])
    at = rng.randrange(len(face) - 1)
    face[at], face[at + 1] = face[at + 1], face[at]
    return points, with_face(faces, place, face)


def corner_lost(rng, points, faces):
    place = some_face(rng, faces, 4)
    if place is None:
        return None
    face = list(faces.faces[place])
    face.pop(rng.randrange(len(face)))
    return points, with_face(faces, place, face)


def corner_changed(rng, points, faces):
    place = some_face(rng, faces, 2)
    others = place is not None and sorted(set(range(len(faces.points))) - set(faces.faces[place]))
    if not others:
        return None
    face = list(faces.faces[place])
    face[rng.randrange(len(face))] = rng.choice(others)
    return points, with_face(faces, place, face)


def corner_moved(rng, points, faces):
    place, way = rng.randrange(len(faces.points)), [0, 0, 0]
    way[rng.randrange(3)] = rng.choice([-1, 1])
    moved = list(faces.points)
    moved[place] = plus(moved[place], way)
    return None if moved[place] in points else (points, Faces(moved, faces.faces))


def point_comes_on(rng, points, faces):
    """Adds a point outside: a corner, moved away from another by their distance."""
    if len(faces.points) < 2:
        return None
    one, other = rng.sample(faces.points, 2)
    return [*points, plus(one, minus(one, other))], faces


def joined(rng, points, faces):
    """Two faces become one, without the side between them."""
    place = some_face(rng, faces)
    if place is None or len(faces.faces) < 2:
        return None
    face = faces.faces[place]
    start, end = face[0], face[1]
    other = next(at for at, them in enumerate(faces.faces) if (end, start) in zip(them, them[1:] + them[:1]))
    at = faces.faces[other].index(start)
    rest = faces.faces[other][at:] + faces.faces[other][:at]
    kept = [them for number, them in enumerate(faces.faces) if number not in (place, other)]
    return points, with_faces(faces, [*kept, [start, *rest[1:-1], *face[1:]]])


def scaled(factor, points, faces):
    """Scales all points by one factor."""
    return [times(factor, point) for point in points], Faces([times(factor, p) for p in faces.points], faces.faces)


def corner_within_edge(rng, points, faces):
    """The middle of a side is a point, and a corner of both its faces."""
    if len(faces.faces[0]) < 3:
        return None
    points, faces = scaled(2, points, faces)
    place = some_face(rng, faces)
    start, end = faces.faces[place][:2]
    middle = tuple(part // 2 for part in plus(faces.points[start], faces.points[end]))
    changed = []
    for face in faces.faces:
        at = next((k for k in range(len(face)) if {face[k - 1], face[k]} == {start, end}), None)
        changed.append(face if at is None else face[:at] + [len(faces.points)] + face[at:])
    return [*points, middle], Faces([*faces.points, middle], changed)


def corner_within_face(rng, points, faces):
    """A point within a face is a corner of the triangles that it is cut into."""
    place = some_face(rng, faces)
    if place is None:
        return None
    size = len(faces.faces[place])
    points, faces = scaled(size, points, faces)
    face = faces.faces[place]
    total = (0, 0, 0)
    for corner in face:
        total = plus(total, faces.points[corner])
    middle, apex = tuple(part // size for part in total), len(faces.points)
    parts = [[start, end, apex] for start, end in zip(face, face[1:] + face[:1])]
    return [*points, middle], Faces([*faces.points, middle], with_face(faces, place, *parts).faces)


def all_twice(rng, points, faces):
    return points, with_faces(faces, faces.faces * 2)


DAMAGES = [
    lost, doubled, turned, crossed, corner_lost, corner_changed, corner_moved, point_comes_on, joined,
    corner_within_edge, corner_within_face, all_twice,
]  # fmt: skip
