"""meshcheck: faces of each format beside the vertices of the same file, decimals of many digits, and what is wrong."""
from __future__ import annotations

import random
import struct
from fractions import Fraction

import pytest

from test_commands import CUBE, CUBE_OFF, run
from test_meshes import stl_binary, stl_text

FACES = [list(map(int, line.split()[1:])) for line in CUBE_OFF.splitlines() if line.startswith("4 ")]
# A cube with decimals, and a point inside that no face names.
PLACES = [[f"{x}.125", f"-{y}.5e-1", f"{z}"] for x, y, z in CUBE] + [["0.6", "-0.09", ".25"]]


def turned(faces):
    return [face[::-1] for face in faces]


def off(places, faces):
    rows = [" ".join(place) for place in places] + [" ".join(map(str, [len(face), *face])) for face in faces]
    return "\n".join(["OFF", f"{len(places)} {len(faces)} 0", *rows, ""]).encode()


def obj(places, faces):
    rows = ["v " + " ".join(place) for place in places] + ["f " + " ".join(f"{corner + 1}/1" for corner in face) for face in faces]
    return "\n".join(["# a mesh", *rows, ""]).encode()


def ply(places, faces):
    head = f"ply\nformat ascii 1.0\nelement vertex {len(places)}\n" + "".join(f"property float {axis}\n" for axis in "xyz")
    head += f"element face {len(faces)}\nproperty list uchar int vertex_indices\nend_header\n"
    return head.encode() + off(places, faces).split(b"\n", 2)[2]


def ply_bytes(places, faces):
    head = ply(places, faces).split(b"end_header\n")[0].replace(b"ascii", b"binary_little_endian").replace(b"float", b"double")
    rows = b"".join(struct.pack("<3d", *map(float, place)) for place in places)
    return head + b"end_header\n" + rows + b"".join(struct.pack(f"<B{len(face)}i", len(face), *face) for face in faces)


FORMATS = {"off": off, "obj": obj, "ply": ply}


def told(tmp_path, name, data, *words):
    """The status, and what is said on standard output and standard error."""
    path = tmp_path / name
    path.write_bytes(data)
    done = run("meshcheck", *words, path)
    return done.returncode, done.stdout.decode().strip(), done.stderr.decode().strip()


@pytest.mark.parametrize("name", FORMATS)
def test_points_and_faces_of_one_file(name, tmp_path):
    """The y axis is turned round, so the faces of the unit cube run clockwise here."""
    write = FORMATS[name]
    assert told(tmp_path, f"a.{name}", write(PLACES, turned(FACES))) == (0, "all right", "")
    assert told(tmp_path, f"a.{name}", write(PLACES, FACES), "--clockwise") == (0, "all right", "")
    status, line, _ = told(tmp_path, f"a.{name}", write(PLACES, FACES))
    assert status == 1 and line.startswith("face 0: point ") and line.endswith(" is above its plane")
    status, line, _ = told(tmp_path, f"a.{name}", write(PLACES, turned(FACES[1:])))
    assert status == 1 and line.startswith("the side from point ") and line.endswith(" is open")
    beyond = [*PLACES, ["1.1250001", "-0.1", "0.5"]]
    status, line, _ = told(tmp_path, f"a.{name}", write(beyond, turned(FACES)))
    assert status == 1 and line.endswith("point 9 is above its plane")


def test_meshes_of_bytes(tmp_path):
    halves = [[str(float(Fraction(part) / 8)) for part in point] for point in CUBE]
    assert told(tmp_path, "a.ply", ply_bytes(halves, FACES)) == (0, "all right", "")
    assert told(tmp_path, "a.stl", stl_binary()) == (0, "all right", "")
    assert told(tmp_path, "a.stl", stl_text()) == (0, "all right", "")


def test_points_of_another_file(tmp_path):
    points = tmp_path / "points.csv"
    points.write_text("x,y,z\n" + "".join(f"{x}.0,{y},{z}\n" for x, y, z in [(1, 1, 0), *CUBE[::-1], (0, 0, 0)]) + ".5,.5,.125\n")
    assert told(tmp_path, "a.off", CUBE_OFF.encode(), "--points", points) == (0, "all right", "")
    moved = CUBE_OFF.replace("\n1 1 1\n", "\n1 1 1.25\n").encode()
    status, line, _ = told(tmp_path, "a.off", moved, "--points", points)
    assert status == 1 and line == "face 3: a corner of it is the index of no point"
    points.write_text(points.read_text() + "2,.5,.5\n")
    status, line, _ = told(tmp_path, "a.off", CUBE_OFF.encode(), "--points", points)
    assert status == 1 and line.endswith("point 11 is above its plane")


def test_more_digits_than_a_grid_holds(tmp_path):
    long = [[number.replace(".125", ".12500000000000000001") for number in place] for place in PLACES]
    assert told(tmp_path, "a.off", off(long, turned(FACES))) == (0, "all right", "")
    bent = [place if number else [place[0] + "9", *place[1:]] for number, place in enumerate(long)]
    status, line, said = told(tmp_path, "a.off", off(bent, turned(FACES)))
    assert (status, said) == (1, "") and "face " in line
    status, line, said = told(tmp_path, "a.off", off(bent, turned(FACES)), "--rounded")
    assert (status, line) == (0, "all right") and "coordinates were rounded, by at most" in said
    flat = [[place[0] + "00000000000000000001", *place[1:]] for place in PLACES[:4]]
    status, line, said = told(tmp_path, "a.off", off([*flat[:3], [*flat[3][:2], "1.0000000000000001"]], [[0, 2, 3, 1]]))
    assert (status, line) == (5, "") and "lie in one plane" in said


def damaged(faces, rng):
    """The faces, right or with one fault."""
    faces, place, kind = [list(face) for face in faces], rng.randrange(len(faces)), rng.randrange(8)
    face = faces[place]
    if kind == 0:
        del faces[place]
    elif kind == 1:
        faces.append(face)
    elif kind == 2:
        faces[place] = face[::-1]
    elif kind == 3:
        face[rng.randrange(len(face))] = rng.randrange(40)
    elif kind == 4 and len(face) > 3:
        faces[place : place + 1] = [face[:3], [face[0], *face[2:]]]
    elif kind == 5:
        face.insert(rng.randrange(len(face)), rng.randrange(30))
    elif kind == 6:
        faces += [other[1:] + other[:1] for other in faces]
    return [faces, [*faces, []]][rng.randrange(20) == 0]


@pytest.mark.parametrize("reach", [2, 3, 9, 1000])
def test_long_coordinates_are_judged_as_the_library_judges_short_ones(reach):
    from qconvex import ConvexHull, check
    from qconvex.commands.exact_faces import fault_of

    rng, rights = random.Random(reach), 0
    for _ in range(60):
        points = [*CUBE, *(tuple(rng.randrange(-reach, reach + 1) for _ in range(3)) for _ in range(30))]
        hull = ConvexHull(points)
        faces = damaged([face.tolist() for face in hull.faces] if rng.randrange(2) else hull.simplices.tolist(), rng)
        long = [tuple(part * 10**30 + 10**33 + 7 for part in point) for point in points]
        fault = fault_of(long, faces)
        assert bool(check(points, faces)) == (fault is None), (points, faces, fault)
        rights += fault is None
    assert 5 < rights < 55


NO_MESHES = [("a.off", b"OFF\n"), ("a.txt", b"3\n1\n0 0 0\n"), ("a.obj", b"v 0 0 0\n"), ("a.ply", b"ply\n")]


@pytest.mark.parametrize("name, data", NO_MESHES)
def test_what_is_no_mesh(name, data, tmp_path):
    status, line, said = told(tmp_path, name, data)
    assert (status, line) == (5, "") and said and "Traceback" not in said


def test_a_file_that_is_missing_and_a_wrong_command_line(tmp_path):
    done = run("meshcheck", tmp_path / "missing.off")
    assert done.returncode == 5 and b"No such file" in done.stderr
    assert run("meshcheck").returncode == 2 and run("meshcheck", "--help").returncode == 0
