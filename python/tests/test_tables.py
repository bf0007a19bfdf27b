"""meshpoints: points of tables, and faces of meshes that stand on the grid of other points."""
from __future__ import annotations

from fractions import Fraction

import pytest

from test_commands import CUBE, CUBE_OFF, out, run
from test_meshes import MESHES, put, stl_binary

ROWS = [["0.5", "-1", "2.25"], ["3", "1e1", "0"], [".125", "4.", "-7"]]
TABLES = {
    "blanks.xyz": "\n".join(map(" ".join, ROWS)),
    "colours.xyz": "# a scan\n" + "\n".join("  ".join([*row, "255", "0", "9"]) for row in ROWS) + "\n\n",
    "comma.csv": "\ufeff" + "\r\n".join(map(",".join, ROWS)),
    "names.csv": "id;Z;\"Y\";X\n" + "\n".join(";".join(["7", *row[::-1]]) for row in ROWS),
    "tabs.tsv": "a\tb\tc\n" + "\n".join(map("\t".join, ROWS)),
    "rbox.txt": "3 rbox D3 3\n3\n" + "\n".join(map("   ".join, ROWS)) + "\n",
    "plain.txt": "\n".join(map(" ".join, ROWS)),
}


@pytest.mark.parametrize("name", TABLES)
def test_points_of_tables(name, tmp_path):
    path = tmp_path / name
    path.write_text(TABLES[name])
    found, said, scale = put(path)
    assert found == [list(map(Fraction, row)) for row in ROWS] and said.startswith("exact") and scale == 1000


def test_points_of_arrays(tmp_path):
    numpy = pytest.importorskip("numpy")
    path = tmp_path / "some.npy"
    for array, scale in ((numpy.array(CUBE) / 8, 8), (numpy.array(CUBE, numpy.uint16), 1), (numpy.array(CUBE, numpy.float32) * 0.1, 2**27)):
        numpy.save(path, array)
        found, said, taken = put(path)
        assert found == [list(map(Fraction, map(float, point))) for point in array] and said.startswith("exact") and taken == scale
    for array in (numpy.zeros((2, 2)), numpy.zeros((1, 3), complex), numpy.zeros(3), numpy.full((1, 3), None)):
        numpy.save(path, array)
        done = run("meshpoints", path)
        assert done.returncode == 1 and b"Traceback" not in done.stderr and not done.stdout


NO_TABLES = {
    "short.xyz": ("1 2 3\n\n1 2\n", "line 3: a row has 2 numbers"),
    "count.xyz": ("8\ncube\nC 0 0 0\n", "line 1: a row has 1 numbers"),
    "four.csv": ("a,b,c,d\n1,2,3,4\n", "of 4 columns none is named"),
    "comma.csv": ("1,5;2,0;3,0\n", "line 1: 1,5 is no number"),
    "nan.csv": ("nan,nan,nan\n1,2,3\n", "line 1: nan is no number"),
    "empty.csv": ("x,y,z\n", "there are no vertices"),
    "none.xyz": ("", "there are no points"),
    "cut.txt": ("3\n8\n0 0 0\n", "the header counts 8 points, and 1 rows follow"),
    "long.txt": ("3\n1\n0 0 0\n1 1 1\n", "the header counts 1 points, and 2 rows follow"),
    "row.txt": ("3\n2\n0 0 0\n1 1\n", "line 4: a point has 2 numbers"),
    "same-line.txt": ("3 1 5 6 7\n", "a point file begins with 3"),
    "head.txt": ("2\n2\n0 0\n1 1\n", "begins with 3"),
    "no.npy": ("\x93NUMPY", "no array of numpy"),
}


@pytest.mark.parametrize("name", NO_TABLES)
def test_what_is_no_table_is_refused(name, tmp_path):
    path = tmp_path / name
    path.write_bytes(NO_TABLES[name][0].encode("latin-1"))
    done = run("meshpoints", path)
    assert done.returncode == 1 and not done.stdout and NO_TABLES[name][1] in done.stderr.decode(), done.stderr


# Faces.


def ply_of_cube(order):
    head = f"ply\nformat {order} 1.0\nelement vertex 8\n" + "".join(f"property float {axis}\n" for axis in "xyz")
    head += "element face 6\nproperty uchar red\nproperty list uchar int vertex_indices\nend_header\n"
    faces = [[int(word) for word in line.split()] for line in CUBE_OFF.splitlines() if line.startswith("4 ")]
    if order == "ascii":
        vertices = b"".join(b"%d %d %d\n" % point for point in CUBE)
        return head.encode() + vertices + b"".join(b"9 %d %d %d %d %d\n" % tuple(face) for face in faces)
    numpy = pytest.importorskip("numpy")
    sign = "<" if order == "binary_little_endian" else ">"
    lists = b"".join(b"\x09\x04" + numpy.array(face[1:], sign + "i4").tobytes() for face in faces)
    return head.encode() + numpy.array(CUBE, sign + "f4").tobytes() + lists


CORNERS = [line.split()[1:] for line in CUBE_OFF.splitlines() if line.startswith("4 ")]
OBJ_FACES = "".join("f " + " ".join(f"{int(word) + 1}/1/7" for word in corners) + "\n" for corners in CORNERS)
HULLS = {
    "cube.off": CUBE_OFF.encode(),
    "cube.obj": MESHES["cube.obj"] + OBJ_FACES.encode(),
    "back.obj": MESHES["cube.obj"] + OBJ_FACES.replace("f 1/1/7", "f -8//7").encode(),
    "ascii.ply": ply_of_cube("ascii"),
    "little.ply": ply_of_cube("binary_little_endian"),
    "big.ply": ply_of_cube("binary_big_endian"),
    "cube.stl": stl_binary(),
}


@pytest.mark.parametrize("name", HULLS)
def test_faces_stand_on_the_grid_of_other_points(name, tmp_path):
    points, hull = tmp_path / "points.obj", tmp_path / name
    points.write_text("".join("v %d.0 %d %d\n" % point for point in CUBE) + "v .5 .25 0\n")
    hull.write_bytes(HULLS[name])
    (tmp_path / "points.txt").write_text(out("meshpoints", points))
    done = run("meshpoints", "--faces", tmp_path / "points.txt", hull)
    assert done.returncode == 0 and done.stderr == b"exact: no coordinate was rounded\n", done.stderr
    rows = [line.split() for line in done.stdout.decode().splitlines()[2:]]
    places, faces = [list(map(int, row)) for row in rows[:8]], [list(map(int, row[1:])) for row in rows[8:]]
    assert {tuple(place) for place in places} == {(100 * x - 50, 100 * y - 50, 100 * z - 50) for x, y, z in CUBE}
    check = pytest.importorskip("qconvex").check
    whole = [list(map(int, row.split())) for row in (tmp_path / "points.txt").read_text().splitlines()[2:]]
    assert check(whole, [[whole.index(places[corner]) for corner in face] for face in faces])


NO_FACES = {
    "zero.obj": ("v 0 0 0\nf 0 1 1\n", "line 2: no face of 1 vertices"),
    "beyond.obj": ("v 0 0 0\nf 1 2 3\n", "line 2: no face"),
    "none.obj": ("v 0 0 0\n", "there are no faces"),
    "cut.ply": (ply_of_cube("binary_little_endian")[:-2].decode("latin-1"), "ends before its last face"),
    "no.xyz": ("0 0 0\n", "the files that are read end with .off"),
}


@pytest.mark.parametrize("name", NO_FACES)
def test_a_mesh_without_right_faces_is_refused(name, tmp_path):
    points, hull = tmp_path / "points.txt", tmp_path / name
    points.write_text("3 scale 1 centre 0 0 0\n1\n0 0 0\n")
    hull.write_bytes(NO_FACES[name][0].encode("latin-1"))
    done = run("meshpoints", "--faces", points, hull)
    assert done.returncode == 1 and not done.stdout and NO_FACES[name][1] in done.stderr.decode(), done.stderr
