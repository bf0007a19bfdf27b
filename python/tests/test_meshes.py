"""meshpoints: vertices of each format, the grid they are put on beside Fractions and `snap`, and files that lack a part."""
from __future__ import annotations

import random
import struct
from decimal import Decimal
from fractions import Fraction

import pytest

from qconvex.commands.exact_numbers import of_numbers, of_words
from qconvex.commands.grids import map_of_vertices, rounded
from test_commands import CUBE, CUBE_OFF, TOP, out, run


def ply(order, kind="float"):
    letter = {"float": "f", "double": "d"}[kind]
    head = f"ply\nformat {order} 1.0\nelement marker 1\nproperty short a\nelement vertex 8\nproperty uchar red\n"
    head += "".join(f"property {kind} {axis}\n" for axis in "xyz") + "element face 0\nproperty list uchar int vertex_indices\nend_header\n"
    if order == "ascii":
        return head.encode() + b"7\n" + b"".join(b"9 %d.0 %d %de0\n" % point for point in CUBE)
    sign = "<" if order == "binary_little_endian" else ">"
    rows = b"".join(struct.pack(f"{sign}B3{letter}", 9, *point) for point in CUBE)
    return head.encode() + struct.pack(f"{sign}h", 7) + rows


def stl_triangles():
    """Two triangles on each side of the cube."""
    faces = [line.split()[1:] for line in CUBE_OFF.splitlines() if line.startswith("4 ")]
    return [[CUBE[int(face[k])] for k in corners] for face in faces for corners in ((0, 1, 2), (0, 2, 3))]


def stl_binary():
    triangles = stl_triangles()
    rows = b"".join(struct.pack("<12fH", 0, 0, 0, *sum(triangle, ()), 0) for triangle in triangles)
    return b"solid but of bytes".ljust(80) + struct.pack("<I", len(triangles)) + rows


def stl_text():
    loops = ["".join("vertex %d %d %d\n" % corner for corner in triangle) for triangle in stl_triangles()]
    rows = [f"facet normal 0 0 0\nouter loop\n{loop}endloop\nendfacet\n" for loop in loops]
    return ("solid cube\n" + "".join(rows) + "endsolid cube\n").encode()


MESHES = {
    "cube.off": CUBE_OFF.encode(),
    "cube.obj": b"# a cube\n" + b"".join(b"v %d %d %d\nvn 1 0 0\n" % point for point in CUBE),
    "ascii.ply": ply("ascii"),
    "little.ply": ply("binary_little_endian"),
    "big.ply": ply("binary_big_endian", "double"),
    "bytes.stl": stl_binary(),
    "text.stl": stl_text(),
}


@pytest.mark.parametrize("name", MESHES)
def test_vertices_of_each_format(name, tmp_path):
    path = tmp_path / name
    path.write_bytes(MESHES[name])
    lines = out("meshpoints", "--scale", 2, "--centre", "0,0,0", path).splitlines()
    assert lines[:2] == ["3 scale 2 centre 0 0 0", "8"]
    assert sorted(tuple(map(int, line.split())) for line in lines[2:]) == [tuple(2 * part for part in point) for point in CUBE]


def test_the_error_is_told_and_is_no_less_than_it_was(tmp_path):
    path = tmp_path / "thirds.obj"
    path.write_text("v 0.1 0.25 -1e-3\nv 1 2 3\n")
    done = run("meshpoints", "--scale", 10, "--centre", "0,0,0", path)
    assert done.stdout.decode().splitlines()[2:] == ["1 2 0", "10 20 30"]  # 2.5 goes to the even number
    assert done.stderr.decode() == "2 of 6 coordinates were rounded, by at most 0.05\n"
    third = run("meshpoints", "--scale", "1/3", "--centre", "0,0,0", path).stderr.decode()
    assert third == "5 of 6 coordinates were rounded, by at most 1\n"


def test_a_hull_comes_back_in_the_units_of_the_mesh(tmp_path):
    path = tmp_path / "points.txt"
    path.write_text(out("meshpoints", "--scale", 8, "--centre", "1/2,0,0", TOP / "examples" / "knot.obj"))
    assert out("meshpoints", "--back", path, given="OFF\n1 1 0\n4 -8 1\n1 0\n") == "OFF\n1 1 0\n1 -1 0.125\n1 0\n"


def test_a_scale_and_a_centre_are_numbers(tmp_path):
    scales = [("--scale", word) for word in ("0", "-1000", "1/0", "x", "1e999999999")]
    for words in (*scales, ("--centre", "1,2"), ("--centre", "0,0,1/0")):
        done = run("meshpoints", *words, TOP / "examples" / "knot.obj")
        assert done.returncode == 2 and not done.stdout and b"Traceback" not in done.stderr
    path = tmp_path / "points.txt"
    for note in ("scale 0 centre 0 0 0", "scale x centre 0 0 0", "scale 1 centre 0 1/0 0"):
        path.write_text(f"3 {note}\n1\n0 0 0\n")
        done = run("meshpoints", "--back", path, given="OFF\n1 1 0\n1 1 1\n1 0\n")
        assert done.returncode == 1 and not done.stdout and b"Traceback" not in done.stderr


def test_a_hundred_thousand_vertices(tmp_path):
    path = tmp_path / "many.stl"
    count = 200_000
    corners = [struct.pack("<3f", k % 317, k % 1009 / 8, k / 100_000) for k in range(100_000)]
    places = ((k // 2, (k + 7) // 2 % 100_000, (k + 99) % 100_000) for k in range(count))
    rows = b"".join(bytes(12) + b"".join(corners[place] for place in triangle) + b"\0\0" for triangle in places)
    path.write_bytes(bytes(80) + struct.pack("<I", count) + rows)
    assert out("meshpoints", path).count("\n") == 100_002


NO_MESHES = {
    "none.xyz": b"",
    "empty.obj": b"",
    "words.obj": b"v a b c\n",
    "far.obj": b"v 1 2 1e999999999\n",
    "nan.obj": b"v 1 2 nan\n",
    "two.obj": b"v 1 2\n",
    "short.ply": ply("binary_little_endian")[:-3],
    "list.ply": ply("binary_little_endian").replace(b"property short a", b"property list uchar int a"),
    "head.ply": b"ply\nformat ascii 1.0\n",
    "nan.stl": bytes(80) + struct.pack("<I12fH", 1, *[float("nan")] * 12, 0),
}


@pytest.mark.parametrize("name", NO_MESHES)
def test_what_is_no_mesh_is_refused(name, tmp_path):
    path = tmp_path / name
    path.write_bytes(NO_MESHES[name])
    done = run("meshpoints", path)
    assert done.returncode == 1 and not done.stdout and b"Traceback" not in done.stderr




# The grid.


def put(path, *words):
    """The coordinates that the whole points of a mesh stand for, exactly, and what was said."""
    done = run("meshpoints", *words, path)
    assert done.returncode == 0, done.stderr
    first, _, *rows = done.stdout.decode().splitlines()
    scale, *centre = map(Fraction, first.replace("3 scale ", "").replace("centre ", "").split())
    points = [[int(word) for word in row.split()] for row in rows]
    assert max(abs(part) for point in points for part in point) <= 2**30
    return [[part / scale + middle for part, middle in zip(point, centre)] for point in points], done.stderr.decode(), scale


@pytest.mark.parametrize("options", [(), ("--scale", 1000)])
def test_decimals_stay_as_they_are_written(options, tmp_path):
    generator = random.Random(4)
    rows = [["%d.%03d" % (generator.randrange(-999, 999), generator.randrange(1000)) for _ in "xyz"] for _ in range(99)]
    path = tmp_path / "three.obj"
    path.write_text("".join("v " + " ".join(row) + "\n" for row in rows))
    found, said, scale = put(path, *options)
    assert found == [list(map(Fraction, row)) for row in rows] and said == "exact: no coordinate was rounded\n" and scale == 1000


@pytest.mark.parametrize("words, scale", [
    ("1.50 2.0 -3", 10), ("10 20 30", 1), ("1e300 3e300 0", Fraction(1, 10**300)), ("0 0 0", 1), ("-1073741824 1073741824 1", 1),
    ("0 0 1e-1500", 10**1500), ("0.1 100000000.2 0", 10), ("7e9 7e9 0", Fraction(1, 10**9)),
])
def test_the_least_power_of_ten_is_taken(words, scale, tmp_path):
    path = tmp_path / "one.off"
    path.write_text(f"OFF 2 0 0\n{words}\n{' '.join(words.split()[::-1])}\n")
    found, said, taken = put(path)
    assert said.startswith("exact") and taken == scale and found[0] == list(map(Fraction, words.split()))


@pytest.mark.parametrize("digits, size", [(20, 1), (30, 10**15), (12, 10**-9)])
def test_decimals_without_room_are_put_on_the_finest_grid(digits, size, tmp_path):
    generator = random.Random(digits)
    rows = [[Decimal(generator.randrange(-(10**digits), 10**digits)).scaleb(-digits) * Decimal(size) for _ in "xyz"] for _ in range(40)]
    path = tmp_path / "long.obj"
    path.write_text("".join("v %s %s %s\n" % tuple(row) for row in rows))
    found, said, scale = put(path)
    pairs = [(Fraction(number), place) for row, places in zip(rows, found) for number, place in zip(row, places)]
    most, extent = max(abs(number - place) for number, place in pairs), max(max(axis) - min(axis) for axis in zip(*rows))
    assert Fraction(said.split()[-1]) == most <= 1 / scale / 2 and said.startswith(f"{sum(one != other for one, other in pairs)} of 120 ")
    assert (scale.numerator & scale.numerator - 1, scale.denominator & scale.denominator - 1) == (0, 0)
    assert 2**30 <= Fraction(extent) * scale <= 2**31


@pytest.mark.parametrize("centre, scale", [("1/2,0,0", 10), ("0.125,-3,1/5", 1000), ("7,0,0", 1)])
def test_a_given_centre_stands_on_the_grid(centre, scale, tmp_path):
    path = tmp_path / "whole.off"
    path.write_text(CUBE_OFF)
    found, said, taken = put(path, f"--centre={centre}")
    assert sorted(map(tuple, found)) == CUBE and said.startswith("exact") and taken == scale
    assert "were rounded" in put(path, "--centre", "1/3,0,0")[1]


def binary_ply(floats):
    head = b"ply\nformat binary_little_endian 1.0\nelement vertex %d\n" % len(floats)
    head += b"".join(b"property double %c\n" % axis for axis in b"xyz") + b"end_header\n"
    return head + struct.pack(f"<{3 * len(floats)}d", *sum(floats, []))


@pytest.mark.parametrize("case", range(12))
def test_binary_numbers_are_put_where_snap_puts_them(case, tmp_path):
    snap = pytest.importorskip("qconvex").snap
    generator = random.Random(case)
    scale, offset, digits = [(1, 0, 3), (1 / 8, 0.375, 0), (1e-9, 3, 50), (1e12, -7e13, 50), (5e-324, 0, 50), (1e290, 1e300, 50)][case % 6]
    wholes = [[generator.randrange(-99 * 2**digits, 99 * 2**digits) for _ in "xyz"] for _ in range(40)]
    floats = [[number * scale / 2**digits + offset for number in row] for row in wholes]
    path = tmp_path / "some.ply"
    path.write_bytes(binary_ply(floats))
    found, said, step = put(path)
    snapped = snap(floats)
    assert found == [[(int(part) + middle) * Fraction(snapped.step) for part, middle in zip(row, snapped.centre)] for row in snapped.points]
    most = max(abs(Fraction(number) - put) for row, places in zip(floats, found) for number, put in zip(row, places))
    assert step == 1 / Fraction(snapped.step) and most == Fraction(snapped.error)
    assert said == "exact: no coordinate was rounded\n" if not most else Fraction(said.split()[-1]) == most


# Files that lack a part.

OFF_5 = "OFF\n5 %s 0\n0 0 0\n1 0 0\n0 1 0\n3 0 1 2\n3 0 2 1\n"
PLY_TEXT = ply("ascii").decode().replace("element face 0\nproperty list uchar int vertex_indices\n", "")
LACKING = {
    "cut.off": ("OFF\n8 6 12\n0 0 0\n0 0 1\n0 1 0\n", "line 2: 8 points and 6 faces are announced, and 3 rows follow"),
    "faces.off": (OFF_5 % 2, "line 2: 5 points and 2 faces are announced, and 5 rows follow"),
    "no-faces.off": (OFF_5 % 0, "line 6: a point has 4 numbers"),
    "more.off": ("OFF\n1 0 0\n0 0 0\n1 1 1\n", "line 2: 1 points"),
    "minus.off": ("OFF\n-3 0 0\n0 0 0\n", "line 2: no OFF text"),
    "four.off": ("4OFF\n1 0 0\n0 0 0 2\n", "line 1: of OFF texts"),
    "bytes.off": ("OFF BINARY\n", "line 1: of OFF texts"),
    "weight.obj": ("v 1 2 3\nv 1 2 3 0.5\n", "line 2: a vertex has the weight 0.5"),
    "underscore.obj": ("v 1 2 3\nv 1_0 2 3\n", "line 2: 1_0 is no number"),
    "sign.obj": ("v 1 .+2 3\n", "line 1: .+2 is no number"),
    "letters.obj": ("v 1 2 3\n\nv 1 nan 3\n", "line 3: nan is no number"),
    "arabic.obj": ("v 1 \u0661 3\n", "line 1: \u0661 is no number"),
    "cut.obj": ("v 1 2 3\nv 1 2", "line 2: a vertex has 2 coordinates"),
    "cut.ply": (PLY_TEXT[:-len("9 0.0 0 0e0\n") * 6 - 1], "counts 9 rows, and 3 rows follow line 10"),
    "short.ply": (PLY_TEXT.replace("9 0.0 1 0e0", "9 0.0 1"), "line 14: a vertex has 3 numbers; its properties are 4"),
    "minus.ply": (PLY_TEXT.replace("vertex 8", "vertex -8"), "line 5: element vertex -8 is no element of a ply file"),
    "list.ply": (PLY_TEXT.replace("uchar red", "list uchar uchar red"), "line 6: a vertex has a list, red"),
    "type.ply": (PLY_TEXT.replace("uchar red", "colour red"), "line 6: property colour red is no property"),
    "no-z.ply": (PLY_TEXT.replace("float z", "float w"), "has no x, y and z"),
    "cut.stl": (stl_text().decode()[:-20], "line 85: the text ends before its endsolid"),
    "two.stl": (stl_text().decode().replace("vertex 0 0 0\n", "", 1), "line 7: a facet has 2 corners"),
    "bytes.stl": (stl_binary()[5:-9].decode("latin-1"), "triangles have"),
}


@pytest.mark.parametrize("name", LACKING)
def test_a_file_that_lacks_a_part_is_refused_with_its_line(name, tmp_path):
    path = tmp_path / name
    text, reason = LACKING[name]
    path.write_bytes(text.encode("latin-1" if name == "bytes.stl" else "utf-8"))
    done = run("meshpoints", path)
    assert done.returncode == 1 and not done.stdout and b"Traceback" not in done.stderr
    assert reason in done.stderr.decode(), done.stderr


def test_facets_with_one_layout_are_read_at_once():
    stl_arrays = pytest.importorskip("qconvex.commands.stl_arrays")
    from qconvex.commands.mesh_faces import faces_of_stl
    from qconvex.commands.stl_files import of_stl

    text = stl_text()
    long = text.replace(b"vertex 0 0 0", b"vertex 0 0 0." + b"0" * 50, 1).replace(b" cube", b"").strip()
    for layout in text, text.replace(b"vertex", b"\t vertex "), text.replace(b" -", b"  -"), text.replace(b"facet n", b" facet n"), text.strip(), long:
        vertices, triangles = stl_arrays.of_text(layout)
        assert vertices == of_stl(layout) and triangles.tolist() == faces_of_stl(layout)
    vertices, triangles = stl_arrays.of_records(stl_binary()[84:])
    assert vertices.listed() == of_stl(stl_binary()) and triangles.tolist() == faces_of_stl(stl_binary())
    others = [LACKING[name][0].encode() for name in ("cut.stl", "two.stl")]
    others += [text + text, text.replace(b"endloop", b"end loop"), text.replace(b"outer", b"inner", 1), text.replace(b"\n", b"\r"), b"solid\nendsolid\n"]
    others += [text.replace(b"vertex 0 0 0", b"vertex 0  0 0", 1), text.replace(b"endsolid", b"end"), b"a " + text, text.replace(b"vertex 0", b"vertex 0 0")]
    assert not any(map(stl_arrays.of_text, others))


def test_an_obj_text_of_vertices_alone_is_read_at_once():
    from qconvex.commands.mesh_faces import faces_of_obj, plain_obj

    assert plain_obj(b"# two\nv 1 2 3\nv 4 5 6\nvn 1 0 0\n") == (b"1 2 3\n4 5 6\n", b"")
    assert plain_obj(b"f 1 2 3\nv 1 2 3\n") == (b"1 2 3\n", b"1 2 3\n") and faces_of_obj(b"v 1 2 3\n") == []


@pytest.mark.parametrize("end", [b"\r", b"\r\n", b"\n"])
@pytest.mark.parametrize("name", ["cube.off", "cube.obj", "ascii.ply", "text.stl"])
def test_any_line_end_is_read(name, end, tmp_path):
    path = tmp_path / name
    path.write_bytes(MESHES[name].replace(b"\n", end).rstrip(b"\r\n"))
    found, _, _ = put(path)
    assert sorted(map(tuple, found)) == CUBE


LINES = {
    "wholes": "1 -2 3\n40 5 6\n", "decimals": "1.5 -.25 3.\n0.001 00.5 -0\n", "exponents": "1e-5 -2.5E3 1.50e1\n-3e0 7 0e9\n", "zero": "0 -0.0 0\n"
}  # fmt: skip
FLOATS = {"floats": [0.1, -(2.0**-30), 3.0, 1e-9, -0.0, 0.75], "far floats": [2.0**900, 1e300, -5e-324], "zero floats": [0.0, -0.0, 0.0]}


@pytest.mark.parametrize("scale", [None, 1000, Fraction(-7, 3), Fraction(1, 8)])
@pytest.mark.parametrize("name", [*LINES, *FLOATS])
def test_many_vertices_are_put_on_the_grid_of_few(name, scale):
    arrays = pytest.importorskip("qconvex.commands.vertex_arrays")
    if name in LINES:
        few, many = of_words([(1, line.split()) for line in LINES[name].splitlines()]), arrays.of_decimals(LINES[name].encode(), 3)
    else:
        few, many = of_numbers(FLOATS[name]), arrays.of_records(struct.pack(f"<{len(FLOATS[name])}d", *FLOATS[name]), "<ddd", [0, 1, 2])
    for centre in (None, (Fraction(1, 3), Fraction(0), Fraction(7))):
        by = map_of_vertices(few, scale and Fraction(scale), centre)
        assert map_of_vertices(many, scale and Fraction(scale), centre) == by
        one, other = rounded(few, by), rounded(many, by)
        assert (one.points, one.changed, one.most) == (other.points, other.changed, other.most)


def test_decimals_that_floats_do_not_tell_are_left_to_lists():
    arrays = pytest.importorskip("qconvex.commands.vertex_arrays")
    assert arrays.of_decimals(b"0 0 562949953421312\n", 0) and arrays.of_decimals(b"0 0 0.0000000000000000000001\n", 22)
    for text, behind in ((b"0 -999999999999999 0\n", 0), (b"0 0 56294995342131.3\n", 1), (b"0 0 1e-23\n", 0), (b"1e999 0 0\n", 0)):
        assert arrays.of_decimals(text, behind) is None


@pytest.mark.parametrize("count", [1, 2, 7, 500, 5000])
def test_the_first_of_equal_rows_stays(count):
    numpy = pytest.importorskip("numpy")
    from qconvex.commands.stl_arrays import distinct

    for reach in (1, 2, 9, 1 << 32):
        rows = numpy.random.default_rng(count).integers(0, reach, (count, 3)).astype("<u8")
        firsts, numbers = distinct(rows)
        assert list(map(tuple, rows[firsts].tolist())) == list(dict.fromkeys(map(tuple, rows.tolist())))
        assert (rows[firsts][numbers] == rows).all()
