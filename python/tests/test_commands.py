"""The commands: each has its help, and what they write is what other programs and formats say of the same shapes."""
from __future__ import annotations

import json
import os
import re
import shutil
import subprocess
import sys
import tomllib
from pathlib import Path

import pytest

from qconvex import _limits

TOP = Path(__file__).resolve().parents[2]
BIN = TOP / "python" / "bin"
STATED = TOP / "crates" / "qh_model" / "src" / "limits.rt"
CUBE = [(x, y, z) for x in (0, 1) for y in (0, 1) for z in (0, 1)]
CUBE_OFF = """OFF
8 6 12
0 0 0
0 0 1
0 1 0
0 1 1
1 0 0
1 0 1
1 1 0
1 1 1
4 0 1 3 2
4 0 2 6 4
4 0 4 5 1
4 1 5 7 3
4 2 3 7 6
4 4 6 7 5
"""
SQUARE_OFF = "OFF\n4 1 4\n0 0 1\n2 0 1\n2 2 1\n0 2 1\n4 0 1 2 3\n"
SEGMENT_OFF = "OFF\n2 1 1\n1 1 1\n3 1 5\n2 0 1\n"
POINT_OFF = "OFF\n1 1 0\n4 5 6\n1 0\n"
SHAPES = {"cube": CUBE_OFF, "square": SQUARE_OFF, "segment": SEGMENT_OFF, "point": POINT_OFF}


def run(name, *words, given=""):
    """A command, by the interpreter that runs the tests."""
    data = given.encode() if isinstance(given, str) else given
    return subprocess.run([sys.executable, str(BIN / name), *map(str, words)], input=data, capture_output=True, timeout=120)


def out(name, *words, given=""):
    done = run(name, *words, given=given)
    assert done.returncode == 0, done.stderr
    return done.stdout.decode()


def vertices_in(text):
    """The vertices of an OFF text, as they stand there."""
    rows = [line.split() for line in text.splitlines()[1:]]
    return [tuple(map(int, row)) for row in rows[1 : int(rows[0][0]) + 1]]


# ---- all


def test_each_has_its_help_and_is_installed():
    scripts = tomllib.loads((TOP / "python" / "pyproject.toml").read_text())["project"]["scripts"]
    assert set(scripts) == {place.name for place in BIN.iterdir() if place.is_file() and not place.suffix}
    for name, place in scripts.items():
        assert place == f"qconvex.commands.{name}:main"
        assert out(name, "--help").startswith(f"usage: {name} ")


@pytest.mark.skipif(shutil.which("groff") is None, reason="groff is missing")
def test_each_has_a_manual_page_that_is_right_for_roff(tmp_path):
    subprocess.run([sys.executable, TOP / "python/man/man_pages.py", tmp_path], check=True)
    pages = sorted(tmp_path.glob("*.1"))
    assert [path.stem for path in pages] == sorted(place.name for place in BIN.iterdir() if place.is_file() and not place.suffix)
    for path in pages:
        done = subprocess.run(["groff", "-man", "-Tutf8", "-ww", path], capture_output=True, text=True, check=True)
        assert path.stem.upper() in done.stdout and not done.stderr


def test_limits_are_those_of_the_program():
    pattern = re.compile(r"pub const ([A-Z_]+): u\d+ = (\d[\d_]*)(?: << (\d+))?;")
    stated = {name: int(value) << int(shift or 0) for name, value, shift in pattern.findall(STATED.read_text())}
    for name in ("COORDINATE_LIMIT", "POINT_LIMIT", "BYTE_LIMIT"):
        assert getattr(_limits, name) == stated[name]


# ---- hullfacets


def test_facets_of_a_cube():
    lines = out("hullfacets", given=CUBE_OFF).splitlines()
    assert lines[:2] == ["six times the volume: 6", "facet 0: normal -1 0 0, offset 0, corners 0 1 3 2, neighbours 2 3 4 1"]
    assert lines[-1] == "corner 7: point 1 1 1, facets 3 5 4"
    told = json.loads(out("hullfacets", "--form", "json", given=CUBE_OFF))
    assert told["six_volumes"] == 6 and len(told["facets"]) == 6 and len(told["corners"]) == 8


def holds(row, point):
    return row[0] + sum(factor * part for factor, part in zip(row[1:], point))


@pytest.mark.parametrize("name", SHAPES)
def test_inequalities_hold_just_for_the_points_of_a_shape(name):
    from qconvex.commands.halfspaces import halfspaces_of
    from qconvex.commands.off_files import read_off

    points, faces = read_off(SHAPES[name])
    told = halfspaces_of(points, faces)
    within = [
        (x, y, z)
        for x in range(-1, 7) for y in range(-1, 7) for z in range(-1, 7)
        if all(holds(row, (x, y, z)) >= 0 for row in told.inequalities) and not any(holds(row, (x, y, z)) for row in told.equations)
    ]
    wanted = {"cube": CUBE, "square": [(x, y, 1) for x in range(3) for y in range(3)], "segment": [(1, 1, 1), (2, 1, 3), (3, 1, 5)]}
    assert within == sorted(wanted.get(name, [(4, 5, 6)]))


@pytest.mark.skipif(not shutil.which("normaliz"), reason="normaliz is missing")
@pytest.mark.parametrize("name", SHAPES)
def test_normaliz_finds_the_vertices_again(name, tmp_path):
    (tmp_path / "hull.in").write_text(out("hullfacets", "--form", "normaliz", given=SHAPES[name]))
    subprocess.run(["normaliz", "--VerticesOfPolyhedron", "hull"], cwd=tmp_path, check=True, capture_output=True)
    text = (tmp_path / "hull.out").read_text()
    rows = re.search(r"\d+ vertices of polyhedron:\n((?: *-?\d+.*\n)+)", text).group(1).splitlines()
    assert sorted(tuple(map(int, row.split()[:3])) for row in rows) == sorted(vertices_in(SHAPES[name]))


@pytest.mark.skipif(not shutil.which("lrs"), reason="lrs is missing")
@pytest.mark.parametrize("name", SHAPES)
def test_lrs_finds_the_vertices_again(name, tmp_path):
    (tmp_path / "hull.ine").write_text(out("hullfacets", "--form", "lrs", given=SHAPES[name]))
    text = subprocess.run(["lrs", "hull.ine"], cwd=tmp_path, check=True, capture_output=True, text=True).stdout
    rows = {tuple(map(int, line.split()[1:])) for line in text.splitlines() if re.match(r" 1 +-?\d", line)}
    assert sorted(rows) == sorted(vertices_in(SHAPES[name]))


@pytest.mark.skipif(not shutil.which("polymake"), reason="polymake is missing")
@pytest.mark.parametrize("name", SHAPES)
def test_polymake_takes_vertices_and_facets(name, tmp_path):
    script = tmp_path / "hull.txt"
    asked = 'print $p->N_VERTICES, " ", $p->DIM, " ", $p->LATTICE ? 1 : 0, " ", $p->F_VECTOR;'
    script.write_text(out("hullfacets", "--form", "polymake", given=SHAPES[name]))
    words = ["polymake", f'script("{script}"); {asked}']
    told = subprocess.run(words, check=True, capture_output=True, text=True, stdin=subprocess.DEVNULL).stdout.split()
    script.write_text(script.read_text() + asked)
    words = ["polymake", "--script", str(script)]
    assert subprocess.run(words, check=True, capture_output=True, text=True, stdin=subprocess.DEVNULL).stdout.split() == told
    numbers = json.loads(out("hullfacets", "--json", given=SHAPES[name]))["f_vector"]
    dimension = {"cube": "3", "square": "2", "segment": "1", "point": "0"}[name]
    assert told[:3] == [str(len(vertices_in(SHAPES[name]))), dimension, "1"] and told[3:] == list(map(str, numbers))[: int(dimension)]


def test_corners_have_their_indices_in_the_input():
    told = json.loads(out("hullfacets", "--form", "json", given="8\n" + "".join(f"{7 * place}\n" for place in range(8)) + CUBE_OFF))
    facet = told["facets"][0]
    assert told["f_vector"] == [8, 12, 6] and facet["corners"] == [0, 1, 3, 2] and facet["indices"] == [0, 7, 21, 14]
    assert [corner["index"] for corner in told["corners"]] == list(range(0, 56, 7))
    assert "index" not in json.loads(out("hullfacets", "--form", "json", given=CUBE_OFF))["corners"][0]
    done = run("hullfacets", "--form", "json", given="7\n" + "1\n" * 7 + CUBE_OFF)
    assert done.returncode == 1 and b"7 indices stand before" in done.stderr


def test_faces_that_run_clockwise_are_refused():
    rows = CUBE_OFF.splitlines()
    turned = [" ".join([row.split()[0], *row.split()[:0:-1]]) if len(row.split()) > 3 else row for row in rows]
    done = run("hullfacets", given="\n".join(turned) + "\n")
    assert (done.returncode, done.stderr) == (1, b"hullfacets: the faces run clockwise seen from outside\n")


def test_what_is_no_hull_is_refused():
    for given in ("", "OFF\n1 0 0\n0 0 0\n", "OFF\n1 1 0\n0.5 0 0\n1 0\n", CUBE_OFF.replace("4 4 6 7 5", "4 4 5 7 6")):
        done = run("hullfacets", given=given)
        assert done.returncode == 1 and done.stderr and not done.stdout
    for given in ("OFF\n3 1 0\n0 0 0\n1 0 0\n2 0 0\n3 0 1 2\n", "OFF\n1 1 0\n1/0 0 0\n1 0\n"):
        done = run("hullfacets", given=given)
        assert done.returncode == 1 and not done.stdout and b"Traceback" not in done.stderr


@pytest.mark.parametrize("form", ["normaliz", "polymake", "lrs"])
def test_a_segment_without_length_is_refused(form):
    for given in ("OFF\n2 1 1\n1 1 1\n1 1 1\n2 0 1\n", "OFF\n1 1 1\n1 1 1\n2 0 0\n"):
        done = run("hullfacets", "--form", form, given=given)
        assert done.returncode == 1 and not done.stdout and b"closed surface" in done.stderr


def test_numbers_are_exact_and_an_exponent_without_end_is_refused():
    from qconvex.commands.off_files import MOST_EXPONENT, Malformed, number

    assert [number(word) for word in ("-12", "+3", "25e-1", "1E2", "1/4")] == [-12, 3, 2.5, 100, 0.25]
    assert number(f"1e{MOST_EXPONENT}") == 10**MOST_EXPONENT
    for word in ("1e999999999", "-1.5E-999999999", "1e999_999_999"):
        with pytest.raises(Malformed, match="the exponent of"):
            number(word)
    done = run("hullfacets", given="OFF\n1 1 0\n0 0 1e999999999\n1 0\n")
    assert done.returncode == 1 and done.stderr == b"-: the exponent of 1e999999999 is beyond 2000\n"


def test_coordinates_of_any_length_are_written():
    points, faces = "0 0 0\n1e2000 0 0\n0 1e2000 0\n0 0 1e2000\n", "3 0 2 1\n3 0 1 3\n3 0 3 2\n3 1 2 3\n"
    lines = out("hullfacets", given="OFF\n4 4 6\n" + points + faces).splitlines()
    assert lines[0] == "six times the volume: 1" + "0" * 6000


# ---- hullview


def hull_in(page):
    """The hull that a page shows."""
    return json.loads(re.search(r'\{"ids":.*\}', page)[0])


def test_a_page_has_the_numbers_of_its_file(tmp_path):
    assert hull_in(out("hullview", given=CUBE_OFF))["points"] == list(map(list, CUBE))
    path = tmp_path / "two.off"
    path.write_text("COFF\n2 1 1\n0.5 1e1 -3 255 0 0\n1/4 2 3.0 0 0 255\n2 0 1 9 9 9\n")
    assert hull_in(out("hullview", path)) == {"ids": [0, 1], "points": [[0.5, 10, -3], [0.25, 2, 3]], "faces": [[0, 1]]}


def test_what_is_no_off_text_has_no_page():
    for given in ("", "OFF\n1 1 0\n0 0 0\n1 7\n", "OFF\n1 0 0\n0 0\n", "OFF\n1 1 0\n0 0 1e999999999\n1 0\n"):
        done = run("hullview", given=given)
        assert done.returncode == 1 and not done.stdout and done.stderr.startswith(b"hullview: -: ")


# ---- hullexplain


def test_a_fault_is_shown_where_it_stands(tmp_path):
    done = run("hullexplain", TOP / "examples" / "faults" / "comma.txt")
    text = done.stdout.decode()
    assert done.returncode == 1 and text.startswith("qconvex: 2: BadNumber at line 3\n") and "line 3, column 1" in text
    path = tmp_path / "right.txt"
    path.write_text("3\n1\n1 2 3 # a point\n")
    assert out("hullexplain", path).startswith("No fault: 1 points.")
    assert os.access(BIN / "hullexplain", os.X_OK)


KINDS = {
    "gzip": b"\x1f\x8b\x08\0\0\0", "a zip": b"PK\x03\x04ab", "numpy": b"\x93NUMPY\x01\0", "PLY": b"ply\nformat ascii 1.0\n",
    "OFF": CUBE_OFF.encode(), "STL mesh:": b"solid a\n facet normal 0 0 1\n", "OBJ": b"# by Blender\nmtllib a.mtl\no Cube\nv 1 2 3\n",
    "JSON": b'{"points": [[1, 2, 3]]}', "STL mesh in binary": bytes(84), "UTF-16": "3\n1\n0 0 0".encode("utf-16"),
    "is binary": b"3\n\0\0\0", "XML": b"<?xml version='1.0'?>",
}


@pytest.mark.parametrize("kind", KINDS)
def test_a_file_of_another_kind_is_known(kind, tmp_path):
    path = tmp_path / "file"
    path.write_bytes(KINDS[kind])
    done = run("hullexplain", path)
    assert done.returncode == 1 and done.stdout.decode().startswith("qconvex: ") and kind in done.stdout.decode()


def test_a_point_file_is_of_no_other_kind():
    from qconvex.commands.file_kinds import kind_of

    for path in [*(TOP / "examples").glob("*.txt"), *(TOP / "examples" / "faults").iterdir()]:
        assert kind_of(path.read_bytes()) is None


LINES = {
    "oops": "OUT is one of", "off --workers 0": "from 1 to 64", "--block=1048577": "from 1 to 1048576", "--from obj": "FORM is",
    "--from": "wants a value", "--workers 1 off --workers 2": "--workers is given twice", "--work 4": "no option", "-V": "no option",
    "o": "nearest here is off", "--workers 1_0": "from 1",
}


@pytest.mark.parametrize("line", LINES)
def test_a_command_line_is_explained(line):
    done = run("hullexplain", "qconvex", *line.split())
    said = done.stdout.decode().splitlines()
    assert done.returncode == 1 and said[0] == "qconvex: 12: Usage" and LINES[line] in said[-1]
    assert said[2] == f"    qconvex {line}" and set(said[3]) == {" ", "^"}


def test_a_right_command_line_and_a_file_behind_it():
    for line in ("", "off", "--workers=4 rank --block 3 Fx Fx", "--help oops", "--from off"):
        assert out("hullexplain", "qconvex", *line.split()).startswith("No fault")
    path = TOP / "examples" / "unit-cube.txt"
    assert f"qconvex off < {path}" in run("hullexplain", "/usr/bin/qconvex-exact", path).stdout.decode()
    assert run("hullexplain", path, "oops").returncode == 2 and out("hullexplain", path, "--comments").startswith("No fault")


def test_a_point_file_has_no_facets():
    done = run("hullfacets", TOP / "examples" / "unit-cube.txt")
    assert done.returncode == 1 and b"this is a point file" in done.stderr
