"""Floats of several files on one grid, by hullmany and by Dask: compared with one call of `ConvexHull.from_floats`."""
from __future__ import annotations

import re
import subprocess
import sys
from fractions import Fraction
from pathlib import Path

import numpy as np
import pytest

from qconvex import ConvexHull
from qconvex.commands.float_streams import FloatStream, in_units
from qconvex.commands.part_lines import Refused

TOP = Path(__file__).resolve().parents[2]
PROGRAM = TOP / "crates" / "qconvex" / "out" / "qconvex"
COMMAND = [sys.executable, str(TOP / "python" / "bin" / "hullmany"), "--quiet"]

RNG = np.random.default_rng(31)
SETS = {
    "normal": RNG.normal(size=(900, 3)),
    "far out": RNG.normal(size=(300, 3)) * 1e-9 + [3.0, -7e5, 1e15],
    "in a plane": np.column_stack([RNG.normal(size=(300, 2)), np.full(300, 0.1)]),
    "on a grid": RNG.integers(-50, 50, (900, 3)) / 8 + 1000,
    "of great steps": RNG.integers(-50, 50, (300, 3)) * 2.0**40,
    "huge": np.array([[x, y, z] for x in (0, 1) for y in (0, 1) for z in (0, 1)]) * 1.7e308 - 0.8e308,
}


def files_of(folder, floats):
    """The floats in files of all kinds."""
    one, two, three, four = np.array_split(floats, 4)
    np.save(folder / "a.npy", one)
    np.save(folder / "b.npy", np.asfortranarray(two.astype(np.longdouble)))
    (folder / "c.csv").write_text("x;y;z\r\n" + "".join("%r;%r;%r\r\n" % tuple(row) for row in three.tolist()))
    (folder / "d.txt").write_text(f"3\n{len(four)}\n" + "".join("%r %r\t%r # 7 7\n" % tuple(row) for row in four.tolist()))
    return [str(folder / name) for name in ("a.npy", "b.npy", "c.csv", "d.txt")]


def most_told(text):
    """The error that standard error tells."""
    return Fraction(re.search("by at most (.*)", text)[1]) if "at most" in text else Fraction(0)


def reading_is_told(floats, most, snap_error):
    """That the error is that of the grid, and no more than half the distance of the greatest float to the next, for reading."""
    return snap_error <= most <= Fraction(snap_error) + Fraction(float(np.spacing(np.abs(floats).max())))


@pytest.mark.parametrize("name", SETS)
@pytest.mark.parametrize("bits", [30, 7])
def test_the_stream_is_on_the_grid_of_all(name, bits, tmp_path):
    floats = SETS[name]
    hull, stream = ConvexHull.from_floats(floats, bits), FloatStream(files_of(tmp_path, floats), bits)
    rows = stream.opened().read().split()
    assert list(map(int, rows[:2])) == [3, len(floats)]
    points = np.array(rows[2:], int).reshape(-1, 3)
    grid = stream.units()
    same = [(a + c) * Fraction(grid.step) == (b + d) * Fraction(hull.scale) for mine, theirs in zip(points.tolist(), hull.grid_points.tolist())
            for a, b, c, d in zip(mine, theirs, grid.centre, hull.centre)]
    assert all(same) and reading_is_told(floats, grid.error, hull.snap_error)
    lines = b"".join(b"%d %d %d\n" % tuple(row) for row in points[hull.vertices].tolist())
    got = in_units(b"%d 0 0\n" % len(hull.vertices) + lines, grid).split()[3:]
    assert list(map(float, got)) == hull.coordinates[hull.vertices].ravel().tolist()


@pytest.mark.skipif(not PROGRAM.exists(), reason="the program is not built")
@pytest.mark.parametrize("name", SETS)
def test_the_command_gives_the_hull_of_from_floats(name, tmp_path):
    floats = SETS[name]
    hull, files = ConvexHull.from_floats(floats), files_of(tmp_path, floats)
    words = [word for file in files for word in ("--file", file)]
    got = subprocess.run([*COMMAND, "--bits", "30", "--part", "70", *words, "Fx", "off"], capture_output=True, text=True)
    indices, off = got.stdout.split("OFF\n")
    assert got.returncode == 0 and list(map(int, indices.split()[1:])) == hull.vertices.tolist(), got.stderr
    assert [line.split() for line in off.splitlines()] == [line.split() for line in hull.to_off().splitlines()[1:]]
    assert reading_is_told(floats, most_told(got.stderr), hull.snap_error) and ("exact" in got.stderr) == (most_told(got.stderr) == 0)


def test_decimals_that_no_float_is_are_told(tmp_path):
    for rows, error in (("0.5,1,2\n4,5e-1,6.25\n", 0), ("0.5,1,2\n4,5,0.1\n", float(np.spacing(5.0)) / 2), ("0,1,2\n0,1,9007199254740993\n", 1)):
        (tmp_path / "a.csv").write_text(rows)
        stream = FloatStream([str(tmp_path / "a.csv")], 30)
        stream.opened().read()
        floats = np.array([list(map(float, row.split(","))) for row in rows.split()])
        assert reading_is_told(floats, stream.units().error, ConvexHull.from_floats(floats).snap_error) and stream.reading == error


@pytest.mark.parametrize(
    ("name", "text", "why"),
    [
        ("a.csv", "1,2,nan\n", "numbers"), ("a.csv", "1,2,1e999\n", "finite"), ("a.csv", "1,2-3,4\n", "the word 2-3"),
        ("a.csv", "1,2,3,4\n", "4 numbers"), ("a.csv", "1,2,1_0\n", "the word 1_0"), ("a.csv", "", "no points"),
        ("a.txt", "3\n2\n0.5 1 2\n", "has 1 points; its header counts 2"),
    ],
)
def test_files_without_floats_are_refused(name, text, why, tmp_path):
    (tmp_path / name).write_text(text)
    with pytest.raises((Refused, ValueError), match=why):
        FloatStream([str(tmp_path / name)], 30)


def test_floats_are_taken_with_bits_alone(tmp_path):
    np.save(tmp_path / "a.npy", SETS["normal"])
    for words, why in ((["--file", tmp_path / "a.npy"], "with --bits floats"), (["--bits", "30"], "wants --file"),
                       (["--file", tmp_path / "a.npy", "--bits", "31"], "bits must be from 1 to 30")):
        got = subprocess.run([*COMMAND, "--run", "false", *map(str, words)], capture_output=True, text=True, input="")
        assert got.returncode and why in got.stderr and "Traceback" not in got.stderr


@pytest.mark.parametrize("name", SETS)
def test_by_dask(name, tmp_path):
    da = pytest.importorskip("dask.array", reason="dask is missing")
    import dask

    from qconvex.dask import extremes, hull

    floats = SETS[name]
    one = ConvexHull.from_floats(floats)
    with dask.config.set(scheduler="threads"):
        array = da.from_array(floats, chunks=(77, 2))
        for given in (array, array[array[:, 0] < np.inf], floats, files_of(tmp_path, floats)):
            found = hull(given, bits=30)
            assert found.indices.tolist() == one.vertices.tolist() and (found.points == floats[one.vertices]).all()
            assert (found.grid_points == one.grid_points[one.vertices]).all()
            assert (found.scale, found.centre) == (one.scale, one.centre) and (found.six_volumes, found.nedges) == (one.six_volumes, one.nedges)
            assert reading_is_told(floats, found.snap_error, one.snap_error)
            assert isinstance(given, list) or found.snap_error == one.snap_error
            assert [found.indices[face].tolist() for face in found.faces] == [face.tolist() for face in one.faces]
        with pytest.raises(TypeError, match="from_floats"):
            extremes(array)
        with pytest.raises(ValueError, match="finite"):
            extremes(da.from_array(np.array([[0, 1, np.nan]])), bits=30)
        with pytest.raises(ValueError, match="no point"):
            extremes(da.zeros((0, 3)), bits=30)
