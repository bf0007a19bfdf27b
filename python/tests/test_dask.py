"""The extreme points of dask arrays, on a LocalCluster: compared with one call over all points."""
from __future__ import annotations

import os
import pathlib
import signal
import subprocess
import sys
import threading
import time
from dataclasses import replace

import numpy as np
import pytest

dask = pytest.importorskip("dask", reason="dask is missing: the extreme points of dask arrays were not tried")
distributed = pytest.importorskip("distributed", reason="distributed is missing: no LocalCluster was started")
import dask.array as da

import qconvex.dask
from qconvex import POINT_LIMIT, ConvexHull, _files, _parts
from qconvex.dask import TooManyExtremes, extremes, hull, read

CUBE = [[x, y, z] for x in (0, 1) for y in (0, 1) for z in (0, 1)]
KINDS = [np.int8, np.int16, np.int32, np.int64, np.uint8, np.uint16, np.uint32, np.uint64]


@pytest.fixture(scope="module")
def client():
    with distributed.LocalCluster(n_workers=2, threads_per_worker=1, dashboard_address=None) as cluster:
        with distributed.Client(cluster) as opened:
            yield opened


def matches(found, points):
    """That what was found is what one call over all points finds."""
    points = np.asarray(points)
    vertices = ConvexHull(points).vertices
    assert found.indices.dtype == np.int64 and found.indices.tolist() == vertices.tolist()
    assert found.points.dtype == np.int32 and (found.points == points[vertices]).all()


def cuts(rng, length):
    """Chunks of random lengths, some of them empty."""
    ends = np.sort(rng.integers(0, length + 1, rng.integers(0, 9)))
    return tuple(np.diff([0, *ends, length]).tolist())


def degenerate(rng):
    """A set of points in space, a plane or a line, or of one point, with repeats."""
    dimension, count = int(rng.integers(0, 4)), int(rng.integers(1, 60))
    spanned = rng.integers(-4, 5, (count, dimension)) @ rng.integers(-9, 10, (dimension, 3))
    points = spanned.reshape(count, 3) + rng.integers(-100, 100, 3)
    return points[rng.integers(0, count, count + int(rng.integers(0, 60)))]


def test_cube_with_repeats_in_and_across_chunks(client):
    points = np.array([*CUBE, *CUBE, [0, 0, 0], *CUBE])
    found = extremes(da.from_array(points, chunks=(5, 2)))
    assert found.indices.tolist() == list(range(8))
    whole = hull(da.from_array(points[::-1].copy(), chunks=3))
    assert whole.indices[whole.vertices].tolist() == list(range(8)) and whole.six_volumes == 6
    assert (whole.dimension, len(whole.faces), whole.nedges) == (3, 6, 12)


@pytest.mark.parametrize("kind", KINDS)
def test_every_integer_type(client, kind):
    points = np.random.default_rng(5).integers(0, 120, (3000, 3)).astype(kind)
    matches(extremes(da.from_array(points, chunks=700), client), points)


@pytest.mark.parametrize(("scheduler", "sets"), [("threads", 180), ("distributed", 20)])
def test_degenerate_sets_in_odd_chunks(client, scheduler, sets):
    rng = np.random.default_rng(sets)
    for _ in range(sets):
        points = degenerate(rng)
        columns = [(3,), (1, 2), (1, 1, 1)][rng.integers(0, 3)]
        with dask.config.set(scheduler=scheduler):
            matches(extremes(da.from_array(points, chunks=(cuts(rng, len(points)), columns))), points)


def test_chunks_of_unknown_length(client):
    points = np.random.default_rng(2).integers(-1000, 1000, (20000, 3))
    for columns in (3, 2):
        array = da.from_array(points, chunks=(3000, columns))
        matches(extremes(array[array[:, 0] > 0], client), points[points[:, 0] > 0])
    matches(extremes(points), points)


def test_a_chunk_above_the_limit_is_cut(client):
    points = np.random.default_rng(3).integers(-1000, 1000, (POINT_LIMIT * 2 + 7, 3), np.int16)
    points[-1] = 2000
    found = extremes(da.from_array(points, chunks=-1), client)
    assert found.indices[-1] == len(points) - 1 and (points[found.indices] == found.points).all()
    assert found.indices.tolist() == _parts.part_of_block(points).indices.tolist()


def test_indices_past_32_bits():
    many = 1 << 33
    corner = _parts.Part(many, np.array([many - 1]), np.array([[1, 2, 3]], np.int32))
    found = _parts.joined([corner, corner, _parts.EMPTY, replace(corner, points=np.array([[3, 2, 1]], np.int32))])
    assert found.count == 3 * many and found.indices.tolist() == [many - 1, 3 * many - 1]


def test_too_many_extremes_are_counted(client):
    x, y = (column.ravel() - 525 for column in np.mgrid[0:1050, 0:1050])
    points = np.column_stack((x, y, x * x + y * y))  # of a paraboloid, so each is extreme
    with pytest.raises(TooManyExtremes, match="1102500 points are extreme in two parts") as refused:
        extremes(da.from_array(points, chunks=-1), client, retries=0)
    assert refused.value.count == 1050 * 1050


def test_refusals(client):
    with pytest.raises(TypeError, match="multiply them by a scale"):
        extremes(da.zeros((5, 3), chunks=2))
    with pytest.raises(ValueError, match="shape"):
        extremes(da.zeros((5, 2), chunks=2, dtype=int))
    with pytest.raises(ValueError, match="no point"):
        extremes(da.zeros((0, 3), dtype=int))
    with pytest.raises(ValueError, match="1073741824"):
        extremes(da.from_array(np.full((5, 3), 1 << 40), chunks=2), client, retries=0)


def test_a_killed_worker_changes_nothing(client):
    points = np.random.default_rng(8).integers(-(1 << 20), 1 << 20, (200000, 3))
    array = da.from_array(points, chunks=5000).map_blocks(_slowly, dtype=points.dtype)
    before = client.run(os.getpid)

    def kill():
        time.sleep(1.0)
        os.kill(next(iter(before.values())), signal.SIGKILL)

    killer = threading.Thread(target=kill)
    killer.start()
    matches(extremes(array, client), points)
    killer.join()
    client.wait_for_workers(2)
    assert set(client.run(os.getpid).values()) != set(before.values())


def _slowly(block):
    time.sleep(0.1)
    return block


def test_a_failing_task_is_tried_again(client, tmp_path):
    points = np.random.default_rng(9).integers(-50, 50, (4000, 3))
    marks = str(tmp_path)

    def failing_once(block, block_info=None):
        mark = os.path.join(marks, str(block_info[0]["chunk-location"][0]))
        if not os.path.exists(mark):
            open(mark, "w").close()
            raise OSError("a disk that came back")
        return block

    array = da.from_array(points, chunks=1000).map_blocks(failing_once, dtype=points.dtype)
    matches(extremes(array, client), points)


def test_by_a_schedulers_address(client):
    points = np.random.default_rng(4).integers(-99, 99, (5000, 3))
    matches(extremes(da.from_array(points, chunks=999), client.scheduler.address), points)


def test_hullmany_by_the_workers_of_a_scheduler(client, tmp_path):
    top = pathlib.Path(__file__).parents[2]
    program = top / "crates" / "qconvex" / "out" / "qconvex"
    if not program.exists():
        pytest.skip("the program is not built: hullmany was not tried")
    path = point_file(tmp_path / "points.txt", np.random.default_rng(1).integers(-999, 999, (3000, 3)))
    script = [sys.executable, str(top / "python" / "bin" / "hullmany")]
    engine = ["--engine", client.scheduler.address.replace("tcp", "dask"), "--file", str(path)]
    with open(path, "rb") as source:
        here = subprocess.run([*script, "--quiet", "Fx", "off"], stdin=source, capture_output=True, check=True)
    there = subprocess.run([*script, *engine, "Fx", "off"], capture_output=True, check=True)
    assert there.stdout == here.stdout


# ---- files


def point_file(path, points):
    path.write_text(f"3 points\n{len(points)}\n" + "".join("%d %d %d\n" % tuple(point) for point in points))
    return path


def test_files(client, tmp_path, monkeypatch):
    points = np.random.default_rng(6).integers(-(1 << 30), (1 << 30) + 1, (6000, 3))
    np.save(tmp_path / "points.npy", points[:3000].astype(np.int32))
    second = point_file(tmp_path / "points.txt", points[3000:])
    for size in (16 << 20, 1000, 7):
        monkeypatch.setattr(qconvex.dask, "_BLOCK_BYTES", size)
        if size > 7:
            matches(extremes([tmp_path / "points.npy", second], client), points)
            (tmp_path / "points.csv").write_text("X;Y;Z\n" + "".join("%d;%d;%d\r\n" % tuple(point) for point in points[:3000]))
            matches(extremes([tmp_path / "points.csv", second], client), points)
        short = point_file(tmp_path / "short.txt", points[:40])
        matches(extremes(short), points[:40])
        for mark in ("", "\ufeff"):
            (tmp_path / "short.csv").write_text(mark + "".join("%d,%d,%d\n" % tuple(point) for point in points[:40]))
            matches(extremes(tmp_path / "short.csv"), points[:40])
    assert read(tmp_path / "points.npy").shape == (3000, 3)


def test_parquet(tmp_path):
    pytest.importorskip("pyarrow", reason="pyarrow is missing: no parquet file was read")
    import pandas

    points = np.random.default_rng(7).integers(-500, 500, (3000, 3))
    pandas.DataFrame(points, columns=["x", "y", "z"]).to_parquet(tmp_path / "points.parquet")
    matches(extremes(tmp_path / "points.parquet"), points)


def test_tables_as_parquet_files_are_read(monkeypatch):
    frames = pytest.importorskip("dask.dataframe", reason="pandas is missing: no table was read")
    import pandas

    points = np.random.default_rng(7).integers(-500, 500, (3000, 3))
    table = frames.from_pandas(pandas.DataFrame(points, columns=["x", "y", "z"]).assign(weight=0.5), npartitions=4)
    monkeypatch.setattr(frames, "read_parquet", lambda path, columns: table[columns])
    matches(extremes(read("a.parquet", ["x", "y", "z"])), points)
    matches(extremes(read(["a.parquet"], ["z", "y", "x"])), points[:, ::-1])


@pytest.mark.parametrize(
    ("text", "points"),
    [
        (b"3\n2\n+1 -2\t3 # 9 9\n\n4 5 6\r\n", [[1, -2, 3], [4, 5, 6]]),
        (b"2 3\n1 2 3 4 5 6", [[1, 2, 3], [4, 5, 6]]),
        (b"3\n2\n1 2 3 # not a line end: \r 4 5 6\n7\f8\v0009\n", [[1, 2, 3], [7, 8, 9]]),
        (b"3\n1\n7\f8\v+0000000000000000000000000000009\n", [[7, 8, 9]]),
        (b"a comment\n3\nanother\n1 rest\n1\n2\n3\n", [[1, 2, 3]]),
    ],
)
def test_words_of_point_files(tmp_path, text, points):
    (tmp_path / "points.txt").write_bytes(text)
    matches(extremes(tmp_path / "points.txt"), points)


@pytest.mark.parametrize(
    ("text", "why"),
    [
        (b"3\n1\n1 2-3 4\n", "2-3"),
        (b"3\n1\n1 2 -\n", "-"),
        (b"3\n1\n1 2 3.0\n", "3.0"),
        (b"3\n2\n1 2 3\n", "1 points, and their headers count 2"),
        (b"3\n1\n1 2 3 4\n", "4 numbers"),
        (b"3\n1\n1 2 99999999999999999999\n", "1073741824"),
        (b"2\n1\n1 2\n", "neither number"),
        (b"3\n", "no header"),
        (b"3 1 1\n2 3\n", "on the line of the header"),
    ],
)
def test_point_files_that_are_not_right(tmp_path, text, why):
    (tmp_path / "points.txt").write_bytes(text)
    with pytest.raises(ValueError, match=why):
        extremes(tmp_path / "points.txt")


def test_blocks_have_each_line_once(tmp_path):
    path = point_file(tmp_path / "points.txt", [[place, 10**place, 7] for place in range(9)])
    begin, size = _files.header_of(path).end, path.stat().st_size
    for step in range(1, 40):
        ends = [*range(begin, size, step), size]
        blocks = [_files.read_block(path, start, end) for start, end in zip(ends, ends[1:])]
        assert np.concatenate(blocks)[:, 0].tolist() == list(range(9))
