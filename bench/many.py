#!/usr/bin/env python3
"""More points than one call takes: hullmany beside Qhull, and `qconvex.dask.extremes` in bounded memory.

    bench/many.py [--rounds N] [--qhull PROGRAM] file COUNT     a point file of a ball: hullmany, Qhull, and Dask here
    bench/many.py dask COUNT [--kill]                           a ball made chunk by chunk, by two workers with a thread each

`file` prints the best CPU and wall seconds and the memory of each command, and whether all have the same extreme points;
hullmany runs with one job and with four. `dask` prints the wall time, and of each worker the CPU time and the most
memory that it had; with --kill one worker is killed after five seconds, and the answer is compared with that of a run
without --kill. Needs numpy and dask, and the library of `make -C c`. Nothing is asserted.
"""
import argparse
import os
import resource
import signal
import subprocess
import sys
import tempfile
import threading
import time
from pathlib import Path

import numpy as np

import measure
import peers

TOP = Path(__file__).resolve().parents[1]
sys.path.insert(0, str(TOP / "python"))
HULLMANY = str(TOP / "python" / "bin" / "hullmany")
BY_DASK = (
    "import sys, dask; from qconvex.dask import extremes; dask.config.set(scheduler='threads', num_workers=4); "
    "found = extremes(sys.argv[1]); print(len(found.indices), *found.indices.tolist(), sep='\\n')"
)
CHUNK = 1 << 20


def ball(seed, count, radius):
    """Points spread evenly in a ball, rounded to whole numbers."""
    rng = np.random.default_rng(seed)
    points = rng.standard_normal((count, 3))
    points *= (radius * rng.random(count) ** (1 / 3) / np.linalg.norm(points, axis=1))[:, np.newaxis]
    return np.rint(points).astype(np.int32)


def write(count, path):
    """A point file."""
    with open(path, "w", encoding="ascii") as target:
        target.write(f"3\n{count}\n")
        for seed, start in enumerate(range(0, count, CHUNK)):
            points = ball(seed, min(CHUNK, count - start), 1 << 20)
            target.write(("%d %d %d\n" * len(points)) % tuple(points.ravel().tolist()))


def extremes_of(command, path):
    """The numbers that a command writes, in order."""
    with open(path, "rb") as source:
        return sorted(subprocess.run(command, stdin=source, stdout=subprocess.PIPE, check=True).stdout.split())


def of_file(given):
    """Measures all programs on a file."""
    os.environ["PYTHONPATH"] = str(TOP / "python")
    with tempfile.TemporaryDirectory() as folder:
        path = os.path.join(folder, "points.txt")
        # By a process of its own: the peak memory of a child begins at its parent's.
        subprocess.run([sys.executable, __file__, "write", str(given.count), path], check=True)
        hullmany = [sys.executable, HULLMANY, "--quiet", "--jobs"]
        commands = {
            "Qhull": [given.qhull, "Fx"],
            "hullmany --jobs 1 Fx": [*hullmany, "1", "Fx"],
            "hullmany --jobs 4 Fx": [*hullmany, "4", "Fx"],
            "qconvex.dask.extremes, four threads": [sys.executable, "-c", BY_DASK, path],
        }
        columns = [measure.Column(name, command, False) for name, command in commands.items()]
        columns[0] = measure.Column("Qhull", [given.qhull, "s"], False)
        for column, runs in zip(columns, measure.runs_in_turn(columns, path, given.rounds)):
            wall, cpu, memory, _ = map(min, zip(*runs))
            print(f"| {column.name} | {cpu:.1f} | {wall:.1f} | {memory:.0f} | status {runs[-1].status}")
        answers = [extremes_of(command, path) for command in commands.values()]
        print(len(answers[0]) - 1, "extreme,", "the same" if answers.count(answers[0]) == len(answers) else "DIFFERENT")


def chunk_of_ball(block, block_info=None):
    return ball(block_info[None]["chunk-location"][0], len(block), 1 << 29)


def used():
    """CPU seconds and the most MB so far."""
    return time.process_time(), resource.getrusage(resource.RUSAGE_SELF).ru_maxrss / 1024


def by_dask(count, kill):
    """The extreme points of a ball, with a line of what it took."""
    import dask.array as da
    from distributed import Client, LocalCluster
    from qconvex.dask import extremes

    cluster = LocalCluster(n_workers=2, threads_per_worker=1, memory_limit="1GB", dashboard_address=None)
    with cluster, Client(cluster) as client:
        shape = da.zeros((count, 3), chunks=(CHUNK, 3), dtype=np.int8)
        victim = next(iter(client.run(os.getpid).values()))
        print("at the start", *("%.1f s CPU, %.0f MB" % numbers for numbers in client.run(used).values()), sep="; ")
        killer = threading.Timer(5, os.kill, (victim, signal.SIGKILL))
        if kill:
            killer.start()
        start = time.monotonic()
        found = extremes(shape.map_blocks(chunk_of_ball, dtype=np.int32), client)
        print(f"{count} points, {len(found.indices)} extreme, {time.monotonic() - start:.0f} s")
        killer.cancel()
        client.wait_for_workers(2)
        print("at the end", *("%.1f s CPU, %.0f MB" % numbers for numbers in client.run(used).values()), sep="; ")
        print("a worker was killed" if victim not in client.run(os.getpid).values() else "no worker was killed")
        return found


def main():
    parser = argparse.ArgumentParser(description=__doc__, formatter_class=argparse.RawDescriptionHelpFormatter)
    parser.add_argument("--rounds", type=int, default=3)
    parser.add_argument("--qhull", default=peers.QHULL)
    parser.add_argument("--kill", action="store_true")
    parser.add_argument("what", choices=["file", "dask", "write"])
    parser.add_argument("count", type=int)
    parser.add_argument("path", nargs="?")
    given = parser.parse_args()
    if given.what == "write":
        write(given.count, given.path)
    elif given.what == "file":
        of_file(given)
    else:
        found = by_dask(given.count, given.kill)
        if given.kill:
            print("the same" if (found.indices == by_dask(given.count, False).indices).all() else "DIFFERENT")


if __name__ == "__main__":
    main()
