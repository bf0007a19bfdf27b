"""Makes the exact hull of more points than the program takes at once, in parts, here or on other machines.

    hullmany [--part N] [--jobs N] [--run COMMAND]... [--engine dask://ADDRESS] [--file FILE]... [--bits N] [OUT]... < points.txt

The input is a point file whose count may be any number. It is cut at line ends into parts of N points; of each part the
extreme points are taken, then of what is left, put together anew, and so on until it fits one part; of that the answer is
made. A point that is not extreme in a part is not extreme in the whole, so this is exact, and the answer is the same to the
byte whatever the parts. OUT is `Fx` (the default), with the indices of the whole file, or `off`, whose faces name the
extreme points as ever. Of equal points the lowest index stands for all. Points that do not stand a line each are taken word
by word, which is slower.

Each part is given to a shell command on its standard input, `COMMAND Fx off`, whose standard output is read. By itself that
is the program that was built where this command stands in its repository, else `qconvex-exact` or `qconvex` as installed,
which is given at once as many points as it takes, with --jobs workers;
other machines, or a job runner, are named by --run, once each. Every command works at --jobs parts at a time, and takes
the next part as soon as it is free. A part that a command fails at is tried again, by another
command if there is one:

    hullmany --run 'ssh one qconvex' --run 'ssh two qconvex' --jobs 4 off < points.txt

With --file the points are those of files, one after the other: point files, csv with three columns of whole numbers, and arrays
in npy. With --engine the parts are taken by the workers of a Dask scheduler, which open the files of --file by the same names;
docs/MANY-POINTS.md says what they need. The last step, of the points that are left, is done here.

With --bits the files have floats, and the answer is what `ConvexHull.from_floats` gives for all of them: the exact hull of whole
points near the floats, on the finest grid whose whole numbers have so many bits (30 at most). Standard error tells `exact` if all
floats are points of the grid, else by how much they were moved at most. The places in `off` are those of the whole points in the
units of the floats. Decimals are read as the nearest float64, and by how much that moved them at most is added.

A line on standard error tells how far it is, and about how long the first round still takes. Of the points only those that
are left are kept in memory, beside two parts a job. If a round takes away fewer than one point in a hundred, what is left
is given to the program at once; if that is more than it takes, there is no answer: the hull has then very many corners. The
status is 0, or 1 with a line that says what was wrong.
"""
from __future__ import annotations

import argparse
import os
import shlex
import shutil
import sys
import time
from collections import deque
from concurrent.futures import Future, ThreadPoolExecutor
from contextlib import contextmanager
from typing import TYPE_CHECKING, BinaryIO, Deque, Iterable, Iterator, List, NamedTuple, Optional, Tuple

from .._limits import POINT_LIMIT
from .part_lines import LineParts, Part, Refused, header_of, part_of_points, word_parts
from .part_runs import Answer, Irregular, Runs
from .point_streams import are_one_text, opened

if TYPE_CHECKING:
    from .._grid import Snapped

# A point as its index and its line.
Indexed = Tuple[int, bytes]
Pending = Deque[Tuple[Part, "Future[Answer]"]]

OUTPUTS = ["Fx", "off"]
BUILT = os.path.join(os.path.realpath(__file__).rsplit(os.sep, 4)[0], "crates", "qconvex", "out", "qconvex")
# The number of lines before a part that are not those of one file.
NO_LINES = -(1 << 62)
# With no --part, the first round has about PARTS_EACH parts for each that is worked at at a time, of LEAST_PART points at least.
PARTS_EACH, LEAST_PART = 6, 1 << 16
MOST_WORKERS = 64  # of the program


class Progress:
    """A line on standard error that tells how far a round is."""

    def __init__(self, number: int, total: int, shown: bool) -> None:
        self.number, self.total, self.shown = number, total, shown
        self.parts = self.points = self.kept = 0
        self.start = time.monotonic()

    def done(self, part: Part, kept: int) -> None:
        """Another part is done."""
        self.parts += 1
        self.points += part.count
        self.kept += kept
        if sys.stderr.isatty():
            seconds = (time.monotonic() - self.start) * max(self.total - self.points, 0) / self.points
            self.tell(f", {seconds:.0f} s left \r")

    def tell(self, end: str = "\n") -> None:
        """Writes the line."""
        if self.shown:
            text = f"round {self.number}: {self.parts} parts, {self.points} points, {self.kept} kept"
            print(text, end=end, file=sys.stderr, flush=True)


@contextmanager
def threads_for(runs: Runs) -> Iterator[ThreadPoolExecutor]:
    """A thread for each part that is worked at at a time. After an error or an interrupt no other part is begun."""
    with ThreadPoolExecutor(runs.count) as pool:
        try:
            yield pool
        except BaseException:
            runs.stop()
            pool.shutdown(wait=False, cancel_futures=True)
            raise


def in_order(parts: Iterable[Part], runs: Runs, pool: ThreadPoolExecutor, pending: Pending) -> Iterator[Tuple[Part, Answer]]:
    """Each part with its extreme points, in order; those that are worked at stand in `pending`, twice as many as there are runs."""
    for part in parts:
        pending.append((part, pool.submit(runs.answer, part)))
        if len(pending) == 2 * runs.count:
            yield pending[0][0], pending[0][1].result()
            pending.popleft()
    while pending:
        yield pending[0][0], pending[0][1].result()
        pending.popleft()


class Left(NamedTuple):
    """Points among which all extreme points are, and what the program answers of all where they were one part."""

    points: List[Indexed]
    answer: Optional[Answer] = None


def first_round(parts: LineParts, runs: Runs, progress: Progress) -> Left:
    """The extreme points of parts of lines, each as its index and its line."""
    kept: List[Indexed] = []
    pending: Pending = deque()
    first = 0
    with threads_for(runs) as pool:
        answers = in_order(parts, runs, pool, pending)
        while True:
            try:
                for part, found in answers:
                    kept += zip((first + place for place in found.places), found.points)
                    first += part.count
                    progress.done(part, len(found.places))
                return Left(kept, found if progress.parts == 1 else None)
            except Irregular:
                held = [part for part, _ in pending]
                pending.clear()
                answers = in_order(word_parts(held, parts.lines_left(), parts.size), runs, pool, pending)


def next_round(points: List[Indexed], size: int, runs: Runs, progress: Progress) -> List[Indexed]:
    """The extreme points of parts of points that are left."""
    count = -(-len(points) // size)
    dealt = [points[start::count] for start in range(count)]  # each point in another part than its neighbours
    kept: List[Indexed] = []
    with threads_for(runs) as pool:
        parts = [part_of_points(point for _, point in part) for part in dealt]
        for part, (of_part, found) in zip(dealt, in_order(parts, runs, pool, deque())):
            kept += (part[place] for place in found.places)
            progress.done(of_part, len(found.places))
    return sorted(kept)


def survivors(source: BinaryIO, is_file: bool, options: argparse.Namespace, runs: Runs) -> Left:
    """Points among which all extreme points are, in the order of their indices, as many as fit one part."""
    header = header_of(source)
    before = header.lines - bool(header.rest) if is_file else NO_LINES
    size = options.part or min(POINT_LIMIT, max(LEAST_PART, -(-header.count // (PARTS_EACH * runs.count))))
    if header.count <= POINT_LIMIT and not (options.part or options.run):  # the program takes them at once
        size, runs = POINT_LIMIT, Runs([own_command(min(runs.count, MOST_WORKERS))], 1, options.retries)
    progress = Progress(1, header.count, not options.quiet)
    parts = LineParts(source, size, header.rest, before)
    left = first_round(parts, runs, progress)
    progress.tell()
    if progress.points != header.count:
        raise Refused(f"the input has {progress.points} points; the header counts {header.count}")
    return left if left.answer else Left(fewer(left.points, options, runs))


def fewer(points: List[Indexed], options: argparse.Namespace, runs: Runs) -> List[Indexed]:
    """As many of the points as fit one part, all extreme points among them."""
    size, number = options.part or POINT_LIMIT, 2
    before: Optional[int] = None
    while len(points) > size:
        if before is not None and 100 * len(points) > 99 * before:
            if len(points) > POINT_LIMIT:
                raise Refused(f"{len(points)} points are extreme in their parts; the program takes {POINT_LIMIT} at once")
            break
        progress = Progress(number, len(points), not options.quiet)
        before, points, number = len(points), next_round(points, size, runs, progress), number + 1
        progress.tell()
    return points


def by_dask(options: argparse.Namespace) -> Tuple[Left, Optional[Snapped]]:
    """The extreme points of files, by the workers of a Dask scheduler, and the grid of floats."""
    try:
        from ..dask import extremes

        found = extremes(options.file, options.engine.replace("dask://", "tcp://", 1), options.retries, options.bits)
    except (ImportError, OSError, TypeError, ValueError) as why:
        raise Refused(f"{options.engine}: {why}") from None
    points = found.grid.points if found.grid else found.points
    return Left([(index, b"%d %d %d" % tuple(point)) for index, point in zip(found.indices.tolist(), points.tolist())]), found.grid


def by_runs(options: argparse.Namespace, runs: Runs) -> Tuple[Left, Optional[Snapped]]:
    """The same by the commands."""
    if options.bits is None:
        with opened(options.file) if options.file else sys.stdin.buffer as source:
            return survivors(source, are_one_text(options.file or ["-"]), options, runs), None
    try:
        from .float_streams import FloatStream

        floats = FloatStream(options.file, options.bits)
        with floats.opened() as source:
            return survivors(source, False, options, runs), floats.units()
    except (ImportError, TypeError, ValueError) as why:
        raise Refused(str(why)) from None


def texts_of(left: Left, grid: Optional[Snapped], runs: Runs, outputs: List[str]) -> List[bytes]:
    """The texts of the outputs for the whole input."""
    found = left.answer or runs.answer(part_of_points(point for _, point in left.points))
    indices, off = found.indices, found.off
    if not left.answer:
        indices = b"".join(b"%d\n" % number for number in [len(found.places), *(left.points[place][0] for place in found.places)])
    if grid:
        from .float_streams import in_units, told

        print(told(grid), file=sys.stderr)
        off = in_units(off, grid)
    texts = {"Fx": [indices], "off": [b"OFF\n", off]}
    return [text for output in outputs for text in texts[output]]


def own_command(workers: int = 1) -> str:
    """The program with some workers: that of this repository where it was built, else one that is installed."""
    installed = shutil.which("qconvex-exact") or shutil.which("qconvex")
    program = BUILT if os.path.exists(BUILT) else installed
    if not program:
        raise Refused("the program is not installed: name one by --run")
    return f"{shlex.quote(program)} --workers {workers}"


def arguments() -> argparse.Namespace:
    parser = argparse.ArgumentParser(prog="hullmany", description=__doc__, formatter_class=argparse.RawDescriptionHelpFormatter)
    parser.add_argument("--part", type=int, help=f"points of a part (default: {POINT_LIMIT}, or fewer in the first round)")
    parser.add_argument("--jobs", type=int, default=2, help="how many parts a command works at at a time (default 2)")
    parser.add_argument("--run", action="append", metavar="COMMAND", help="a shell command that runs the program somewhere")
    parser.add_argument("--retries", type=int, default=3, help="how often a part is tried again (default 3)")
    parser.add_argument("--engine", metavar="dask://ADDRESS", help="the scheduler whose workers take the parts")
    parser.add_argument("--file", action="append", help="a file in place of standard input: points, csv or npy; may be repeated")
    parser.add_argument("--bits", type=int, help="take floats, and put them on a grid whose whole numbers have so many bits")
    parser.add_argument("--quiet", action="store_true", help="no progress line")
    parser.add_argument("outputs", nargs="*", default=["Fx"], metavar="OUT", help="Fx or off (default Fx)")
    options = parser.parse_args()
    if set(options.outputs) - set(OUTPUTS):
        parser.error("OUT is Fx or off")
    if options.jobs < 1 or options.retries < 0 or not 1 <= (options.part or 1) <= POINT_LIMIT:
        parser.error(f"--part is 1 to {POINT_LIMIT}, --jobs 1 or more, --retries 0 or more")
    if options.engine and not (options.engine.startswith("dask://") and options.file):
        parser.error("--engine is dask://ADDRESS, and wants --file")
    if options.bits is not None and not options.file:
        parser.error("--bits wants --file")
    return options


def main() -> None:
    options = arguments()
    try:
        runs = Runs(options.run or [own_command()], options.jobs, options.retries)
        left, grid = by_dask(options) if options.engine else by_runs(options, runs)
        if not left.points:
            raise Refused("there are no points")
        sys.stdout.buffer.writelines(texts_of(left, grid, runs, options.outputs))
    except (Refused, OSError) as why:
        sys.exit(f"hullmany: {why}")
    except KeyboardInterrupt:
        sys.exit("hullmany: interrupted")


if __name__ == "__main__":
    main()
