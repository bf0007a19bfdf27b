#!/usr/bin/env python3
"""Measures this program on seeded points: time and memory, by numbers of workers, beside an older build and other programs.

    bench/measure.py --families cube,sphere --counts 1000,1000000 --workers 1,4 --rounds 5
    bench/measure.py --families worst --peers qhull,cgal --limit 4 --ratios cpu:4/peers=2 --growth 16
    bench/measure.py --families images --workers 1,2,3,4,8 --ratios 2/1=1.1,4/1=1.3,cpu:4/1=2,median:4/1=0.9
    bench/measure.py --before BEFORE/qconvex --ratios cpu:4/before-4=1.03 --processors 2

All programs of a row read the same file in turn, round after round. A column is a number of workers of this program, `before-N` of the
older build, a peer, or the name of another command. `peers` in a ratio is the fastest peer. A run of either build that fails ends the
script. The status is 1 if a ratio is above the limit behind its `=`. Ratios of times that differ by less than half a millisecond are
within every limit. `chrt -f 20 bench/measure.py ..` runs all at real-time priority.
"""
import argparse
import os
import re
import resource
import shlex
import statistics
import subprocess
import sys
import tempfile
import time
from collections import namedtuple
from pathlib import Path

import peers
import points

BENCH = Path(__file__).resolve().parent
sys.path.insert(0, str(BENCH.parent / "scripts"))
from lib.paths import PROGRAM, built  # noqa: E402
from lib.runs import must_succeed  # noqa: E402

# Seconds by which runs of one program differ.
RESOLUTION = 0.0005
TIMED = ["wall", "cpu", "memory"]
FORMATS = {"wall": "%.3f", "cpu": "%.3f", "memory": "%.0f", "extreme": "%d", "instructions": "%.0f"}
RATIO = re.compile(r"(?P<median>median:)?(?:(?P<number>wall|cpu|memory|instructions):)?(?P<of>[^/=:]+)/(?P<by>[^/=]+)(?:=(?P<limit>[0-9.]+))?")

# A run's wall and CPU seconds, MB, and status, which is `limit` if it was stopped.
Run = namedtuple("Run", "wall cpu memory status")
# A program in the table: its name, its command, and whether it is a build of this program.
Column = namedtuple("Column", "name command own")


# One run.


def write_points(family, count, path):
    """Writes a point file by a process of its own, since the peak memory of a child begins at its parent's."""
    with open(path, "wb") as target:
        subprocess.run([sys.executable, BENCH / "points.py", family, str(count)], stdout=target, check=True)


def run(command, path, limit=None):
    """Runs a command on a file; the limit is of its CPU seconds."""
    bounded = (lambda: resource.setrlimit(resource.RLIMIT_CPU, (limit, limit))) if limit else None
    with open(path, "rb") as source, open(os.devnull, "wb") as sink:
        start = time.monotonic()
        process = subprocess.Popen(command, stdin=source, stdout=sink, stderr=subprocess.DEVNULL, preexec_fn=bounded)
        _, status, usage = os.wait4(process.pid, 0)
        wall = time.monotonic() - start
        process.returncode = os.waitstatus_to_exitcode(status)
    cpu = usage.ru_utime + usage.ru_stime
    stopped = limit and process.returncode < 0 and cpu > limit - 0.5
    return Run(wall, cpu, usage.ru_maxrss / 1024, "limit" if stopped else process.returncode)


def runs_in_turn(columns, path, rounds, limit=None):
    """Returns the runs of each column. One of this program that fails ends the script; a peer that fails or is stopped has no other."""
    found = [[] for _ in columns]
    for _ in range(rounds):
        for column, runs in zip(columns, found):
            if runs and runs[-1].status:
                continue
            # A peer is never stopped before half of the time of this program.
            most = limit and not column.own and max(limit, int(found[0][0].cpu / 2) + 1)
            runs.append(run(column.command, path, most))
            if column.own:
                must_succeed(column.command, runs[-1].status)
    return found


def least(command, path, rounds):
    """Returns the least of each number of a build of this program, over some rounds."""
    (runs,) = runs_in_turn([Column("", command, True)], path, rounds)
    return Run(*map(min, zip(*runs)))


def extremes_of(command, path):
    """Returns the number of extreme points that a program finds, which is the first number that it prints; -1 if it finds none."""
    command = [command[0], "Fx"] if "qconvex" in os.path.basename(command[0]) else command[:1]
    with open(path, "rb") as source:
        words = subprocess.run(command, stdin=source, capture_output=True, check=False).stdout.split(None, 1)[:1]
    return int(words[0]) if words and words[0].isdigit() else -1


def instructions_of(command, path):
    """Returns the millions of instructions of all threads of a run, by valgrind: the same on a busy machine as on a quiet one."""
    tool = ["valgrind", "--tool=callgrind", "--callgrind-out-file=/dev/null"]
    with open(path, "rb") as source:
        done = subprocess.run(tool + command, stdin=source, stdout=subprocess.DEVNULL, stderr=subprocess.PIPE, text=True, check=True)
    return int(re.search(r"Collected : (\d+)", done.stderr)[1]) / 1e6


ONCE = {"extreme": extremes_of, "instructions": instructions_of}


# The table.


def columns_of(given, output):
    """Returns the programs of a table for an output."""
    builds = [("", given.ours)] + ([("before-", given.before)] if given.before else [])
    words = [*given.words.split(), *output.split("+")]
    found = [Column(f"{prefix}{n}", [program, "--workers", n, *words], True) for prefix, program in builds for n in given.workers]
    found += [Column(name, peers.command_of(name, output), False) for name in given.peers]
    return found + [Column(name, shlex.split(command), False) for name, command in given.commands]


def numbers_of(given, column, runs, path):
    """Returns the least and the median of each number of a column's runs, or the word for a peer that has none."""
    status = runs[-1].status
    if status not in (0, "limit"):
        return None, None
    once = {name: ONCE[name](column.command, path) for name in given.show if name in ONCE and status == 0}
    rows = list(zip(*(r[:3] for r in runs)))
    return [{**dict(zip(TIMED, map(choose, rows))), **once, "status": status} for choose in (min, statistics.median)]


def cell(given, numbers):
    """Returns a cell of the table."""
    if numbers is None:
        return "refused"
    if numbers["status"] == "limit":
        return "> %.0f" % numbers["cpu"]
    return "/".join(FORMATS[name] % numbers[name] for name in given.show)


def ratio_of(given, ratio, found):
    """Returns the ratio of two columns and whether it is within its limit; nothing where a program has no time."""
    number = ratio["number"] or next(name for name in given.show if name != "extreme")
    beside = given.peers if ratio["by"] == "peers" else [ratio["by"]]
    # A peer that was stopped counts with the time that it had.
    times = [found[name][number] for name in beside if found[name] and number in found[name]]
    if not times or not found[ratio["of"]]:
        return None, True
    of, by = found[ratio["of"]][number], max(min(times), RESOLUTION)
    limit = float(ratio["limit"] or "inf")
    return of / by, of - RESOLUTION <= limit * by


class Table:
    """The rows of a table, what exceeds its limit, and what ratios and growth are made of."""

    def __init__(self, given):
        self.given = given
        self.ratios, self.before, self.faults = {}, {}, []

    def head(self):
        """Prints the head of the table. A ratio of an unknown column ends the script."""
        given = self.given
        columns = [column.name for column in columns_of(given, given.outputs[0])]
        for title, ratio in given.ratios:
            if ratio["of"] not in columns or ratio["by"] not in [*columns, *["peers"] * bool(given.peers)]:
                sys.exit(f"{title} is no ratio of two columns, which are {', '.join(columns)}")
        names = columns + [title for title, _ in given.ratios]
        names = ["family", "points", "output"] + ["of"] * given.median + names + ["growth"] * bool(given.growth)
        print(f"Each cell: {'/'.join(given.show)}, {'least and median' if given.median else 'the least'} of {given.rounds} rounds in turn")
        print(f"\n| {' | '.join(names)} |\n{'|---' * len(names)}|", flush=True)

    def growth(self, key, count, seconds):
        """Returns how the time grew for ten times the points, if there were fewer of them before; a limit exceeded is a fault."""
        fewer = self.before.get(key)
        self.before[key] = count, seconds
        if not fewer or count <= fewer[0]:
            return ""
        growth = seconds / fewer[1] * 10 / (count / fewer[0])
        if growth > self.given.growth:
            self.faults.append(f"{' '.join(key)}, {count} points: growth {growth:.1f}, above {self.given.growth}")
        return "%.1f" % growth

    def ratio_cells(self, place, found, name):
        """Returns the cells of the ratios of a row, and keeps those of the least times."""
        for title, ratio in self.given.ratios:
            value, within = ratio_of(self.given, ratio, found)
            if value is not None and name == "least":
                self.ratios.setdefault((place[1], place[2], title), []).append((value, place[0]))
                if not within and not ratio["median"]:
                    self.faults.append(f"{', '.join(place)}: {title} is {value:.2f}")
            yield "" if value is None else "%.2f" % value

    def row(self, family, count, path):
        """Measures all programs on one file, and prints a row for each output."""
        given = self.given
        for output in given.outputs:
            columns, place = columns_of(given, output), (family, str(count), output)
            runs = runs_in_turn(columns, path, given.rounds, given.limit)
            pairs = [numbers_of(given, *pair, path) for pair in zip(columns, runs)]
            for which, name in enumerate(["least", "median"][: 1 + given.median]):
                found = {column.name: pair[which] for column, pair in zip(columns, pairs)}
                cells = [*place, *[name] * given.median, *(cell(given, found[column.name]) for column in columns)]
                cells += self.ratio_cells(place, found, name)
                if given.growth:
                    seconds = max(found[given.workers[-1]]["cpu"], RESOLUTION)
                    cells.append(self.growth((family, output), count, seconds) if name == "least" else "")
                print(f"| {' | '.join(cells)} |", flush=True)

    def summary(self):
        """Prints the median and the greatest of each ratio over the families, and each fault; returns the number of faults."""
        limits = dict(self.given.ratios)
        for (count, output, title), values in self.ratios.items():
            median, (most, family) = statistics.median(value for value, _ in values), max(values)
            if len(values) > 1:
                print(f"{count} points, {output}, {title}: median {median:.2f}, greatest {most:.2f} ({family})")
            if limits[title]["median"] and median > float(limits[title]["limit"]):
                self.faults.append(f"{count} points, {output}: the median of {title} is {median:.2f}")
        for fault in self.faults:
            print(fault, file=sys.stderr)
        return len(self.faults)


# The command line.


def list_of(text):
    """Words with commas between them."""
    return text.split(",") if text else []


def ratio(text):
    """A ratio, by the text that names it."""
    found = RATIO.fullmatch(text)
    if not found or found["median"] and not found["limit"]:
        raise argparse.ArgumentTypeError(f"{text} is no ratio such as 4/1, cpu:4/qhull=0.3 or median:4/1=0.9")
    return text, found.groupdict()


def named_command(text):
    """The name of a command and the command, which have an equals sign between them."""
    name, _, command = text.partition("=")
    return name, command or name


def arguments():
    parser = argparse.ArgumentParser(description=__doc__, formatter_class=argparse.RawDescriptionHelpFormatter)
    parser.add_argument("--families", type=points.names_of, default="solid", help="with commas; solid, ordinary, worst, images; FAMILY@MAP")
    parser.add_argument("--counts", type=list_of, default="100000,1000000", help="numbers of points")
    parser.add_argument("--outputs", type=list_of, default="s", help="outputs, each measured by itself; rank+off is both in one run")
    parser.add_argument("--workers", type=list_of, default="4", help="numbers of workers")
    parser.add_argument("--words", default="", help="words that both builds are given, such as '--block 1048576'")
    parser.add_argument("--ours", type=built, default=PROGRAM, help="this program")
    parser.add_argument("--before", type=built, help="an older build of it")
    parser.add_argument("--peers", type=list_of, default="", help="of qhull, cgal, cgal-plain, bullet")
    parser.add_argument("--command", dest="commands", type=named_command, action="append", default=[], metavar="NAME=COMMAND")
    parser.add_argument("--show", type=list_of, default="wall,cpu,memory", help="of wall, cpu, memory, extreme (points), instructions (millions)")
    parser.add_argument("--rounds", type=int, default=3)
    parser.add_argument("--median", action="store_true", help="the median of the rounds, too")
    parser.add_argument("--ratios", type=lambda text: [ratio(word) for word in list_of(text)], default="", metavar="[NUMBER:]A/B[=LIMIT],..")
    parser.add_argument("--growth", type=float, default=0, help="the most that the CPU time may grow for ten times the points")
    parser.add_argument("--limit", type=int, help="CPU seconds after which a peer is stopped")
    parser.add_argument("--processors", type=int, help="run on so many processors alone")
    return parser.parse_args()


def main():
    given = arguments()
    if given.processors:
        os.sched_setaffinity(0, sorted(os.sched_getaffinity(0))[: given.processors])
    table = Table(given)
    table.head()
    with tempfile.TemporaryDirectory() as folder:
        path = os.path.join(folder, "points.txt")
        for family in given.families:
            for count in map(int, given.counts):
                write_points(family, count, path)
                table.row(family, count, path)
    return 1 if table.summary() else 0


if __name__ == "__main__":
    sys.exit(main())
