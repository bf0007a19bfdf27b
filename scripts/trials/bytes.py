#!/usr/bin/env python3
"""Compares what the program reads of mutated files with an independent reader.

    scripts/trials/bytes.py [--seconds N] [--seed N] [--only limits,points,off,threads]

The reader is lib/file_oracle.py, and the files are those of lib/mutated_files.py: small valid ones of every layout, whose bytes are inserted,
deleted, flipped and cut, and whose words are exchanged for words at every limit. For a fault the program must write its line, and nothing
else, and end with status 1; for points it must write the `rank Fx off` of their hull, as lib/hull_oracle.py has it, and end with status 0.
What differs is printed with the fewest of the file's bytes that still make a difference.

limits      2^20 points, a point more, 2^28 bytes, a byte more, each from a file and on a pipe; with a fault at the start; takes a gigabyte
points      point files, a third each from a file, on a pipe in one piece, and in pieces of random length on a packet pipe
off         OFF files, with comments, with faces and with junk in their place, by `--from off`
threads     longer files of both forms read serially and by threads in batches of a few bytes, by the program that
            `scripts/make/programs.py read_ways` builds
"""
import os
import subprocess
import sys
import tempfile
from functools import partial
from pathlib import Path

sys.path.insert(0, str(Path(__file__).resolve().parents[1]))
from lib import trials  # noqa: E402
from lib.file_oracle import BYTE_LIMIT, COUNT_LIMIT, Fault, off_points_of, points_of  # noqa: E402
from lib.hull_oracle import hull_text  # noqa: E402
from lib.mutated_files import FEW, MANY, mutated_file  # noqa: E402
from lib.paths import READ_WAYS  # noqa: E402

OUTPUTS = ["rank", "Fx", "off"]
# The greatest pieces of a file that comes in pieces; a packet pipe keeps 4,096 bytes together.
PIECES = [1, 2, 5, 20, 200]
# How many files one run of the program with threads reads.
TOGETHER = 200


def run_on(command, source, feed):
    """Returns the answer of a run that reads this descriptor, while its other end is fed."""
    with subprocess.Popen(command, stdin=source, stdout=subprocess.PIPE, stderr=subprocess.PIPE) as running:
        feed()
        said, told = running.communicate()
    return running.returncode, said, told


def on_pipe(command, pieces, flags=0):
    """Returns the answer of a run that gets its input on a pipe in these pieces."""
    source, sink = os.pipe2(os.O_CLOEXEC | flags)

    def feed():
        os.close(source)
        try:
            for piece in pieces:
                os.write(sink, piece)
        except BrokenPipeError:
            pass
        finally:
            os.close(sink)

    return run_on(command, source, feed)


def cut(data, size):
    """The bytes in pieces of a size."""
    return [data[first : first + size] for first in range(0, len(data), size)]


def in_one_piece(_rng, command, data):
    return on_pipe(command, cut(data, 1 << 20))


def in_pieces(rng, command, data):
    most, ends = rng.choice(PIECES), [0]
    while ends[-1] < len(data):
        ends.append(ends[-1] + rng.randint(1, most))
    return on_pipe(command, [data[first:past] for first, past in zip(ends, ends[1:])], os.O_DIRECT)


def from_file(_rng, command, data):
    with tempfile.TemporaryFile() as source:
        source.write(data)
        source.seek(0)
        return run_on(command, source, lambda: None)


def wanted(data, reader):
    """Returns the answer that a reader requires for these bytes, and the name of the fault."""
    try:
        points = reader(data)
    except Fault as fault:
        return (1, b"", fault.message), fault.name
    return (0, hull_text(points, OUTPUTS)[0], b""), "no fault"


def smallest(command, reader, data):
    """Returns a shorter input that still makes a difference in one piece, leaving out one byte at a time."""
    place = 0
    while place < len(data):
        fewer = data[:place] + data[place + 1 :]
        if in_one_piece(None, command, fewer) != wanted(fewer, reader)[0]:
            data = fewer
        else:
            place += 1
    return data


def mutated(off, given, rng):
    """Mutated files of one form."""
    command, reader = [trials.need(given.program), *OUTPUTS], off_points_of if off else points_of
    command += ["--from", "off"] if off else []
    while True:
        data, way = mutated_file(rng, off, FEW), rng.choice([in_one_piece, from_file, in_pieces])
        (want, name), got = wanted(data, reader), way(rng, command, data)
        least = "" if got == want else smallest(command, reader, data)
        yield name, None if got == want else f"{way.__name__}: {got}, not {want}, of {data!r}; in one piece {least!r}"


def large_files():
    """Yields inputs at the limits of points and bytes, with the required answer."""
    head, one = b"3\n1\n5 5 5\n", b"1\n0\nOFF\n1 1 0\n5 5 5\n1 0\n"
    big = (1, b"", Fault(10, "Big").message)
    yield b"3 1048576\n" + b"5 5 5\n" * COUNT_LIMIT, (0, b"1048576 1 0\n" + one, b"")
    yield b"3 1048577\n" + b"5 5 5\n" * (COUNT_LIMIT + 1), (1, b"", Fault(4, "Count").message)
    yield head.ljust(BYTE_LIMIT), (0, b"1 1 0\n" + one, b"")
    yield head.ljust(BYTE_LIMIT + 1), big
    yield b"3\n1\n0.5\n".ljust(BYTE_LIMIT), (1, b"", Fault(2, "BadNumber", 3).message)
    yield b"3\n1\n0.5\n".ljust(BYTE_LIMIT + 1), big


def limits(given, _rng):
    """The inputs at the limits."""
    command = [trials.need(given.program), *OUTPUTS]
    for data, want in large_files():
        for way in (in_one_piece, from_file):
            got = way(None, command, data)
            yield way.__name__, None if got == want else f"{got}, not {want}, of {len(data)} bytes that begin with {data[:20]!r}"


def line_of(data, off):
    """The line that the program with threads must print, and the name of the fault."""
    try:
        points = (off_points_of if off else points_of)(data)
    except Fault as fault:
        line = fault.message.decode().partition(" at line ")[2].strip()
        return f"{fault.name}({line})" if line else fault.name, fault.name
    total = 0
    for value in (value for point in points for value in point):
        total = (total * 31 + value) % 2**64
    return f"{len(points)} {total - (total >> 63 << 64)}", "no fault"


def threads(_given, rng):
    """Longer files, read serially and by threads."""
    program = trials.need(READ_WAYS, "scripts/make/programs.py read_ways builds it")
    while True:
        forms = [rng.random() < 0.5 for _ in range(TOGETHER)]
        files = [(mutated_file(rng, off, MANY)[:999_999], off) for off in forms]
        text = b"".join(b"%c%06d\n" % (b"qo"[off], len(data)) + data for data, off in files)
        lines = subprocess.run([program], input=text, stdout=subprocess.PIPE, check=True).stdout.decode().splitlines()
        if len(lines) != len(files):
            yield "runs", f"{len(lines)} lines for {len(files)} files"
        for (data, off), line in zip(files, lines):
            want, name = line_of(data, off)
            yield name, None if line == want else f"{line}, not {want}, of {'an OFF' if off else 'a point'} file {data!r}"


if __name__ == "__main__":
    sys.set_int_max_str_digits(0)
    trials.main(__doc__, {"limits": limits, "points": partial(mutated, False), "off": partial(mutated, True), "threads": threads})
