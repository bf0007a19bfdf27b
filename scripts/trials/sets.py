#!/usr/bin/env python3
"""Compares the program's hulls of small degenerate sets with a hull over all triples of points, and runs of many workers with one.

    scripts/trials/sets.py [--seconds N] [--seed N] [--only oracle,one-text]

The sets are those of lib/small_sets.py: grids, planes, lines, repeats, prisms, cones, corners of the range of coordinates, slivers, and
solids with points within their faces and edges, moved and turned at random.

oracle      with a random number of workers and block size the program must write the bytes of lib/hull_oracle.py, for `rank s Fx off offt`
one-text    with 2 to 64 workers and blocks of 1 to 3 points it must write what one worker with one block writes, of two sets together
"""
import subprocess
import sys
from concurrent.futures import ThreadPoolExecutor
from pathlib import Path

sys.path.insert(0, str(Path(__file__).resolve().parents[1]))
from lib import trials  # noqa: E402
from lib.hull_oracle import file_of, hull_text  # noqa: E402
from lib.small_sets import small_set  # noqa: E402

WORKERS = [1, 1, 2, 2, 3, 4, 5, 7, 16, 64]
BLOCKS = [1, 1, 2, 3, 4, 5, 7, 13, 4096, 1_048_576]
OUTPUTS = ["rank", "s", "Fx", "off", "offt"]
# How many runs there are of each input of many workers.
EACH = 25


def words_of(workers, block):
    """The words of a run."""
    return ["--workers", str(workers), "--block", str(block), *OUTPUTS]


def answer(case):
    """What the program answers: its status and both texts."""
    program, words, data = case
    done = subprocess.run([program, *words], input=data, capture_output=True)
    return done.returncode, done.stdout, done.stderr


def difference(words, got, want, data):
    """Returns how an answer differs from the right one, or None."""
    return None if got == want else f"{' '.join(words)}: {got}, not {want}, of {data!r}"


def oracle(given, rng):
    """Sets beside the hull over all triples."""
    program = trials.need(given.program)
    while True:
        points, family = small_set(rng)
        words, data = words_of(rng.choice(WORKERS), rng.choice(BLOCKS)), file_of(points)
        text, dimension = hull_text(points, OUTPUTS)
        got = answer((program, words, data))
        yield f"{family} of dimension {dimension}", difference(words, got, (0, text, b""), data)


def one_text(given, rng):
    """Many workers beside one."""
    program = trials.need(given.program)
    with ThreadPoolExecutor(max_workers=2) as pool:
        while True:
            data = file_of(small_set(rng)[0] + small_set(rng)[0])
            want = answer((program, words_of(1, 1_048_576), data))
            shared = [words_of(rng.randint(2, 64), rng.randint(1, 3)) for _ in range(EACH)]
            for words, got in zip(shared, pool.map(answer, [(program, words, data) for words in shared])):
                yield "runs", difference(words, got, want, data) if want[0] == 0 else f"status {want[0]} of {data!r}"


if __name__ == "__main__":
    trials.main(__doc__, {"oracle": oracle, "one-text": one_text})
