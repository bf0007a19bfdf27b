#!/usr/bin/env python3
"""Refuses each growth and each thread in turn, of the programs and of calls, and checks how they end.

    scripts/trials/refusals.py [--seconds N] [--seed N] [--only program,checker,calls]

lib/refuse.c refuses the Nth call of malloc or realloc that a program makes, or all from the Nth on, or the same of pthread_create. N goes up
from 1 until a run meets no refusal. Each run must have given back as many blocks as it took, and end within a minute. The seed gives the
order of the sweeps, in which the seconds may end; all together take about twenty minutes.

program     qconvex over three examples and 2,000 points, with 1, 2 and 7 workers: the right text of `rank s Fx off` and status 0, or
            `qconvex: 8: Memory` and status 3. Of the 2,000 points a sweep has about 100 runs
checker     hullcheck on right and wrong faces of the examples, whole and in triangles: the right verdict, or out of memory
calls       the tests of the crates' modules `refusals`, proved and built by `rt test`: each passes. Of a test `falls_back` one run that met
            a refusal passes: there the calling thread took the place of a worker
"""
import random
import subprocess
import sys
from pathlib import Path

sys.path.insert(0, str(Path(__file__).resolve().parents[1]))
from lib import refusing, trials  # noqa: E402
from lib.file_oracle import points_of  # noqa: E402
from lib.hull_oracle import file_of, hull_text  # noqa: E402
from lib.paths import TOP  # noqa: E402

OUTPUTS = ["rank", "s", "Fx", "off"]
WORKERS = ["1", "2", "7"]
# The examples, each with a block size.
EXAMPLES = {"square-with-centre": "2", "unit-cube": "2", "octahedron-midpoints": "3"}
BLOCK_OF_MANY = "100"
RUNS_OF_A_SWEEP = 100
MEMORY = (3, b"", b"qconvex: 8: Memory\n")
CHECKS_OUT_OF_MEMORY = [(3, b"", b"hullcheck: " + line + b"\n") for line in (b"the points: out of memory", b"the faces: out of memory", b"out of memory")]
MODULE, MAY_FAIL = "refusals::", "falls_back"


def outcome(run, wanted, memory):
    """Returns how a run ended, and what is wrong with it: it is one of the answers, and all blocks came back."""
    title, said, report = run
    right = said == wanted or (refusing.is_refusal(report) and said in memory)
    kind = "no refusal" if not refusing.is_refusal(report) else "right in spite of it" if said == wanted else "out of memory"
    return kind, None if right and report.new == report.given_back else f"{title}: {said}, {report}"


def example(name):
    """The points of an example, and its path."""
    path = TOP / "examples" / f"{name}.txt"
    return points_of(path.read_bytes()), str(path)


def many_points():
    """2,000 points of a lattice within a ball, some of them again: corners, coplanar points and points within."""
    rng, points = random.Random(18), []
    while len(points) < 2000:
        point = tuple(rng.randint(-20, 20) for _ in range(3))
        points += [point] * (sum(part * part for part in point) <= 400)
    return points


def program(given, rng):
    """The built program."""
    ours = trials.need(given.program)
    many = file_of(many_points())
    alone = subprocess.run([ours, "--workers", "1", "--block", "1048576", *OUTPUTS], input=many, capture_output=True, check=True)
    inputs = [(file_of(example(name)[0]), block, hull_text(example(name)[0], OUTPUTS)[0]) for name, block in EXAMPLES.items()]
    inputs.append((many, BLOCK_OF_MANY, alone.stdout))
    sweeps = [(one, workers, variable) for one in inputs for workers in WORKERS for variable in refusing.VARIABLES]
    with refusing.library() as library:
        for (data, block, text), workers, variable in rng.sample(sweeps, len(sweeps)):
            command, step = [ours, "--workers", workers, "--block", block, *OUTPUTS], 1
            if data is many and "GROWTH" in variable:
                _, report = refusing.run(command, data, library, {})
                step = max(1, (report.new + report.grown) // RUNS_OF_A_SWEEP)
            for run in refusing.sweep(command, data, library, variable, step):
                yield outcome(run, (0, text, b""), [MEMORY])


def faces_of_checks():
    """Of each check its points and its faces: right ones, whole and in triangles, and with one face less."""
    for name in EXAMPLES:
        points, path = example(name)
        for output in ["off", "offt"]:
            text = hull_text(points, [output])[0]
            yield path, text
            rows = text.splitlines()
            corners, faces, edges = rows[1].split()
            if int(faces) > 1:
                yield path, b"\n".join([rows[0], b"%s %d %s" % (corners, int(faces) - 1, edges), *rows[2:-1]]) + b"\n"


def checker(given, rng):
    """The built checker."""
    ours = trials.need(given.checker)
    sweeps = [(check, workers, variable) for check in faces_of_checks() for workers in WORKERS for variable in refusing.VARIABLES]
    with refusing.library() as library:
        for (points, faces), workers, variable in rng.sample(sweeps, len(sweeps)):
            command = [ours, "--workers", workers, points]
            wanted, _ = refusing.run(command, faces, library, {})
            for run in refusing.sweep(command, faces, library, variable):
                yield outcome(run, wanted, CHECKS_OUT_OF_MEMORY)


def outcomes_of_test(tests, test, library):
    """Yields the outcomes of the sweeps of one test."""
    may_fail, passed = test.endswith(MAY_FAIL), 0
    for variable in (refusing.ONE_GROWTH, refusing.ONE_THREAD):
        for title, said, report in refusing.sweep([tests, test], b"", library, variable):
            passes = said[0] == 0 and report.new == report.given_back
            passed += passes and variable == refusing.ONE_GROWTH and refusing.is_refusal(report)
            fails_as_it_may = may_fail and said[0] not in (0, "no end") and refusing.is_refusal(report)
            yield "passes" if passes else "fails as it may", None if passes or fails_as_it_may else f"{title}: {said}, {report}"
    if may_fail:
        yield "has a run that passes", None if passed else f"{test}: no run whose growth was refused passes"


def calls(given, rng):
    """The calls of the crates that have tests of refusals."""
    trials.need_rt(given)
    crates = sorted({path.relative_to(TOP).parts[1] for path in TOP.glob("crates/*/src/tests/**/refusals.rt")})
    with refusing.library() as library:
        for crate in rng.sample(crates, len(crates)):
            folder = TOP / "crates" / crate
            subprocess.run(["rt", "test", "--", MODULE], cwd=folder, check=True, stdout=subprocess.DEVNULL)
            program = str(folder / "out" / f"{crate}_tests")
            listed = subprocess.run([program, "--list"], capture_output=True, text=True, check=True).stdout.splitlines()
            tests = [line.removesuffix(": test") for line in listed if f"::{MODULE}" in line]
            if not tests:
                yield "crates", f"{crate} has no test of a module `refusals`"
            for test in tests:
                yield from outcomes_of_test(program, test, library)


if __name__ == "__main__":
    trials.main(__doc__, {"program": program, "checker": checker, "calls": calls})
