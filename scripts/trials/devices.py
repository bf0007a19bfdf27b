#!/usr/bin/env python3
"""Gives the built programs devices that fail and inputs that are hostile, and looks at how they end.

    scripts/trials/devices.py [--seconds N] [--only program,checker]

program     a full standard output, a closed one, a folder or nothing as input, a pipe that nobody reads, blanks without end, command lines that
            are refused, no memory at all: the exit status, standard output and the line on standard error
checker     hullcheck with folders and missing files in place of its two files, files that end early, and command lines that are refused: the
            status of docs/CHECKING.md, nothing on standard output, and one line on standard error
"""
import os
import subprocess
import sys
from pathlib import Path

sys.path.insert(0, str(Path(__file__).resolve().parents[1]))
from lib import refusing, trials  # noqa: E402
from lib.file_oracle import points_of  # noqa: E402
from lib.hull_oracle import hull_text  # noqa: E402
from lib.paths import TOP  # noqa: E402

EXAMPLES = TOP / "examples"
ONE, CUBE, SHORT = (str(EXAMPLES / f"{name}.txt") for name in ("one-point", "unit-cube", "short-file"))
ONE_RANK = b"1 1 0\n"
SECONDS = 60


def shell(script, program, **settings):
    """Runs a line of shell, in which `$P` is the program, and returns its status, its output and its line on standard error."""
    environment = {**os.environ, "P": program, "ONE": ONE, "CUBE": CUBE, "SHORT": SHORT, "EXAMPLES": str(EXAMPLES), **settings}
    done = subprocess.run(["sh", "-c", script], env=environment, capture_output=True, timeout=SECONDS, check=False)
    return done.returncode, done.stdout, done.stderr


def line(number, name):
    """The line of a fault."""
    return f"qconvex: {number}: {name}\n".encode()


# Of each run its name, a line of shell, and the answer.
RUNS = [
    ("one point", '"$P" rank < "$ONE"', (0, ONE_RANK, b"")),
    ("a folder as input", '"$P" rank < "$EXAMPLES"', (4, b"", line(9, "Device"))),
    ("no input", '"$P" rank <&-', (4, b"", line(9, "Device"))),
    ("a full output", '"$P" rank < "$ONE" > /dev/full', (4, b"", line(11, "Send"))),
    ("a full output for the help text", '"$P" --help > /dev/full', (4, b"", line(11, "Send"))),
    ("no output", '"$P" rank < "$ONE" >&-', (4, b"", line(11, "Send"))),
    ("a pipe that nobody reads", '{ sleep 1; "$P" rank < "$ONE"; echo $? >&2; } | true', (0, b"", line(11, "Send") + b"4\n")),
    ("a short file", '"$P" off < "$SHORT"', (1, b"", line(7, "Short"))),
    ("blanks without end", 'tr "\\0" " " < /dev/zero | "$P" rank', (1, b"", line(10, "Big"))),
]
OUT_OF_MEMORY = (3, b"", line(8, "Memory"))
REFUSED = [
    ("the first growth refused", "REFUSE_GROWTH", "rank"), ("all growths refused", "REFUSE_GROWTHS_FROM", "rank"),
    ("all refused where the line is bad", "REFUSE_GROWTHS_FROM", "Fy"),
]  # fmt: skip


def silent(program):
    """Returns the answer to a bad command line if standard input is open and never gives a byte."""
    command = [program, "--workers", "0"]
    with subprocess.Popen(command, stdin=subprocess.PIPE, stdout=subprocess.PIPE, stderr=subprocess.PIPE) as running:
        return running.wait(timeout=SECONDS), running.stdout.read(), running.stderr.read()


def program(given, _rng):
    """The program on devices that fail."""
    ours = os.path.abspath(trials.need(given.program))
    for name, script, want in RUNS:
        got = shell(script, ours)
        yield "runs", None if got == want else f"{name}: {got}, not {want}"
    got = silent(ours)
    yield "runs", None if got == (2, b"", line(12, "Usage")) else f"a bad command line before any input: {got}"
    with refusing.library() as library, open(CUBE, "rb") as cube:
        data = cube.read()
        for name, variable, word in REFUSED:
            got, _ = refusing.run([ours, word], data, library, {variable: "1"})
            yield "runs", None if got == OUT_OF_MEMORY else f"{name}: {got}, not {OUT_OF_MEMORY}"


# Of each run of the checker its name, its words, and the status.
CHECKS = [
    ("a word with a minus", [CUBE, "-"], 2), ("no word", [], 2), ("no number of workers", [CUBE, "--workers"], 2),
    ("too many workers", ["--workers", "65", CUBE], 2), ("three files", [CUBE, CUBE, CUBE], 2),
    ("a folder of points", [EXAMPLES], 4), ("a folder of faces", [CUBE, EXAMPLES], 4),
    ("no file of points", [EXAMPLES / "no-such-file", CUBE], 4), ("no file of faces", [CUBE, EXAMPLES / "no-such-file"], 4),
    ("short points", [SHORT, CUBE], 5), ("short faces", ["--indices", CUBE, "/dev/null"], 5),
]  # fmt: skip

UNREAD, STRANGER = b"hullcheck: the faces: the file could not be read\n", b"face 0: one of its corners is not a point of the set\n"
CLOCKWISE = "2 3 1 0|4 6 2 0|1 5 4 0|3 7 5 1|6 7 3 2|5 7 6 4"  # the faces of the cube
# Of each run of the checker its name, a line of shell, and the answer.
LINES = [
    ("no input", '"$P" "$CUBE" <&-', (4, b"", UNREAD)),
    ("a folder as input", '"$P" "$CUBE" < "$EXAMPLES"', (4, b"", UNREAD)),
    ("an index of 2^30", 'printf "1\\n0 1 1073741824\\n" | "$P" --indices "$CUBE"', (1, STRANGER, b"")),
    ("an index above 2^30", 'printf "1\\n0 1 1073741825\\n" | "$P" --indices "$CUBE"', (5, b"", b"hullcheck: the faces: BadNumber at line 2\n")),
    ("an option twice", f'echo "6|{CLOCKWISE}" | tr "|" "\\n" | "$P" --indices --clockwise --clockwise "$CUBE"', (0, b"all right\n", b"")),
]  # fmt: skip


def checker(given, _rng):
    """The checker on devices that fail. Where standard output fails, the status alone is looked at."""
    ours = os.path.abspath(trials.need(given.checker))
    for name, words, status in CHECKS:
        done = subprocess.run([ours, *words], stdin=subprocess.DEVNULL, capture_output=True, check=False)
        right = done.returncode == status and not done.stdout and done.stderr.count(b"\n") == 1
        yield "runs", None if right else f"{name}: {done}"
    for name, script, want in LINES:
        got = shell(script, ours)
        yield "runs", None if got == want else f"{name}: {got}, not {want}"
    faces = hull_text(points_of(Path(CUBE).read_bytes()), ["off"])[0]
    for name, target in (("a full output", "> /dev/full"), ("no output", ">&-"), ("a full output for the help text", "--help > /dev/full")):
        done = subprocess.run(["sh", "-c", f'"$0" "$1" {target}', ours, CUBE], input=faces, stderr=subprocess.PIPE, check=False)
        yield "runs", None if done.returncode == 4 else f"{name}: {done}"


if __name__ == "__main__":
    trials.main(__doc__, {"program": program, "checker": checker})
