#!/usr/bin/env python3
"""Builds programs of what a gate passed on this machine, and the programs of trials.

    scripts/make/programs.py PROGRAM..      from the top of the repository

The script runs `rt ci` over the crates that the programs need and no others, in a copy of the sources below
`build/programs` that has no wrong bodies and no tests of the programs. A program is written to `crates/PROGRAM/out`, one of
the trials, whose sources are in `scripts/trials/programs`, to `build/trials`. The copy is removed. The script takes all
processors that it may run on; `taskset` gives it fewer.

What a run passed, `rt` keeps on the machine where it may write beside itself. So a second run proves nothing again, and one
after a gate over the whole repository proves the programs' own crates alone, which have no tests in the copy. A gate after
this script goes on from it, and proves the programs' own crates once more, with their tests. `make` builds the programs by
prove.py, whose libraries serve `make -C c`, too; those of this script do not.

The script prints a line for each crate, and what `rt` said of one that is not proved. Then the status is 1.
"""
import shutil
import signal
import subprocess
import sys
import time
from pathlib import Path

sys.path.insert(0, str(Path(__file__).resolve().parents[1]))
from lib.copies import copy_crates, crates_below, is_of_trials, plant  # noqa: E402
from lib.processes import end_once  # noqa: E402
from lib.usage import names_given  # noqa: E402

COPY = Path("build/programs")
BUILT_TRIALS = Path("build/trials")
# How a program names its tests.
TESTS = "#[cfg(test)]\nmod tests;\n"


def leave_out_tests(sources):
    """Removes the tests of a program from its sources. They are no part of what is built of it."""
    top = sources / "main.rt"
    text = top.read_text(encoding="utf-8")
    if TESTS in text:
        top.write_text(text.replace(TESTS, ""), encoding="utf-8")
        (sources / "tests.rt").unlink(missing_ok=True)
        shutil.rmtree(sources / "tests", ignore_errors=True)


def make_copy(names):
    """Makes a repository of these crates alone, without wrong bodies and the tests of programs, in a new folder."""
    shutil.rmtree(COPY, ignore_errors=True)
    # `rt ci` wants the top of a repository.
    (COPY / ".git").mkdir(parents=True)
    copy_crates(COPY)
    planted = [name for name in names if is_of_trials(name)]
    for name in planted:
        plant(name, COPY)
    for folder in (COPY / "crates").iterdir():
        shutil.rmtree(folder / "must-fail" if folder.name in names else folder, ignore_errors=True)
        if (folder / "src/main.rt").exists():
            leave_out_tests(folder / "src")
    wanted = [line for line in Path("crates.txt").read_text().splitlines() if line.partition(":")[0].split(" ")[0] in names]
    wanted += [f"{name}: {' '.join(names[name])}" for name in planted]
    (COPY / "crates.txt").write_text("".join(f"{line}\n" for line in wanted))


def told(lines):
    """Prints what the gate says of each crate as it comes, with the seconds since the call.

    What it says besides goes to standard error, for a crate that failed and for the end.
    """
    start, besides = time.monotonic(), []
    for line in lines:
        if not line.startswith("rt: "):
            besides.append(line)
            continue
        if "NOT PROVED" in line or "FAILED" in line:
            sys.stderr.write("".join(besides))
        print(f"{time.monotonic() - start:5.0f} s  {line[len('rt: '):]}", end="", flush=True)
        besides.clear()
    sys.stderr.write("".join(besides))


def passed():
    """Runs the gate in the copy, and returns its status."""
    words = {"stdin": subprocess.DEVNULL, "stdout": subprocess.PIPE, "stderr": subprocess.STDOUT}
    with subprocess.Popen(["rt", "ci"], cwd=COPY, text=True, **words) as gate:
        try:
            told(gate.stdout)
        except BaseException:
            gate.terminate()
            raise
    return gate.returncode


def main():
    # At SIGTERM the gate ends and the copy goes, as at an interrupt.
    signal.signal(signal.SIGTERM, end_once)
    programs = names_given(__doc__)
    if not programs:
        sys.exit("name a program: scripts/make/programs.py PROGRAM..")
    needs = crates_below(programs)
    for name in programs:
        if not (is_of_trials(name) or Path("crates", name, "src/main.rt").exists()):
            sys.exit(f"{name} is no program")
    make_copy(needs)
    try:
        status = passed()
        for name in programs if status == 0 else ():
            to = BUILT_TRIALS if is_of_trials(name) else Path("crates", name, "out")
            to.mkdir(parents=True, exist_ok=True)
            shutil.copy(COPY / "crates" / name / "out" / name, to / name)
    finally:
        shutil.rmtree(COPY, ignore_errors=True)
    sys.exit(status)


if __name__ == "__main__":
    main()
