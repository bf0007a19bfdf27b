#!/usr/bin/env python3
"""Proves a program or a library and the crates below it, as many side by side as there are processors.

    scripts/make/prove.py CRATE..           from the top of the repository

JOBS in the environment is the number of processors to use; without it, all that the script may run on. `rt all check --jobs N`
gives each crate one process, and where crates form a chain the other processors are idle. Here a crate gets up to four processes where few
others can be proved beside it. One folder admits one `rt` at a time, so each runs in a copy of the crates, below
`build/prove`, which gets the libraries that were proved in the others. What was proved comes back to the repository,
and the copies go. A library that was proved before, and whose files are the same, is not proved again.

The script prints a line for each crate, and what `rt` said of one that is not proved. After that no other crate begins,
those that have begun are proved to their end, and the status is 1. SIGTERM ends them, too.
"""
import os
import shutil
import signal
import subprocess
import sys
import time
from concurrent.futures import FIRST_COMPLETED, ThreadPoolExecutor, wait
from pathlib import Path

sys.path.insert(0, str(Path(__file__).resolve().parents[1]))
from lib.copies import copy_crates, crates_below, give_library  # noqa: E402
from lib.processes import end_once  # noqa: E402
from lib.usage import names_given  # noqa: E402

COPIES = Path("build/prove")
# The most processes that one crate gets: each loads the libraries anew.
MOST_EACH = 4
# The runs of rt that have not ended.
RUNNING: set[subprocess.Popen] = set()


def lines_of(name):
    return sum(file.read_bytes().count(b"\n") for end in ("antt", "rt") for file in Path("crates", name).glob(f"*/**/*.{end}"))


def lines_behind(needs):
    """Returns for each crate the lines of the longest chain of crates that wait for it."""
    behind = {}

    def of(name):
        if name not in behind:
            above = [of(other) for other in needs if name in needs[other]]
            behind[name] = lines_of(name) + max(above, default=0)
        return behind[name]

    for name in needs:
        of(name)
    return behind


def proved(name, lane, jobs):
    """Proves a crate in a copy, with `jobs` processes. Returns what rt said if it failed, or an empty text.

    A program is built and run, too. The stamp that rt writes tells that it was built, whatever the program ends with.
    """
    folder = lane / "crates" / name
    is_program = (folder / "src/main.rt").exists()
    words = ["run" if is_program else "lib", "--jobs", str(jobs)] + ["--", "--help"] * is_program
    streams = {"stdin": subprocess.DEVNULL, "stdout": subprocess.PIPE, "stderr": subprocess.STDOUT}
    with subprocess.Popen(["rt", *words], cwd=folder, text=True, **streams) as run:
        RUNNING.add(run)
        said, _ = run.communicate()
        RUNNING.remove(run)
    failed = not (folder / "out" / f"{name}.stamp").exists() if is_program else run.returncode
    return (said or f"rt ended with status {run.returncode}\n") if failed else ""


def copies(number):
    """Returns the folders of new copies of the crates, which have nothing that was proved before."""
    shutil.rmtree(COPIES, ignore_errors=True)
    lanes = [COPIES / str(lane) for lane in range(number)]
    for lane in lanes:
        copy_crates(lane)
    return lanes


class Crates:
    """The crates to prove, those with the longest chain behind them first, and the copies with those that are proved."""

    def __init__(self, names, processors):
        self.needs, self.processors = crates_below(names), processors
        behind = lines_behind(self.needs)
        self.left = sorted(self.needs, key=lambda name: -behind[name])
        self.free, self.running, self.home = copies(processors), {}, {}

    def processes(self, name, idle, ready):
        """Returns the number of processes for a crate: its share of the idle processors.

        The crate with the longest chain behind it gets half of all processors at least, and no crate more than MOST_EACH.
        """
        least = self.processors // 2 if name == self.left[0] else 1
        return min(MOST_EACH, max(least, idle // len(ready), 1))

    def begin(self, pool):
        """Begins the crates that can be proved now, as many as there are processors."""
        ready = [name for name in self.left if all(need in self.home for need in self.needs[name])]
        while ready and self.free:
            idle = self.processors - sum(jobs for _, _, jobs in self.running.values())
            if idle <= 0:
                break
            name, lane = ready[0], self.free.pop()
            jobs = self.processes(name, idle, ready)
            give_library(name, Path("."), lane)
            for below in crates_below(self.needs[name]):
                give_library(below, self.home[below], lane)
            self.left.remove(name)
            ready.remove(name)
            self.running[pool.submit(proved, name, lane, jobs)] = name, lane, jobs

    def end(self, task):
        """Notes that a crate has ended. Returns a line that says how, and true if the crate is proved."""
        name, lane, jobs = self.running.pop(task)
        if task.result():
            return f"{task.result()}{name} is NOT PROVED", False
        self.free.append(lane)
        self.home[name] = lane
        processes = "1 process" if jobs == 1 else f"{jobs} processes"
        return f"{name} is proved ({len(self.home)} of {len(self.needs)}, {processes})", True

    def bring_back(self):
        """Puts what was proved into the repository."""
        for name, lane in self.home.items():
            shutil.rmtree(f"crates/{name}/out", ignore_errors=True)
            shutil.move(lane / "crates" / name / "out", f"crates/{name}/out")
        shutil.rmtree(COPIES)


def end_all(number, frame):
    """Ends the runs of rt, and the script with them."""
    for run in tuple(RUNNING):
        run.terminate()
    end_once(number, frame)


def main():
    signal.signal(signal.SIGTERM, end_all)
    names = names_given(__doc__)
    if not names:
        sys.exit("name a crate: scripts/make/prove.py CRATE..")
    jobs = int(os.environ.get("JOBS") or len(os.sched_getaffinity(0)))
    crates, start = Crates(names, max(1, jobs)), time.monotonic()
    failed = False
    try:
        with ThreadPoolExecutor(crates.processors) as pool:
            while crates.running or (crates.left and not failed):
                if not failed:
                    crates.begin(pool)
                for task in wait(crates.running, return_when=FIRST_COMPLETED).done:
                    line, is_proved = crates.end(task)
                    if is_proved:
                        print(f"{time.monotonic() - start:5.0f} s  {line}", flush=True)
                    else:
                        print(line, file=sys.stderr, flush=True)
                        failed = True
    finally:
        crates.bring_back()
    sys.exit(1 if failed else 0)


if __name__ == "__main__":
    main()
