#!/usr/bin/env python3
"""Says which functions of crates take the prover longest.

    scripts/gate/proof_times.py [--test] [--count N] [CRATE..]      from the top of the repository; without a name, all crates

It runs `rt check` in each crate with one job, with --test on its tests too, and takes the processor seconds of all its
processes at each line that tells a function as checked: what passed since the line before is that function's. What comes
before the first such line, such as loading the crates below, is told as `before the first`. What an earlier check kept is
not proved again, so a crate is timed whole only if it has no `out/`, neither here nor in another clone. It prints
the N dearest functions of all crates (20 where no N is given) and each crate's sum, and ends with status 1 if a check
failed.
"""
import argparse
import re
import subprocess
import sys
from pathlib import Path

sys.path.insert(0, str(Path(__file__).resolve().parents[1]))
from lib.processes import seconds_with_children_in, stats_below  # noqa: E402
from lib.usage import known  # noqa: E402

CHECKED = re.compile(r"checked (\S+), \d+ of \d+")


def seconds_below(root):
    """The processor seconds of a process and of all below it."""
    return sum(map(seconds_with_children_in, stats_below(root).values()))


def times_of(crate, tests):
    """The functions of a crate with the seconds of each, and whether all were proved."""
    command = ["rt", "check", "--jobs", "1", *(["--test"] if tests else [])]
    run = subprocess.Popen(command, cwd=f"crates/{crate}", stdout=subprocess.PIPE, stderr=subprocess.STDOUT, text=True)
    rows, before, lines = [], 0, []
    for line in run.stdout:
        lines.append(line)
        match = CHECKED.match(line)
        if match or line.startswith("so far: 0 of"):
            now = seconds_below(run.pid)
            rows.append((now - before, match.group(1) if match else f"{crate}: before the first"))
            before = now
    if run.wait():
        print(*lines[-20:], sep="", file=sys.stderr)
    return rows, run.returncode == 0


def main():
    parser = argparse.ArgumentParser(description=__doc__, formatter_class=argparse.RawDescriptionHelpFormatter)
    parser.add_argument("--test", action="store_true", help="the functions of the tests, too")
    parser.add_argument("--count", type=int, default=20, help="how many functions are printed")
    parser.add_argument("crates", nargs="*")
    asked = parser.parse_args()
    every = sorted(path.name for path in Path("crates").iterdir() if (path / "src").is_dir())
    crates = known(asked.crates, every) or every
    rows, all_proved = [], True
    for crate in crates:
        found, proved = times_of(crate, asked.test)
        rows += found
        all_proved = all_proved and proved
        print(f"{crate:16} {len(found):4} {sum(seconds for seconds, _ in found):8.1f} s", flush=True)
    for seconds, name in sorted(rows, reverse=True)[: asked.count]:
        print(f"{seconds:8.1f} s  {name}")
    sys.exit(0 if all_proved else 1)


if __name__ == "__main__":
    main()
