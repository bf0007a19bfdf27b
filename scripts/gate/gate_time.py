#!/usr/bin/env python3
"""Runs the gate and says where its processor time goes.

    scripts/gate/gate_time.py [ARGUMENT..]        from the top of the repository; the arguments are those of `rt ci`

`rt ci` checks each crate from nothing (proof), once more as the start of its wrong bodies (start) and with its tests
(tests), then each wrong body over that start (bodies), and at last the crate itself over it, which is told with the
start. A crate's only body has no start: it is checked from nothing (alone), as is one over a start that came to no
result. What an earlier run passed is not done again: `--anew` does all. The script looks twice a second at the
processes of the prover that the run started, so that of each up to half a second is missed. It prints a line for each
crate and part, with the number of bodies tried and the processor seconds, and then the sums, and ends with the status
of `rt ci`.
"""
import os
import re
import subprocess
import sys
import threading
import time
from collections import Counter
from pathlib import Path

sys.path.insert(0, str(Path(__file__).resolve().parents[1]))
from lib.processes import seconds_in, stats_below  # noqa: E402
from lib.usage import names_given  # noqa: E402

PARTS = ["proof", "start", "tests", "bodies", "alone"]
# The field of a process that tells its start: with its number, it names the process.
START = 19
# The parts whose checks are counted.
COUNTED = {"bodies", "alone"}


def part_of(pid):
    """Returns the crate, the part that a process of the prover checks, and its folder, or None for another process."""
    try:
        line = Path(f"/proc/{pid}/cmdline").read_bytes()
    except OSError:
        return None
    words = [word.decode(errors="replace") for word in line.split(b"\0")]
    if len(words) < 2 or not words[0].endswith("/rattle") or "--crate-name" not in words:
        return None
    crate = words[words.index("--crate-name") + 1]
    if "--test" in words:
        return crate, "tests", ""
    try:
        folder = os.readlink(f"/proc/{pid}/cwd")
    except OSError:
        folder = ""
    if not re.search(r"/rt-edit-", folder):
        return crate, "proof", ""
    if "--incremental" not in words:
        return crate, "alone", folder
    over = words[words.index("--incremental") + 1]
    return (crate, "start", "") if over.endswith("/seed") else (crate, "bodies", folder)


class Watch:
    """The processor seconds of the prover's processes below a process."""

    def __init__(self, root):
        self.root, self.parts, self.seconds, self.ended = root, {}, {}, threading.Event()
        # An interrupt before the wait for the gate must not leave the thread looking on.
        self.thread = threading.Thread(target=self.look_on, daemon=True)
        self.thread.start()

    def look(self):
        """Notes the seconds of each process of the prover that runs now."""
        for pid, fields in stats_below(self.root).items():
            key = pid, fields[START]
            if not self.parts.get(key):  # a process that was seen before it became the prover is looked at again
                self.parts[key] = part_of(pid)
            if self.parts[key]:
                self.seconds[key] = seconds_in(fields)

    def look_on(self):
        while not self.ended.wait(0.5):
            self.look()

    def stop(self):
        self.ended.set()
        self.thread.join()

    def tell(self):
        seconds, bodies = Counter(), {}
        for key, number in self.seconds.items():
            crate, part, folder = self.parts[key]
            seconds[crate, part] += number
            bodies.setdefault((crate, part), set()).add(folder)
        for crate in sorted({crate for crate, _ in seconds}):
            for part in [part for part in PARTS if (crate, part) in seconds]:
                count = f"{len(bodies[crate, part]):5}" if part in COUNTED else " " * 5
                print(f"{crate:12} {part:7} {count} {seconds[crate, part]:8.0f} s")
        for part in PARTS:
            print(f"{'all':12} {part:13} {sum(number for (_, of), number in seconds.items() if of == part):8.0f} s")
        print(f"{'all':26} {sum(seconds.values()):8.0f} s of processors")


def main():
    begun = time.monotonic()
    gate = subprocess.Popen(["rt", "ci", *names_given(__doc__)])
    watch = Watch(gate.pid)
    try:
        status = gate.wait()
    finally:
        watch.stop()
    watch.tell()
    print(f"{'all':26} {time.monotonic() - begun:8.0f} s by the clock")
    sys.exit(status)


if __name__ == "__main__":
    main()
