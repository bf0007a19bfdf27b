"""Commands that take parts of points as they are free; a part that one fails at is tried again, by another if there is one."""
from __future__ import annotations

import os
import re
import subprocess
import sys
import threading
from typing import IO, List, NamedTuple, Optional

from .part_lines import Part, Refused

# What the program says on standard error where it refuses the points: a number, a name, and mostly a line.
REFUSAL = re.compile(r"qconvex: (\d+): (\w+)(?: at line (\d+))?\s*$")
IRREGULAR = ("Long", "Short")
HEADER_LINES = 2
# After this number of failures in a row, a command gets no more parts, unless it is the last one.
FAILURES = 4
# Seconds before a part is tried again, in which an interrupt that ended its command ends the whole.
PAUSE = 0.1


class Answer(NamedTuple):
    """What the program answers of a part to `Fx off`: the first text, the second behind its first line, the places of the extreme
    points, and their lines."""

    indices: bytes
    off: bytes
    places: List[int]
    points: List[bytes]


class Irregular(Exception):
    """The lines of a part are not a point each."""


class Failed(Exception):
    """Why a command has no answer; another try may have one."""


def unnamed_file() -> IO[bytes]:
    """A file in memory where the system has such."""
    if hasattr(os, "memfd_create"):
        return os.fdopen(os.memfd_create("part"), "w+b")
    from tempfile import TemporaryFile

    return TemporaryFile()


def attempt(command: str, part: Part) -> bytes:
    """What a command answers of a part to `Fx off`."""
    with unnamed_file() as given, unnamed_file() as told:
        given.write(b"3\n%d\n" % part.count)
        given.write(part.text)
        given.seek(0)
        done = subprocess.run(f"{command} Fx off", shell=True, stdin=given, stdout=told, stderr=subprocess.PIPE)
        told.seek(0)
        answer = told.read()
    why = done.stderr.decode(errors="replace").strip()
    refusal = REFUSAL.search(why)
    if done.returncode == 1 and refusal:
        if refusal[2] in IRREGULAR:
            raise Irregular
        raise Refused(f"{place_of(part, refusal[3])}: {command}: {refusal[2]}")
    if done.returncode:
        raise Failed(why or f"status {done.returncode}")
    return answer


def place_of(part: Part, line: Optional[str]) -> str:
    """Where in the file a line of a part is."""
    if line is None or part.line < 0:
        return f"a part of {part.count} points" if line is None else f"point {int(line) - HEADER_LINES - 1} of a part"
    return f"line {part.line + int(line) - HEADER_LINES}"


def answer_in(text: bytes) -> Answer:
    """The answer that a text is."""
    try:
        head, _, rest = text.partition(b"OFF\n")
        count, *places = map(int, head.split())
        counts, *lines = rest.split(b"\n", count + 1)[: count + 1]
        corners, faces, _ = map(int, counts.split())
    except ValueError:
        raise Failed("what it answers is not what Fx off writes") from None
    if not count == corners == len(places) == len(lines) or text.count(b"\n", len(head)) != corners + faces + 2:
        raise Failed("its answer is cut off")
    return Answer(head, rest, places, lines)


class Runs:
    """The commands, each at several parts at a time."""

    def __init__(self, commands: List[str], jobs: int, retries: int) -> None:
        self.free = commands * jobs
        self.count = len(self.free)
        self.retries = retries
        self.failures = dict.fromkeys(commands, 0)
        self.change = threading.Condition()
        self.stopped = threading.Event()

    def stop(self) -> None:
        """From now on no part is tried again."""
        self.stopped.set()

    def answer(self, part: Part) -> Answer:
        """What a free command answers of a part, after as many tries as it takes."""
        failed: List[str] = []
        while True:
            command = self.taken(failed)
            try:
                told = answer_in(attempt(command, part))
                self.given_back(command, 0)
                return told
            except Failed as why:
                self.given_back(command, 1)
                failed.append(command)
                if len(failed) > self.retries or self.stopped.wait(PAUSE):
                    raise Refused(f"{command}: {why}, at the last of {len(failed)} tries") from None
                print(f"{command}: {why}; its part is tried again", file=sys.stderr)
            except BaseException:  # the points or this machine are at fault, not the command
                self.given_back(command, 0)
                raise

    def taken(self, failed: List[str]) -> str:
        """A free command, one that did not fail yet if there is such."""
        with self.change:
            while True:
                able = [name for name, failures in self.failures.items() if failures < FAILURES] or list(self.failures)
                wanted = [name for name in able if name not in failed] or able
                found = next((name for name in self.free if name in wanted), None)
                if found is not None:
                    self.free.remove(found)
                    return found
                self.change.wait()

    def given_back(self, command: str, failure: int) -> None:
        """Notes that a command is free again, and whether it failed."""
        with self.change:
            self.failures[command] = (self.failures[command] + failure) * failure
            self.free.append(command)
            self.change.notify_all()
