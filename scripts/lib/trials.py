"""The skeleton of the trials: their options, their clock, what they count, and the line at their end.

A trial has parts. A part is a generator: it takes the options and a random source, and yields for each thing that it tried its kind and
what is wrong with it, or None. A part that has no end is closed when its share of the seconds is over, and one that misses something that has
to be installed or built raises `LeftOut`.
"""
import argparse
import random
import shutil
import signal
import sys
import time
import traceback
from collections import Counter
from pathlib import Path

from lib.paths import CHECKER, PROGRAM


class LeftOut(Exception):
    """Why a part of a trial cannot be run here."""


def need(program, how="it has to be built first"):
    """Returns a program or a file that a part needs, or leaves the part out."""
    found = shutil.which(program) or program
    if not Path(found).exists():
        raise LeftOut(f"{program} is missing: {how}")
    return found


def need_rt(given):
    """Leaves a part out that proves or builds crates by `rt`, if it is missing or not wanted."""
    if given.without_rt:
        raise LeftOut("it runs rt")
    need("rt", "the Rattle kit has it")


def arguments(text, parts):
    """The options of a trial."""
    parser = argparse.ArgumentParser(description=text, formatter_class=argparse.RawDescriptionHelpFormatter)
    parser.add_argument("--seconds", type=float, default=60, help="how long; the parts share it (default 60)")
    parser.add_argument("--seed", type=int, default=1, help="the same seed makes the same inputs (default 1)")
    parser.add_argument("--only", type=lambda words: words.split(","), default=list(parts), metavar="PART,..", help=f"of {', '.join(parts)}")
    parser.add_argument("--program", default=PROGRAM, help="the built program")
    parser.add_argument("--checker", default=CHECKER, help="the built hullcheck")
    parser.add_argument("--without-rt", action="store_true", help="leave out the parts that prove or build crates by rt")
    given = parser.parse_args()
    for name in given.only:
        if name not in parts:
            parser.error(f"{name} is none of the parts: {', '.join(parts)}")
    return given


def outcomes_until(end, outcomes):
    """Yields what a part yields until a time, and then closes it."""
    try:
        for outcome in outcomes:
            yield outcome
            if time.monotonic() > end:
                break
    finally:
        outcomes.close()


def main(text, parts):
    """Runs the parts of a trial, each for its share of the seconds, prints what was wrong, and ends with the counts."""
    given = arguments(text, parts)
    # At a signal what parts have made goes, too.
    signal.signal(signal.SIGTERM, lambda number, _: sys.exit(128 + number))
    start, tried, wrong = time.monotonic(), 0, 0
    for place, name in enumerate(given.only):
        now, kinds = time.monotonic(), Counter()
        share = (start + given.seconds - now) / (len(given.only) - place)
        try:
            for kind, fault in outcomes_until(now + share, parts[name](given, random.Random(given.seed))):
                kinds[kind] += 1
                wrong += fault is not None
                if fault is not None:
                    print(f"WRONG: {name}: {fault}", flush=True)
        except LeftOut as why:
            print(f"left out: {name}: {why}", flush=True)
        except Exception:
            traceback.print_exc()
            kinds["broken off"], wrong = 1, wrong + 1
        tried += kinds.total()
        if kinds:
            print(f"{name}: {', '.join(f'{kind} {number}' for kind, number in sorted(kinds.items()))}", flush=True)
    print(f"{tried} tried, {wrong} wrong")
    sys.exit(1 if wrong else 0)
