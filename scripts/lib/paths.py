"""Where things stand in the repository: its top, the built programs, and folders whose modules scripts import."""
import shutil
import sys
from pathlib import Path

TOP = Path(__file__).resolve().parents[2]
BENCH = TOP / "bench"
PYTHON = TOP / "python"
PROGRAM = str(TOP / "crates" / "qconvex" / "out" / "qconvex")
CHECKER = str(TOP / "crates" / "hullcheck" / "out" / "hullcheck")
PART_WAYS = str(TOP / "build" / "trials" / "part_ways")
READ_WAYS = str(TOP / "build" / "trials" / "read_ways")


def built(program):
    """The path of a program. One that is not there ends the script, before it makes any input."""
    if not shutil.which(program):
        sys.exit(f"{program} is missing: it has to be built first")
    return program
