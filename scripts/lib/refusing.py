"""Runs of programs some of whose growths and threads are refused, by the library of refuse.c."""
import contextlib
import os
import struct
import subprocess
import tempfile
from collections import namedtuple
from pathlib import Path

# What the library counts, in its order.
Report = namedtuple("Report", "new grown given_back growths_refused threads_started threads_refused")
REPORT = struct.Struct("6q")
# The library's variables, which say what to refuse: the Nth alone, or all from the Nth on.
ONE_GROWTH, ONE_THREAD = "REFUSE_GROWTH", "REFUSE_THREAD"
VARIABLES = [ONE_GROWTH, "REFUSE_GROWTHS_FROM", ONE_THREAD, "REFUSE_THREADS_FROM"]
SECONDS = 60


@contextlib.contextmanager
def library():
    """The path of the library, which is built."""
    with tempfile.TemporaryDirectory() as folder:
        path, source = os.path.join(folder, "refuse.so"), Path(__file__).with_name("refuse.c")
        subprocess.run(["cc", "-O2", "-Wall", "-Wextra", "-shared", "-fPIC", "-o", path, source], check=True)
        yield path


def run(command, data, preloaded, settings):
    """What a run says with these variables of the library, and what the library counted."""
    file = os.memfd_create("report")
    os.truncate(file, REPORT.size)
    environment = {**os.environ, "LD_PRELOAD": preloaded, "REFUSE_REPORT": str(file), **settings}
    try:
        done = subprocess.run(command, input=data, capture_output=True, env=environment, pass_fds=[file], timeout=SECONDS)
        said = done.returncode, done.stdout, done.stderr
    except subprocess.TimeoutExpired:
        said = "no end", b"", b""
    report = Report(*REPORT.unpack(os.pread(file, REPORT.size, 0)))
    os.close(file)
    return said, report


def is_refusal(report):
    """Returns true if something was refused."""
    return report.growths_refused + report.threads_refused > 0


def sweep(command, data, preloaded, variable, step=1):
    """Yields the runs in which the first growth or thread is refused, then the next, up to one that met no refusal."""
    number = 1
    while True:
        said, report = run(command, data, preloaded, {variable: str(number)})
        yield f"{variable}={number} {' '.join(command)}", said, report
        if not is_refusal(report):
            return
        number += step
