"""The processes of the machine, as Linux tells of them in /proc, and the end of this one."""
import os
import signal
import sys
from pathlib import Path

TICKS = os.sysconf("SC_CLK_TCK")


def stat_of(pid):
    """Returns the fields of /proc/PID/stat from the state of the process on, or None if it has ended."""
    try:
        return Path(f"/proc/{pid}/stat").read_bytes().rpartition(b")")[2].split()
    except OSError:
        return None


def stats_below(root):
    """The fields of a process and of all processes below it, by their numbers."""
    found = {int(name): stat_of(name) for name in os.listdir("/proc") if name.isdigit()}
    found = {pid: fields for pid, fields in found.items() if fields}
    below = {}
    for pid, fields in found.items():
        above = pid
        while above in found and above != root:
            above = int(found[above][1])
        if above == root:
            below[pid] = fields
    return below


def seconds_in(fields):
    """The processor seconds of a process, by its fields."""
    return sum(map(int, fields[11:13])) / TICKS


def seconds_with_children_in(fields):
    """The processor seconds of a process and of its children that have ended, by its fields."""
    return sum(map(int, fields[11:15])) / TICKS


def end_once(number, _):
    """Ends the script at a signal. The next one is ignored: `make` passes on one that its whole group gets."""
    signal.signal(number, signal.SIG_IGN)
    sys.exit(128 + number)
