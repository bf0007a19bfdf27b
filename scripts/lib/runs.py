"""How runs of programs ended."""
import shlex
import sys


def must_succeed(command, status):
    """Ends the script if a run failed, since the time of a failed run is no measurement. A signal's status is negative."""
    if status:
        how = f"status {status}" if status > 0 else f"signal {-status}"
        sys.exit(f"{shlex.join(map(str, command))} ended with {how}")
