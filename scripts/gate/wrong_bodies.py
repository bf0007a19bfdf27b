#!/usr/bin/env python3
"""Tries all wrong bodies of crates: those that the gate tries, and those that it skips to save time.

    scripts/gate/wrong_bodies.py [CRATE..]        from the top of the repository; without a name, all crates

A crate's `must-fail/` has the wrong bodies that `rt ci` tries at each run: those that tell most of each public call.
Its `wrong-bodies/` has the others, in the same form. They are tried before a release, and when a contract of their
crate changes. The script copies the repository's crates to a folder of its own, puts both together there, and runs
`rt must-fail`, which prints for each body the line at which the prover refused it. Libraries that were proved in the
repository are not proved again.

The status is 1 if a body is still proved, could not be applied or read, or was not tried. The script prints last how
many were refused, and names those whose refusal says little: a proof file named what the body took away, or the prover
met a limit of its own.
"""
import re
import subprocess
import sys
import tempfile
from pathlib import Path

sys.path.insert(0, str(Path(__file__).resolve().parents[1]))
from lib.copies import copy_crates, give_library  # noqa: E402
from lib.usage import names_given  # noqa: E402

LITTLE = re.compile(r"refused, as it must be \(only")
WRONG = re.compile(r": (NOT REFUSED|BAD EDIT|NOT TRIED)")


def copied(top):
    """Copies the sources of the crates into the folder, with all wrong bodies of a crate in its must-fail.

    A library that was proved in the repository comes with them.
    """
    copy_crates(top)
    for folder in Path("crates").iterdir():
        give_library(folder.name, Path("."), top)
    for edit in sorted(top.glob("crates/*/wrong-bodies/*.edit")):
        folder = edit.parent.parent / "must-fail"
        folder.mkdir(exist_ok=True)
        if (folder / edit.name).exists():
            sys.exit(f"{edit.name} stands in both folders of {edit.parent.parent.name}")
        edit.rename(folder / edit.name)


def crates_with_bodies(top):
    return sorted({edit.parts[-3] for edit in top.glob("crates/*/must-fail/*.edit")})


def tried(top, crate):
    """Tries the bodies of a crate, prints what rt says of each, and returns these lines."""
    run = subprocess.Popen(["rt", "must-fail", crate], cwd=top, stdout=subprocess.PIPE, stderr=subprocess.STDOUT, text=True)
    lines = []
    for line in run.stdout:
        if line.startswith((f"must-fail {crate}/", f"rt: must-fail {crate}/")) or WRONG.search(line):
            print(line.rstrip(), flush=True)
            lines.append(line)
    if run.wait() and not any(WRONG.search(line) for line in lines):
        print(f"rt must-fail {crate}: NOT TRIED: status {run.returncode}", flush=True)
        lines.append(f"{crate}: NOT TRIED")
    return lines


def main():
    names = names_given(__doc__)
    with tempfile.TemporaryDirectory() as folder:
        top = Path(folder)
        copied(top)
        lines = [line for crate in names or crates_with_bodies(top) for line in tried(top, crate)]
    wrong = [line for line in lines if WRONG.search(line)]
    little = [line for line in lines if LITTLE.search(line)]
    print(f"{len(lines) - len(wrong)} wrong bodies refused, {len(wrong)} not")
    for line in little:
        print("says little:", line.split(":")[0])
    sys.exit(1 if wrong else 0)


if __name__ == "__main__":
    main()
