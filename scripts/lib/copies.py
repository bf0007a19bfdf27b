"""Copies of the crates, for scripts that plant other bodies or tests in them, or prove several crates side by side."""
import os
import shutil
import sys
from pathlib import Path


def copy_crates(top):
    """Copies the crates of the working folder into another folder, without what was proved or built."""
    shutil.copytree("crates", top / "crates", symlinks=True, ignore=shutil.ignore_patterns("out"))
    for name in ["crates.txt", "HANDLES"]:
        shutil.copy(name, top / name)


# Programs of trials, which are no crates of the repository. They are planted in a copy.
TRIALS = Path("scripts/trials/programs")


def is_of_trials(name):
    return (TRIALS / name / "needs").is_file()


def plant(name, top):
    """Puts the sources of a program of trials among the crates below a folder."""
    for file in sorted((TRIALS / name).rglob("*.in")):
        place = top / "crates" / name / file.relative_to(TRIALS / name).with_suffix("")
        place.parent.mkdir(parents=True, exist_ok=True)
        shutil.copy(file, place)


def crates_below(names):
    """Returns the crates that these need, themselves among them, each with those that it needs directly."""
    needs = {name: (TRIALS / name / "needs").read_text().split() for name in names if is_of_trials(name)}
    for line in Path("crates.txt").read_text().splitlines():
        head, colon, rest = line.partition(":")
        if colon and not line.startswith("#"):
            needs[head.split()[0]] = rest.split()
    wanted, found = list(names), {}
    while wanted:
        name = wanted.pop()
        if name not in needs:
            sys.exit(f"{name} is no crate of crates.txt")
        if name not in found:
            found[name] = [need for need in needs[name] if need in needs]
            wanted += found[name]
    return found


def link_or_copy(source, target):
    """Makes the target a link to the source's bytes, or a copy of them where the file system has no link for it."""
    try:
        os.link(source, target)
    except OSError:
        shutil.copy2(source, target)


def give_library(name, top, to):
    """Gives the crate of this name below `to` the library that was proved in its folder below `top`, if one was.

    Its files are links: `rt` removes a library before it writes another one, so neither folder changes the other's.
    """
    library, target = top / "crates" / name / "out/rlib", to / "crates" / name / "out/rlib"
    if library.is_dir() and top != to:
        shutil.rmtree(target, ignore_errors=True)
        shutil.copytree(library, target, copy_function=link_or_copy)


def replace_once(path, edits):
    """Makes edits in a file, each a text and what replaces it. Returns the text of the file before.

    A text that does not stand there exactly once ends the script.
    """
    before = path.read_text(encoding="utf-8")
    after = before
    for old, new in edits:
        if after.count(old) != 1:
            sys.exit(f"{path}: not once: {old!r}")
        after = after.replace(old, new)
    path.write_text(after, encoding="utf-8")
    return before
