#!/usr/bin/env python3
"""Makes the manual pages of the commands of what they say for --help.

    python/man/man_pages.py [FOLDER]     writes a page for each, beside this file where no folder is named

setup.py has them written before it makes a wheel, which puts them to share/man/man1.
"""
import argparse
import os
import re
import subprocess
import sys
from pathlib import Path

HERE = Path(__file__).resolve().parent
BIN = HERE.parent / "bin"
# Wide enough that each option stands on a line of its own.
WIDTH = "400"
# The words of an item, and what it is.
ITEM = re.compile(r"  (\S.*?)(?:   *(\S.*))?")
TITLES = {"positional arguments:": "ARGUMENTS", "options:": "OPTIONS", "optional arguments:": "OPTIONS"}


def commands():
    """The names of all commands."""
    return sorted(place.name for place in BIN.iterdir() if place.is_file() and not place.suffix)


def help_of(name):
    """What a command says for --help."""
    environment = {**os.environ, "COLUMNS": WIDTH}
    return subprocess.run([sys.executable, BIN / name, "--help"], check=True, capture_output=True, text=True, env=environment).stdout


def quoted(text):
    """Text as roff takes it literally."""
    text = text.replace("\\", "\\e").replace("-", "\\-").replace("'", "\\(aq")
    return "\\&" + text if text.startswith(".") else text


def summary_of(name, paragraph):
    """The first sentence of a command's description, without the name and the full stop."""
    sentence = re.split(r"(?<=[^.])[.:;](?: |$)", " ".join(paragraph).removeprefix(f"{name}: "))[0]
    return sentence[0].lower() + sentence[1:]


def body_of(lines):
    """A paragraph as roff: what is indented stays as it is, and the items of a list are tagged."""
    if lines[0] in TITLES:
        yield f".SH {TITLES[lines[0]]}"
        for item in re.sub(r"\n {8,}", "  ", "\n".join(lines[1:])).split("\n"):
            words, what = ITEM.fullmatch(item).groups()
            yield f".TP\n.B {quoted(words)}\n{quoted(what or '')}"
    elif all(line.startswith("    ") for line in lines):
        yield from [".PP", ".EX", *(quoted(line[4:]) for line in lines), ".EE"]
    else:
        yield from [".PP", *map(quoted, lines)]


def page_of(name):
    """The manual page of a command."""
    usage, *rest = [part.split("\n") for part in help_of(name).strip("\n").split("\n\n")]
    lines = [
        '.\\" Made by python/man/man_pages.py of what the command says for \\-\\-help; not edited.',
        f'.TH {name.upper()} 1 "" "qconvex" "User Commands"',
        ".SH NAME",
        f"{name} \\- {quoted(summary_of(name, rest[0]))}",
        ".SH SYNOPSIS",
        quoted(" ".join(map(str.strip, usage)).removeprefix("usage: ")),
        ".SH DESCRIPTION",
    ]
    for paragraph in rest:
        lines += body_of(paragraph)
    return "\n".join([*lines, ""])


def main():
    """Writes the pages."""
    parser = argparse.ArgumentParser(description=__doc__, formatter_class=argparse.RawDescriptionHelpFormatter)
    parser.add_argument("folder", nargs="?", type=Path, default=HERE)
    folder = parser.parse_args().folder
    for name in commands():
        (folder / f"{name}.1").write_text(page_of(name), encoding="utf-8")


if __name__ == "__main__":
    main()
