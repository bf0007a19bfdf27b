#!/usr/bin/env python3
"""Makes the manual page docs/qconvex.1 of the help text, which stands in crates/qh_command/src/help.rt.

    scripts/make/man_page.py              writes docs/qconvex.1
    scripts/make/man_page.py --check      says whether it is what would be written; the status is 1 if not
    scripts/make/man_page.py --name NAME  prints the page of the program as it is installed by another name

So there is one source: edit the help text, run this. The page is read by `man docs/qconvex.1`.
"""
import argparse
import os
import re
import sys
from pathlib import Path

sys.path.insert(0, str(Path(__file__).resolve().parents[1]))
from lib.paths import TOP  # noqa: E402


SOURCE = os.path.join(TOP, "crates", "qh_command", "src", "help.rt")
PAGE = os.path.join(TOP, "docs", "qconvex.1")
TEXT = re.compile(r'pub const HELP: &str = "((?:[^"\\]|\\.)*)";', re.DOTALL)
ESCAPES = {"\\n": "\n", "\\\\": "\\", '\\"': '"'}
# An item of a list: two blanks, its word, two blanks or more, what it is.
ITEM = re.compile(r"  (\S.*?)  +(\S.*)")
SEE_ALSO = """.SH SEE ALSO
The repository's README.md, docs/PROGRAM.md, docs/FAULTS.md, docs/TUTORIAL.md and docs/WHY-EXACT.md.
.PP
Qhull has another program of this name, and Debian's page
.B qconvex(1)
is of that."""


def help_text():
    """The help text."""
    with open(SOURCE, encoding="utf-8") as source:
        literal = TEXT.search(source.read()).group(1)
    return re.sub(r"\\.", lambda found: ESCAPES[found.group()], literal)


def quoted(text):
    """Text as roff takes it literally."""
    text = text.replace("\\", "\\e").replace("-", "\\-").replace("'", "\\(aq")
    return "\\&" + text if text.startswith(".") else text


def paragraphs(text):
    """The paragraphs, each as its lines."""
    return [part.split("\n") for part in text.strip("\n").split("\n\n")]


def items(lines):
    """The items of a list as tagged paragraphs."""
    for line in lines:
        found = ITEM.fullmatch(line)
        if found:
            yield f".TP\n.B {quoted(found.group(1))}\n{quoted(found.group(2))}"
        else:
            yield quoted(line.strip())


def body_of(lines):
    """A paragraph of the help as roff."""
    if all(line.startswith("    ") for line in lines):
        return ["", ".EX", *(quoted(line[4:]) for line in lines), ".EE"]
    if len(lines) > 1 and lines[1].startswith("  "):
        title, _, rest = lines[0].rstrip(":").partition(",")
        opening = [quoted(rest.strip().capitalize()) + ":"] if rest else []
        return [f".SH {title.upper()}", *opening, *items(lines[1:])]
    return [".PP", *map(quoted, lines)]


def page(text):
    """The manual page of a help text."""
    first, usage, *rest = paragraphs(text)
    name, summary = first[0].split(": ", 1)
    program, version = name.split(" ")
    lines = [
        '.\\" Made by scripts/make/man_page.py of the help text; not edited.',
        f'.TH {program.upper()} 1 "" "{name}" "User Commands"',
        ".SH NAME",
        f"{program} \\- {quoted(summary)}",
        ".SH SYNOPSIS",
        quoted(usage[0].removeprefix("Usage: ")),
        ".SH DESCRIPTION",
    ]
    for paragraph in rest[:-1]:
        lines += body_of(paragraph)
    return "\n".join([*lines, ".SH DIAGNOSTICS", *map(quoted, rest[-1]), SEE_ALSO, ""])


def named(text, name):
    """A help text of the program by another name."""
    return re.sub(r"(?<=^)qconvex(?= [0-9])|(?<=Usage: )qconvex|(?<=\| )qconvex", name, text)


def main():
    parser = argparse.ArgumentParser(description=__doc__, formatter_class=argparse.RawDescriptionHelpFormatter)
    parser.add_argument("--check", action="store_true", help="only compare")
    parser.add_argument("--name", help="the name that the program is installed by")
    options = parser.parse_args()
    made = page(named(help_text(), options.name or "qconvex"))
    if options.name:
        print(made, end="")
        return
    if not options.check:
        with open(PAGE, "w", encoding="utf-8") as target:
            target.write(made)
        return
    with open(PAGE, encoding="utf-8") as source:
        same = source.read() == made
    print(f"{os.path.relpath(PAGE, TOP)} is {'as' if same else 'NOT as'} the help text says")
    sys.exit(0 if same else 1)


if __name__ == "__main__":
    main()
