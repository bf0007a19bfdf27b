#!/usr/bin/env python3
"""Runs the commands of the documents and compares their output with the output in the document.

    scripts/gate/doc_commands.py [--all] [FILE]...      from anywhere; with no FILE: README and the PAGES of docs

In an indented block of a document, a line that begins with `$ ` is a command; lines after it that begin with `> ` belong to
it. The lines up to the next command or the end of the block are its expected output, of standard output and standard error
together. A line `...` stands for any lines. The commands of one document run one after the other in one shell, in a new
folder with links to everything at the top of the repository; so a command can read the files that an earlier one wrote.
They are stopped after two hours; a command that did not run counts as different. A comment just before a block may mark it:

    <!-- needs: qhull -->          skipped if one of these programs is missing
    <!-- seconds vary -->          numbers with a decimal point, and `over N`, are not compared
    <!-- long -->                  skipped without --all

The script prints each difference, what it skipped, and how many commands it ran. The status is 1 after a difference.
"""
import argparse
import difflib
import os
import re
import shutil
import subprocess
import sys
import tempfile
from collections import namedtuple
from pathlib import Path

sys.path.insert(0, str(Path(__file__).resolve().parents[1]))
from lib.paths import TOP  # noqa: E402


PAGES = ["WHY-EXACT", "TUTORIAL", "PROGRAM", "FAULTS", "MANY-POINTS", "PYTHON", "LIBRARY", "CHECKING"]
DOCUMENTS = ["README.md", *(f"docs/{page}.md" for page in PAGES)]
# A command with its expected output, its line in the document, and the marks of its block.
Command = namedtuple("Command", "words wanted line marks")
MARK = re.compile(r"<!--\s*(.*?)\s*-->$")
INDENT = "    "
END = "end-of-command-"
SECONDS = r"(?:\d+\.\d+|over \d+)"
# The commands of one document are stopped after this many seconds.
TIME_LIMIT = 7200


def blocks(text):
    """The indented blocks of a document, each with its first line and the marks of the comment before it."""
    marks, block, first = [], [], 0
    for number, line in enumerate([*text.split("\n"), ""], 1):
        if line.startswith(INDENT) or not line and block:
            first = first if block else number
            block.append(line[len(INDENT) :])
            continue
        if block:
            yield block, first, marks
            marks, block = [], []
        if line:
            found = MARK.match(line)
            marks = [part.strip() for part in found.group(1).split(";")] if found else []
    if block:
        yield block, first, marks


def without_blank_end(lines):
    """The lines without empty ones at their end."""
    while lines and not lines[-1]:
        lines = lines[:-1]
    return lines


def commands(text):
    """The commands of a document."""
    found = []
    for block, first, marks in blocks(text):
        starts = [index for index, line in enumerate(block) if line.startswith("$ ")]
        for start, end in zip(starts, [*starts[1:], len(block)]):
            words, rest = [block[start][2:]], block[start + 1 : end]
            while rest and (rest[0] == ">" or rest[0].startswith("> ")):
                words.append(rest.pop(0)[2:])
            found.append(Command("\n".join(words), without_blank_end(rest), first + start, marks))
    return found


def missing(command):
    """The programs that a command needs and that are not installed."""
    needs = [mark.split(":")[1] for mark in command.marks if mark.startswith("needs:")]
    return [name for name in " ".join(needs).replace(",", " ").split() if not shutil.which(name)]


def script_of(chosen):
    """A shell script that runs the commands and prints a line after each."""
    lines = []
    for number, command in enumerate(chosen):
        lines += [command.words, f"(s=$?; printf '{END}{number}\\n'; exit $s)"]
    return "\n".join(lines) + "\n"


def printed(chosen, folder):
    """What each command printed."""
    script = os.path.join(folder, ".commands.sh")
    with open(script, "w", encoding="utf-8") as target:
        target.write(script_of(chosen))
    command = ["bash", script]
    try:
        done = subprocess.run(
            command, cwd=folder, stdin=subprocess.DEVNULL, stdout=subprocess.PIPE, stderr=subprocess.STDOUT, timeout=TIME_LIMIT
        )
        told = done.stdout
    except subprocess.TimeoutExpired as stopped:
        told = stopped.stdout or b""
    text = told.decode("utf-8", "backslashreplace").replace(script, "bash")
    parts = re.split(rf"{END}\d+\n", text)
    return [without_blank_end(part.split("\n")) for part in parts[: len(chosen)]]


def pattern(line, vary):
    """The regular expression of a line."""
    if not vary:
        return re.escape(line.rstrip())
    parts = re.split(SECONDS, " ".join(line.split()))
    return SECONDS.join(re.escape(part) for part in parts)


def agrees(command, lines):
    """Returns true if the lines are the expected output of a command."""
    vary = "seconds vary" in command.marks
    lines = [" ".join(line.split()) if vary else line.rstrip() for line in lines]
    whole = "".join(r"(?:.*\n)*" if line.strip() == "..." else pattern(line, vary) + r"\n" for line in command.wanted)
    return re.fullmatch(whole, "".join(line + "\n" for line in lines)) is not None


def tell(document, command, lines):
    """Prints a difference."""
    print(f"DIFFERENT: {document}:{command.line}: {command.words}")
    for line in difflib.unified_diff(command.wanted, lines, "document", "printed", lineterm="", n=1):
        print("   ", line)


def furnished(folder):
    """Puts links to everything at the top of the repository into a folder."""
    for name in os.listdir(TOP):
        if not name.startswith("."):
            os.symlink(os.path.join(TOP, name), os.path.join(folder, name))


def chosen_of(document, everything):
    """The commands of a document to run; prints those that are skipped."""
    with open(os.path.join(TOP, document), encoding="utf-8") as source:
        found = commands(source.read())
    chosen = []
    for command in found:
        lacks = missing(command)
        if lacks or "long" in command.marks and not everything:
            why = f"no {', '.join(lacks)} here" if lacks else "long"
            print(f"left out ({why}): {document}:{command.line}: {command.words}")
        else:
            chosen.append(command)
    return chosen


def differences(document, everything):
    """The number of commands of a document that ran, and the number whose output differs."""
    chosen = chosen_of(document, everything)
    with tempfile.TemporaryDirectory() as folder:
        furnished(folder)
        texts = printed(chosen, folder)
    wrong = 0
    for command, lines in zip(chosen, texts + [["(not run)"]] * (len(chosen) - len(texts))):
        if not agrees(command, lines):
            wrong += 1
            tell(document, command, lines)
    return len(chosen), wrong


def main():
    parser = argparse.ArgumentParser(description=__doc__, formatter_class=argparse.RawDescriptionHelpFormatter)
    parser.add_argument("--all", action="store_true", help="run the long commands, too")
    parser.add_argument("files", nargs="*", default=DOCUMENTS, metavar="FILE", help="documents, from the top")
    options = parser.parse_args()
    counts = [differences(document, options.all) for document in options.files]
    ran, wrong = (sum(column) for column in zip(*counts))
    print(f"{ran} commands ran, {wrong} printed something else")
    sys.exit(1 if wrong else 0)


if __name__ == "__main__":
    main()
