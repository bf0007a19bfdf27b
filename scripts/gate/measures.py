#!/usr/bin/env python3
"""Counts what should become rarer: long parameter lists, bare bools, long files, long lines, and unwanted words.

    scripts/gate/measures.py [--list]      from anywhere

Each limit below is the count on the day when it was set; lower it when you lower the count. The words are those of the table
"Words that are not used" of docs/GLOSSARY.md. Names (written there as code) are counted in the sources only, other words in
the documents, too. The limit of a word that is not named below is 0. Riddles are words of RIDDLES in comments and documents: a
sentence with one of them often leaves out what it is about. Parameters are counted without self, rt and alloc. The status is 1
if a count is above its limit.
"""
import argparse
import re
import sys
from collections import namedtuple
from pathlib import Path

sys.path.insert(0, str(Path(__file__).resolve().parents[1]))
from lib.paths import TOP  # noqa: E402

GLOSSARY = TOP / "docs" / "GLOSSARY.md"
MOST_PARAMETERS = 5
MOST_LINES = 300
MOST_CHARACTERS = 160

LIMITS = {
    "longest parameter list": 6,
    "long parameter lists": 1,
    "bare bools": 0,
    "long files": 0,
    "long lines": 10,
    "riddles": 0,
}
WORD_LIMITS = {
    "is none": 2,
}
RIDDLES = re.compile(
    r"\b(tells?|told|telling|asks?|asked|asking|stands?|stood|standing|what is left|(comes?|came) of)\b", re.I
)

# Something that is counted: its name and where it stands.
Count = namedtuple("Count", "name places")
FUNCTION = re.compile(r"\bfn\s+(\w+)")
HANDED_ON = {"self", "rt", "alloc", "_alloc"}
BARE_BOOL = re.compile(r"\w+\s*:\s*bool")
OPENING, CLOSING = "([{<", ")]}>"
FORBIDDEN = re.compile(r"^\| (`?)([^`|]+?)\1 \| ")
UNREAD = {"GLOSSARY.md", "CHANGELOG.md"}
COMMENT = {".rt": re.compile(r"\s*//[/!]? ?(.*)"), ".antt": re.compile(r"\s*-- ?(.*)"), ".md": re.compile(r"(.*)")}
QUOTED = re.compile(r"`[^`]*`|\[\w+\]\([^)]*\)")


def closing_index(text, start):
    """Returns the index of the bracket that closes the one at `start`. The `>` of an arrow is no bracket."""
    depth = 0
    for index in range(start, len(text)):
        if text[index] in OPENING:
            depth += 1
        elif text[index] in CLOSING and text[index - 1 : index + 1] not in ("->", "=>"):
            depth -= 1
            if depth == 0:
                return index
    raise ValueError("a bracket stays open")


def parts_of(text):
    """Returns the parts of a list that is separated by commas. Commas within brackets separate nothing."""
    parts, depth = [""], 0
    for index, letter in enumerate(text):
        depth += letter in OPENING
        depth -= letter in CLOSING and text[index - 1 : index + 1] not in ("->", "=>")
        if letter == "," and depth == 0:
            parts.append("")
        else:
            parts[-1] += letter
    return [part.strip() for part in parts if part.strip()]


def functions_of(text):
    """Yields the name of each function of a source, and its parameters without self, rt and alloc."""
    for found in FUNCTION.finditer(text):
        start = found.end()
        try:
            if text[start : start + 1] == "<":
                start = closing_index(text, start) + 1
            if text[start : start + 1] != "(":
                continue
            parameters = parts_of(text[start + 1 : closing_index(text, start)])
        except ValueError:
            continue  # words of a comment
        names = [re.sub(r"^&?('\w+ )?(mut )?", "", part.split(":")[0].strip()) for part in parameters]
        yield found.group(1), [part for part, name in zip(parameters, names) if name not in HANDED_ON]


def parameter_counts(sources):
    """Counts functions with too many parameters, and functions with a bare bool."""
    longer, bools, most = [], [], 0
    for path, text in sources:
        for name, parameters in functions_of(text):
            most = max(most, len(parameters))
            if len(parameters) > MOST_PARAMETERS:
                longer.append(f"{path}: {name}: {len(parameters)}")
            if any(BARE_BOOL.fullmatch(part) for part in parameters):
                bools.append(f"{path}: {name}")
    longest = [f"parameter {number}" for number in range(1, most + 1)]
    return [Count("longest parameter list", longest), Count("long parameter lists", longer), Count("bare bools", bools)]


def size_counts(sources):
    """Counts files with too many lines, and lines with too many characters."""
    files, lines = [], []
    for path, text in sources:
        rows = text.splitlines()
        if len(rows) > MOST_LINES:
            files.append(f"{path}: {len(rows)}")
        lines += [f"{path}:{number}" for number, row in enumerate(rows, 1) if len(row) > MOST_CHARACTERS]
    return [Count("long files", files), Count("long lines", lines)]


def forbidden_words(glossary):
    """The words of the table of words that are not used, each with whether it is a name."""
    table = glossary.split("## Words that are not used")[1].split("\n## ")[0]
    found = [FORBIDDEN.match(line) for line in table.split("\n")]
    pairs = [(match.group(2), bool(match.group(1))) for match in found if match]
    return [pair for pair in pairs if pair[0] not in ("Not used", "---")]


def word_count(sources, word):
    """Where a word stands."""
    pattern = re.compile((r"\b" if word[0].isalnum() else "") + re.escape(word) + r"\b")
    places = []
    for path, text in sources:
        if word in text:
            places += [f"{path}:{text.count(chr(10), 0, found.start()) + 1}" for found in pattern.finditer(text)]
    return Count(word, places)


def riddle_count(texts):
    """Where comments and documents have riddles. Words in backquotes and names of files are not counted."""
    places = []
    for path, text in texts:
        for number, row in enumerate(text.splitlines(), 1):
            comment = COMMENT[path.suffix].match(row)
            if comment:
                places += [f"{path}:{number}"] * len(RIDDLES.findall(QUOTED.sub("", comment.group(1))))
    return Count("riddles", places)


def read(*patterns):
    """The files of some patterns, by their paths from the top, with their texts."""
    paths = sorted(path for pattern in patterns for path in TOP.glob(pattern) if path.is_file())
    paths = [path for path in paths if "out" not in path.relative_to(TOP).parts and path.name not in UNREAD]
    return [(path.relative_to(TOP), path.read_text(encoding="utf-8")) for path in paths]


def above(count, limits, every):
    """Prints a count beside its limit. Returns true if it is above."""
    number, limit = len(count.places), limits.get(count.name, 0)
    note = "ABOVE" if number > limit else "may be lowered" if number < limit else ""
    print(f"{number:6} of {limit:6}  {count.name}  {note}".rstrip())
    for place in count.places if every or number > limit else []:
        print("       ", place)
    return number > limit


def main():
    parser = argparse.ArgumentParser(description=__doc__, formatter_class=argparse.RawDescriptionHelpFormatter)
    parser.add_argument("--list", action="store_true", help="print where each stands")
    every = parser.parse_args().list
    programs = read("crates/*/src/**/*.rt")
    sources = programs + read("crates/*/specs/**/*.antt", "crates/*/proofs/**/*.antt")
    documents = read("*.md", "docs/*.md", "crates/*/README.md", "*/README.md")
    words = forbidden_words(GLOSSARY.read_text(encoding="utf-8"))
    faults = [above(count, LIMITS, every) for count in parameter_counts(programs) + size_counts(sources)]
    faults.append(above(riddle_count(sources + documents), LIMITS, every))
    counts = [word_count(sources if is_name else sources + documents, word) for word, is_name in words]
    faults += [above(count, WORD_LIMITS, every) for count in counts]
    sys.exit(1 if any(faults) else 0)


if __name__ == "__main__":
    main()
