#!/usr/bin/env python3
"""Finds lemmas that are stated in two places, and names that a file imports and does not use.

    scripts/gate/homes.py      from anywhere

Two lemmas are the same where their statements are, but for the names that they bind. Compared are statements that can be read
on their own: each name in them is bound there, imported, or defined at the margin of their file. What the prover asks of a
function, a goal of its own, is no lemma. A name is used where it stands outside imports, comments and quoted texts; an
operator, where each of its parts does. `rt tidy` sees neither what a source imports for its contracts nor what a file of
specs does. The status is 1 if something was found.
"""
import argparse
import re
import sys
from collections import defaultdict
from pathlib import Path

sys.path.insert(0, str(Path(__file__).resolve().parents[1]))
from lib.paths import TOP  # noqa: E402

SHORTEST = 24  # characters of a statement that is compared
IMPORT = re.compile(r"^[ \t]*(?:pub )?(?:ghost )?use ([^;\n]*);?$", re.M)
COMMENT = re.compile(r"(?:--|//).*")
TEXT = re.compile(r'"[^"\n]*"')
WORD = re.compile(r"[\w'\-₀-₉]+")
LEMMA = re.compile(r"^( *)(?:pub )?(?!abbrev |record |use )([\w'\-+₀-₉]+) : (.*)$")
BOUND = re.compile(r"[({]([^(){}:]+) : ")
LAMBDA = re.compile(r"λ ([^.]+)\.")


def imported(text):
    """Yields each name that a file imports: as it stands in the file, and as the import spells it."""
    for found in IMPORT.finditer(text):
        path, _, names = found.group(1).strip().partition(".{")
        for name in filter(None, (part.strip() for part in (names or path).rstrip("}").split(","))):
            last = name.split(" as ")[-1].strip()
            yield last if "◌" in last and "." not in last else last.rsplit(".", 1)[-1], name


def rest_of(text):
    """Returns the text of a file without imports, comments and quoted texts."""
    return COMMENT.sub("", TEXT.sub("", IMPORT.sub("", text)))


def is_used(name, rest):
    """Returns true if a name, or each part of an operator, stands in a text."""
    if "◌" in name:
        return all(part in rest for part in name.split("◌") if part)
    if re.fullmatch(r"[\w']+", name):
        return re.search(r"(?<!\w)" + re.escape(name) + r"(?!\w)", rest) is not None
    return name in rest


def unused(text):
    """Returns the names that a file imports for nothing. Left out is what it passes on, and what a source imports for Rust."""
    rest = rest_of(text)
    own = [found.group(0) for found in IMPORT.finditer(text)]
    own = [line for line in own if "::" not in line and not line.strip().startswith("pub ")]
    return [written for name, written in imported("\n".join(own)) if not is_used(name, rest)]


def statements(text):
    """Yields the name and the statement of each lemma of a file: of what is stated and then defined below it."""
    lines = [line for line in text.split("\n") if not line.strip().startswith("--")]
    for number, line in enumerate(lines):
        found = LEMMA.match(line)
        if not found:
            continue
        margin, name, said = found.groups()
        following = number + 1
        while following < len(lines) and lines[following].startswith(margin + "    "):
            said += " " + lines[following].strip()
            following += 1
        if following < len(lines) and re.match(rf"{margin}{re.escape(name)}(?![\w'\-])", lines[following]):
            yield name, said


def known(text):
    """Returns the names that mean the same throughout a file: what it imports, and what it defines at its margin."""
    own = re.findall(r"^(?:abbrev )?(?:pub )?(?:record )?([\w'\-+₀-₉]+) [:(]", text, re.M)
    words = [word for name, _ in imported(text) for word in WORD.findall(name.replace("◌", " "))]
    return {*own, *words, "Type", "ℕ", "tt"}


def shape(said, names):
    """Returns a statement with its bound names numbered, or None if it has other names than those."""
    bound = [word for part in BOUND.findall(said) + LAMBDA.findall(said) for word in WORD.findall(part)]
    numbers = {word: f"${number}" for number, word in enumerate(dict.fromkeys(bound))}
    free = {word for word in WORD.findall(re.sub(r"\.[\w'\-]+", "", said)) if not word[0].isdigit()}
    if said.startswith("goal.") or len(said) < SHORTEST or not free <= names | numbers.keys() | {"-"}:
        return None
    return re.sub(r"\s+", " ", WORD.sub(lambda found: numbers.get(found.group(0), found.group(0)), said))


def homes(files):
    """Returns the places of each statement that has more than one."""
    places = defaultdict(list)
    for path, text in files:
        names = known(text)
        for name, said in statements(text):
            form = shape(said, names)
            if form:
                places[form].append(f"{path}: {name}")
    return [found for found in places.values() if len(found) > 1]


def read(*patterns):
    """The files of some patterns, by their paths from the top, with their texts."""
    paths = sorted(path for pattern in patterns for path in TOP.glob(pattern))
    paths = [path for path in paths if "out" not in path.relative_to(TOP).parts]
    return [(path.relative_to(TOP), path.read_text(encoding="utf-8")) for path in paths]


def main():
    argparse.ArgumentParser(description=__doc__, formatter_class=argparse.RawDescriptionHelpFormatter).parse_args()
    proofs = read("crates/*/proofs/**/*.antt")
    faults = ["stated twice: " + ", ".join(found) for found in homes(proofs)]
    for path, text in proofs + read("crates/*/specs/**/*.antt", "crates/*/src/**/*.rt"):
        faults += [f"imported for nothing: {path}: {name}" for name in unused(text)]
    print("\n".join(faults or [f"ok: {len(proofs)} files of proofs, no lemma twice, no import for nothing"]))
    sys.exit(1 if faults else 0)


if __name__ == "__main__":
    main()
