#!/usr/bin/env python3
"""Checks that every relative link of the documents leads to a file, and every anchor to a heading.

    scripts/gate/links.py [FILE]...      from anywhere; with no FILE: every Markdown file of the repository

A link is `[text](target)`, `![text](target)`, or `src="target"` or `href="target"`. Links with a scheme, such as https,
are not looked at, nor is what stands in code. Every page of docs has to be named by docs/README.md. It prints each fault;
the status is 1 if there was one.
"""
import re
import sys
from pathlib import Path

sys.path.insert(0, str(Path(__file__).resolve().parents[1]))
from lib.paths import TOP  # noqa: E402
from lib.usage import names_given  # noqa: E402

MAP = TOP / "docs" / "README.md"
LINK = re.compile(r"\]\(([^()\s]+)\)|(?:src|href)=\"([^\"]+)\"")
HEADING = re.compile(r"^#+ (.*)$")
ANCHOR = re.compile(r"<a id=\"([^\"]+)\">")
SCHEME = re.compile(r"[a-z]+:")
SKIPPED = {"out", "build", "dist", "venv", "node_modules"}


def prose_lines(text):
    """Yields the lines of a document outside fenced code, each with its number and without inline code."""
    fenced = False
    for number, line in enumerate(text.split("\n"), 1):
        if line.startswith("```"):
            fenced = not fenced
        elif not fenced:
            yield number, re.sub(r"`[^`]*`", lambda code: " " * len(code.group()), line)


def slug(heading):
    """The anchor that a heading has on the web: lower case, without punctuation, with hyphens for blanks."""
    text = re.sub(r"\[([^\]]*)\]\([^)]*\)", r"\1", heading).lower()
    return re.sub(r"[^\w\- ]", "", text).strip().replace(" ", "-")


def anchors(text):
    """The anchors of a document."""
    found, fenced = set(), False
    for line in text.split("\n"):
        fenced = fenced != line.startswith("```")
        heading = None if fenced else HEADING.match(line)
        if heading:
            found.add(slug(heading.group(1)))
        found.update(ANCHOR.findall(line))
    return found


def links(text):
    """The relative links of a document, each with the number of its line."""
    for number, line in prose_lines(text):
        for pair in LINK.findall(line):
            target = pair[0] or pair[1]
            if not SCHEME.match(target):
                yield number, target


def fault_of(path, target):
    """Returns what is wrong with a link of a file, or None."""
    name, _, anchor = target.partition("#")
    goal = (path.parent / name).resolve() if name else path
    if not goal.exists():
        return "no such file"
    if anchor and goal.suffix == ".md" and anchor not in anchors(goal.read_text(encoding="utf-8")):
        return "no such heading"
    return None


def link_faults(paths):
    """Yields a line of text for each broken link."""
    for path in paths:
        for number, target in links(path.read_text(encoding="utf-8")):
            fault = fault_of(path, target)
            if fault:
                yield f"{path.relative_to(TOP)}:{number}: {target}: {fault}"


def map_faults():
    """Yields a line of text for each page of docs that docs/README.md does not name."""
    named = {target.partition("#")[0] for _, target in links(MAP.read_text(encoding="utf-8"))}
    for page in sorted(MAP.parent.glob("*.md")):
        if page != MAP and page.name not in named:
            yield f"docs/README.md does not name {page.name}"


def documents():
    """Every Markdown file of the repository; folders whose names begin with a point are left out."""
    found = [(path, path.relative_to(TOP).parts) for path in TOP.rglob("*.md")]
    return sorted(path for path, parts in found if not SKIPPED & set(parts) and not any(part[0] == "." for part in parts))


def main():
    names = names_given(__doc__)
    paths = [Path(name).resolve() for name in names] if names else documents()
    faults = [*link_faults(paths), *([] if names else map_faults())]
    for fault in faults:
        print("FAULT:", fault)
    print(f"{len(paths)} documents, {len(faults)} faults")
    sys.exit(1 if faults else 0)


if __name__ == "__main__":
    main()
