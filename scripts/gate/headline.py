#!/usr/bin/env python3
"""Follows the contracts of `answer` and `serve` to every definition that they use, and checks its folder.

    scripts/gate/headline.py [--list]      from the top of the repository

A reader of the headline must believe the definitions that the two contracts use, directly or through other definitions. They
have to be exactly those of the folders `specs/headline` of all crates, and at most 450 lines without their comments. The
script also checks that

- every other definition that a clause of a public function or trait uses stands in `specs/contract`;
- docs/DEFINITIONS.md names each definition of these two folders, and no other;
- docs/LAWS.md names each law and each clause of a law, and no other;
- README.md has the number of lines, and the number of lines in which the traits `Source` and `Sink` say what a device does;
- docs/PROVED.md has the number of lines for `run` of the program and for the calls of the board, docs/CHECKING.md that for
  `run` of hullcheck.

It prints each file with its number of definitions and lines (--list: with each definition), the types and constants of the
program that they use, and four numbers of lines: of `answer` and `serve`, the program, the checker and the board; then each
fault. The status is 1 if there is a fault.
"""
import argparse
import re
import sys
from collections import defaultdict
from pathlib import Path

sys.path.insert(0, str(Path(__file__).resolve().parents[1]))
from gate.definitions import CRATES, Project  # noqa: E402


MOST_LINES = 450
# The traits of the devices, whose clauses the contract of `serve` takes for granted.
DEVICES = ((CRATES / "qh_read/src/source.rt", "Source"), (CRATES / "qh_write/src/sink.rt", "Sink"))
HEADLINE = {(CRATES / "qh_serve/src/answers.rt", "answer"), (CRATES / "qh_serve/src/serving.rt", "serve")}
PROGRAM = {(CRATES / "qconvex/src/program.rt", "run")}
CHECKER = {(CRATES / "hullcheck/src/program.rt", "run")}
BOARD = {(CRATES / "qh_board/src" / file, call)
         for file, call in (("opening.rt", "new"), ("calls.rt", "claim"), ("calls.rt", "deliver"), ("calls.rt", "leave"),
                            ("calls.rt", "give_up"), ("closing.rt", "close"))}
SETTINGS = CRATES / "qh_command/src/settings.rt"
LAWS = (CRATES / "qh_model/src/laws", CRATES / "qh_laws/src", CRATES / "qh_lattice/src", CRATES / "qh_laws_surface/src")
NAMED = re.compile(r"`([^`\s]+)`")
ROW = re.compile(r"^\| \[\w+\]\(([^)]*\.antt)\) \| ([^|]*) \|", re.M)


def headline(project):
    """Returns all definitions that the contracts of `answer` and `serve` use."""
    clauses = [clause for clause in project.clauses
               if (clause.path, clause.function) in HEADLINE
               or clause.path == SETTINGS and clause.kind == "Value"]
    return project.reached(set().union(*(clause.cites for clause in clauses)))


def used(project, functions):
    """Returns all definitions that the contracts of functions use."""
    clauses = [clause for clause in project.clauses if (clause.path, clause.function) in functions]
    return project.reached(set().union(*(clause.cites for clause in clauses)))


def contract(project):
    """All definitions that clauses of public functions cite."""
    cited = set()
    for clause in project.clauses:
        if clause.is_public(project.exports(clause.crate)) and not set(LAWS) & set(clause.path.parents):
            cited |= clause.cites
    return project.reached(cited)


def print_files(definitions, every):
    """Prints a line for each file of definitions, and with `every` a line for each definition."""
    files = defaultdict(list)
    for definition in definitions:
        files[definition.path].append(definition)
    for path in sorted(files):
        lines = lines_of(files[path])
        print("%4d lines, %2d definitions  %s" % (lines, len(files[path]), path))
        for definition in files[path] if every else []:
            print("        %s" % definition.name)
    items = {item for definition in definitions for item in definition.items}
    for module, name in sorted(items):
        where = module.split(".specs.declared.")
        print("      of the program: %s in %s" % (where[1].split(".")[-1] if not name else name, where[0].split(".")[1]))


def lines_of(definitions):
    """The lines of definitions without their comments."""
    return sum(len(definition.code().split("\n")) for definition in definitions)


def standing(project, folder):
    return {definition for definition in project.definitions if definition.folder() == folder}


def folder_faults(project, believed, cited):
    """Yields each definition that stands in the wrong folder."""
    for definition in sorted(believed - standing(project, "headline"), key=str_of):
        yield "%s is used by the headline, and stands elsewhere" % str_of(definition)
    for definition in sorted(standing(project, "headline") - believed, key=str_of):
        yield "%s stands in headline/, and the headline does not use it" % str_of(definition)
    for definition in sorted(cited - believed - standing(project, "contract"), key=str_of):
        yield "%s is cited by a public clause, and stands outside contract/" % str_of(definition)


def str_of(definition):
    return "%s (%s)" % (definition.name, definition.path)


def definitions_faults(project):
    """Yields each file whose row in docs/DEFINITIONS.md does not name exactly its definitions."""
    page = Path("docs/DEFINITIONS.md")
    listed, stated = {}, defaultdict(list)
    for link, names in ROW.findall(page.read_text()):
        listed[(page.parent / link).resolve().relative_to(Path.cwd())] = NAMED.findall(names)
    for folder in ("headline", "contract"):
        for definition in standing(project, folder):
            stated[definition.path].append(definition.name)
    for path in sorted({*listed, *stated}):
        if sorted(listed.get(path, [])) != sorted(stated.get(path, [])):
            differ = set(listed.get(path, [])) ^ set(stated.get(path, []))
            yield "docs/DEFINITIONS.md and %s disagree on %s" % (path, ", ".join(sorted(differ)) or "how often")


def laws():
    """The clauses of each law, by its function."""
    found = {}
    for path in (path for folder in LAWS for path in folder.glob("*.rt")):
        for function in re.finditer(r"^pub fn (\w+)\(\)(.*?)^\{", path.read_text(), re.M | re.S):
            found[function.group(1)] = set(re.findall(r"ensures (\w+) \{", function.group(2)))
    return found


def laws_faults():
    """Yields each law that docs/LAWS.md lacks, or has with other clauses."""
    listed, law = defaultdict(set), None
    for line in Path("docs/LAWS.md").read_text().split("\n"):
        cells = [cell.strip() for cell in line.split("|")]
        if len(cells) > 3 and (NAMED.match(cells[1]) or cells[1] == ""):
            law = NAMED.findall(cells[1])[0] if cells[1] else law
            listed[law] |= set(NAMED.findall(cells[2]))
    stated = laws()
    for name in sorted(set(listed) ^ set(stated)):
        yield "docs/LAWS.md and the laws of the crates disagree on %s" % name
    for name in sorted(set(listed) & set(stated)):
        if listed[name] != stated[name]:
            yield "docs/LAWS.md has other clauses of %s: %s" % (name, ", ".join(sorted(listed[name] ^ stated[name])))


def device_lines():
    """The number of lines in which the traits of the devices have ghost members and clauses."""
    count = 0
    for path, name in DEVICES:
        body = re.search(r"^pub trait %s \{(.*?)^\}" % name, path.read_text(), re.M | re.S).group(1)
        count += len(re.findall(r"^\s*(?:ghost|requires|ensures) ", body, re.M))
    return count


def words_of(page):
    """Returns the words of a page, with one blank between any two."""
    return " ".join(page.read_text().split())


def number_faults(lines):
    """Yields each number of lines that is too large, or differs from the number in README."""
    if "%d lines more" % device_lines() not in words_of(Path("README.md")):
        yield "README.md does not say: %d lines more" % device_lines()
    if lines > MOST_LINES:
        yield "%d lines are more than %d" % (lines, MOST_LINES)
    if "%d lines of definitions" % lines not in words_of(Path("README.md")):
        yield "README.md does not say: %d lines of definitions" % lines


def page_faults(page, what, lines):
    """Yields a fault if a page has another number of lines for something."""
    if "%d lines of definitions" % lines not in words_of(Path("docs", page)):
        yield "docs/%s does not say of %s: %d lines of definitions" % (page, what, lines)


def main():
    parser = argparse.ArgumentParser(description=__doc__, formatter_class=argparse.RawDescriptionHelpFormatter)
    parser.add_argument("--list", action="store_true", help="print each definition, too")
    every = parser.parse_args().list
    project = Project()
    believed = headline(project)
    lines = lines_of(believed)
    print_files(believed, every)
    print("%d definitions, %d lines of `answer` and `serve`" % (len(believed), lines))
    print("%d lines of the traits of devices" % device_lines())
    faults = [*folder_faults(project, believed, contract(project)), *definitions_faults(project), *laws_faults(),
              *number_faults(lines)]
    for what, page, functions in (("the program", "PROVED.md", PROGRAM), ("the checker", "CHECKING.md", CHECKER), ("the board", "PROVED.md", BOARD)):
        count = lines_of(used(project, functions))
        print("%d lines of %s" % (count, what))
        faults += page_faults(page, what, count)
    for fault in faults:
        print("FAULT:", fault)
    sys.exit(1 if faults else 0)


if __name__ == "__main__":
    main()
