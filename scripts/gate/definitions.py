"""Reads the definitions of `crates/*/specs` and the clauses of `crates/*/src` that cite them."""
import re
from pathlib import Path

CRATES = Path("crates")
WORD = re.compile(r"[^\W\d][\w'×-]*")
USE = re.compile(r"^\s*(?:ghost )?use (Rattle\.[\w.]+?)(?:\.\{(.*?)\})?(?: as (\w+))?;?\s*$")
START = re.compile(r"^( *)(?:abbrev|unfoldable|pub record|pub data|record|data)( [^{\s].*)$")
CONSTRUCTOR = re.compile(r"^\s+(?:pub )?([\w'-]+)\s*:")
CLAUSE = re.compile(r"\b(requires|ensures|ghost (\w+)\s*[=:])\s*(?:\w+\s*)?\{")
FUNCTION = re.compile(r"^( *)(pub )?(?:pub\(crate\) )?fn (\w+)", re.M)
CONTAINER = re.compile(r"^(?:pub )?(impl|trait)\b([^\n{]*)", re.M)
REEXPORT = re.compile(r"^pub use ([^;]*);", re.M)
NAME = re.compile(r"\b([A-Z]\w*)")


class Definition:
    """A definition of a specs file: its name, module, lines with their comments, and what it cites."""

    def __init__(self, crate, path, module, name):
        self.crate, self.path, self.module, self.name = crate, path, module, name
        self.lines, self.cites, self.items = [], set(), set()

    def folder(self):
        """The folder below specs/ with the definition, or an empty text."""
        below = self.path.relative_to(CRATES / self.crate / "specs").parts
        return below[0] if len(below) > 1 else ""

    def code(self):
        """The text of the definition without comments."""
        return "\n".join(line for line in self.lines if not line.strip().startswith("--"))


class Clause:
    """A clause of a function, a trait or a Model: where it stands, and what it cites.

    Its kind is `requires`, `ensures` or the name of a ghost item; `container` is the head of the impl or trait that it
    stands in.
    """

    def __init__(self, path, function, marked_public, container, kind):
        self.crate, self.path, self.function, self.container, self.kind = path.parts[1], path, function, container, kind
        self.marked_public = marked_public
        self.cites, self.items = set(), set()

    def is_public(self, exports):
        """Returns true if callers of the crate see the clause. `exports` are the names that the crate exports."""
        if self.kind not in ("requires", "ensures", "Value"):
            return False
        if not self.container:
            return self.marked_public and self.function in exports
        owner = self.container.split(" for ")[-1]
        open_to_all = self.marked_public or self.container.startswith("trait") or " for " in self.container
        return open_to_all and bool(exports & set(NAME.findall(owner)[:1]))


class Imports:
    """The names that the `use` lines of a file bring in."""

    def __init__(self, lines):
        self.names, self.modules = {}, {}
        for line in lines:
            found = USE.match(line)
            if found:
                self._take(*found.groups())

    def _take(self, path, names, alias):
        if names is None:
            self.modules[alias or path.rsplit(".", 1)[-1]] = path
            return
        for name in names.split(","):
            source, _, target = name.strip().partition(" as ")
            folder, _, own = source.rpartition(".")
            if own:
                self.names[target or own] = (f"{path}.{folder}" if folder else path, own)


class Project:
    """All definitions and clauses of the crates."""

    def __init__(self):
        self.definitions, self.by_name, self.clauses = [], {}, []
        self._cited_by = {}
        for path in sorted(CRATES.glob("*/specs/**/*.antt")):
            self._read_specs(path)
        for definition, imports in self._cited_by.items():
            definition.cites, definition.items = self._cited(definition.code(), definition.module, imports)
            definition.cites.discard(definition)
        for path in sorted(CRATES.glob("*/src/**/*.rt")):
            if "tests" not in path.parts and path.name != "tests.rt":
                self._read_source(path)

    def _read_specs(self, path):
        crate = path.parts[1]
        module = "Rattle.%s.%s" % (crate, ".".join(path.with_suffix("").parts[2:]))
        lines = path.read_text().split("\n")
        imports, comments, current = Imports(lines), [], None
        for line in lines:
            start = START.match(line)
            if start:
                name = re.findall(r"[^\s:{}()]+", start.group(2).replace("pub ", "", 1))[0]
                current = Definition(crate, path, module, name)
                self._add(current, imports, comments)
                comments = []
            elif line.strip().startswith("--"):
                comments.append(line)
                continue
            elif line.strip() == "" or USE.match(line) or line.strip().startswith(("module ", "pub mod ")):
                comments = []
                continue
            if current:
                current.lines.append(line)
                self._note_constructor(current, line)

    def _add(self, definition, imports, comments):
        definition.lines += comments
        self.definitions.append(definition)
        self.by_name[definition.module, definition.name] = definition
        self._cited_by[definition] = imports

    def _note_constructor(self, definition, line):
        found = CONSTRUCTOR.match(line)
        if found and re.match(r"\s*(pub )?data ", definition.code()):
            for module in (definition.module, definition.module + "." + definition.name):
                self.by_name[module, found.group(1)] = definition

    def _cited(self, code, module, imports):
        """The definitions and the items of the program that a text cites."""
        code = re.sub(r"--.*", "", re.sub(r'"[^"]*"', "", code))
        code = re.sub(r"(?<=[\w)])\.[a-z_0-9]\w*", "", code)
        cites, items = set(), set()
        for word in WORD.findall(code):
            path, name = imports.names.get(word, (module, word))
            if ".specs.declared." in path:
                items.add((path, name))
            elif (path, name) in self.by_name:
                cites.add(self.by_name[path, name])
            elif word in imports.modules and ".specs.declared." in imports.modules[word]:
                items.add((imports.modules[word], ""))
        return cites, items

    def _read_source(self, path):
        text = path.read_text()
        joined = re.sub(r"ghost use [^;]*;", lambda use: re.sub(r"\s+", " ", use.group()), text)
        imports = Imports(joined.split("\n"))
        functions, containers = list(FUNCTION.finditer(text)), list(CONTAINER.finditer(text))
        for found in CLAUSE.finditer(text):
            function = last_before(functions, found.start())
            container = last_before(containers, found.start())
            if container and function and not function.group(1) and function.start() > container.start():
                container = None
            public = bool(function and function.group(2)) and not is_of_closure(text, function, found)
            clause = Clause(path, function.group(3) if function else "", public,
                            container.group(1) + re.sub(r"<[^<>]*>", "", container.group(2)) if container else "",
                            found.group(2) or found.group(1))
            clause.cites, clause.items = self._cited(block(text, found.end()), "", imports)
            self.clauses.append(clause)

    def exports(self, crate):
        """The names that a crate exports; for a program, all public names of its files."""
        root = CRATES / crate / "src/lib.rt"
        if root.exists():
            return {name for group in REEXPORT.findall(root.read_text()) for name in re.findall(r"\w+", group)}
        texts = [path.read_text() for path in (CRATES / crate / "src").glob("*.rt")]
        return {name for text in texts for name in re.findall(r"^ *pub (?:fn|struct|enum|trait) (\w+)", text, re.M)}

    def reached(self, definitions):
        """The definitions, and all that they cite in turn."""
        seen, todo = set(definitions), list(definitions)
        while todo:
            for cited in todo.pop().cites - seen:
                seen.add(cited)
                todo.append(cited)
        return seen


def is_of_closure(text, function, clause):
    """Returns true if a clause is indented deeper than those of its function: then it belongs to a closure in the body."""
    indent = clause.start() - text.rfind("\n", 0, clause.start()) - 1
    return indent > len(function.group(1)) + 4


def last_before(found, position):
    """The last match that begins before the position, or None."""
    return max((match for match in found if match.start() < position), key=lambda match: match.start(), default=None)


def block(text, start):
    """The text up to the brace that closes the one before `start`."""
    depth, end = 1, start
    while depth:
        depth += {"{": 1, "}": -1}.get(text[end], 0)
        end += 1
    return text[start:end - 1]
