#!/usr/bin/env python3
"""Prints what a shell completes after the program's name, made of the help text in crates/qh_command/src/help.rt.

    scripts/make/completions.py bash              the shells are bash, zsh and fish
    scripts/make/completions.py fish --name qconvex-exact

`make install` puts all three where their shells look for them.
"""
import argparse
import re
import sys
from pathlib import Path

sys.path.insert(0, str(Path(__file__).resolve().parents[1]))
from make.man_page import help_text  # noqa: E402


OUTPUT = re.compile(r"  (\w+) +(\S.*)")
OPTION = re.compile(r"  (?:-(\w), )?--(\w+)(?: ([A-Z]+))?  +(\S.*)")
# The words that an option takes, where they are few.
VALUES = {"from": ["qhull", "off"]}


def section(text, title):
    """The lines below a title of the help text."""
    lines = text.split("\n")
    first = next(k for k, line in enumerate(lines) if line.startswith(title))
    last = next(k for k in range(first, len(lines)) if not lines[k])
    return lines[first + 1 : last]


def outputs(text):
    """The words of outputs, each with what it is."""
    return [found.groups() for found in map(OUTPUT.fullmatch, section(text, "OUT,")) if found]


def options(text):
    """Returns the options: the letter or None, the word, whether it takes a value, and its meaning."""
    found = [found.groups() for found in map(OPTION.fullmatch, section(text, "Options:")) if found]
    return [(letter, word, value is not None, re.split("[,:]", what)[0]) for letter, word, value, what in found]


def bash(name, outs, opts):
    function = "_" + name.replace("-", "_")
    words = [word for word, _ in outs] + ["--" + word for _, word, _, _ in opts]
    cases = [
        f"        --{word}) COMPREPLY=($(compgen -W '{' '.join(VALUES.get(word, []))}' -- \"$word\")) ;;"
        for _, word, takes, _ in opts
        if takes
    ]
    return "\n".join([
        f"{function}() {{",
        "    local word=${COMP_WORDS[COMP_CWORD]} before=${COMP_WORDS[COMP_CWORD - 1]}",
        "    case $before in",
        *cases,
        f"        *) COMPREPLY=($(compgen -W '{' '.join(words)}' -- \"$word\")) ;;",
        "    esac",
        "}",
        f"complete -F {function} {name}",
    ])


def zsh(name, outs, opts):
    lines = [f"#compdef {name}", "_arguments \\"]
    for letter, word, takes, what in opts:
        value = f":{word}:({' '.join(VALUES.get(word, []))})" if takes else ""
        lines += [f"    '{form}[{what}]{value}' \\" for form in ([f"-{letter}"] if letter else []) + [f"--{word}"]]
    words = " ".join(f'{word}\\:"{what}"' for word, what in outs)
    return "\n".join([*lines, f"    '*:output:(({words}))'"])


def fish(name, outs, opts):
    lines = [f"complete -c {name} -f"]
    lines += [f"complete -c {name} -a {word} -d '{what}'" for word, what in outs]
    for letter, word, takes, what in opts:
        short = f" -s {letter}" if letter else ""
        value = f" -x -a '{' '.join(VALUES.get(word, []))}'" if takes else ""
        lines.append(f"complete -c {name}{short} -l {word}{value} -d '{what}'")
    return "\n".join(lines)


def main():
    parser = argparse.ArgumentParser(description=__doc__, formatter_class=argparse.RawDescriptionHelpFormatter)
    parser.add_argument("shell", choices=["bash", "zsh", "fish"])
    parser.add_argument("--name", default="qconvex", help="the name that the program is installed by")
    given = parser.parse_args()
    text = help_text()
    print({"bash": bash, "zsh": zsh, "fish": fish}[given.shell](given.name, outputs(text), options(text)))


if __name__ == "__main__":
    main()
