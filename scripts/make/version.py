#!/usr/bin/env python3
"""Prints where the version of the program and the libraries stands, or changes it in all these places.

    scripts/make/version.py            prints the version; the status is 1 if two places differ
    scripts/make/version.py 1.2.3      writes this version to all places

The places are the help text and that of `--version`, the header and the crate of the library for C, and the package for Python. After a change
run scripts/make/man_page.py, and build the program and the library anew.
"""
import re
import sys
from pathlib import Path

sys.path.insert(0, str(Path(__file__).resolve().parents[1]))
from lib.paths import TOP  # noqa: E402
from lib.usage import names_given  # noqa: E402

# A file, the text around the version, and whether it stands there as one number.
PLACES = [
    ("crates/qh_command/src/help.rt", 'HELP: &str = "qconvex {}: ', False),
    ("crates/qh_command/src/help.rt", 'VERSION: &str = "qconvex {}\\n"', False),
    ("c/qconvex.h", '#define QCONVEX_VERSION "{}"', False),
    ("c/qconvex.h", "#define QCONVEX_VERSION_NUMBER {} ", True),
    ("crates/qconvex_c/src/version.rt", "pub const VERSION: u32 = {};", True),
    ("python/pyproject.toml", 'version = "{}"', False),
]


def number_of(version):
    """The version as one number; a text that is no version ends the script."""
    if not re.fullmatch(r"\d+\.\d+\.\d+", version):
        sys.exit(f"{version!r} is no version such as 1.2.3")
    major, minor, patch = map(int, version.split("."))
    return str(10000 * major + 100 * minor + patch)


def version_of(number):
    """The version that a number stands for."""
    return f"{int(number) // 10000}.{int(number) // 100 % 100}.{int(number) % 100}"


def pattern(around):
    """Finds the version between the text before and behind it."""
    before, behind = map(re.escape, around.split("{}"))
    return re.compile(f"(?<={before})[0-9.]+(?={behind})")


def main():
    names, found = names_given(__doc__), []
    for name in names:
        number_of(name)
    for name, around, is_number in PLACES:
        path = Path(TOP) / name
        text = path.read_text(encoding="utf-8")
        stands = pattern(around).search(text).group()
        found.append(version_of(stands) if is_number else stands)
        if names:
            wanted = number_of(names[0]) if is_number else names[0]
            path.write_text(pattern(around).sub(wanted, text, count=1), encoding="utf-8")
    if not names:
        print(found[0] if len(set(found)) == 1 else "\n".join(f"{v} in {place[0]}" for v, place in zip(found, PLACES)))
        sys.exit(len(set(found)) > 1)


if __name__ == "__main__":
    main()
