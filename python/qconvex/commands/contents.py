"""What files have, or standard input."""
from __future__ import annotations

import sys


def bytes_of(path: str) -> bytes:
    """The bytes of a file, or of standard input where the path is `-`; a file that can't be read ends the script."""
    try:
        if path == "-":
            return sys.stdin.buffer.read()
        with open(path, "rb") as source:
            return source.read()
    except OSError as wrong:
        sys.exit(f"{path}: {wrong.strerror}")


def text_of(path: str) -> str:
    """The same as text; bytes that are none are marked."""
    return bytes_of(path).decode("utf-8", "replace")
