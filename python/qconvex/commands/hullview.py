"""hullview: a page that shows the hull in an OFF file, to be turned and asked.

    hullview hull.off > hull.html
    qconvex off < points.txt | hullview > hull.html

The page stands alone: it needs no network. Drag to turn, use the wheel to zoom, and hover to see a vertex's index or a face's
corners. Indices are those of the file's vertices, from 0 on.
"""
from __future__ import annotations

import argparse
import signal
import sys

from .._view import page, page_of
from .contents import bytes_of
from .off_arrays import arrays_of_text
from .off_files import Malformed, Number, read_off
from .surface_forms import data_of


def shown(value: Number) -> int | float:
    """A coordinate as the page takes it: whole, or the nearest double."""
    return value if isinstance(value, int) else float(value)


def shown_file(data: bytes, title: str) -> str:
    """The page of an OFF file."""
    hull = arrays_of_text(data)
    if hull:
        return page_of(data_of(range(len(hull.points)), *hull), title)
    points, faces = read_off(data.decode("utf-8", "replace"))
    return page(list(range(len(points))), [list(map(shown, point)) for point in points], faces, title)


def main() -> int:
    """Writes the page on standard output; 1 where the file can't be read."""
    parser = argparse.ArgumentParser(prog="hullview", description=__doc__, formatter_class=argparse.RawDescriptionHelpFormatter)
    parser.add_argument("file", nargs="?", default="-", metavar="FILE", help="an OFF file (default: standard input)")
    given = parser.parse_args()
    signal.signal(signal.SIGPIPE, signal.SIG_DFL)
    try:
        text = shown_file(bytes_of(given.file), "hull" if given.file == "-" else given.file)
    except (Malformed, OverflowError) as error:
        print(f"hullview: {given.file}: {error}", file=sys.stderr)
        return 1
    sys.stdout.write(text)
    return 0


if __name__ == "__main__":
    sys.exit(main())
