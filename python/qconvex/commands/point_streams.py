"""The points of files, one after the other, as one stream of lines behind a header that counts them all: point files, csv and npy."""
from __future__ import annotations

import io
import os
from itertools import chain
from typing import Any, BinaryIO, Iterator, Sequence, Tuple

from .._limits import COORDINATE_LIMIT
from .part_lines import DATA_WORD_STARTS, Refused, header_of

BLOCK_BYTES, BLOCK_ROWS = 1 << 20, 1 << 15
BYTE_ORDER_MARK = b"\xef\xbb\xbf"
BLANKS = bytes.maketrans(b",;\t" + BYTE_ORDER_MARK, b"      ")

# How many points there are, and their lines in blocks.
Counted = Tuple[int, Iterator[bytes]]


class Stream(io.RawIOBase):
    """Blocks of bytes as a file."""

    def __init__(self, blocks: Iterator[bytes]) -> None:
        self.blocks, self.rest = blocks, b""

    def readable(self) -> bool:
        return True

    def readinto(self, buffer: Any) -> int:
        while not self.rest:
            block = next(self.blocks, None)
            if block is None:
                return 0
            self.rest = block
        size = min(len(buffer), len(self.rest))
        buffer[:size], self.rest = self.rest[:size], self.rest[size:]
        return size


def are_one_text(paths: Sequence[str]) -> bool:
    """Whether they are one point file, whose lines are those of the stream."""
    return len(paths) == 1 and ending_of(paths[0]) not in READERS


def opened(paths: Sequence[str]) -> BinaryIO:
    """The points of some files as the stream of a point file."""
    if are_one_text(paths):
        return open(paths[0], "rb")
    counted = [READERS.get(ending_of(path), points_of_text)(path) for path in paths]
    head = b"3\n%d\n" % sum(count for count, _ in counted)
    return io.BufferedReader(Stream(chain([head], *(blocks for _, blocks in counted))), BLOCK_BYTES)


def ending_of(path: str) -> str:
    """The ending of a file's name."""
    return os.path.splitext(path)[1].lower()


def points_of_text(path: str) -> Counted:
    """The points of a point file."""
    source = open(path, "rb")
    header = header_of(source)
    return header.count, chain([header.rest + b"\n"] if header.rest else [], blocks_of(source))


def blocks_of(source: BinaryIO) -> Iterator[bytes]:
    """The rest of a file, which then ends with a line end."""
    last = b"\n"
    with source:
        while block := source.read(BLOCK_BYTES):
            yield block
            last = block[-1:]
    if last != b"\n":
        yield b"\n"


def begin_of_csv(path: str) -> int:
    """The offset at which the rows of a table begin: that of its second line if the first has names."""
    with open(path, "rb") as source:
        first = source.readline()
    words = first.lstrip(BYTE_ORDER_MARK).strip()
    return len(first) if words and words[0] not in DATA_WORD_STARTS else 0


def points_of_csv(path: str) -> Counted:
    """The points of a table of whole numbers with commas, tabs or semicolons between, a row each, behind names or not."""
    source = open(path, "rb")
    source.seek(begin_of_csv(path))
    count = sum(1 for line in source if line.strip())
    source.seek(begin_of_csv(path))
    return count, (block.translate(BLANKS) for block in blocks_of(source))


def array_of_npy(path: str, kinds: str) -> Any:
    """The array (n, 3) of a file, of numbers of some kinds, which numpy reads."""
    try:
        import numpy
    except ImportError:
        raise Refused(f"{path}: numpy is missing, which reads .npy") from None
    try:
        array = numpy.load(path, mmap_mode="r", allow_pickle=False)
    except ValueError as wrong:
        raise Refused(f"{path}: no array of numpy: {wrong}") from None
    if array.ndim != 2 or array.shape[1] != 3 or array.dtype.kind not in kinds:
        wanted = "numbers" if "f" in kinds else "whole numbers, or with --bits floats,"
        raise Refused(f"{path}: points are {wanted} of the shape (n, 3), not {array.dtype} of the shape {array.shape}")
    return array


def points_of_npy(path: str) -> Counted:
    """The points of an array of whole numbers."""
    array = array_of_npy(path, "iu")
    return len(array), (lines_of(array[start : start + BLOCK_ROWS], path) for start in range(0, len(array), BLOCK_ROWS))


def lines_of(points: Any, path: str = "") -> bytes:
    """The lines of points in an array, which are in range."""
    from . import number_texts

    if points.max() > COORDINATE_LIMIT or points.min() < -COORDINATE_LIMIT:
        raise Refused(f"{path}: a coordinate is not from {-COORDINATE_LIMIT} to {COORDINATE_LIMIT}")
    return b"".join(number_texts.blocks_of([number_texts.rows("", " ", points.astype("int64"))], "\n"))


READERS = {".npy": points_of_npy, ".csv": points_of_csv}
