"""The floats of files, one after the other, as a stream of whole points on one grid. The files are read twice, first for their ends."""
from __future__ import annotations

import io
import sys
from fractions import Fraction
from functools import partial
from itertools import chain
from pathlib import Path
from typing import Any, BinaryIO, Callable, Iterator, NamedTuple, Optional, Sequence

import numpy as np

from .._arrays import floats_of
from .._files import header_of, read_block, reading_error
from .._grid import Ends, Rounded, Snapped, ends_of, grid_of, joined_ends
from .grids import decimals_of
from .part_lines import Refused
from .point_streams import BLOCK_BYTES, BLOCK_ROWS, Stream, array_of_npy, begin_of_csv, ending_of, lines_of


class Source(NamedTuple):
    """What a file has: how many points if it says so, their blocks, and by how much its decimals were moved."""

    wanted: Optional[int]
    blocks: Sequence[Callable[[], Any]]
    errors: Sequence[Callable[[], float]]


def source_of(path: str) -> Source:
    """A file before it is read."""
    if ending_of(path) == ".npy":
        array = array_of_npy(path, "iuf")
        rows = range(0, len(array), BLOCK_ROWS)
        return Source(len(array), [partial(array.__getitem__, slice(start, start + BLOCK_ROWS)) for start in rows], [])
    header = None if ending_of(path) == ".csv" else header_of(path)
    size = Path(path).stat().st_size
    offsets = [*range(header.end if header else begin_of_csv(path), size, BLOCK_BYTES), size]
    cuts = list(zip(offsets, offsets[1:]))
    blocks = [partial(read_block, path, start, end, floats=True) for start, end in cuts]
    return Source(header.count if header else None, blocks, [partial(reading_error, path, start, end) for start, end in cuts])


class FloatStream:
    """The floats of files on a grid of whole numbers that have so many bits at most."""

    def __init__(self, paths: Sequence[str], bits: int) -> None:
        sources = list(map(source_of, paths))
        self.blocks = [block for source in sources for block in source.blocks]
        self.count, self.error, ends = 0, 0.0, []
        for path, source in zip(paths, sources):
            found = self.count
            for block in source.blocks:
                floats = floats_of(block())
                ends += [ends_of(floats)] if len(floats) else []
                self.count += len(floats)
            if source.wanted not in (None, self.count - found):
                raise Refused(f"{path} has {self.count - found} points; its header counts {source.wanted}")
        if not ends:
            raise Refused("there are no points")
        self.grid = grid_of(joined_ends(ends), bits)
        self.reading = max([error() for source in sources for error in source.errors], default=0.0)

    def opened(self) -> BinaryIO:
        """The stream of a point file."""
        return io.BufferedReader(Stream(chain([b"3\n%d\n" % self.count], self.lines())), BLOCK_BYTES)

    def lines(self) -> Iterator[bytes]:
        """The lines of all whole points."""
        for block in self.blocks:
            points, error, _ = self.grid.rounded(floats_of(block()))
            self.error = max(self.error, error)
            yield lines_of(points)

    def units(self) -> Snapped:
        """The grid, and its error, when the stream has been read."""
        nothing = np.zeros((0, 3), np.int32)
        return self.grid.snapped(Rounded(nothing, self.error, 1), self.reading)


def told(grid: Snapped) -> str:
    """By how much the floats were moved at most."""
    rounding = f"floats were moved to whole points, by at most {decimals_of(Fraction(grid.error))}"
    return rounding if grid.error else "exact: no float was moved"


def in_units(off: bytes, grid: Snapped) -> bytes:
    """What stands behind the first line of an OFF text, with its whole points as the floats nearest to them."""
    counts, _, rest = off.partition(b"\n")
    *lines, faces = rest.split(b"\n", int(counts.split()[0]))
    scale, most = Fraction(grid.step), sys.float_info.max
    rows = [[(int(part) + middle) * scale.numerator for part, middle in zip(line.split(), grid.centre)] for line in lines]
    limit = int(most) * scale.denominator
    rows = [[max(-limit, min(number, limit)) for number in row] for row in rows]
    places = "".join("%r %r %r\n" % tuple(number / scale.denominator for number in row) for row in rows)
    return b"%b\n%b%b" % (counts, places.encode("ascii"), faces)
