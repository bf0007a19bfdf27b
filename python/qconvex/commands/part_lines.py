"""A point file in parts of whole lines, and word by word where points do not stand a line each."""
from __future__ import annotations

from itertools import chain, islice
from typing import BinaryIO, Iterable, Iterator, List, NamedTuple

from .._limits import BYTE_LIMIT

# A data word begins with one of these bytes; any other word begins a comment.
DATA_WORD_STARTS = b"0123456789+-."
# How much is read at a time, and from how many bytes on a part ends before its size, so that the program can read it.
LEAST_READ, LONGEST = 1 << 16, BYTE_LIMIT // 2


class Refused(Exception):
    """Why there is no answer."""


class Part(NamedTuple):
    """Points in turn, as a text of lines."""

    text: bytes
    count: int  # type: ignore[assignment]  # of the lines, which is that of the points where each has one
    line: int  # the number of lines of the file before it; below 0 where the lines are not the file's


class Header(NamedTuple):
    """What stands before the points."""

    count: int  # type: ignore[assignment]
    lines: int  # how many lines it takes
    rest: bytes  # the words of its last line that are points


def header_of(source: BinaryIO) -> Header:
    """The header of a stream."""
    words: List[bytes] = []
    lines = 0
    while len(words) < 2 and (line := source.readline()):
        words += data_words(line)
        lines += 1
    try:
        first, second = map(int, words[:2])
    except ValueError:
        raise Refused("the input has no header of two numbers") from None
    if 3 not in (first, second):
        raise Refused("neither number of the header is 3")
    return Header(second if first == 3 else first, lines, b" ".join(words[2:]))


def data_words(line: bytes) -> List[bytes]:
    """The words of a line before its comment."""
    words = line.split()
    for place, word in enumerate(words):
        if word[0] not in DATA_WORD_STARTS:
            return words[:place]
    return words


class LineParts:
    """The lines of a stream in parts of a size.

    The first words are those that were read of it already; `lines` lines of the file stand before them.
    """

    def __init__(self, source: BinaryIO, size: int, words: bytes, lines: int) -> None:
        self.source, self.size, self.lines = source, size, lines
        self.rest = words and words + b"\n"  # what was read and given to no part
        self.width: float = 24  # about how many bytes a line has

    def __iter__(self) -> Iterator[Part]:
        while (found := self.filled()) or self.rest:
            count, end = min(found, self.size), len(self.rest)
            if found >= self.size:
                end = end_of_line(self.rest, self.size)
            elif found and end >= LONGEST:
                end = self.rest.rfind(b"\n") + 1
            text, self.rest = self.rest[:end], self.rest[end:]
            if not text.endswith(b"\n"):
                text, count = text + b"\n", count + 1
            yield Part(text, count, self.lines)
            self.lines, self.width = self.lines + count, len(text) / count

    def filled(self) -> int:
        """Reads until there are lines or bytes for a part, or no more; how many line ends there are."""
        found = self.rest.count(b"\n")
        while found < self.size and not (found and len(self.rest) >= LONGEST):
            more = self.source.read(min(LONGEST, max(LEAST_READ, round((self.size - found) * self.width * 1.02))))
            if not more:
                break
            self.rest += more
            found += more.count(b"\n")
        return found

    def lines_left(self) -> Iterator[bytes]:
        """The lines that were given to no part."""
        return chain((self.rest + self.source.readline()).split(b"\n"), self.source)


def end_of_line(text: bytes, number: int) -> int:
    """Where the line of a number, counted from 1, ends in a text that has it."""
    low, high = 0, len(text)
    while high - low > 1:
        middle = (low + high) // 2
        found = text.count(b"\n", low, middle)
        if found < number:
            low, number = middle, number - found
        else:
            high = middle
    return high


def word_parts(parts: Iterable[Part], rest: Iterable[bytes], size: int) -> Iterator[Part]:
    """The points of some parts and of the lines behind them, in parts of a size, whatever lines they stand on."""
    lines = chain(chain.from_iterable(part.text.split(b"\n") for part in parts), rest)
    words = chain.from_iterable(map(data_words, lines))
    while piece := list(islice(words, 3 * size)):
        if len(piece) % 3:
            raise Refused(f"the input ends {3 - len(piece) % 3} numbers before the end of a point")
        yield part_of_points(b" ".join(piece[place : place + 3]) for place in range(0, len(piece), 3))


def part_of_points(points: Iterable[bytes]) -> Part:
    """Points as a part that is not of the file's lines."""
    points = list(points)
    return Part(b"".join(b"%b\n" % point for point in points), len(points), -1)
