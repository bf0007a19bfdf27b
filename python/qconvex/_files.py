"""Point files in blocks of bytes that end at line ends, parsed by numpy."""
from __future__ import annotations

import operator
import re
from dataclasses import dataclass
from decimal import Decimal
from pathlib import Path
from typing import Any, BinaryIO

import numpy as np
from numpy.typing import NDArray

from .commands.point_files import KINDS, SIGNS_AMISS
from .commands.point_streams import BLANKS

_DATA_WORD = re.compile(rb"[+-]?[0-9]+")
_DECIMAL = re.compile(rb"[+-]?([0-9]+\.?[0-9]*|\.[0-9]+)([eE][+-]?[0-9]+)?")
_OF_DECIMALS = b"0123456789+-.eE \t\r\n\v\f"  # what float() takes of these alone is a decimal
_DATA_WORD_STARTS = b"0123456789+-."  # any other word begins a comment, up to the end of its line


@dataclass(frozen=True)
class Header:
    """What stands before the points of a file."""

    count: int  # of the points
    end: int  # the offset of the first byte behind the header's line


def header_of(path: str | Path) -> Header:
    """The header of a point file: the 3 and the count, in either order, on lines of their own.

    Raises ValueError where there is none, or where points begin on the header's last line.
    """
    words: list[bytes] = []
    with open(path, "rb") as source:
        while len(words) < 2 and (line := source.readline()):
            words += _data_words(line)
        end = source.tell()
    if len(words) < 2 or not all(_DATA_WORD.fullmatch(word) for word in words):
        raise ValueError(f"{path}: there is no header of two numbers")
    if len(words) > 2:
        raise ValueError(f"{path}: points begin on the line of the header; this reader takes them from the next line on")
    first, second = map(int, words)
    if 3 not in (first, second):
        raise ValueError(f"{path}: neither number of the header is 3")
    return Header(second if first == 3 else first, end)


def read_block(path: str | Path, start: int, end: int, floats: bool = False) -> NDArray[Any]:
    """The points of the lines that begin from the offset start to before the offset end, an array of shape (n, 3).

    They are int64, or the float64 that are nearest to decimals. Raises ValueError where a word is no such number, or a point goes
    over the end of the block's last line.
    """
    text, begin = _lines_of(path, start, end)
    numbers: NDArray[Any] = np.array(_floats_of(text, path, begin)[1], float) if floats else _numbers_of(text, path, begin)
    if len(numbers) % 3:
        raise ValueError(f"{path}: the lines of the bytes {begin} to {begin + len(text)} have {len(numbers)} numbers, "
                         "not three for each point")
    return numbers.reshape(-1, 3)


def reading_error(path: str | Path, start: int, end: int) -> float:
    """By how much at most the decimals of these lines differ from their float64: 0, or half the distance of the greatest to the next."""
    text, begin = _lines_of(path, start, end)
    words, floats = _floats_of(text, path, begin)
    if all(map(operator.eq, map(Decimal, map(bytes.decode, words)), floats)):
        return 0.0
    return float(np.spacing(np.abs(floats).max())) / 2


def _lines_of(path: str | Path, start: int, end: int) -> tuple[bytes, int]:
    """The lines that begin from an offset to before another, with blanks between the numbers, and the offset where they begin."""
    with open(path, "rb") as source:
        begin, behind = _next_line(source, start), _next_line(source, end)
        source.seek(begin)
        text = source.read(behind - begin)
    return text.translate(BLANKS) if Path(path).suffix.lower() == ".csv" else text, begin


def _next_line(source: BinaryIO, offset: int) -> int:
    """The offset at which the first line begins that does not begin before an offset."""
    if not offset:
        return 0
    source.seek(offset - 1)
    source.readline()
    return source.tell()


def _numbers_of(text: bytes, path: str | Path, begin: int) -> NDArray[np.int64]:
    """The numbers of some lines. Those past 64 bits are read as the last number that has 64, so they stay out of range."""
    kinds = text.translate(KINDS)
    if not any(amiss in kinds for amiss in SIGNS_AMISS) and not kinds.endswith(b"-"):
        return np.fromstring(text, np.int64, sep=" ") if kinds.strip() else np.empty(0, np.int64)
    words, limit = _words_of(text, _DATA_WORD, f"{path}: the word {{}} behind byte {begin} is no whole number"), 1 << 62
    return np.array([min(max(int(word), -limit), limit) for word in words], np.int64)


def _floats_of(text: bytes, path: str | Path, begin: int) -> tuple[list[bytes], list[float]]:
    """The decimals of some lines, and the float64 nearest to each."""
    words = text.split()
    try:
        if not text.translate(None, _OF_DECIMALS):
            return words, list(map(float, words))
    except ValueError:
        pass
    words = _words_of(text, _DECIMAL, f"{path}: the word {{}} behind byte {begin} is no number")
    return words, list(map(float, words))


def _words_of(text: bytes, pattern: re.Pattern[bytes], refusal: str) -> list[bytes]:
    """The words of some lines before their comments, if all match."""
    words = [word for line in text.split(b"\n") for word in _data_words(line)]
    wrong = next((word for word in words if not pattern.fullmatch(word)), None)
    if wrong is not None:
        raise ValueError(refusal.format(wrong.decode(errors="replace")))
    return words


def _data_words(line: bytes) -> list[bytes]:
    """The words of a line before its comment."""
    words = line.split()
    comment = (place for place, word in enumerate(words) if word[0] not in _DATA_WORD_STARTS)
    return words[: next(comment, len(words))]
