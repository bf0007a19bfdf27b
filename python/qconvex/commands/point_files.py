"""Point files: their words and comments with the places where they stand, their points, and their first fault."""
from __future__ import annotations

import re
import sys
from bisect import bisect_left
from itertools import islice
from typing import Iterable, List, NamedTuple, Optional, Sequence, Tuple

from .._limits import BYTE_LIMIT, COORDINATE_LIMIT, POINT_LIMIT
from .contents import bytes_of

Point = Tuple[int, int, int]


class Word(NamedTuple):
    """A word, the line and the column where it begins, both from 1, counted in bytes."""

    text: bytes
    line: int
    column: int


class Fault(NamedTuple):
    """What the program says of a file that it refuses, and the word that it means, or None."""

    number: int
    name: str
    line: Optional[int]
    word: Optional[Word]


class Reading(NamedTuple):
    """What a point file has: its header's two words, the count, its numbers so far, the first fault or None, and the line of each word."""

    header: List[Word]
    count: Optional[int]  # type: ignore[assignment]
    numbers: List[int]
    fault: Optional[Fault]
    lines: List[int]
    comments: List[Word]


# In a line: a longest run of bytes that are no blanks.
WORD = re.compile(rb"[^\x09\x0b\x0c\x0d\x20]+")
# A data word begins with a digit, a sign or a point; a line of these and blanks has no comment.
DATA_LETTERS = b"0123456789+-."
BLANKS = b" \t\r\v\f"
NUMBER = re.compile(rb"[+-]?[0-9]+")
# Digits, signs and blanks, each as one byte, and anything else as another; and where signs are wrong.
KINDS = bytes(
    ord("0") if byte in b"0123456789" else ord("-") if byte in b"+-" else ord(" ") if byte in b" \t\r\n\v\f" else ord("?")
    for byte in range(256)
)
SIGNS_AMISS = (b"?", b"0-", b"--", b"- ")
LONG = len(str(COORDINATE_LIMIT))  # the digits of a number that may be out of range


def value_of(text: bytes) -> int:
    """The value of a number; of one that is far out of every range, one that is, too."""
    return int(text) if len(text) < 40 else (-1 if text[:1] == b"-" else 1) * int(text.lstrip(b"+-0")[:40] or b"0")


class Words:
    """The data words of a file with their lines, and its comments, each from its first word to the end of its line."""

    def __init__(self, data: bytes) -> None:
        self.rows = data.split(b"\n")
        self.texts: List[bytes] = []
        self.lines: List[int] = []
        self.comments: List[Word] = []
        for number, row in enumerate(self.rows, 1):
            texts = row.split()
            if row.translate(None, DATA_LETTERS + BLANKS):
                place = next((place for place, text in enumerate(texts) if text[0] not in DATA_LETTERS), len(texts))
                if place < len(texts):
                    column = self.column(number, place)
                    self.comments.append(Word(row[column - 1 :].rstrip(), number, column))
                    texts = texts[:place]
            self.texts += texts
            self.lines += [number] * len(texts)

    def column(self, line: int, place: int) -> int:
        """Where a word of a line begins."""
        return next(islice(WORD.finditer(self.rows[line - 1]), place, None)).start() + 1

    def at(self, place: int) -> Word:
        """A data word."""
        line = self.lines[place]
        return Word(self.texts[place], line, self.column(line, place - bisect_left(self.lines, line)))

    def header(self) -> List[Word]:
        """The first two words."""
        return list(map(self.at, range(min(2, len(self.texts)))))


def bad_number(words: Iterable[Word]) -> Optional[Fault]:
    """The fault of the first of these words that is no number, or None."""
    wrong = next((word for word in words if not NUMBER.fullmatch(word.text)), None)
    return None if wrong is None else Fault(2, "BadNumber", wrong.line, wrong)


def header_fault(header: Sequence[Word]) -> Optional[Fault]:
    """The fault of the header's words, or None."""
    fault = bad_number(header)
    if fault:
        return fault
    if len(header) < 2:
        return Fault(1, "NoHeader", None, None)
    if 3 not in [value_of(word.text) for word in header]:
        return Fault(3, "NotThree", None, None)
    count = count_of(header)
    return None if 1 <= count <= POINT_LIMIT else Fault(4, "Count", None, None)


def count_of(header: Sequence[Word]) -> int:
    """The number of points that a header tells; a 3 that stands first is the dimension."""
    first, second = [value_of(word.text) for word in header]
    return second if first == 3 else first


def coordinates_of(words: Words, wanted: int) -> Tuple[List[int], Optional[Fault]]:
    """The coordinates up to the first fault, and the fault or None."""
    given = words.texts[2 : 2 + wanted]
    bad = next((place for place, text in enumerate(given) if not NUMBER.fullmatch(text)), None)
    numbers = list(map(value_of, given[:bad]))
    if numbers and not -COORDINATE_LIMIT <= min(numbers) <= max(numbers) <= COORDINATE_LIMIT:
        far = next(place for place, number in enumerate(numbers) if abs(number) > COORDINATE_LIMIT)
        word = words.at(2 + far)
        return numbers[:far], Fault(5, "Range", word.line, word)
    if bad is not None:
        return numbers, bad_number([words.at(2 + bad)])
    if len(numbers) < wanted:
        return numbers, Fault(7, "Short", None, None)
    if len(words.texts) > 2 + wanted:
        word = words.at(2 + wanted)
        return numbers, Fault(6, "Long", word.line, word)
    return numbers, None


def read(data: bytes) -> Reading:
    """What the bytes of a point file have, up to their first fault."""
    if len(data) > BYTE_LIMIT:
        return Reading([], None, [], Fault(10, "Big", None, None), [], [])
    words = Words(data)
    header = words.header()
    fault = header_fault(header)
    if fault:
        return Reading(header, None, [], fault, words.lines, words.comments)
    count = count_of(header)
    numbers, fault = coordinates_of(words, 3 * count)
    return Reading(header, count, numbers, fault, words.lines, words.comments)


def message(fault: Fault) -> str:
    """What the program writes of a fault, without the name of the program."""
    where = "" if fault.line is None else f" at line {fault.line}"
    return f"{fault.number}: {fault.name}{where}"


def triples(numbers: Sequence[int]) -> List[Point]:
    """The points of a list of coordinates."""
    return list(zip(numbers[0::3], numbers[1::3], numbers[2::3]))


def plain_count(data: bytes) -> Optional[int]:
    """The number of points of a file that has nothing but right numbers after its first two lines; None for any other."""
    head, _, rest = data.partition(b"\n")
    second, mark, rest = rest.partition(b"\n")
    words = Words(head + b"\n" + second)
    if len(words.texts) != 2 or words.comments or header_fault(words.header()):
        return None
    kinds, count = (mark + rest).translate(KINDS), count_of(words.header())
    if kinds.endswith(b"-") or any(amiss in kinds for amiss in SIGNS_AMISS):
        return None
    if b"0" * LONG in kinds and max(map(value_of, re.findall(rb"[0-9]{%d,}" % LONG, rest))) > COORDINATE_LIMIT:
        return None
    return count if kinds.count(b" 0") + kinds.count(b" -") == 3 * count else None


def points_of_file(path: str) -> List[Point]:
    """The points of a file; a file that has a fault ends the script."""
    data = bytes_of(path)
    if plain_count(data) is not None:
        return triples(list(map(int, data.split(b"\n", 2)[2].split())))
    reading = read(data)
    if reading.fault:
        sys.exit(f"{path}: {message(reading.fault)}; hullexplain {path} shows where")
    return triples(reading.numbers)


def text_of(points: Sequence[Point], comment: str = "") -> str:
    """The points as a point file, with a comment in its first line."""
    first = f"3 {comment}".rstrip()
    return "".join([f"{first}\n{len(points)}\n", *("%d %d %d\n" % point for point in points)])
