"""Records of many whole numbers as text, by numpy.

Some records at a time become rows of columns of letters, each as wide as the longest text there. The letters that are no text are
0, and are left out at the end.
"""
from __future__ import annotations

from functools import lru_cache, reduce
from operator import or_
from typing import Any, Iterable, Iterator, List, NamedTuple, Sequence, Tuple, Union

try:
    import numpy as np
except ImportError:
    np = None  # type: ignore[assignment]

# Records that are made at once, and the most numbers of one field that are: what they take stays in the processor's cache.
RECORDS, MOST_NUMBERS = 1 << 13, 1 << 16
GROUP = 4  # digits that are looked up together
GROUPS = 10**GROUP
PART_BITS = 31
PART = (1 << PART_BITS) - 1


class Wide(NamedTuple):
    """Numbers of any length: the sizes in parts of 31 bits, the highest first, and which numbers are below 0."""

    parts: Any  # int64, (parts, n)
    negative: Any


class Field(NamedTuple):
    """Numbers of each record, in one list; those of record j stand from ends[j] to before ends[j + 1], and are one at least."""

    before: str  # the text before the first number of a record
    between: str  # the text before each other one
    numbers: Union[Wide, Any]  # of int64
    ends: Any


class Known(NamedTuple):
    """A field with what is found of it once."""

    field: Field
    counts: Any  # of the numbers of each record
    are_even: bool  # all of these are the same
    words: Any  # those of `words_of`


def each(before: str, numbers: Union[Wide, Any]) -> Field:
    """A field with one number in each record."""
    return Field(before, "", numbers, np.arange(len(numbers.negative if isinstance(numbers, Wide) else numbers) + 1))


def rows(before: str, between: str, numbers: Any) -> Field:
    """A field with a row of an array in each record."""
    return Field(before, between, numbers.ravel(), np.arange(len(numbers) + 1) * numbers.shape[1])


def wide_of(high: Any, low: Any) -> Union[Wide, Any]:
    """The numbers high * 2^31 + low, by two arrays of int64 that are less than 2^62.9 in size; of int64 where that holds them."""
    if np.abs(high).max() < PART >> 1 and np.abs(low).max() < PART << PART_BITS:
        return (high << PART_BITS) + low
    high, low = high + (low >> PART_BITS), low & PART
    negative = high < 0
    high, low = np.where(negative, -high - (low > 0), high), np.where(negative, -low & PART, low)
    return Wide(np.stack([high >> PART_BITS, high & PART, low]), negative)


def blocks_of(fields: Sequence[Field], after: str = "") -> Iterator[bytes]:
    """The text of all records, one after the other: of each the fields in their order, and a text behind them."""
    known = list(map(known_of, fields))
    for start, end in cuts_of(known):
        columns = [column for field in known for column in columns_of(field, start, end)]
        yield text_of([*columns, np.array(after, "S")], end - start)


def text_of(columns: Iterable[Any], count: int) -> bytes:
    """The text of some records by their columns: each is an array, or one text for all."""
    named = {str(place): column for place, column in enumerate(columns)}
    one = np.zeros(1, np.dtype([(name, column.dtype) for name, column in named.items()]))
    for name in [name for name, column in named.items() if not column.ndim]:
        one[name] = named.pop(name)
    made = bytearray(one.tobytes()) * count
    records = np.frombuffer(made, one.dtype)
    for name, column in named.items():
        records[name] = column
    return made.translate(None, b"\0")


def known_of(field: Field) -> Known:
    """A field with what is found of it once."""
    counts = np.diff(field.ends)
    return Known(field, counts, bool((counts == counts[0]).all()), words_of(field))


def cuts_of(fields: Sequence[Known]) -> Iterator[Tuple[int, int]]:
    """Ranges of records that are made at once: each has few records, and no field of it much room, or it has one record."""
    count = len(fields[0].counts)
    left = [(start, min(start + RECORDS, count)) for start in range(0, count, RECORDS)][::-1]
    while left:
        start, end = left.pop()
        most = max(int(field.counts[start:end].max()) for field in fields)
        if end - start > 1 and most * (end - start) > MOST_NUMBERS:
            middle = (start + end) // 2
            left += [(middle, end), (start, middle)]
        else:
            yield start, end


def word_of(text: str) -> Any:
    """The word of memory that begins with a short text."""
    return np.uint64(int.from_bytes(text.encode("ascii"), "little"))


def words_of(field: Field) -> Any:
    """Words of memory with the text between and a number, for all numbers up to the greatest one, if they are few and short; else None."""
    numbers, room = field.numbers, 10 ** (2 * GROUP - len(field.between))
    if isinstance(numbers, Wide) or not 0 <= numbers.min() <= numbers.max() <= len(numbers) < room:
        return None
    return small_numbers(int(numbers.max()) + 1) | word_of(field.between)


@lru_cache(maxsize=None)
def small_numbers(count: int) -> Any:
    """Words of memory with the numbers from 0 to before another, the lower group of digits last."""
    bare, full = np.split(digit_groups(b"0").astype(np.uint64), 2)
    low = full << np.uint64(8 * GROUP)
    high = bare[: -(-count // GROUPS), np.newaxis]
    words = (high | low).ravel()[:count]
    words[:GROUPS] = bare[:count] << np.uint64(8 * GROUP)
    return words


def columns_of(known: Known, start: int, end: int) -> Iterator[Any]:
    """The columns of a field in the records from one to before another."""
    field, counts = known.field, known.counts[start:end]
    most, chosen = int(counts.max()), slice(int(field.ends[start]), int(field.ends[end]))
    there = None if known.are_even else np.arange(most) < counts[:, np.newaxis]
    if known.words is not None:
        rows = in_rows(known.words.take(field.numbers[chosen]), most, there)
        yield from (np.array(field.before, "S"), rows[:, 0] - word_of(field.between), *rows.T[1:])
        return
    are_wide = isinstance(field.numbers, Wide)
    numbers = Wide(field.numbers.parts[:, chosen], field.numbers.negative[chosen]) if are_wide else field.numbers[chosen]
    columns = [in_rows(column, most, there) for column in digits_of(numbers)]
    for place in range(most):
        texts = np.array(["", field.between if place else field.before], "S")
        yield texts[1:] if there is None else texts.take(there[:, place].astype(np.intp))
        yield from (column[:, place] for column in columns)


def in_rows(column: Any, most: int, there: Any) -> Any:
    """The texts of a column in rows of the most that a record has, where they are there; everywhere without such marks."""
    if there is None:
        return column.reshape(-1, most)
    made = np.zeros(there.shape, column.dtype)
    made[there] = column
    return made


@lru_cache(maxsize=None)
def digit_groups(zero: bytes) -> Any:
    """The letters of the numbers of a group, all of them: without zeros to the left, where 0 is a text that is given; then with them."""
    numbers, powers = np.arange(GROUPS)[:, np.newaxis], 10 ** np.arange(GROUP)[::-1]
    full = (numbers // powers % 10 + ord("0")).astype(np.uint8)
    bare = full * (numbers >= powers)
    bare[0] = np.frombuffer(zero.rjust(GROUP, b"\0"), np.uint8)
    return np.concatenate([bare, full]).view(np.uint32).ravel()


def digits_of(numbers: Union[Wide, Any]) -> List[Any]:
    """The columns of the digits of numbers, behind one of signs where some are below 0."""
    if isinstance(numbers, Wide):
        parts, negative = list(numbers.parts), numbers.negative
    else:
        sizes, negative = np.abs(numbers).view(np.uint64), numbers < 0
        parts = [sizes.astype(np.uint32) if sizes.max() < 1 << 32 else sizes]
    return [*([negative * np.uint8(ord("-"))] if negative.any() else []), *groups_of(parts)]


def groups_of(parts: List[Any]) -> List[Any]:
    """The columns of the digits of numbers from 0 on by their parts, four digits in each, the first ones first."""
    found: List[Any] = []
    has_more: Any = np.True_
    while has_more.any():
        rest: Any = 0
        for place, part in enumerate(parts):
            whole = (rest << PART_BITS) + part if place else part
            parts[place] = whole // GROUPS
            rest = whole - parts[place] * GROUPS
        has_more = reduce(or_, parts) != 0
        rest += has_more * rest.dtype.type(GROUPS)
        found.append(digit_groups(b"" if found else b"0").take(rest.astype(np.intp)))
    return found[::-1]
