"""An independent reader of point files and OFF files, with which trials compare the program's reader.

It is written from docs/PROGRAM.md, docs/FAULTS.md and docs/DEFINITIONS.md, and uses nothing of the package for Python.
"""
import re

COORDINATE_LIMIT = 1 << 30
COUNT_LIMIT = 1 << 20
BYTE_LIMIT = 1 << 28


class Fault(Exception):
    """The first fault of an input: its number, its name, and its line if it has one."""

    def __init__(self, number, name, line=None):
        super().__init__(name)
        where = "" if line is None else f" at line {line}"
        self.message = f"qconvex: {number}: {name}{where}\n".encode()
        self.name = name


# In a line: a longest run of bytes that are no blanks.
WORD = re.compile(rb"[^\x09\x0b\x0c\x0d\x20]+")
# A data word begins with a digit, a sign or a point.
DATA_WORD = re.compile(rb"[0-9+.-]")
NUMBER = re.compile(rb"[+-]?[0-9]+")


def data_words(data):
    """The data words, each with its line, counted from 1."""
    for line, text in enumerate(data.split(b"\n"), 1):
        for found in WORD.finditer(text):
            if not DATA_WORD.match(found.group()):
                break
            yield found.group(), line


def number_of(word, line):
    """The number of a word, whatever its length."""
    if not NUMBER.fullmatch(word):
        raise Fault(2, "BadNumber", line)
    return int(word)


def header_of(words):
    """The count. Each of the two words in turn may be missing, or no number, before their values are looked at."""
    header = []
    for _ in range(2):
        word, line = next(words, (None, None))
        if word is None:
            raise Fault(1, "NoHeader")
        header.append(number_of(word, line))
    if 3 not in header:
        raise Fault(3, "NotThree")
    count = header[1] if header[0] == 3 else header[0]
    if not 1 <= count <= COUNT_LIMIT:
        raise Fault(4, "Count")
    return count


def coordinate_of(words):
    """The next coordinate."""
    word, line = next(words, (None, None))
    if word is None:
        raise Fault(7, "Short")
    value = number_of(word, line)
    if abs(value) > COORDINATE_LIMIT:
        raise Fault(5, "Range", line)
    return value


def points_of(data):
    """Returns the points of a point file, or raises its first fault."""
    if len(data) > BYTE_LIMIT:
        raise Fault(10, "Big")
    words = data_words(data)
    points = [tuple(coordinate_of(words) for _ in range(3)) for _ in range(header_of(words))]
    for _, line in words:
        raise Fault(6, "Long", line)
    return points


def off_words(data):
    """The words of an OFF file, each with its line: a comment begins at any `#`."""
    for line, text in enumerate(data.split(b"\n"), 1):
        for found in WORD.finditer(text.partition(b"#")[0]):
            yield found.group(), line


def off_points_of(data):
    """Returns the vertices of an OFF file, or raises its first fault. What follows them is ignored."""
    if len(data) > BYTE_LIMIT:
        raise Fault(10, "Big")
    words = off_words(data)
    keyword, _ = next(words, (None, None))
    if keyword is None:
        raise Fault(1, "NoHeader")
    if keyword != b"OFF":
        raise Fault(14, "NotOff")
    counts = []
    for _ in range(3):
        word, line = next(words, (None, None))
        if word is None:
            raise Fault(1, "NoHeader")
        counts.append(number_of(word, line))
    if not 1 <= counts[0] <= COUNT_LIMIT:
        raise Fault(4, "Count")
    return [tuple(coordinate_of(words) for _ in range(3)) for _ in range(counts[0])]
