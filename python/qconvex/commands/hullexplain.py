"""Explains why a point file is refused: the line, the column and the word, what was counted, and how to mend it.

    hullexplain FILE                   FILE may be - for standard input
    hullexplain --comments FILE        shows every comment, not only the first ten
    hullexplain qconvex WORD..         explains a command line of the program

It reads the file as the program does, and says besides which words were taken as comments: a word that begins with no
digit, sign or point begins a comment that goes to the end of its line. The status is 1 if the file is refused.
docs/FAULTS.md has each fault with a file that has it.

    hullexplain examples/faults/missing-number.txt
"""
from __future__ import annotations

import argparse
import os
import re
import signal
import sys
from bisect import bisect_right
from collections import Counter
from typing import List

from .._limits import BYTE_LIMIT, COORDINATE_LIMIT, POINT_LIMIT
from .command_lines import explanation_of, mistake_in
from .contents import bytes_of
from .file_kinds import kind_of
from .point_files import Fault, Reading, Word, message, plain_count, read, value_of

BYTE_ORDER_MARK = b"\xef\xbb\xbf"
# Of how many comments the text is shown, and how much of each.
COMMENTS = 10
COMMENT_LENGTH = 40
AXES = "xyz"


def shown(text: bytes, length: int = COMMENT_LENGTH) -> str:
    """Bytes as text, cut where they are long."""
    plain = text.decode("utf-8", "backslashreplace")
    plain = "".join(letter if letter.isprintable() else f"\\x{ord(letter):02x}" for letter in plain)
    return plain if len(plain) <= length else plain[:length] + ".."


def marked(data: bytes, word: Word) -> List[str]:
    """The line of a word, with the word underlined."""
    line = data.split(b"\n")[word.line - 1].rstrip(b"\r").expandtabs(1)
    start = max(0, word.column - 1 - COMMENT_LENGTH)
    before, text = shown(line[start : word.column - 1], 200), shown(word.text)
    after = shown(line[word.column - 1 + len(word.text) :], COMMENT_LENGTH)
    place = f"line {word.line}, column {word.column}"
    return [f"    {before}{text}{after}", f"    {' ' * len(before)}{'^' * len(text)} {place}"]


def counted(reading: Reading) -> str:
    """How far the file was read."""
    if reading.count is None:
        words = ", ".join(f"`{shown(word.text)}` (line {word.line})" for word in reading.header)
        return f"The header is the first two numbers of the file; found: {words or 'none'}."
    first, second = (word.line for word in reading.header)
    lines = f"line {first}" if first == second else f"lines {first} and {second}"
    found, wanted = len(reading.lines) - 2, 3 * reading.count
    return (
        f"The header ({lines}) says {reading.count} points, which are {wanted} coordinates; "
        f"the file has {found}, of which {len(reading.numbers)} were read."
    )


def comments(reading: Reading, everything: bool) -> List[str]:
    """Which words were taken as comments."""
    if not reading.comments:
        return ["No word was taken as a comment."]
    shown_ones = reading.comments if everything else reading.comments[:COMMENTS]
    lines = [f"  line {c.line}, column {c.column}: `{shown(c.text)}`" for c in shown_ones]
    more = len(reading.comments) - len(shown_ones)
    return ["Taken as comments:", *lines] + ([f"  and {more} more (--comments shows them)"] if more else [])


def uneven_rows(reading: Reading) -> List[str]:
    """The lines that have another number of data words than most lines after the header, if they are few."""
    header_line = max(word.line for word in reading.header)
    rows = Counter(reading.lines[bisect_right(reading.lines, header_line) :])
    if not rows:
        return []
    lengths = Counter(rows.values())
    usual = max(lengths, key=lambda length: (lengths[length], length == 3))
    odd = [line for line in sorted(rows) if rows[line] != usual]
    if usual != 3 or len(odd) > len(rows) // 2:
        return [f"Most lines have {usual} number{'s' * (usual != 1)}."] if usual != 3 else []
    listed = ", ".join(f"line {line} has {rows[line]}" for line in odd[:5])
    return [f"Most lines have 3 numbers, but {listed}."] if odd else []


def swallowed(reading: Reading) -> List[str]:
    """Comments with numbers in them, on lines that have fewer than three data words."""
    full = Counter(reading.lines[2:])
    lost = [c for c in reading.comments if c.line > 2 and full[c.line] < 3 and re.search(rb"[ \t][+-]?\d", c.text)]
    if not lost:
        return []
    return [f"Comments have numbers, as in line {lost[0].line}: a name goes behind the numbers of its row, not before."]


def file_advice(data: bytes, reading: Reading) -> List[str]:
    """What the file as a whole suggests."""
    if data.startswith(BYTE_ORDER_MARK):
        return ["The file begins with a byte order mark, which makes its first line a comment: drop the first 3 bytes,",
                "as by tail -c +4."]
    kind = kind_of(data)
    if kind:
        return [kind]
    before = [comment for comment in reading.comments if reading.lines and comment.text[0] > 127]
    if before:
        return ["A comment begins with a letter that is no ASCII: look for a minus or a blank of another alphabet."]
    return []


def number_advice(word: Word) -> str:
    """How to mend a word that is no number."""
    text = word.text
    if b"," in text or b";" in text:
        return "Numbers are parted by blanks: put a blank in place of each comma, as by tr ',;' '  '."
    if any(sign in text for sign in (b".", b"e", b"E")) and text[:2].lower() != b"0x":
        return "Coordinates are whole: scale them up and round them (of a mesh, meshpoints does it)."
    if text in (b"+", b"-") or text[:1] in (b"+", b"-"):
        return "A sign stands before a number, without a blank, and once."
    return "If it is meant as a comment, put # before it: a word that begins with a digit is never a comment."


def header_advice(reading: Reading, fault: Fault) -> List[str]:
    """How to mend a header."""
    if len(reading.header) < 2:
        return ["A point file begins with two numbers: the dimension 3, and the number of points."]
    first, second = [value_of(word.text) for word in reading.header]
    if fault.name == "Count":
        count = second if first == 3 else first
        return [f"The count is {count}; it is to be 1 to {POINT_LIMIT}."] + (
            ["hullmany takes the hull of more points, exactly."] if count > POINT_LIMIT else []
        )
    return [
        f"One of the first two numbers is to be 3, the dimension; they are {first} and {second}.",
        "Where the points begin at once, write two lines above them: 3, and the number of points.",
        "Points in the plane need a third coordinate: write 0 after each, and 3 as the dimension.",
    ]


def word_advice(reading: Reading, fault: Fault, word: Word) -> List[str]:
    """What the word of the fault was to be, and how to mend it."""
    place = len(reading.numbers)
    if fault.name == "Long":
        extra = len(reading.lines) - 2 - place
        return [f"The count asks for {place} coordinates, and {extra} more word{'s' * (extra != 1)} follow from here on."]
    if reading.count is None:
        wanted = "is to be one of the two numbers of the header"
    else:
        wanted = f"is to be {AXES[place % 3]} of point {place // 3}, counted from 0"
    if fault.name == "Range":
        return [f"This word {wanted}; it is to be from -{COORDINATE_LIMIT} to {COORDINATE_LIMIT}."]
    return [f"This word {wanted}, and is no number: a sign, if any, and decimal digits.", number_advice(word)]


def rows_advice(reading: Reading, fault: Fault) -> List[str]:
    """How to mend a file that has too few or too many numbers."""
    found = len(reading.lines) - 2
    if fault.name not in ("Short", "Long"):
        return []
    if found % 3:
        wants = f"{found} is no multiple of 3: in some row a number is missing, or is one too many."
    else:
        wants = f"The file has the coordinates of {found // 3} points; the header counts {reading.count}."
    return [wants, *swallowed(reading), *uneven_rows(reading)]


def advice(data: bytes, reading: Reading, fault: Fault) -> List[str]:
    """How to mend the file."""
    name = fault.name
    if name == "Big":
        return [f"The file has {len(data)} bytes; at most {BYTE_LIMIT} are read. hullmany takes larger ones."]
    if name in ("NoHeader", "NotThree", "Count"):
        return file_advice(data, reading) or header_advice(reading, fault)
    if kind_of(data):
        return file_advice(data, reading)
    about_word = word_advice(reading, fault, fault.word) if fault.word else []
    return file_advice(data, reading) + about_word + rows_advice(reading, fault)


def explanation(data: bytes, reading: Reading, fault: Fault, everything: bool) -> List[str]:
    """The lines that explain the first fault of a file."""
    lines = [f"qconvex: {message(fault)}", ""]
    if fault.word:
        lines += marked(data, fault.word) + [""]
    if fault.name == "Big":
        return lines + advice(data, reading, fault)
    return lines + advice(data, reading, fault) + ["", counted(reading), *comments(reading, everything)]


def whole(reading: Reading, everything: bool) -> List[str]:
    """The lines that tell of a file without a fault."""
    return [f"No fault: {reading.count} points.", *comments(reading, everything)]


def explain_words(words: List[str]) -> int:
    """Explains a command line; returns 1 if the program refuses it."""
    mistake = mistake_in(words[1:])
    print("\n".join(explanation_of(words, mistake) if mistake else ["No fault: the program takes this command line."]))
    return 1 if mistake else 0


def explain_file(path: str, everything: bool) -> int:
    """Explains a file; returns 1 if the program refuses it."""
    data = bytes_of(path)
    count = None if len(data) > BYTE_LIMIT else plain_count(data)
    if count is not None:
        print(f"No fault: {count} points.\nNo word was taken as a comment.")
        return 0
    reading = read(data)
    print("\n".join(explanation(data, reading, reading.fault, everything) if reading.fault else whole(reading, everything)))
    return 1 if reading.fault else 0


def main() -> None:
    parser = argparse.ArgumentParser(prog="hullexplain", description=__doc__, formatter_class=argparse.RawDescriptionHelpFormatter)
    parser.add_argument("--comments", action="store_true", help="show every comment")
    parser.add_argument("file", metavar="FILE", help="a point file, or - for standard input; or qconvex")
    parser.add_argument("words", nargs=argparse.REMAINDER, metavar="WORD", help="the words of a command line of qconvex")
    options = parser.parse_args()
    signal.signal(signal.SIGPIPE, signal.SIG_DFL)
    named = os.path.basename(options.file) in ("qconvex", "qconvex-exact")
    if named and (options.words or not os.path.isfile(options.file)):
        sys.exit(explain_words([options.file, *options.words]))
    if set(options.words) - {"--comments"}:
        parser.error("one FILE is wanted")
    sys.exit(explain_file(options.file, options.comments or bool(options.words)))


if __name__ == "__main__":
    main()
