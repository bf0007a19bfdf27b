"""Valid point files and OFF files of every layout, and mutations of their bytes and words, all seeded."""
import re

from lib.file_oracle import COORDINATE_LIMIT

# The numbers of points of files.
FEW = [1, 1, 2, 3, 3, 4, 5, 8]
MANY = [1, 3, 10, 20, 40, 60]


# Valid files.


def spelling(rng, value, plain):
    """A number, perhaps with leading zeros or a plus, or a zero with a minus."""
    if plain:
        return b"%d" % value
    sign = "-" if value < 0 else rng.choice(["", "", "+"] if value else ["", "+", "-"])
    return f"{sign}{'0' * rng.choice([0, 0, 1, 3, 40])}{abs(value)}".encode()


COMMENTS = [b"x", b"# 7 8", b"rbox c z", b"_1", b"/5 5", b"\x00 9", b"\xff\xfe", b"origin\t0", b":3", b"e7 3", b"*"]
OFF_COMMENTS = [b"#", b"# 7 8", b"#OFF", b"##", b"#x y", b"#\x00\xff", b"# one\t0"]


def gap(rng, line_end):
    """Returns a gap between two words of a point file."""
    blanks = b"".join(rng.choice([b" ", b"\t", b"\x0b", b"\x0c", b"\r"]) for _ in range(rng.randint(1, 3)))
    return rng.choice([blanks, line_end, b" " + rng.choice(COMMENTS) + line_end, line_end + line_end])


def off_gap(rng, line_end):
    """Returns a gap between two words of an OFF file; it may be a comment right after the first word."""
    if rng.random() < 0.7:
        return rng.choice([b" ", b"\t", line_end])
    return rng.choice([b"", b" "]) + rng.choice(OFF_COMMENTS) + line_end


def some_faces(rng, count):
    """Faces, or other words in their place."""
    if rng.random() < 0.3:
        return [rng.choice([b"zero", b"OFF", b"7.5", b"3", b"--", b"99999999999"]) for _ in range(rng.randint(0, 5))]
    face = [rng.randrange(count) for _ in range(rng.randint(1, 4))]
    return [b"%d" % value for value in [len(face), *face]]


def some_points(rng, counts):
    """The coordinates of some points."""
    side = rng.choice([1, 1, 2, 9, 1 << 20, COORDINATE_LIMIT])
    values = [-side, side, 0] if rng.random() < 0.2 else range(-side, side + 1)
    return [rng.choice(values) for _ in range(3 * rng.choice(counts))]


def valid_file(rng, off, counts):
    """A file of either form: its words plain or not, with either kind of line ends, either order of the header, either end."""
    values = some_points(rng, counts)
    count, line_end, between = len(values) // 3, rng.choice([b"\n", b"\n", b"\r\n"]), off_gap if off else gap
    # How often a word or a gap is odd.
    odd = rng.choice([0, 0, 0.05, 0.3, 1])
    header = [count, 3] if rng.random() < 0.3 else [3, count]
    if off:
        header = [count, rng.choice([0, 1, 6, 1 << 40]), rng.choice([0, -1, 12])]
    words = [b"OFF"] * off + [spelling(rng, value, rng.random() >= odd) for value in [*header, *values]]
    words += some_faces(rng, count) * rng.choice([0, 1, 3]) if off else []
    ends = [line_end if k % 3 == (off + len(header) + 2) % 3 else b" " for k in range(len(words))]
    data = b"" if rng.random() < 0.9 else between(rng, line_end)
    data += b"".join(word + (between(rng, line_end) if rng.random() < odd else end) for word, end in zip(words, ends))
    return data if rng.random() < 0.6 else data.rstrip()


# Mutations. Each answers the file's bytes with one thing changed.

BYTES = bytes(range(0x2A, 0x3C)) + b"\n\n\t\r\x0b\x0c  \x00\x1c\x1d\x1e\x1f\x85\xa0\xff#exE_3300"
LIMITS = [0, 1, 2, 3, *[COORDINATE_LIMIT] * 4, 1 << 20, 1 << 20, 1 << 28, 1 << 31, 1 << 32, 1 << 63, 1 << 64, 1 << 128]
# Words that are no numbers, some of which begin a comment, and words of OFF files.
WORDS = [b"7.", b".7", b"7e0", b"2nd", b"+", b"-", b".", b"--7", b"+-7", b"-+7", b"7-", b"x7", b"#7", b"(7", b"5/"]
WORDS += [b"5:", b"1,5", b"*5", b"0x3", b"3L", b"1_0", b"inf", b"nan", b"-inf", b"3\x00", b"3\xa0", b"\xd9\xa3"]
WORDS += [b"\xef\xbb\xbf3", b"OFF", b"OFF", b"OF", b"OFFF", b"COFF", b"off", b"O", b"OFF#", b"#OFF", b"BINARY", b"5#5", b"#"]


def limit_word(rng):
    """A word at a limit: a number next to one, a wrapped one, a long one, or a word that is no number."""
    kind = rng.random()
    if kind < 0.3:
        return rng.choice(WORDS)
    if kind < 0.4:
        return rng.choice([b"", b"-", b"+"]) + rng.choice([b"9", b"0", b"1"]) * rng.choice([19, 20, 39, 40, 300, 5000])
    value = rng.choice(LIMITS) + rng.choice([-3, -1, 0, 0, 1, 1, 2, 3])
    return rng.choice([b"", b"", b"-", b"+"]) + b"0" * rng.choice([0, 0, 0, 1, 20, 300]) + b"%d" % abs(value)


def with_slice(rng, data, made, most=0):
    """Returns the bytes with a random slice of limited length replaced."""
    first = rng.randint(0, len(data))
    return data[:first] + made + data[first + rng.randint(0, most) :]


def flip(rng, data):
    """One bit is another."""
    place = rng.randrange(len(data)) if data else 0
    return data and data[:place] + bytes([data[place] ^ 1 << rng.randrange(8)]) + data[place + 1 :]


def copy_slice(rng, data):
    """A slice is copied to another place."""
    first = rng.randint(0, len(data))
    return with_slice(rng, data, data[first : first + rng.randint(1, 12)])


def exchange_word(rng, data):
    """A word exchanged for one at a limit, the first two more often than others."""
    words = list(re.finditer(rb"\S+", data))
    if not words:
        return limit_word(rng)
    found = rng.choice(words[:2] if rng.random() < 0.3 else words)
    return data[: found.start()] + limit_word(rng) + data[found.end() :]


MUTATIONS = [
    flip, copy_slice, exchange_word, exchange_word,
    lambda rng, data: with_slice(rng, data, bytes(rng.choice(BYTES) for _ in range(rng.randint(1, 3)))),
    lambda rng, data: with_slice(rng, data, bytes([rng.randrange(256)])),
    lambda rng, data: with_slice(rng, data, b"", 3),
    lambda rng, data: with_slice(rng, data, bytes([rng.choice(BYTES)]), 1),
    lambda rng, data: data[: rng.randint(0, len(data))],
    lambda rng, data: data[rng.randint(0, min(6, len(data))) :],
    lambda rng, data: with_slice(rng, data, b" " + limit_word(rng) + rng.choice([b" ", b"\n"])),
    lambda rng, data: data + rng.choice([b" ", b"\n", b"\r", b""]) + limit_word(rng),
]  # fmt: skip


def mutated_file(rng, off, counts):
    """A file of either form, mutated at up to five places."""
    data = valid_file(rng, off, counts)
    for _ in range(rng.choice([0, 1, 1, 1, 2, 2, 3, 5])):
        data = rng.choice(MUTATIONS)(rng, data)
    return data
