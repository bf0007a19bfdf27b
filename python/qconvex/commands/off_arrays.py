"""OFF texts of whole numbers as arrays, by numpy: those that programs write with nothing but numbers behind their first line."""
from __future__ import annotations

import re
from typing import Any, Optional, Tuple

from .._limits import COORDINATE_LIMIT
from .closed_surfaces import Arrays

try:
    import numpy as np
except ImportError:
    np = None  # type: ignore[assignment]

KEYWORD, DIGITS, GAPS = b"OFF\n", b"0123456789-", re.compile(rb"^ +| +(?=[ \n])", re.MULTILINE)
NEWLINE, BLANK, MINUS = 10, 32, 45


def arrays_of_text(data: bytes) -> Optional[Arrays]:
    """The points and the faces of a text; None where `read_off` has to look."""
    found = numbers_of(data[len(KEYWORD) :]) if data.startswith(KEYWORD) else None
    if found is None or not 2 <= found[1][0] <= 3:
        return None
    numbers, widths = found
    points, faces = numbers[:2].tolist()
    if points < 1 or faces < 1 or len(widths) != 1 + points + faces or (widths[1 : points + 1] != 3).any():
        return None
    first = int(widths[0])
    places, rest = numbers[first : first + 3 * points].reshape(-1, 3), numbers[first + 3 * points :]
    sizes = widths[points + 1 :] - 1
    begins = np.cumsum(widths[points + 1 :]) - widths[points + 1 :]
    if (sizes < 1).any() or (rest[begins] != sizes).any():
        return None
    are_even = len(rest) == len(sizes) * (sizes[0] + 1) and (sizes == sizes[0]).all()
    corners = rest.reshape(len(sizes), -1)[:, 1:].ravel() if are_even else np.delete(rest, begins)
    if np.abs(places).max() > COORDINATE_LIMIT or corners.min() < 0 or corners.max() >= points:
        return None
    return Arrays(places, corners, np.append(0, sizes.cumsum()))


def numbers_of(text: bytes) -> Optional[Tuple[Any, Any]]:
    """The numbers of a text, and how many each line has; None unless they are whole, with blanks between, on lines that end.

    It is None, too, where numpy is missing.
    """
    if np is None:
        return None
    letters, gaps = np.frombuffer(text, np.uint8), np.frombuffer(text.translate(None, DIGITS), np.uint8)
    signs, lines = (letters[: text.rfind(b"-") + 1] == MINUS).nonzero()[0], (gaps == NEWLINE).nonzero()[0]
    if not text.endswith(b"\n") or len(lines) + np.count_nonzero(gaps == BLANK) < len(gaps):
        return None
    if (letters[signs - 1] > BLANK).any() or (letters[signs + 1] <= MINUS).any():
        return None
    numbers = np.fromstring(text, np.int64, sep=" ")  # beyond 64 bits the number that is nearest
    if len(numbers) == len(gaps):
        return numbers, np.diff(lines, prepend=-1)
    tidy = GAPS.sub(b"", text)
    return None if tidy == text else numbers_of(tidy)
