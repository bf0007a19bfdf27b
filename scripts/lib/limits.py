"""The limits of the input, read from the one file of the program that states them."""
import re

from lib.paths import TOP

STATED = TOP / "crates" / "qh_model" / "src" / "limits.rt"
CONSTANT = re.compile(r"pub const ([A-Z_]+): u\d+ = (\d[\d_]*)(?: << (\d+))?;")


def limits_in(text):
    """Each limit that a source states, by its name."""
    return {name: int(value) << int(shift or 0) for name, value, shift in CONSTANT.findall(text)}


LIMITS = limits_in(STATED.read_text(encoding="utf-8"))
COORDINATE_LIMIT = LIMITS["COORDINATE_LIMIT"]
POINT_LIMIT = LIMITS["POINT_LIMIT"]
BYTE_LIMIT = LIMITS["BYTE_LIMIT"]
