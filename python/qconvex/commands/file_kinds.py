"""What a file is that is no point file, by how it begins, and what makes a point file of it."""
from __future__ import annotations

import re
from typing import Optional

MESH = "meshpoints makes a point file of it"
# How files begin, what they then are, and how to go on.
BEGINNINGS = [
    (rb"\x1f\x8b", "is compressed by gzip", "unpack it first, as by gzip -dc"),
    (rb"PK\x03\x04", "is a zip archive", "unpack it first"),
    (rb"\x93NUMPY", "is an array of numpy", "meshpoints and hullmany read it where its name ends with .npy"),
    (rb"ply\s", "is a PLY mesh", MESH),
    (rb"\s*(ST)?C?N?OFF\s", "is an OFF mesh", f"qconvex --from off reads it if its points are whole, or {MESH}"),
    (rb"\s*solid\s[^\n]*\n\s*facet\s", "is an STL mesh", MESH),
    (rb"(\s*(#[^\n]*|mtllib[^\n]*|[go] [^\n]*)?\n)*\s*v\s+[-+.0-9]", "is an OBJ mesh", MESH),
    (rb"\s*[{\[]\s*[-\"\[{0-9]", "is JSON", "write its points as lines of three numbers below the two of the header"),
    (rb"\s*<", "is XML or a web page", "write its points as lines of three numbers below the two of the header"),
]
STL_HEAD, STL_TRIANGLE = 84, 50


def kind_of(data: bytes) -> Optional[str]:
    """A line that says what a file is and how to go on, or None if it may be a point file."""
    if len(data) == STL_HEAD + STL_TRIANGLE * int.from_bytes(data[80:STL_HEAD], "little"):
        return f"The file is an STL mesh in binary: {MESH}."
    for beginning, kind, way in BEGINNINGS:
        if re.match(beginning, data[:4096]):
            return f"The file {kind}: {way}."
    if data[:2] in (b"\xff\xfe", b"\xfe\xff"):
        return "The file is UTF-16 text: write it as plain text, as by iconv -f UTF-16 -t ASCII."
    if b"\0" in data[:4096]:
        return "The file is binary, or text of more than a byte a letter: write it as plain text, as by iconv -f UTF-16 -t ASCII."
    return None
