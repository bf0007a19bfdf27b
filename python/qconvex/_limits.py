"""The limits of the input, as the library and the program have them."""

COORDINATE_LIMIT = 1 << 30
"""The greatest size of a coordinate, either way."""

POINT_LIMIT = 1 << 20
"""The greatest number of points."""

BYTE_LIMIT = 1 << 28
"""The greatest number of bytes of a file that the program reads."""
