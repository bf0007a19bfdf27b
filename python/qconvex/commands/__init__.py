"""Commands that the package installs, and what they share: Python 3 is enough for them, but for `hullmany --engine`."""
