"""Lets scripts import the package for Python from where it stands: `from lib import package` before `from qconvex..`."""
import sys

from lib.paths import PYTHON

sys.path.insert(0, str(PYTHON))
