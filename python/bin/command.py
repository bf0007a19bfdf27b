"""Runs a command of the package where it stands, without an installation."""
import os
import sys
from importlib import import_module


def run(path):
    """Runs the command that is called as the file of this path."""
    folder, name = os.path.split(os.path.realpath(path))
    sys.path.insert(0, os.path.dirname(folder))
    sys.exit(import_module(f"qconvex.commands.{name}").main())
