"""Help for scripts whose arguments are names, without options."""
import sys


def names_given(text):
    """The arguments of the script; `--help` or `-h` prints this text, which says how to use it, and ends the script."""
    if sys.argv[1:] in (["--help"], ["-h"]):
        print(text.strip())
        sys.exit(0)
    return sys.argv[1:]


def known(names, choices):
    """The names, each of which has to be one of the choices: another one ends the script, which would try nothing."""
    for name in names:
        if name not in choices:
            sys.exit(f"{name} is none of: {', '.join(choices)}")
    return names
