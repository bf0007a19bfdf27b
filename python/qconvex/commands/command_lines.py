"""Command lines of the program: the first word that makes it refuse one, and how to mend it."""
from __future__ import annotations

import os
import re
from typing import Dict, List, NamedTuple, Optional, Sequence

from .._limits import POINT_LIMIT

OUTPUTS = ["rank", "s", "Fx", "off", "offt"]
FORMS = ["qhull", "off"]
MOST: Dict[str, int] = {"--workers": 64, "--block": POINT_LIMIT}
OPTIONS = ["--from", *MOST]
# What Qhull's program of the same name calls some outputs, and what they are here.
QHULL = {"o": "off", "i": "off", "Qt": "offt", "Fv": "off", "FS": "s", "FA": "s", "Fs": "s"}


class Mistake(NamedTuple):
    """The position of a word, from 0 on, and what is wrong with it."""

    place: int
    reason: str


def mistake_in(words: Sequence[str]) -> Optional[Mistake]:
    """The first word that the program refuses, after the name of the program; None if it takes all."""
    seen: List[str] = []
    place = 0
    while place < len(words):
        name, equals, value = words[place].partition("=")
        if words[place] in ("--help", "-h"):
            return None
        if not name.startswith("-"):
            wrong = None if words[place] in OUTPUTS else no_output(words[place])
        elif name not in OPTIONS:
            wrong = f"This is no option: the options are {', '.join(OPTIONS)} and --help."
        elif name in seen:
            wrong = f"{name} is given twice."
        elif not equals and place + 1 == len(words):
            wrong = f"{name} wants a value behind it."
        else:
            seen.append(name)
            place += not equals
            wrong = no_value(name, value if equals else words[place])
        if wrong:
            return Mistake(place, wrong)
        place += 1
    return None


def no_value(option: str, value: str) -> Optional[str]:
    """What is wrong with the value of an option."""
    if option == "--from":
        return None if value in FORMS else f"FORM is one of {' and '.join(FORMS)}."
    if re.fullmatch(r"\+?[0-9]+", value) and 1 <= int(value) <= MOST[option]:
        return None
    return f"{option} takes a whole number from 1 to {MOST[option]}."


def no_output(word: str) -> str:
    """What is wrong with a word that names no output."""
    known = f"OUT is one of {', '.join(OUTPUTS)}."
    if os.path.exists(word):
        return f"This is a file: the program reads standard input, as in qconvex off < {word}"
    if word in QHULL:
        return f"This is an output of Qhull's program of the same name; the nearest here is {QHULL[word]}. {known}"
    return f"This is no output. {known}"


def explanation_of(words: Sequence[str], mistake: Mistake) -> List[str]:
    """The lines that explain why a command line is refused; its first word is the program."""
    before, word = " ".join(words[: mistake.place + 1]), words[mistake.place + 1]
    after = "".join(f" {word}" for word in words[mistake.place + 2 :])
    mark = " " * (len(before) + 1) + "^" * max(len(word), 1)
    return ["qconvex: 12: Usage", "", f"    {before} {word}{after}", f"    {mark}", mistake.reason]
