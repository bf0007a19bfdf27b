"""A page that shows a hull: it needs no network and no other file."""
from __future__ import annotations

import html
import json
from pathlib import Path
from typing import Any, Sequence

_PAGE = Path(__file__).with_name("_view.html")
_MARK = "/*HULL*/"


def page(ids: Sequence[int], points: Sequence[Sequence[Any]], faces: Sequence[Sequence[int]], title: str = "hull") -> str:
    """The page of a hull: the index and the coordinates of each vertex, and the faces by numbers of vertices from 0 on."""
    return page_of(json.dumps({"ids": ids, "points": points, "faces": faces}, separators=(",", ":")), title)


def page_of(data: str, title: str) -> str:
    """The page of a hull by its text in JSON."""
    before, _, after = _PAGE.read_text(encoding="utf-8").split(_MARK)
    return before.replace("<title>hull</title>", f"<title>{html.escape(title)}</title>") + data + after


def frame(shown: str, height: int = 400) -> str:
    """A page within another one."""
    return f'<iframe srcdoc="{html.escape(shown)}" style="width: 100%; height: {height}px; border: 0"></iframe>'
