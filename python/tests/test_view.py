"""The page of a hull, in Debian's headless Chromium where it is there: what is drawn, and what hovering says."""
from __future__ import annotations

import json
import re
import shutil
import subprocess

import pytest

from qconvex import ConvexHull
from qconvex._view import page
from qconvex.commands import hullview

CUBE = [[x, y, z] for x in (0, 1) for y in (0, 1) for z in (0, 1)]
BROWSER = shutil.which("chromium")
FLAGS = "--headless --no-sandbox --use-gl=angle --use-angle=swiftshader --enable-unsafe-swiftshader --window-size=600,600 --dump-dom"
needs_browser = pytest.mark.skipif(BROWSER is None, reason="chromium is missing")


def page_of(points):
    hull = ConvexHull(points)
    return page(hull.vertices.tolist(), hull.points[hull.vertices].tolist(), hull._numbered_faces())


def asked(text, tmp_path, question):
    """What a page of 600 by 600 answers to a question in JavaScript."""
    path = tmp_path / "hull.html"
    path.write_text(text.replace("</html>", f"<script>document.title = JSON.stringify({question})</script></html>"))
    shown = subprocess.run([BROWSER, *FLAGS.split(), path.as_uri()], capture_output=True, text=True, timeout=120, check=True).stdout
    return json.loads(re.search("<title>(.*)</title>", shown).group(1).replace("&amp;", "&"))


MOVE = """(() => { look(); const say = (x, y) => {
    canvas.dispatchEvent(new PointerEvent("pointermove", { clientX: x, clientY: y }));
    return says.textContent; };
    return %s; })()"""


def test_the_page_is_small_and_needs_nothing_else():
    text = page_of(CUBE)
    assert len(text) < 40_000
    assert "http" not in text and "src=" not in text
    assert '<meta name="viewport" content="width=device-width' in text  # a phone shows it at its own width


@needs_browser
def test_faces_are_drawn_and_the_rest_is_empty(tmp_path):
    pixel = """(() => { draw(); pen.drawImage(solid, 0, 0); return [[canvas.width >> 1, canvas.height >> 1], [2, 2]].map(
        place => [...pen.getImageData(...place, 1, 1).data]); })()"""
    plain = page_of(CUBE).replace('solid.getContext("webgl2")', "null")
    for text in (page_of(CUBE), plain):
        middle, corner = asked(text, tmp_path, pixel)
        assert middle[3] == 255 and middle[2] > middle[0]
        assert corner[3] == 0


@needs_browser
def test_faces_and_edges_are_drawn_by_webgl(tmp_path):
    question = """(() => {
        const dark = () => { draw(); const all = new Uint8Array(4 * solid.width * solid.height);
            gl.readPixels(0, 0, solid.width, solid.height, gl.RGBA, gl.UNSIGNED_BYTE, all);
            return all.filter((part, k) => k % 4 === 2 && all[k + 1] === 255 && part < 110).length; };
        const [plain, edged] = [false, true].map(edges => { view.edges = edges; return dark(); });
        const sketched = pen.getImageData(0, 0, canvas.width, canvas.height).data.some(part => part);
        return [gl.getError(), sketched, kept.triangles / 3, kept.sides / 2, plain, edged]; })()"""
    error, sketched, triangles, sides, plain, edged = asked(page_of(CUBE), tmp_path, question)
    assert (error, sketched) == (0, False)
    assert (triangles, sides) == (12, 24)  # each of the twelve edges is a side of two faces
    assert plain == 0 and edged > 500


@needs_browser
def test_two_fingers_zoom_and_move(tmp_path):
    question = """(() => {
        const finger = (kind, pointerId, clientX, clientY) => canvas.dispatchEvent(new PointerEvent(kind, { pointerId, clientX, clientY }));
        const places = () => { look(); return [...seen]; };
        const before = places();
        finger("pointerdown", 1, 200, 300);
        finger("pointerdown", 2, 400, 300);
        finger("pointermove", 2, 600, 300);
        const zoomed = places();
        finger("pointermove", 1, 210, 290);
        finger("pointermove", 2, 610, 290);
        return [before, zoomed, places()]; })()"""
    before, zoomed, moved = asked(page_of(CUBE), tmp_path, question)
    assert zoomed == pytest.approx([2 * place - (200, 300)[k % 2] for k, place in enumerate(before)])
    assert moved == pytest.approx([place + (10, -10)[k % 2] for k, place in enumerate(zoomed)], abs=0.6)


@needs_browser
def test_buttons_do_what_keys_do(tmp_path):
    by = {"button": "document.querySelector(`button[value='${key}']`).click()", "key": 'dispatchEvent(new KeyboardEvent("keydown", { key }))'}
    for do in by.values():
        question = """["e", "l", "t", "d", "+", "-", "0"].map(key => { %s;
            return [view.edges, view.labels, view.turning, document.body.classList.contains("dark"), view.zoom]; })"""
        told = asked(page_of(CUBE), tmp_path, question % do)
        assert [row[4] for row in told] == pytest.approx([1, 1, 1, 1, 1.25, 1, 1])
        assert [row[:3] for row in told] == [[False, False, False], [False, True, False], *[[False, True, True]] * 5]
        assert told[3][3] is not told[2][3]


@needs_browser
def test_hovering_tells_faces_and_vertices(tmp_path):
    question = MOVE % "[...Array(8).keys()].map(i => say(seen[2 * i], seen[2 * i + 1])).concat(say(2, 2))"
    answers = asked(page_of(CUBE), tmp_path, question)
    told = {answer for answer in answers if answer.startswith("vertex")}
    assert len(told) == 7  # the eighth is behind the cube
    assert "vertex 5 (1, 0, 1)" in told and answers[-1] == ""
    question = MOVE % """hull.faces.map((face, f) => !isShown(f) ? null : say(
        ...[0, 1].map(c => face.reduce((sum, i) => sum + seen[2 * i + c], 0) / face.length)))"""
    faces = asked(page_of(CUBE), tmp_path, question)
    assert sum(face is not None for face in faces) == 3
    for number, face in enumerate(faces):
        assert face in (None, f"face {number}: " + " ".join(map(str, ConvexHull(CUBE).faces[number])))


@needs_browser
def test_a_square_and_a_point_are_shown(tmp_path):
    middle = MOVE % "say(canvas.clientWidth / 2, canvas.clientHeight / 2)"
    square = asked(page_of([[0, 0, 0], [1, 0, 0], [1, 1, 0], [0, 1, 0]]), tmp_path, middle)
    assert square == "face 0: 0 1 2 3"
    assert asked(page_of([[5, 5, 5]]), tmp_path, MOVE % "say(seen[0], seen[1])") == "vertex 0 (5, 5, 5)"


@needs_browser
def test_a_drag_ends_with_its_pointer(tmp_path):
    question = """["pointerup", "pointercancel", "lostpointercapture"].map(end => {
        canvas.dispatchEvent(new PointerEvent("pointerdown"));
        const began = held.size === 1;
        canvas.dispatchEvent(new PointerEvent(end));
        return began && held.size === 0; })"""
    assert asked(page_of(CUBE), tmp_path, question) == [True, True, True]


def test_the_command(tmp_path, capsys, monkeypatch):
    path = tmp_path / "cube.off"
    path.write_text("OFF # a cube\n" + ConvexHull(CUBE).to_off()[4:])
    monkeypatch.setattr("sys.argv", ["hullview", str(path)])
    assert hullview.main() == 0
    assert '"faces":[[0,1,3,2],' in capsys.readouterr().out
    for wrong in ("", "OF\n", "OFF\n1 1 0\n0 0 0\n1 7\n", "OFF\n1 0 0\n0 0\n", "OFF\nx 0 0\n"):
        path.write_text(wrong)
        assert hullview.main() == 1 and "hullview: " in capsys.readouterr().err


def test_a_notebook_shows_a_frame():
    assert ConvexHull(CUBE)._repr_html_().startswith("<iframe srcdoc=")
