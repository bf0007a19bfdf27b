"""hullfacets of many faces, by numpy: what the loops write, byte for byte, and numbers of any length as Python writes them."""
from __future__ import annotations

import random

import pytest

from qconvex import ConvexHull, _limits
from qconvex.commands import closed_surfaces, hullfacets, hullview, number_texts, off_arrays
from qconvex.commands.off_files import read_off
from qconvex.commands.surface_forms import BLOCKS, blocks_in_form
from test_commands import CUBE, CUBE_OFF, out, run

numpy = pytest.importorskip("numpy")


def hull_of(seed):
    """A hull of a box and points in it, which has faces of three corners and of more."""
    rng, reach = numpy.random.default_rng(seed), [1, 2, 6, 1000, _limits.COORDINATE_LIMIT][seed % 5]
    return ConvexHull([*(numpy.array(CUBE) * 2 * reach - reach).tolist(), *rng.integers(-reach, reach + 1, (90, 3)).tolist()])


def sphere_of(count):
    """The hull of points of a great sphere, of which nearly all are corners."""
    points = numpy.random.default_rng(count).normal(size=(count, 3))
    return ConvexHull(numpy.rint(points / numpy.linalg.norm(points, axis=1)[:, None] * 2**30).astype(int))


def lists_of(hull):
    return [tuple(point) for point in hull.points[hull.vertices].tolist()], hull._numbered_faces()


@pytest.mark.parametrize("form", BLOCKS)
@pytest.mark.parametrize("seed", range(6))
def test_the_text_is_that_of_the_loops(form, seed, monkeypatch):
    monkeypatch.setattr(closed_surfaces, "LEAST_FACES", 2)
    monkeypatch.setattr(closed_surfaces, "FACES", 7)
    monkeypatch.setattr(number_texts, "MOST_NUMBERS", 40)
    hull = sphere_of(60) if seed == 5 else hull_of(seed)
    points, faces = lists_of(hull)
    surface = closed_surfaces.surface_of(closed_surfaces.arrays_of(points, faces))
    for indices in ([], hull.vertices.tolist()):
        wanted = "".join(f"{line}\n" for line in hullfacets.in_form(points, faces, indices, form)).encode()
        assert b"".join(blocks_in_form(surface, indices, form)) == wanted
        before = f"{len(indices)}\n" + "".join(f"{index}\n" for index in indices) if indices else ""
        assert b"".join(hullfacets.blocks_of((before + hull.to_off()).encode(), form)) == wanted


@pytest.mark.parametrize("seed", range(5))
def test_what_is_no_closed_surface_is_left_to_the_loops(seed, monkeypatch):
    monkeypatch.setattr(closed_surfaces, "LEAST_FACES", 2)
    points, faces = lists_of(hull_of(seed))
    turned, twice, back = [faces[0][::-1], *faces[1:]], [*faces, faces[0]], [[*faces[0][:2], *faces[0][1:]], *faces[1:]]
    for wrong in (faces[1:], turned, twice, back, [*faces, [0, 1]], [*faces, *(face[::-1] for face in faces)]):
        assert closed_surfaces.surface_of(closed_surfaces.arrays_of(points, wrong)) is None
    assert closed_surfaces.surface_of(closed_surfaces.arrays_of([*points, (0, 0, 0)], faces)) is None


def test_a_bent_face_and_one_that_turns_back_are_left_to_the_loops(monkeypatch):
    monkeypatch.setattr(closed_surfaces, "LEAST_FACES", 2)
    points, faces = read_off(CUBE_OFF)
    assert closed_surfaces.surface_of(closed_surfaces.arrays_of(points, faces)).six_volumes == 6
    bent = [(2, 2, 2) if point == (1, 1, 1) else point for point in points]
    assert closed_surfaces.surface_of(closed_surfaces.arrays_of(bent, faces)) is None
    dart = [(1, 1, z) if (x, y) == (1, 1) else (4 * x, 4 * y, z) for x, y, z in points]
    seen_from_a_tip = [face[1:] + face[:1] for face in faces]
    assert closed_surfaces.surface_of(closed_surfaces.arrays_of(dart, seen_from_a_tip)) is None


POINT, FACE = "0 0 1\n", "4 4 6 7 5\n"
OTHERS = {
    "a comment": CUBE_OFF.replace(POINT, "0 0 1 # first\n"),
    "a plus": CUBE_OFF.replace(POINT, "0 0 +1\n"),
    "a colour": CUBE_OFF.replace(FACE, "4 4 6 7 5 255 0 0\n"),
    "no end": CUBE_OFF[:-1],
    "an empty line": CUBE_OFF.replace(POINT, POINT + "\n"),
    "decimals": CUBE_OFF.replace(POINT, "0 0 1.0\n"),
    "a broken line": CUBE_OFF.replace(POINT, "0 0\n1\n"),
    "two signs": CUBE_OFF.replace(POINT, "0 0 --1\n"),
    "a sign alone": CUBE_OFF.replace(POINT, "0 - 1\n"),
    "a sign behind": CUBE_OFF.replace(POINT, "0 0 1-\n"),
    "a count": CUBE_OFF.replace("8 6", "8 7"),
    "no point": CUBE_OFF.replace(FACE, "4 4 6 8 5\n"),
    "a size": CUBE_OFF.replace(FACE, "3 4 6 7 5\n"),
    "no face": "OFF\n1 0 0\n0 0 0\n",
    "far": CUBE_OFF.replace(POINT, f"0 0 {1 << 31}\n"),
    "farther": CUBE_OFF.replace(POINT, f"0 0 {10**30}\n"),
    "nothing": "OFF\n",
}


@pytest.mark.parametrize("name", OTHERS)
def test_other_texts_are_left_to_the_reader(name):
    assert off_arrays.arrays_of_text(OTHERS[name].encode()) is None


def test_texts_as_arrays():
    for text in (CUBE_OFF, CUBE_OFF.replace("0 0 1", "-5  0 -1 "), CUBE_OFF.replace("6 12\n", "6\n"), sphere_of(40).to_off()):
        points, faces = read_off(text)
        arrays = off_arrays.arrays_of_text(text.encode())
        assert list(map(tuple, arrays.points.tolist())) == points and arrays.offsets[0] == 0
        assert [arrays.corners[start:end].tolist() for start, end in zip(arrays.offsets, arrays.offsets[1:])] == faces


def test_numbers_are_written_as_python_writes_them():
    rng = random.Random(3)
    ends = [0, 1, 9, 10, 99, 100, 10**18 - 1, 10**18, 2**62, 2**63 - 1]
    sizes = ends + [rng.randrange(2 ** rng.randrange(1, 63)) for _ in range(3000)]
    numbers = [rng.choice([-1, 1]) * size for size in sizes]
    found = b"".join(number_texts.blocks_of([number_texts.each("\n", numpy.array(numbers))]))
    assert found.decode() == "".join(f"\n{number}" for number in numbers)
    for reach in (10, 2**31, 2**60, 2**62):
        high, low = (numpy.array([rng.randrange(-most, most) for _ in range(500)]) for most in (reach, 2**62))
        wanted = [(one << 31) + other for one, other in zip(high.tolist(), low.tolist())]
        found = b"".join(number_texts.blocks_of([number_texts.each(" ", number_texts.wide_of(high, low))]))
        assert list(map(int, found.split())) == wanted and found.decode() == "".join(f" {number}" for number in wanted)


@pytest.mark.parametrize("count", [2, 10000, 10002, 123456])
def test_small_numbers_are_looked_up(count):
    field = number_texts.rows("\n", ", ", numpy.arange(count).reshape(-1, 2))
    found = b"".join(number_texts.blocks_of([field])).decode()
    assert number_texts.words_of(field) is not None
    assert found == "".join(f"\n{number}, {number + 1}" for number in range(0, count, 2))


def test_records_of_any_lengths():
    rng = random.Random(4)
    lists = [[rng.randrange(-500, 10**9) for _ in range(rng.choice([1, 1, 2, 3, 900]))] for _ in range(300)]
    ends = numpy.cumsum([0, *map(len, lists)])
    field = number_texts.Field("<", ", ", numpy.array([number for numbers in lists for number in numbers]), ends)
    fields = [number_texts.each("row ", numpy.arange(300)), field, number_texts.rows("|", "/", numpy.arange(600).reshape(300, 2))]
    texts = (", ".join(map(str, numbers)) for numbers in lists)
    wanted = "".join(f"row {place}<{text}|{2 * place}/{2 * place + 1}" for place, text in enumerate(texts))
    assert b"".join(number_texts.blocks_of(fields)).decode() == wanted


def test_many_facets(tmp_path):
    path = tmp_path / "many.off"
    path.write_text(sphere_of(3000).to_off())
    assert len(out("hullfacets", path).splitlines()) > 7000
    path.write_text(path.read_text() + "3 0 1 2\n")
    assert run("hullfacets", path).returncode == 1


@pytest.mark.parametrize("seed", range(6))
def test_the_page_is_that_of_the_loops(seed, monkeypatch):
    data = (sphere_of(60) if seed == 5 else hull_of(seed)).to_off().encode()
    page = hullview.shown_file(data, "a <b>")
    assert hullview.arrays_of_text(data) and "<title>a &lt;b&gt;</title>" in page
    monkeypatch.setattr(hullview, "arrays_of_text", lambda _: None)
    assert hullview.shown_file(data, "a <b>") == page
