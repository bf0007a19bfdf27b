#!/usr/bin/env python3
"""Runs tests in copies of the crates: with planted bodies that no clause speaks of, of many boards, and of private items.

    scripts/trials/workers.py [--seconds N] [--only bodies,memory,boards,roots,private]

The tests run unproved, by `rt try --test`, and each part takes minutes whatever the seconds.

bodies      each of lib/bodies.py gives the right hull, but by workers that do not run at once, are too few, give up too soon or report
            something wrong, or by a filter of all triples that takes too long. A test of qh_tests_serve that watches the workers or the time
            must fail for each, and none for the right bodies
memory      a body of `answer` that is always out of memory. A test ends at its first row that fails, so each comparison of what `answer` gave
            with what it should give is turned round, and all tests must pass. Rows that expect it to be out of memory stay as they are
boards      10,000 boards of 7 to 64 blocks with 2 to 8 passes in threads, some of which give up: each block is got once, and there is one
            root or none as `close` says
roots       runs of 2 to 64 workers with blocks of 1 to 3 points by a program that answers Memory where a board has no root: each has one
private     the tests that need private items of a crate, of scripts/trials/private_tests: they check what no contract says, such as whether a quick
            way is taken. The gate would prove a crate with tests of its own twice
"""
import os
import re
import shutil
import subprocess
import sys
import tempfile
from contextlib import contextmanager
from pathlib import Path

sys.path.insert(0, str(Path(__file__).resolve().parents[1]))
from lib import trials  # noqa: E402
from lib.bodies import ALL_TRIPLES, ALWAYS_MEMORY, ROWS, TURNED, WITHOUT_ROOT, WORKERS  # noqa: E402
from lib.copies import copy_crates, replace_once  # noqa: E402
from lib.hull_oracle import file_of  # noqa: E402
from lib.paths import TOP  # noqa: E402
from lib.small_sets import small_set  # noqa: E402

# The tests of workers that watch them, and the row of 20,000 points, which takes too long with a slow filter: each with a limit in seconds.
WATCHING, WATCHED_SECONDS = {"gated", "told_blocks"}, 1200
TIMED, TIMED_SECONDS = {"paraboloid"}, 600
BOARD_RUNS = "crates/qh_tests_run/src/tests/board/runs.rt"
BOARDS = 10_000
PRIVATE_TESTS = TOP / "scripts/trials/private_tests"
SECONDS = 600
# How tests end.
PASS, FAIL, NOT_RUN = "pass all tests", "fail a test", "do not run: they may not compile"
# The last line of `rt try` says how the run ended. It begins with run=none where nothing ran.
RAN = re.compile(r"^run=(?!none\b)", re.MULTILINE)


@contextmanager
def copy_of_crates(given):
    """Copies the crates to a folder that is removed at the end."""
    trials.need_rt(given)
    with tempfile.TemporaryDirectory() as folder:
        copy_crates(Path(folder))
        yield Path(folder)


def tests_of(crate, seconds=SECONDS, *words):
    """What the tests of a crate in a copy say, run with no proof."""
    run = subprocess.run(["rt", "try", "--test", "--seconds", str(seconds), *words], cwd=crate, capture_output=True, text=True, check=False)
    return run.stdout + run.stderr


def outcome_of(said):
    """How the tests ended that said this."""
    return PASS if "test result: ok." in said else FAIL if RAN.search(said) else NOT_RUN


def fault(name, said, wanted=PASS):
    """Returns what is wrong with how tests ended, with the lines that say so, or None."""
    if outcome_of(said) == wanted:
        return None
    lines = [line for line in said.splitlines() if line.startswith("test ") and not line.endswith("... ok")]
    return "\n    ".join([f"with {name} the tests {outcome_of(said)}", *(lines or said.splitlines()[-5:])])


def keep_modules(file, names):
    """Removes all other modules of a file, and their files."""
    text = file.read_text()
    for line, name in re.findall(r"^((?:pub )?mod (\w+);\n)", text, re.MULTILINE):
        if name not in names:
            text = text.replace(line, "")
            file.with_suffix("").joinpath(f"{name}.rt").unlink()
            shutil.rmtree(file.with_suffix("") / name, ignore_errors=True)
    file.write_text(text)


def bodies(given, _rng):
    """Wrong bodies, and the right ones."""
    for modules, seconds, planted in ((WATCHING, WATCHED_SECONDS, WORKERS), (TIMED, TIMED_SECONDS, [ALL_TRIPLES])):
        with copy_of_crates(given) as top:
            keep_modules(top / ROWS / "src/tests.rt", {"outcomes", "workers"})
            keep_modules(top / ROWS / "src/tests/workers.rt", modules)
            yield "right", fault("the right bodies", tests_of(top / ROWS, seconds))
            for name, file, edits in planted:
                before = replace_once(top / file, edits)
                yield "wrong", fault(name, tests_of(top / ROWS, seconds), FAIL)
                (top / file).write_text(before, encoding="utf-8")


def turn_round(path):
    """Turns the comparisons of a file round."""
    text = path.read_text(encoding="utf-8")
    for old, new in TURNED:
        text = re.sub(old, new, text)
    path.write_text(text, encoding="utf-8")


def memory(given, _rng):
    """An answer that is always out of memory."""
    with copy_of_crates(given) as top:
        for _, file, edits in ALWAYS_MEMORY:
            replace_once(top / file, edits)
        for path in sorted((top / ROWS / "src/tests").rglob("*.rt")):
            turn_round(path)
        said = tests_of(top / ROWS)
        ends = re.findall(r"^test (\S+) \.\.\. (\w+)$", said, re.MULTILINE)
        for name, end in ends or [(f"{ROWS}, which did not run", "")]:
            yield "tests", None if end == "ok" else f"a row of {name} holds where `answer` is always out of memory"


def boards(given, _rng):
    """Many boards in threads."""
    with copy_of_crates(given) as top:
        text, found = re.subn(r"(?m)^const RUNS: u32 = .*;", f"const RUNS: u32 = {BOARDS};", (top / BOARD_RUNS).read_text(encoding="utf-8"))
        (top / BOARD_RUNS).write_text(text, encoding="utf-8")
        said = tests_of(top / "crates/qh_tests_run", SECONDS, "--", "board::runs::")
        yield f"runs of {BOARDS} boards", fault("many boards", said) if found == 1 else f"{BOARD_RUNS} states RUNS {found} times"


def roots(given, rng):
    """Runs of a program, built in a copy, that fails where a board has no root."""
    with copy_of_crates(given) as top:
        _, file, edits = WITHOUT_ROOT
        replace_once(top / file, edits)
        folder, words = top / "crates/qconvex", ["rank", "off"]
        subprocess.run(["rt", "run", "--", "rank"], cwd=folder, input=b"3\n1\n5 5 5\n", check=True, stdout=subprocess.DEVNULL)
        while True:
            data = file_of(small_set(rng)[0] + small_set(rng)[0])
            shared = ["--workers", str(rng.randint(2, 64)), "--block", str(rng.randint(1, 3)), *words]
            done = subprocess.run([folder / "out/qconvex", *shared], input=data, capture_output=True, check=False)
            yield "boards", None if done.returncode == 0 else f"{' '.join(shared)}: no root: {done}"


def put_private_tests(top, crate):
    """Puts the private tests of a crate into its sources: `tests.rt` as a module of the root, or of the file that its folder is named for."""
    src = top / "crates" / crate / "src"
    for file in sorted((PRIVATE_TESTS / crate).rglob("*.rt.in")):
        place = file.relative_to(PRIVATE_TESTS / crate).with_suffix("")
        (src / place).parent.mkdir(parents=True, exist_ok=True)
        shutil.copy(file, src / place)
        if place.name == "tests.rt":
            parent = src / "lib.rt" if place.parent == Path(".") else src / place.parent.with_suffix(".rt")
            with parent.open("a", encoding="utf-8") as target:
                target.write("\n#[cfg(test)]\nmod tests;\n")


def private(given, _rng):
    """The tests of private items."""
    with copy_of_crates(given) as top:
        for crate in sorted(folder.name for folder in PRIVATE_TESTS.iterdir() if folder.is_dir()):
            put_private_tests(top, crate)
            yield "crates", fault(f"the private tests of {crate}", tests_of(top / "crates" / crate))


if __name__ == "__main__":
    os.chdir(TOP)
    trials.main(__doc__, {"bodies": bodies, "memory": memory, "boards": boards, "roots": roots, "private": private})
