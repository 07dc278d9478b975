"""`import puzzles`, the answers with types, beside what the program writes."""
import ast
import os
import random
import sys

import pytest

from support.bench import LETTERS, SOURCES
from python.test_ids import SIZES, edited, made

PACKAGE = SOURCES / "puzzles"
OLDEST = (3, 9)
FLAT = """\
import sys
import puzzles

def flat(answer):
    \"\"\"The lines that the program wrote, or words for what is no answer.\"\"\"
    if answer.verdict is puzzles.Verdict.REFUSED:
        return [f"refused: {answer.refusal}"]
    if isinstance(answer, puzzles.Solved):
        return [str(answer.verdict), *"\\n\\n".join("\\n".join(grid) for grid in answer.grids).splitlines()]
    if isinstance(answer, puzzles.Checked):
        return [f"{answer.verdict}: {answer.broken}" if answer.broken else str(answer.verdict)]
    if isinstance(answer, puzzles.Graded) and answer.grade:
        return [f"{answer.grade} {answer.trials}" if answer.trials else str(answer.grade), *answer.trace]
    if isinstance(answer, puzzles.Made) and answer.id:
        return [answer.id, *answer.grid]
    return [str(answer.verdict)]

def tell(answer):
    print(*flat(answer), sep="\\n")
"""
STREAM = """
for text, answer in puzzles.solve_all(sys.argv[1], (line.decode("latin-1") for line in sys.stdin.buffer), budget=50):
    tell(answer)
"""
HOSTILE = """
for text in ("1x1:/\\0", "\\0", "1" * 200_000, "--budget=5", "-", "", "1x1:/\\n1x1:/", "\\ufeff 1x1:/\\r\\n", "\\udc80",
             "ä" * 40_000):
    tell(puzzles.solve("pattern", text))
tell(puzzles.generate("tents", "4x4\\0", 1))
try:
    puzzles.solve("chess", "1x1:/")
except ValueError as fault:
    print(fault)
"""
HOSTILE_WANTED = """refused: bad byte at 5|refused: no colon|refused: too long|refused: no colon
refused: no colon|refused: no colon|refused: bad byte at 5|one|.|refused: no colon|refused: too long|refused: variant
'chess' is none of solo, pattern, lightup, tents""".replace("\n", "|").split("|")
CLOCK = """
import threading
long = "120x120:" + 553 * "z" + "v"
try:
    puzzles.solve("lightup", long, budget=2**64 - 1, seconds=.3)
except puzzles.Late as fault:
    print(fault)
texts = ["2x2:2c", long, "2x2:2c", long, "2x2:Bc"]
with puzzles.Worker("lightup", budget=2**64 - 1) as worker:
    for worker.seconds in .5, 4, 60:  # on a busy machine a short one may be late
        verdicts = ",".join(answer.verdict for _, answer in worker.solve_all(texts))
        if verdicts == "one,late,one,late,several":
            break
    print(verdicts)
    worker.seconds = 60
    first = worker.kept.process.child
    first.kill()
    first.wait()
    print(worker.solve("2x2:2c").verdict, worker.kept.process.child.pid != first.pid)
    worker.kept.left = 1
    print(worker.solve("2x2:2c").verdict)
    found = []
    threads = [threading.Thread(target=lambda: found.append(worker.solve("2x2:Bc").verdict)) for _ in range(20)]
    for thread in [*threads, *threads]:
        thread.join() if thread.ident else thread.start()
    for thread in threads:
        thread.join()
    print(len(found), *set(found))
"""
CLOCK_WANTED = ["no answer within 0.3 seconds", "one,late,one,late,several", "one True", "one", "20 several"]
GRADED = """
for text, answer in puzzles.grade_all(sys.argv[1], sys.stdin.read().splitlines(), budget=50):
    tell(answer)
"""
LATE_GRADE = """
long = "120x120:" + 553 * "z" + "v"
for seconds in .5, 4:  # on a busy machine a short one may be late
    found = [str(answer.verdict) for _, answer in puzzles.grade_all("lightup", ["2x2:2c", long, "2x2:Bc"], budget=2**64 - 1,
                                                                   seconds=seconds)]
    if found == ["one", "late", "several"]:
        break
print(*found)
stream = puzzles.grade_all("tents", ["2x2:_c,0,1,1,0"] * 5000)
print(next(stream)[1].grade)
stream.close()
"""
WRONG_KINDS = """
for call in (lambda: puzzles.solve("solo", b"2x2:p"), lambda: puzzles.solve("solo", None),
             lambda: next(puzzles.solve_all("solo", [b"2x2:p"])), lambda: puzzles.solve("solo", "2x2:p", budget=1.5),
             lambda: next(puzzles.grade_all("chess", ["2x2:p"]))):
    try:
        call()
    except (TypeError, ValueError) as fault:
        print(fault)
print(puzzles.check("pattern", "2x2:2/1/2/1", "##\\n#.").verdict)
"""
WRONG_KINDS_WANTED = ["an ID or a size is a text (str), and not bytes", "an ID or a size is a text (str), and not NoneType",
                      "an ID or a size is a text (str), and not bytes", "'float' object cannot be interpreted as an integer",
                      "'chess' is none of solo, pattern, lightup, tents", "correct"]
MISSPELT = """
import puzzles
puzzles.solve("solo", "2x2:p")
list(puzzles.grade_all("tents", ["2x2:_c,0,1,1,0"]))
puzzles.solve("patern", "2x2:2/1/2/1")
"""
FAILING = """
for call in (lambda: puzzles.solve("pattern", "1x1:/"), lambda: next(puzzles.solve_all("pattern", ["1x1:/"]))):
    try:
        call()
    except puzzles.NoAnswer as fault:
        print(type(fault).__name__, fault)
"""
DOCUMENTED = """
import inspect, puzzles.ids
for module in puzzles, puzzles.ids:
    for name in module.__all__:
        one = getattr(module, name)
        if inspect.isclass(one) and not issubclass(one, Exception) or inspect.isfunction(one):
            assert inspect.getdoc(one), name
        for call in [one] if inspect.isfunction(one) else [call for _, call in inspect.getmembers(one, inspect.isfunction)
                                                           if not call.__name__.startswith("_")] if inspect.isclass(one) else []:
            known = inspect.signature(call)
            assert known.return_annotation is not inspect.Signature.empty, f"{name}.{call.__name__}"
"""


def run(bench, text, *words, given="", **more):
    """What a program in Python writes that begins with `import puzzles`."""
    return bench.good(["python3", "-c", FLAT + text, *words], given, PYTHONPATH=str(SOURCES), **more).splitlines()


def test_typed(bench):
    """solve, check, grade with its trace and generate give what the program writes, for made puzzles of each game"""
    for game, sizes in SIZES.items():
        for size in sizes[:3]:
            text, *rows = bench.generate(game, size, 2)
            flipped = [rows[0].translate(str.maketrans("#.O^", ".#.."))] + rows[1:] if game != "solo" else rows[::-1]
            calls = [(["solve", game, text], "", f"solve({game!r}, {text!r})"),
                     (["check", game, text], rows, f"check({game!r}, {text!r}, {rows!r})"),
                     (["check", game, text], flipped, f"check({game!r}, {text!r}, {flipped!r})"),
                     (["grade", game, text, "--trace"], "", f"grade({game!r}, {text!r}, trace=True)"),
                     (["generate", game, size, "--seed=2"], "", f"generate({game!r}, {size!r}, seed=2)"),
                     (["generate", game, size, "--seed=2", "--tries=0"], "", f"generate({game!r}, {size!r}, 2, tries=0)"),
                     (["solve", game, text, "--budget=0"], "", f"solve({game!r}, {text!r}, budget=0)")]
            for words, given, call in calls:
                wanted = bench.run([bench.program, *words], "".join(f"{row}\n" for row in given)).stdout.splitlines()
                found = run(bench, f"tell(puzzles.{call})")
                assert found == wanted, f"{call}: {found}, wanted {wanted}"


def test_streamed(bench):
    """a stream of made and hostile IDs has the answers of one run of the program, in order"""
    draws = random.Random(11)
    for game, texts in made(bench).items():
        lines = [draws.choice(texts).encode() if draws.random() < .3 else edited(draws, draws.choice(texts)) for _ in range(1500)]
        lines = [line.strip(b" \t\r\n").decode("latin-1") for line in [*lines, b"", LETTERS.encode() * 3000]]
        given = "".join(f"{line}\n" for line in lines)
        wanted = bench.run([bench.program, "solve", game, "--budget", "50"], given).stdout.splitlines()
        found = run(bench, STREAM.replace('"latin-1"', '"utf-8", "surrogateescape"'), game, given=given)
        assert found == wanted, f"{game}: {next((pair for pair in zip(found, wanted) if pair[0] != pair[1]), len(found))}"


def test_hostile(bench):
    """texts that are no puzzle are refused in the program's words, a clock ends searches, and a worker goes on behind them"""
    found = run(bench, HOSTILE)
    assert found == HOSTILE_WANTED, f"{found}, wanted {HOSTILE_WANTED}"
    found = run(bench, CLOCK)
    assert found == CLOCK_WANTED, f"{found}, wanted {CLOCK_WANTED}"


def test_graded(bench):
    """a stream of grades of made and hostile IDs has what `grade` writes for each, in order; a clock ends one alone"""
    for game, texts in made(bench).items():
        texts = [*texts[:12], "", " none", texts[0] + "x", *texts[:3], LETTERS * 3000]
        wanted = [line for text in texts for line in
                  bench.run([bench.program, "grade", game, "--budget=50", "--", text.strip()[:70_000]]).stdout.splitlines()]
        found = run(bench, GRADED, game, given="".join(f"{text}\n" for text in texts))
        assert found == wanted, f"{game}: {next((pair for pair in zip(found, wanted) if pair[0] != pair[1]), len(found))}"
    assert run(bench, LATE_GRADE) == ["one late several", "local"]


LIBRARY = """
library, calls = puzzles.Library(sys.argv[1]), 0
for game, text, size in [line.split() for line in sys.stdin]:
    grid = puzzles.solve(game, text).grids[0]
    for name, words, more in [("solve", (text,), {}), ("solve", (text,), {"budget": 0}), ("solve", (text + "x",), {}),
                              ("check", (text, grid), {}), ("check", (text, grid[::-1]), {}),
                              ("check", (text, "\\n".join(grid)), {}), ("grade", (text,), {}),
                              ("grade", (text,), {"trace": True}), ("grade", (" " + text,), {"budget": 2}),
                              ("generate", (size, 3), {"budget": 50}), ("generate", (size, 3), {"tries": 0}),
                              ("generate", (size, -1), {}), ("generate", (size, 1), {"black": 101}), ("solve", ("a\\0b",), {}),
                              ("solve", (text,), {"budget": 2**64}), ("solve", ("1" * 70_000,), {})]:
        mine, wanted = (getattr(one, name)(game, *words, **more) for one in (library, puzzles))
        assert mine == wanted, f"{name} {game} {words} {more}: {mine}, wanted {wanted}"
        calls += 1
    assert list(library.solve_all(game, [text, ""])) == list(puzzles.solve_all(game, [text, ""]))
for call in lambda: library.solve("chess", "2x2:p"), lambda: library.solve("solo", b"2x2:p"), lambda: puzzles.Library("/nowhere"):
    try:
        call()
    except (ValueError, TypeError, OSError) as fault:
        print(type(fault).__name__)
print(calls)
"""


def test_library(bench, library):
    """the library answers by the same names, with the same types, what the program answers"""
    given = [f"{game} {bench.generate(game, sizes[0], 2)[0]} {sizes[0]}\n" for game, sizes in SIZES.items()]
    assert run(bench, LIBRARY, library, given="".join(given)) == ["ValueError", "TypeError", "OSError", str(16 * len(given))]


def test_wrong_kinds(bench):
    """what is no text, no whole number or no game is told in words, and a grid may be one text"""
    assert run(bench, WRONG_KINDS) == WRONG_KINDS_WANTED


@pytest.mark.needs("import:mypy")
def test_misspelt_game(bench):
    """a checker of types finds a misspelt game, and nothing else"""
    path = bench.folder / "caller.py"
    path.write_text(MISSPELT)
    done = bench.run([sys.executable, "-m", "mypy", "--strict", "--cache-dir", os.devnull, path], MYPYPATH=str(SOURCES))
    faults = [line for line in done.stdout.splitlines() if "error" in line and "Found" not in line]
    assert len(faults) == 1 and "'patern'" in faults[0] and ":5:" in faults[0], done.stdout


def test_failing(bench):
    """no program, one that fails, and one that answers otherwise raise an error in words"""
    program = bench.folder / "failing"
    for text, wanted in (("exit 6", "status 6"), ("kill -9 $$", "status -9"), ("echo nonsense", "known form"),
                         ("true", "status 0")):
        program.write_text(f"#!/bin/sh\n{text}\n")
        program.chmod(0o755)
        found = run(bench, FAILING, PUZZLES=str(program))
        assert len(found) == 2 and all(line.startswith("NoAnswer") for line in found) and wanted in found[0], f"{text}: {found}"
    done = bench.run(["python3", "-c", FLAT + FAILING], PYTHONPATH=str(SOURCES), PUZZLES="/nowhere")
    assert "FileNotFoundError: no program `puzzles`" in done.stderr, done.stderr


def test_documented(bench):
    """each public call has its text and types, and all scripts here are Python of 3.9 by their syntax"""
    run(bench, DOCUMENTED)
    for path in SOURCES.rglob("*.py"):
        ast.parse(path.read_text(), str(path), feature_version=OLDEST)
    assert (PACKAGE / "py.typed").exists(), "no py.typed, so a checker of types passes over it"

