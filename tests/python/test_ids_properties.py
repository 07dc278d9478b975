"""Properties of puzzles.ids for texts that Hypothesis makes up: beside the program, and of reading, writing and drawing."""
import subprocess
import xml.etree.ElementTree

import pytest

hypothesis = pytest.importorskip("hypothesis", reason="no hypothesis")
from hypothesis import HealthCheck, given, settings, strategies as st  # noqa: E402

from puzzles.ids import GAMES, MOST_SIDE, Puzzle, Refused, read, read_grid, svg, written  # noqa: E402

SETTINGS = settings(deadline=None, max_examples=300, derandomize=True, suppress_health_check=list(HealthCheck))
SIGNS = st.text("0123456789abcxyzB_./,:#-", max_size=40)
HEADS = st.tuples(st.sampled_from(["1", "2", "3", "02", "31", "120", "121", "9" * 30]), st.sampled_from(["", "x", "xx", "j"]),
                  st.sampled_from(["", "1", "2", "3", "6", "120"]), st.sampled_from(["", "x", "u"])).map("".join)
TEXTS = st.one_of(st.binary(max_size=60).map(lambda text: text.replace(b"\n", b"").rstrip(b"\r")),
                  st.tuples(HEADS, SIGNS).map(lambda two: ":".join(two).encode()))


@st.composite
def puzzles(draw):
    """A puzzle of any game, which need not have a solution."""
    game = draw(st.sampled_from(GAMES))
    width, height, block, crossed = draw(st.integers(2, 9)), draw(st.integers(2, 9)), None, False
    if game == "solo":
        rows, columns = draw(st.sampled_from([(2, 2), (2, 3), (3, 2), (3, 3), (4, 3), (5, 6)]))
        crossed = draw(st.booleans())
        width = height = rows * columns
        block, size = (columns, rows), f"{rows}x{columns}{'x' * crossed}"
    else:
        size = f"{width}x{height}"
    puzzle = Puzzle(game, size, width, height, block, crossed)
    given_signs = {"solo": st.integers(1, width).map(str), "lightup": st.sampled_from("#01234"), "tents": st.just("T"),
                   "pattern": st.nothing()}[game]
    cell = st.just("") | st.just("") | given_signs if game != "pattern" else st.just("")
    puzzle.cells = draw(st.lists(cell, min_size=width * height, max_size=width * height))
    for line in range(width + height):
        length = puzzle.length(line)
        if game == "tents":
            puzzle.clues.append([draw(st.integers(0, length))])
        if game == "pattern":
            clue = []
            for run in draw(st.lists(st.integers(1, length), max_size=4)):
                if sum(clue) + len(clue) + run <= length:
                    clue.append(run)
            puzzle.clues.append(clue)
    return puzzle


@SETTINGS
@given(puzzles())
def test_what_is_written_is_read(puzzle):
    """Writing and reading gives the puzzle back, and writing is stable; the drawing is well-formed and has each number once."""
    text = written(puzzle)
    assert read(puzzle.game, text) == puzzle
    assert written(read(puzzle.game, text)) == text
    root = xml.etree.ElementTree.fromstring(svg(puzzle))
    numbers = sorted(one.text for one in root.iter() if one.tag.endswith("text"))
    assert numbers == sorted([*(cell for cell in puzzle.cells if cell.isdigit()),
                              *(str(number) for clue in puzzle.clues for number in clue)])


@SETTINGS
@given(st.sampled_from(GAMES), TEXTS)
def test_any_bytes_are_read_or_refused(game, text):
    """Nothing but `Refused` is raised, and what is read has a written form that reads the same."""
    try:
        puzzle = read(game, text)
    except Refused as fault:
        assert str(fault)
        return
    assert len(puzzle.cells) == puzzle.width * puzzle.height and max(puzzle.width, puzzle.height) <= MOST_SIDE
    assert read(game, written(puzzle)) == puzzle


@settings(SETTINGS, max_examples=25)
@given(st.sampled_from(GAMES), st.lists(TEXTS, min_size=1, max_size=120))
def test_faults_are_the_programs(program, game, texts):
    """A run of `solve` and `read` refuse the same texts in the same words."""
    done = subprocess.run([program, "solve", game, "--budget=0"], input=b"".join(text + b"\n" for text in texts),
                          capture_output=True, timeout=600, check=False)
    firsts = [line for line in done.stdout.decode().splitlines() if line[:1].islower()]
    assert len(firsts) == len(texts)
    for text, first in zip(texts, firsts):
        try:
            read(game, text)
            assert not first.startswith("refused"), text
        except Refused as fault:
            assert first == f"refused: {fault}", text


@settings(SETTINGS, max_examples=60)
@given(puzzles(), st.data())
def test_grids(puzzle, data):
    """A grid of the puzzle's signs is read as it is, and one wrong sign is refused."""
    signs = {"pattern": "#.", "lightup": "O.", "tents": "^."}.get(puzzle.game) or [str(n + 1) for n in range(puzzle.width)]
    cells = [cell or data.draw(st.sampled_from(list(signs))) for cell in puzzle.cells]
    between = " " if puzzle.block else ""
    rows = [between.join(cells[at:at + puzzle.width]) for at in range(0, len(cells), puzzle.width)]
    assert read_grid(puzzle, rows) == cells
    at = data.draw(st.integers(0, len(cells) - 1))
    cells[at] = "?"
    rows = [between.join(cells[k:k + puzzle.width]) for k in range(0, len(cells), puzzle.width)]
    with pytest.raises(ValueError):
        read_grid(puzzle, rows)
