"""Properties of other programs' formats: what is written in one is read back, for puzzles that Hypothesis makes up."""
import pytest

hypothesis = pytest.importorskip("hypothesis", reason="no hypothesis")
from hypothesis import HealthCheck, given, settings, strategies as st  # noqa: E402

from puzzles.convert import links, nonograms, sudokus  # noqa: E402
from puzzles.ids import Puzzle, read, written  # noqa: E402

HOW = settings(deadline=None, max_examples=200, derandomize=True, suppress_health_check=list(HealthCheck))
SIGNS = "123456789"


def by_signs(text):
    """The ID of a sudoku of 81 signs, by an own way: each digit, and letters for the blanks between them."""
    cells, blanks = [], 0
    for sign in text:
        if sign == ".":
            blanks += 1
            continue
        cells.append(("_" if cells and not blanks else "") + letters(blanks) + sign)
        blanks = 0
    return f"3x3:{''.join(cells)}{letters(blanks)}"


def letters(count):
    return "z" * (count // 26) + (chr(96 + count % 26) if count % 26 else "")


@HOW
@given(st.lists(st.sampled_from("...." + SIGNS), min_size=81, max_size=81).map("".join))
def test_sudoku(text):
    """A line of 81 signs, nine lines of nine and a ruled grid are one puzzle, and it is written as that line again."""
    wanted = by_signs(text)
    lines = [text[at:at + 9] for at in range(0, 81, 9)]
    ruled = []
    for row, line in enumerate(lines):
        ruled += ["------+-------+------"] if row in (3, 6) else []
        ruled.append(" | ".join(" ".join(line[at:at + 3]) for at in (0, 3, 6)))
    for form in (text, "\n".join(lines), "\n".join(ruled)):
        assert [found[1:] for found in sudokus.read_text(form)] == [(wanted, None, "solo")], form
    assert sudokus.write_text(read("solo", wanted)) == text


@st.composite
def patterns(draw):
    """A Pattern with clues of a grid that is made up."""
    width, height = draw(st.integers(1, 8)), draw(st.integers(1, 8))
    rows = [draw(st.lists(st.sampled_from("#."), min_size=width, max_size=width)) for _ in range(height)]
    clues = [[len(run) for run in "".join(line).split(".") if run] for line in [*zip(*rows), *rows]]
    return Puzzle("pattern", f"{width}x{height}", width, height, None, cells=[""] * (width * height), clues=clues)


@HOW
@given(patterns())
def test_nonogram(puzzle):
    assert [found[1:] for found in nonograms.read_non(nonograms.write_non(puzzle))] == [(written(puzzle), None, "pattern")]


@HOW
@given(st.integers(1, 9), st.integers(1, 9), st.data())
def test_link_of_akari(width, height, data):
    cells = data.draw(st.lists(st.sampled_from(["", "", "", "#", *"01234"]), min_size=width * height, max_size=width * height))
    puzzle = Puzzle("lightup", f"{width}x{height}", width, height, None, cells=cells)
    assert [found[1:] for found in links.read_link(links.write_link(puzzle))] == [(written(puzzle), None, "lightup")]


@HOW
@given(st.sampled_from([2, 3, 4, 5]), st.data())
def test_link_of_sudoku(block, data):
    side = block * block
    values = st.sampled_from(["", "", *map(str, range(1, side + 1))])
    cells = data.draw(st.lists(values, min_size=side * side, max_size=side * side))
    puzzle = Puzzle("solo", f"{block}x{block}", side, side, (block, block), cells=cells)
    assert [found[1:] for found in links.read_link(links.write_link(puzzle))] == [(written(puzzle), None, "solo")]
