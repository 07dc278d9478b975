"""Properties of a form: a moved copy of a puzzle has its form, and another puzzle hasn't. Puzzles are made up by Hypothesis."""
import itertools

import pytest

hypothesis = pytest.importorskip("hypothesis", reason="no hypothesis")
from hypothesis import HealthCheck, given, settings, strategies as st  # noqa: E402

from puzzles.collect.forms import form  # noqa: E402
from puzzles.ids import Puzzle, read, written  # noqa: E402

HOW = settings(deadline=None, max_examples=200, derandomize=True, suppress_health_check=list(HealthCheck))


def light_up(rows):
    """The ID of a Light Up of these rows of signs."""
    width, height = len(rows[0]), len(rows)
    return written(Puzzle("lightup", f"{width}x{height}", width, height, None, cells=sum(map(list, rows), [])))


def solo(rows, tall, wide):
    return written(Puzzle("solo", f"{tall}x{wide}", len(rows), len(rows), (wide, tall), cells=sum(map(list, rows), [])))


def images(rows):
    """A grid in the eight ways to turn and to mirror it."""
    for one in (rows, [*map(list, zip(*rows))]):
        for down, across in itertools.product((1, -1), repeat=2):
            yield [line[::across] for line in one[::down]]


@st.composite
def grids(draw, signs, most):
    width, height = draw(st.integers(2, most)), draw(st.integers(2, most))
    return [draw(st.lists(st.sampled_from(signs), min_size=width, max_size=width)) for _ in range(height)]


@HOW
@given(grids(["", "", "#", "1"], 4), st.data())
def test_light_up(rows, data):
    """Two grids, of which one may differ in a cell, have one form exactly if one is an image of the other."""
    other = [list(line) for line in data.draw(st.sampled_from(list(images(rows))))]
    if data.draw(st.booleans()):
        y, x = data.draw(st.integers(0, len(other) - 1)), data.draw(st.integers(0, len(other[0]) - 1))
        other[y][x] = data.draw(st.sampled_from(["", "#", "1", "2"]))
    is_image = any(image == other for image in images(rows))
    assert (form("lightup", light_up(rows)) == form("lightup", light_up(other))) == is_image


@st.composite
def moved_solo(draw):
    """A Solo of 2x3 with some numbers, and a copy: other numbers, lines and bands in another order, perhaps turned."""
    tall, wide = 2, 3
    side = tall * wide
    rows = [[str(n) if (n := draw(st.integers(-4, side))) > 0 else "" for _ in range(side)] for _ in range(side)]
    names = dict(zip(map(str, range(1, side + 1)), draw(st.permutations([str(n) for n in range(1, side + 1)]))))
    down, across = [[step * part + one for part in draw(st.permutations(range(side // step)))
                     for one in draw(st.permutations(range(step)))] for step in (tall, wide)]
    copy = [[names.get(rows[y][x], "") for x in across] for y in down]
    if draw(st.booleans()):
        return solo(rows, tall, wide), solo([*map(list, zip(*copy))], wide, tall)
    return solo(rows, tall, wide), solo(copy, tall, wide)


@settings(HOW, max_examples=60)
@given(moved_solo())
def test_solo(two):
    """A copy is met, whatever was moved."""
    first, second = two
    assert form("solo", first) == form("solo", second)


@settings(HOW, max_examples=60)
@given(moved_solo(), st.data())
def test_another_solo(two, data):
    """A number less in one of two copies makes it another puzzle: no move changes how many stand there."""
    first, second = two
    puzzle = read("solo", second)
    there = [at for at, sign in enumerate(puzzle.cells) if sign]
    hypothesis.assume(there)
    puzzle.cells[data.draw(st.sampled_from(there))] = ""
    assert form("solo", first) != form("solo", written(puzzle))
