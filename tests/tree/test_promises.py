"""The numbers that tie a promise to what it rests on."""
import pytest

from tree import promises

TOLD = """\
| | Promise | Contract |
|---|---|---|
| 1 | a cell stays | `Grid::set` |
| 1a | a cell is told | `Grid::get` |
| 2 | a size is told | `Size::w` |

| Promise | Definitions | Wrong bodies refused |
|---|---|---|
| 1 | none | `a_write_that_is_dropped` |
| 2 | none | none of its own |
| 1a | none | `reads_the_first_cell` |
"""


def test_rows_are_numbered_anew():
    """A promise that was added by a number of its own takes what it rests on along."""
    assert [*promises.number_faults(TOLD)] == [
        "the promises, or the rows of what they rest on, aren't numbered in order: --number does it"]
    text = promises.numbered(TOLD)
    assert [*promises.number_faults(text)] == []
    assert [(row[0], row[2][0], row[2][3]) for row in promises.rows(text)] == [
        ("1", "a cell stays", "`a_write_that_is_dropped`"), ("2", "a cell is told", "`reads_the_first_cell`"),
        ("3", "a size is told", "none of its own")]


@pytest.mark.parametrize("old, new, told", [
    ("| 2 | none | none of its own |\n", "", "promise 2: no row of what it rests on"),
    ("| 2 | a size is told | `Size::w` |\n", "", "definitions and wrong bodies of 2: no such promise"),
    ("| 1a | none | `reads", "| 1 | none | `reads", "promise 1 stands twice")])
def test_numbers_are_of_pairs(old, new, told):
    assert told in promises.number_faults(TOLD.replace(old, new))


def test_a_promise_without_its_row_has_no_wrong_body():
    text = promises.numbered(TOLD).replace("| 3 | none | none of its own |\n", "")
    assert [row[2][3] for row in promises.rows(text)][-1] == ""
