"""The table of a collection, by itself."""
import pytest

from puzzles._work import Fault
from puzzles.collect.__main__ import row
from puzzles.collect.table import Table

LINES = [b"2x2:Bc", b"nonsense"]


def test_two_runs_that_take_the_same_lines(tmp_path):
    """the second one is told so, also where a line is refused, and the table has what the first one took"""
    met = [row("lightup", line) for line in LINES]
    with Table(tmp_path / "table.db") as one, Table(tmp_path / "table.db") as other:
        for table in (one, other):
            assert table.resume("a", "lightup", iter(LINES)) == 0
        one.take("a", "lightup", 1, LINES, met)
        with pytest.raises(Fault, match="another run takes this file"):
            other.take("a", "lightup", 1, LINES, met)
        assert one.base.execute("SELECT id, times FROM puzzle").fetchall() == [("2x2:Bc", 1)]
        assert one.base.execute("SELECT count(*) FROM refusal").fetchone() == (1,)
