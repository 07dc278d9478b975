"""A book's table, as it is read again."""
import pytest

from puzzles._work import Fault
from puzzles.book.tables import HEAD, rows_of

HEADING, ROW = ",".join(HEAD), "1,2,solo,2x2,easy,1,singles,2x2:1b4b3c4b1,3,,"


def table(folder, *rows):
    path = folder / "book.csv"
    path.write_text("\n".join([HEADING, *rows]) + "\n")
    return path


def test_rows(tmp_path):
    """a row has its words by the columns"""
    (row,) = rows_of(table(tmp_path, ROW))
    assert (row["game"], row["id"], row["chapter"]) == ("solo", "2x2:1b4b3c4b1", "")


@pytest.mark.parametrize("row", ["1,2,solo", f"{ROW},more"])
def test_other_columns(tmp_path, row):
    """a row with fewer words or more is told by its line"""
    with pytest.raises(Fault, match="book.csv:3: the row has another number of columns"):
        rows_of(table(tmp_path, ROW, row))
