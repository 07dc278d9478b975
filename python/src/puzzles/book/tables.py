"""A book's table, a CSV file: what it has, and what is read of it."""
import csv
import pathlib
from typing import Dict, List, Optional, Sequence

from .._work import REFUSED, Fault

HEAD = ["number", "page", "game", "size", "level", "seed", "grade", "id", "solution_page", "solution", "chapter"]


def rows_of(path: pathlib.Path) -> List[Dict[str, str]]:
    """The rows of a book's table, each by its columns; of an older one too, which has fewer."""
    try:
        with open(path, encoding="utf-8", newline="") as file:
            rows = csv.DictReader(file)
            if not is_head(rows.fieldnames):
                raise ValueError
            return [whole(row, f"{path}:{rows.line_num}") for row in rows]
    except (ValueError, csv.Error):
        raise Fault(f"{path} is no table of a book: it doesn't begin with {','.join(HEAD[:8])}", REFUSED) from None


def whole(row: Dict[str, str], place: str) -> Dict[str, str]:
    """The row, if it has a word for each column and no more."""
    if None in row or None in row.values():
        raise Fault(f"{place}: the row has another number of columns than the first line", REFUSED)
    return row


def is_head(names: Optional[Sequence[str]]) -> bool:
    return list(names or [])[:8] == HEAD[:8]


def check_table(path: pathlib.Path) -> None:
    """Tells of a file that stands where the table goes and is none."""
    if path.exists() and path.stat().st_size:
        rows_of(path)


def last_seed(path: pathlib.Path) -> int:
    """The greatest seed of a table; 0 if its puzzles have none."""
    try:
        return max((int(row["seed"] or 0) for row in rows_of(path)), default=0)
    except (TypeError, ValueError):
        raise Fault(f"{path} has a seed that is no number", REFUSED) from None
