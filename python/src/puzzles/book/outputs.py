"""What a book is written to besides its PDF: the table, and a drawing of each puzzle and solution."""
import csv
import dataclasses
import io
import pathlib
from typing import Dict, List, Mapping, Sequence

from .chapters import Chapter, Made
from .tables import HEAD
from ..ids import Puzzle, svg


@dataclasses.dataclass
class Entry:
    """A puzzle of the book. One of a file has no seed."""
    number: int
    chapter: Chapter
    made: Made
    puzzle: Puzzle
    cells: List[str]  # of its solution
    page: int = 0

    @property
    def id(self) -> str:
        return self.made.id

    @property
    def grade(self) -> str:
        return self.made.grade


def table(entries: Sequence[Entry], solved_on: Mapping[int, int]) -> bytes:
    """The table as CSV."""
    out = io.StringIO(newline="")
    rows = [[one.number, one.page, one.puzzle.game, one.puzzle.size, one.chapter.level, one.made.seed, one.grade, one.id,
             solved_on[one.number], "/".join(one.made.answer), one.chapter.title] for one in entries]
    csv.writer(out, lineterminator="\n").writerows([HEAD, *rows])
    return out.getvalue().encode()


def drawings(folder: pathlib.Path, entries: Sequence[Entry], cell: float = 10) -> Dict[pathlib.Path, bytes]:
    """Files of SVG by their paths, two for each puzzle: with cells of so many millimetres."""
    width = len(str(entries[-1].number))
    found: Dict[pathlib.Path, bytes] = {}
    for one in entries:
        stem = f"{one.number:0{width}}-{one.puzzle.game}"
        for name, cells in ((stem, None), (f"{stem}-solution", one.cells)):
            found[folder / f"{name}.svg"] = (svg(one.puzzle, cells, cell, name=name) + "\n").encode()
    return found
