"""The same calls in this process, by the library for C."""
import os
from typing import Callable, Iterable, Iterator, List, Optional, Tuple, Union

from . import answers
from .answers import Checked, Graded, Kind, Made, Solved
from .library import NO_MEMORY, Puzzles
from .process import Game, NoAnswer, known, text_of, whole

BUDGET, TRIES = 100_000, 1_000  # the program's own


class Library:
    """The calls of this package by libpuzzles.so, as library/build.py makes it: no process, and no clock.

    A call can't be ended, so a search that may be long belongs to `puzzles.solve` and the others. May be used by many threads,
    which call at a time. Raises OSError for a file that is no library, and then what `puzzles.solve` does.
    """

    def __init__(self, file: Union[str, "os.PathLike[str]"]):
        self.puzzles = Puzzles(file)

    def solve(self, game: Game, text: str, *, budget: Optional[int] = None) -> Solved:
        """The solutions of an ID: none, one, or two different ones of several."""
        return told(answers.solved, self.puzzles.solve(known(game), text_of(text), number(budget, BUDGET)))

    def solve_all(self, game: Game, texts: Iterable[str], *, budget: Optional[int] = None) -> Iterator[Tuple[str, Solved]]:
        """Each text with its answer, in order."""
        for text in texts:
            yield text, self.solve(game, text, budget=budget)

    def check(self, game: Game, text: str, grid: Union[str, Iterable[str]]) -> Checked:
        """Whether a grid is a solution; else the first broken rule."""
        rows = grid.splitlines() if isinstance(grid, str) else grid
        given = "".join(f"{row}\n" for row in rows).encode("utf-8", "replace")
        return told(answers.checked, self.puzzles.check(known(game), text_of(text), given))

    def grade(self, game: Game, text: str, *, budget: Optional[int] = None, trace: bool = False) -> Graded:
        """How hard a puzzle is; `trace` asks for the steps of the deduction too."""
        return told(answers.graded, self.puzzles.grade(known(game), text_of(text), number(budget, BUDGET), trace))

    def generate(self, game: Game, size: str, seed: int, *, budget: Optional[int] = None, tries: Optional[int] = None,
                 black: Optional[int] = None) -> Made:
        """A puzzle with exactly one solution, the program's own one of this seed."""
        share = None if black is None else whole(black)
        return told(answers.made, self.puzzles.generate(
            known(game), text_of(size), whole(seed), number(budget, BUDGET), number(tries, TRIES), share))


def number(value: Optional[int], usual: int) -> int:
    """A number, or the program's own."""
    return usual if value is None else whole(value)


def told(read: Callable[[List[str]], Kind], answer: Tuple[int, bytes]) -> Kind:
    """The answer of a call, read by a function of `answers`. Raises NoAnswer."""
    status, said = answer
    if status >= NO_MEMORY:
        raise NoAnswer("no memory for an answer")
    return read(said.decode("utf-8", "replace").splitlines())
