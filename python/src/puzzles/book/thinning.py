"""Takes clues of Solo away: one by one, or by pairs, so that the givens look the same upside down."""
import dataclasses
import random
from typing import Callable, List, Sequence, Tuple

from ..ids import Puzzle, read_grid, written


def thinned(puzzle: Puzzle, answer: Sequence[str], seed: int, is_good: Callable[[str], bool], is_symmetric: bool) -> Puzzle:
    """A puzzle of Solo with this answer, of which no clue or pair of clues may go. `is_good` tells of an ID whether they may."""
    full = read_grid(puzzle, answer)
    puzzle = dataclasses.replace(puzzle, cells=[*full])
    last = len(full) - 1
    groups: List[Tuple[int, ...]] = [(place,) for place in range(last + 1)]
    if is_symmetric:
        groups = [(place, last - place) for place in range(last // 2 + 1)]
    random.Random(seed).shuffle(groups)
    for group in groups:
        for place in group:
            puzzle.cells[place] = ""
        if not is_good(written(puzzle)):
            for place in group:
                puzzle.cells[place] = full[place]
    return puzzle
