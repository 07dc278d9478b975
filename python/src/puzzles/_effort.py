"""How long the deduction of a puzzle is, by its trace: a finer measure than its rule set."""
from typing import Sequence

from .ids import Puzzle


def effort(puzzle: Puzzle, trace: Sequence[str]) -> float:
    """Visits for each line of Solo and Pattern, sweeps of the others."""
    if puzzle.game in ("solo", "pattern"):
        return round(len(trace) / (puzzle.width + puzzle.height), 2)
    return int(trace[0].split()[1]) if trace else 0
