"""Writes the one ID of a puzzle as section 3 of docs/FORMATS.md says, and reads printed grids."""
from typing import Callable, Dict, List, Sequence

from .reader import Puzzle

SIGNS = {"pattern": "#.", "lightup": "O.", "tents": "^."}


def written(puzzle: Puzzle) -> str:
    """The written ID. Two IDs are of one puzzle exactly if they are written the same."""
    return f"{puzzle.size}:{WRITERS[puzzle.game](puzzle)}"


def letters(blanks: int) -> str:
    """So many blank cells of Solo or Light Up."""
    return "z" * ((blanks - 1) // 26) + chr(97 + (blanks - 1) % 26) if blanks else ""


def write_cells(puzzle: Puzzle) -> str:
    out: List[str] = []
    blanks, between = 0, "_" if puzzle.game == "solo" else ""
    for cell in puzzle.cells:
        if cell:
            out += [letters(blanks) or (between if out else ""), cell.replace("#", "B")]
        blanks = 0 if cell else blanks + 1
    return "".join([*out, letters(blanks)])


def write_pattern(puzzle: Puzzle) -> str:
    return "/".join(".".join(map(str, clue)) for clue in puzzle.clues)


def write_tents(puzzle: Puzzle) -> str:
    out: List[str] = []
    blanks = 0
    for cell in [*puzzle.cells, "T"]:
        if cell:
            out.append(chr(96 + blanks) if blanks else "_")
        elif blanks == 25:
            out.append("z")
        blanks = 0 if cell else blanks % 25 + 1
    return "".join(out) + "".join(f",{clue[0]}" for clue in puzzle.clues)


def read_grid(puzzle: Puzzle, lines: Sequence[str]) -> List[str]:
    """The signs of all cells of a printed grid, row by row; ValueError if it is no grid of the puzzle."""
    rows = [line.split(" ") if puzzle.block else list(line) for line in lines]
    if len(rows) != puzzle.height or any(len(row) != puzzle.width for row in rows):
        raise ValueError(f"it hasn't {puzzle.height} rows of {puzzle.width} cells")
    cells = [sign for row in rows for sign in row]
    signs: Sequence[str] = SIGNS.get(puzzle.game) or [str(value + 1) for value in range(puzzle.width)]
    for place, (fixed, sign) in enumerate(zip(puzzle.cells, cells)):
        if sign != fixed if fixed else sign not in signs:
            raise ValueError(f"{sign} can't stand at column {place % puzzle.width}, row {place // puzzle.width}")
    return cells


WRITERS: Dict[str, Callable[[Puzzle], str]] = {"solo": write_cells, "pattern": write_pattern, "lightup": write_cells, "tents": write_tents}
