"""Draws puzzles and their grids as SVG, black on white, with lengths in cells."""
import html
from typing import Collection, Iterator, List, Optional, Sequence

from .reader import Puzzle

TREE = "M.5 .1 .84 .64H.56V.9H.44V.64H.16Z"
TENT = "M.5 .2 .86 .8H.14Z"
NUMBER_SIZE, SOLVED_SIZE, CLUE_SIZE, CLUE_STEP = .6, .78, .5, .62
TWO_DIGITS = .8  # of the size of one digit
DIGIT_WIDTH, DIGIT_HEIGHT = .64, .73  # of a font's size, for DejaVu Sans
MARGIN = .06


class Room:
    """How many cells a drawing takes on each side of its grid."""

    def __init__(self, puzzle: Puzzle, is_solution: bool) -> None:
        self.left = self.top = self.right = self.below = MARGIN
        columns, rows = puzzle.clues[:puzzle.width], puzzle.clues[puzzle.width:]
        if puzzle.game == "pattern" and not is_solution:
            self.left += max(clue_width(clue) for clue in rows) + .1
            self.top += max(len(clue) for clue in columns) * CLUE_STEP + .1
        if puzzle.game == "tents" and not is_solution:
            self.right, self.below = .8, .8
        self.width, self.height = self.left + puzzle.width + self.right, self.top + puzzle.height + self.below


def number_size(puzzle: Puzzle, is_solution: bool) -> float:
    """The font's size for the smallest number that may stand in a cell. In a solution nobody writes, so it is larger."""
    return (SOLVED_SIZE if is_solution else NUMBER_SIZE) * (TWO_DIGITS if puzzle.block and puzzle.width > 9 else 1)


def clue_width(clue: List[int]) -> float:
    return sum(len(str(number)) * CLUE_SIZE * DIGIT_WIDTH + .3 for number in clue)


def svg(puzzle: Puzzle, cells: Optional[Sequence[str]] = None, cell: float = 10.0,
        marked: Collection[int] = (), name: str = "", is_small: bool = True) -> str:
    """The puzzle as SVG, or one of its grids if the signs of all cells are given.

    `cell` is the side of a cell in millimetres. The cells at the places in `marked` have a cross.
    `name` is what a screen reader says. The numbers of a grid fill its cells, as for small ones, unless
    `is_small` is false: then they are those of the puzzle.
    """
    room, is_solution = Room(puzzle, cells is not None), cells is not None
    box = f"{-room.left:.2f} {-room.top:.2f} {room.width:.2f} {room.height:.2f}"
    parts = [*ground(puzzle, cells or puzzle.cells), *lines(puzzle),
             *signs(puzzle, cells or puzzle.cells, number_size(puzzle, is_solution and is_small)),
             *([] if is_solution else clues(puzzle)), *crosses(puzzle, marked)]
    return (f'<svg xmlns="http://www.w3.org/2000/svg" width="{room.width * cell:.2f}mm" height="{room.height * cell:.2f}mm" '
            f'viewBox="{box}" role="img" aria-label="{html.escape(name)}" font-family="DejaVu Sans, sans-serif" '
            f'text-anchor="middle">{"".join(parts)}</svg>')


def squares(puzzle: Puzzle, places: List[int]) -> str:
    return "".join(f"M{place % puzzle.width} {place // puzzle.width}h1v1h-1z" for place in places)


def ground(puzzle: Puzzle, cells: Sequence[str]) -> Iterator[str]:
    """Black cells, and the grey diagonals of Solo X."""
    black = [place for place, sign in enumerate(cells) if sign == "#" or puzzle.game == "lightup" and sign.isdigit()]
    last = puzzle.width - 1
    grey = [place for place in range(len(cells)) if place % puzzle.width in (place // puzzle.width, last - place // puzzle.width)]
    for places, colour in ((grey if puzzle.is_crossed else [], "#ddd"), (black, "#000")):
        if places:
            yield f'<path d="{squares(puzzle, places)}" fill="{colour}"/>'


def lines(puzzle: Puzzle) -> Iterator[str]:
    """The thin lines of the grid, and the thick ones of blocks, of each fifth line of Pattern, and around."""
    across, down = puzzle.block or ((5, 5) if puzzle.game == "pattern" else (puzzle.width, puzzle.height))
    for is_thick, width, colour in ((False, .03, "#777"), (True, .08, "#000")):
        upright = [x for x in range(puzzle.width + 1) if (x % across == 0 or x == puzzle.width) == is_thick]
        level = [y for y in range(puzzle.height + 1) if (y % down == 0 or y == puzzle.height) == is_thick]
        path = "".join([f"M{x} 0V{puzzle.height}" for x in upright] + [f"M0 {y}H{puzzle.width}" for y in level])
        if path:
            yield f'<path d="{path}" stroke="{colour}" stroke-width="{width}" stroke-linecap="square" fill="none"/>'


def signs(puzzle: Puzzle, cells: Sequence[str], size: float) -> Iterator[str]:
    """What stands in the cells: numbers of a size, trees, tents and bulbs."""
    for place, sign in enumerate(cells):
        x, y = place % puzzle.width, place // puzzle.width
        if sign.isdigit():
            is_given = puzzle.game == "solo" and puzzle.cells[place]
            more = ' fill="#fff"' if puzzle.game == "lightup" else ' font-weight="bold"' if is_given else ""
            yield number(x + .5, y + .5, sign, size, more)
        elif sign == "O":
            yield f'<circle cx="{x + .5}" cy="{y + .5}" r=".28" fill="none" stroke="#000" stroke-width=".09"/>'
        elif sign in ("T", "^"):
            look = 'fill="#777"' if sign == "T" else 'fill="none" stroke="#000" stroke-width=".08" stroke-linejoin="round"'
            yield f'<path transform="translate({x} {y})" d="{TREE if sign == "T" else TENT}" {look}/>'


def number(x: float, y: float, value: object, size: float, more: str = "") -> str:
    return f'<text x="{x:.2f}" y="{y + size * DIGIT_HEIGHT / 2:.2f}" font-size="{size:.2f}"{more}>{value}</text>'


def clues(puzzle: Puzzle) -> Iterator[str]:
    """The numbers beside the grid: of Pattern above it and to its left, of Tents below it and to its right."""
    for line, clue in enumerate(puzzle.clues):
        is_column = line < puzzle.width
        middle = (line if is_column else line - puzzle.width) + .5
        if puzzle.game == "tents":
            x, y = (middle, puzzle.height + .45) if is_column else (puzzle.width + .45, middle)
            yield number(x, y, clue[0], CLUE_SIZE)
            continue
        away = .1  # from the grid
        for value in reversed(clue):
            step = CLUE_STEP if is_column else clue_width([value])
            x, y = (middle, -away - step / 2) if is_column else (-away - step / 2, middle)
            yield number(x, y, value, CLUE_SIZE)
            away += step


def crosses(puzzle: Puzzle, marked: Collection[int]) -> Iterator[str]:
    """A sign over each open cell."""
    for place in marked:
        x, y = place % puzzle.width, place // puzzle.width
        yield (f'<rect x="{x}" y="{y}" width="1" height="1" fill="#fff"/><path d="M{x + .15} {y + .15}l.7 .7m0 -.7l-.7 .7" '
               'stroke="#c00" stroke-width=".14"/>')
