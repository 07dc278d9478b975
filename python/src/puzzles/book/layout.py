"""How large drawings are, and which stand on one page. Lengths are millimetres."""
import argparse
import dataclasses
import math
import re
from typing import List, Optional, Sequence, Tuple

from .._work import REFUSED, Fault
from ..ids import Puzzle, Room
from ..ids.drawing import DIGIT_HEIGHT, number_size

TOP, BOTTOM = 13, 18
HEADING, LABEL, CAPTION, GAP = 14, 6, 5, 6
SOLVED_GAP = 4
ID_WIDTH, ID_HEIGHT = 1.17, 2.45  # of a letter of an ID
ID_SHARE = .68  # of a column
LEAST_CELL = 4.0
LEAST_SOLVED_CELL = {"pattern": 2.4, "tents": 4.0}
SOLVED_SIDE, SOLVED_CELLS = 34, 12  # a smaller Pattern or Tents is as wide as one of so many cells
COMFORT = {"solo": 6.5, "pattern": 5.75, "lightup": 6.0, "tents": 6.0}
BY_WIDTH = ((140, 11, 8), (165, 12, 9), (205, 14, 10), (math.inf, 15, 10))  # at most so wide: the margin, and the text's points
GRIDS = ((3, 4), (3, 3), (2, 4), (2, 3), (2, 2), (1, 3), (1, 2), (1, 1))  # puzzles across and down


@dataclasses.dataclass(frozen=True)
class Paper:
    """A size to which books are cut, with its margins at the sides, and the points of its text."""
    width: float
    height: float
    side: float
    text: float


NAMED = {"A4": (210, 297), "A5": (148, 210), "letter": (215.9, 279.4), "8x10": (203.2, 254), "7x10": (177.8, 254),
         "6x9": (152.4, 228.6), "5.5x8.5": (139.7, 215.9), "5x8": (127, 203.2), "8.5x8.5": (215.9, 215.9)}  # the last six: inches
LEAST_SIDE, MOST_SIDE = 100, 450  # of another paper


def paper(word: str) -> Paper:
    """A paper by its name, or by its width and height in millimetres, as 170x240."""
    if word in NAMED:
        width, height = NAMED[word]
    else:
        found = re.fullmatch(r"(\d{3}(?:\.\d{1,2})?)x(\d{3}(?:\.\d{1,2})?)", word)
        width, height = map(float, found.groups()) if found else (0, 0)
        if not all(LEAST_SIDE <= side <= MOST_SIDE for side in (width, height)):
            raise argparse.ArgumentTypeError(f"{word} is none of {', '.join(NAMED)}, and no width and height of {LEAST_SIDE} to "
                                             f"{MOST_SIDE} mm, as 170x240")
    return Paper(width, height, *next(more for most, *more in BY_WIDTH if width <= most))


@dataclasses.dataclass(frozen=True)
class Sheet:
    """The part of a page that is printed on, below its heading."""
    paper: Paper
    gutter: float = 0  # more margin where the page is bound
    is_bare: bool = False  # no IDs
    is_large: bool = False  # one puzzle a page
    least_cell: float = LEAST_CELL  # of a puzzle

    @property
    def width(self) -> float:
        return self.paper.width - 2 * self.paper.side - self.gutter

    @property
    def height(self) -> float:
        return self.paper.height - TOP - BOTTOM - HEADING

    @property
    def largest_cell(self) -> float:
        return 22.0 if self.is_large else 11.0

    @property
    def least_digit(self) -> float:
        """Of a solution: 6 points, or 10 in large print."""
        return (10 if self.is_large else 6) / 72 * 25.4


@dataclasses.dataclass(frozen=True)
class Places:
    """Where the puzzles of a chapter stand on its pages."""
    across: int
    down: int
    cell: float
    spare: float  # above and below each puzzle together


def check(sheet: Sheet, puzzle: Puzzle) -> None:
    """Tells before anything is made that grids of a size are too large, whatever their clues."""
    cell = max(sheet.least_cell, solved_cell(sheet, puzzle))
    if puzzle.width * cell > sheet.width or puzzle.height * cell + LABEL > sheet.height:
        raise Fault(f"a puzzle of {puzzle.game} {puzzle.size} doesn't fit the paper with cells of {cell:.1f} mm", REFUSED)


def places(sheet: Sheet, puzzles: Sequence[Puzzle], ids: Sequence[str]) -> Places:
    """Where puzzles stand: on the fewest pages that leave cells to write in, and on these as few on each and as large as may be."""
    game, rooms, fewest = puzzles[0].game, [Room(puzzle, False) for puzzle in puzzles], 0
    widest, tallest = max(room.width for room in rooms), max(room.height for room in rooms)
    found: Optional[Places] = None
    for across, down in GRIDS[-1:] if sheet.is_large else GRIDS:
        column, pages = (sheet.width + GAP) / across - GAP, math.ceil(len(puzzles) / (across * down))
        id_lines = 0 if sheet.is_bare else math.ceil(max(map(len, ids)) * ID_WIDTH / (column * ID_SHARE))
        room = sheet.height / down - LABEL - CAPTION - ID_HEIGHT * id_lines
        cell = min(sheet.largest_cell, column / widest, room / tallest)
        least = sheet.least_cell if across == down == 1 else max(sheet.least_cell, COMFORT[game])
        if cell >= least and (not found or pages == fewest and cell >= found.cell):
            found, fewest = Places(across, down, cell, room - cell * tallest), pages
    if not found:
        largest = max(puzzles, key=lambda one: max(Room(one, False).width / column, Room(one, False).height / room))
        raise Fault(f"a puzzle of {game} {largest.size} doesn't fit the paper: its cells would be {cell:.1f} mm wide", REFUSED)
    return found


def solved_cell(sheet: Sheet, puzzle: Puzzle) -> float:
    """The millimetres of a cell of a solution, by the height of the numbers in it."""
    if puzzle.game in LEAST_SOLVED_CELL:
        least = LEAST_SOLVED_CELL[puzzle.game] * (1.5 if sheet.is_large else 1)
        return max(least, SOLVED_SIDE / max(puzzle.width, puzzle.height, SOLVED_CELLS))
    return sheet.least_digit / (number_size(puzzle, True) * DIGIT_HEIGHT) * 1.01


def shelves(sheet: Sheet, sizes: Sequence[Tuple[float, float]]) -> List[List[List[int]]]:
    """Pages of rows of numbers of drawings, for drawings of these widths and heights, in order."""
    pages: List[List[List[int]]] = [[[]]]
    across = down = tallest = 0.0
    for number, (width, height) in enumerate(sizes):
        if width > sheet.width or height + LABEL > sheet.height:
            raise Fault(f"the solution of puzzle {number + 1} doesn't fit the paper with numbers that can be read", REFUSED)
        if across + width > sheet.width:
            pages[-1].append([])
            across, down, tallest = 0.0, down + tallest, 0.0
        if down + max(tallest, height + LABEL + SOLVED_GAP) > sheet.height + SOLVED_GAP:
            row = pages[-1].pop()
            pages.append([row] if row else [[]])
            down = 0
        pages[-1][-1].append(number)
        across, tallest = across + width + SOLVED_GAP, max(tallest, height + LABEL + SOLVED_GAP)
    return pages
