"""Links of puzz.link and pzpr, a line each: sudokus of square blocks, and akari. A letter from g on is a run of blank cells."""
import math
import re
from typing import Iterator, List, Optional, Tuple

from .found import Found
from ..ids import Puzzle, Refused, written

LINK = re.compile(r"\bp(?:\.html)?\?(?:v:/)?([a-z]+)/(?:v:/)?(\d{1,3})/(\d{1,3})/([0-9a-z.\-]*)")
KINDS = {"sudoku": "solo", "akari": "lightup", "lightup": "lightup"}
LONGEST = 20  # blank cells of a letter
BLANK, BARE = "", "#"  # a blank cell, and a black one without a number


def read_link(text: str) -> Iterator[Found]:
    """The puzzle of each line. An empty line and one that begins with # are passed over."""
    for number, line in enumerate(text.splitlines(), 1):
        if not line.strip() or line.lstrip().startswith("#"):
            continue
        found = LINK.search(line)
        if not found:
            yield Found(number, None, "no link of puzz.link or pzpr")
        elif found[1] not in KINDS:
            yield Found(number, None, f"a link of {found[1]}: those of sudoku and akari are read")
        else:
            yield puzzle_of(number, KINDS[found[1]], int(found[2]), int(found[3]), found[4])


def puzzle_of(number: int, game: str, width: int, height: int, body: str) -> Found:
    """The puzzle of a link's parts."""
    block = math.isqrt(width)
    if game == "solo" and (width != height or block * block != width or width < 4):
        return Found(number, None, f"a sudoku of {width} by {height}, whose blocks aren't square")
    cells = (numbers if game == "solo" else blacks)(body, width)
    if cells is None or any(cells[width * height:]):  # blank ones may be too few or too many
        return Found(number, None, f"its cells aren't those of {width} by {height}")
    cells = [*cells, *[BLANK] * (width * height)][:width * height]
    if game == "solo":
        puzzle = Puzzle("solo", f"{block}x{block}", width, height, (block, block), cells=cells)
    else:
        puzzle = Puzzle("lightup", f"{width}x{height}", width, height, cells=cells)
    return Found(number, written(puzzle), None, game)


def numbers(body: str, side: int) -> Optional[List[str]]:
    """The cells of a sudoku: one digit of sixteen for a number, or two behind a dash."""
    cells: List[str] = []
    for run, long, short in re.findall(r"([g-z])|-([0-9a-f]{2})|(.)", body):
        if run:
            cells += [BLANK] * (int(run, 36) - 15)
        elif not (long or short in "0123456789abcdef") or not 1 <= int(long or short, 16) <= side:
            return None
        else:
            cells.append(str(int(long or short, 16)))
    return cells


def blacks(body: str, _: int) -> Optional[List[str]]:
    """The cells of an akari: a dot for a black one, or its number and 5 more for each of up to two white ones behind it."""
    cells: List[str] = []
    for sign in body:
        if sign >= "g":
            cells += [BLANK] * (int(sign, 36) - 15)
        elif sign == ".":
            cells.append(BARE)
        elif sign in "-f":
            return None
        else:
            white, black = divmod(int(sign, 16), 5)
            cells += [str(black), *[BLANK] * white]
    return cells


def write_link(puzzle: Puzzle) -> str:
    """The link of a puzzle."""
    across, down = puzzle.block or (0, 0)
    if across != down or puzzle.is_crossed:
        raise Refused("a link has no place for blocks that aren't square, nor for diagonals")
    kind = "sudoku" if puzzle.block else "akari"
    body, blank, at = "", 0, 0
    while at < len(puzzle.cells):
        said, taken = ("", 1) if puzzle.cells[at] == BLANK else (number_said if puzzle.block else black_said)(puzzle.cells, at)
        blank += not said
        if blank and (said or blank == LONGEST):
            body, blank = body + letter(blank), 0
        body, at = body + said, at + taken
    return f"https://puzz.link/p?{kind}/{puzzle.width}/{puzzle.height}/{body}{letter(blank) if blank else ''}"


def letter(blank: int) -> str:
    """That of a run of blank cells."""
    return chr(ord("g") + blank - 1)


def number_said(cells: List[str], at: int) -> Tuple[str, int]:
    """How a link has a number, and how many cells that is."""
    number = int(cells[at])
    return (f"{number:x}" if number < 16 else f"-{number:02x}"), 1


def black_said(cells: List[str], at: int) -> Tuple[str, int]:
    """The same of a black cell, with the white ones behind it."""
    if cells[at] == BARE:
        return ".", 1
    white = next((count for count in (0, 1) if at + count + 1 < len(cells) and cells[at + count + 1] != BLANK), 2)
    return f"{int(cells[at]) + 5 * white:x}", 1 + white
