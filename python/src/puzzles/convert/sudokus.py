"""Solo in the formats of sudoku programs: lines of 81 signs (.sdm, .txt, .csv), nine lines of nine (.sdk, .ss), OpenSudoku."""
import math
import re
import xml.etree.ElementTree
from typing import Iterator, List, Optional, Tuple

from .found import Answer, Found, of_xml
from ..ids import Puzzle, Refused, written

SIGNS = "123456789ABCDEFGHIJKLMNOPQRSTUV"  # of numbers, in a grid of up to 31
BLANKS = ".0*_?xX"
SMALLEST = 16  # signs of a grid of four by four, which may be a line
RULER = re.compile(r"[|\s+-]")
COMMENT = re.compile(r"\s*(?:#|\[(?!Puzzle)|Grid \d+\s*$)", re.I)  # the last one: Project Euler's heads
TITLE, STATE = re.compile(r"\s*\[Puzzle\]", re.I), re.compile(r"\s*\[State\]", re.I)  # the second: how far a player came
HEAD = re.compile(r"[\"\w ]*[A-Za-z][\"\w ]*([,;][\"\w ]+)+\s*")  # of a table, on its first line
FIELD = re.compile(r"(?:^|[\s,;:|\"])([0-9._*?]{81}|[0-9A-Ga-g._*?]{256})(?=$|[\s,;:|\"#])")  # of a table, or before a remark
PLACES = 81  # of OpenSudoku


def read_text(text: str) -> Iterator[Found]:
    """The puzzles of a file, by the lines on which they begin."""
    for number, cells in grids(text):
        yield Found(number, *answer(cells), "solo")


def grids(text: str) -> Iterator[Tuple[int, str]]:
    """The line and the signs of each grid: of a long line, of a field of one, or of as many lines as the first one has signs."""
    rows: List[str] = []
    first, is_state = 0, False
    for number, line in enumerate([*text.splitlines(), ""], 1):
        is_state = not TITLE.match(line) and (is_state or bool(STATE.match(line)))
        field = None if COMMENT.match(line) else FIELD.search(line)
        cells = field[1] if field else RULER.sub("", line)
        is_end = is_state or COMMENT.match(line) or TITLE.match(line) or not cells and not is_ruler(line)
        if rows and (is_end or len(cells) > len(SIGNS)):
            yield from [*enumerate(rows, first)] if len(rows[0]) == SMALLEST else [(first, "".join(rows))]
            rows = []
        if is_end or not cells or number == 1 and HEAD.fullmatch(line):
            continue
        if len(cells) > len(SIGNS):
            yield number, cells
            continue
        first = first if rows else number
        rows.append(cells)
        if len(rows) == len(rows[0]):
            yield first, "".join(rows)
            rows = []


def is_ruler(line: str) -> bool:
    """Whether a line has but the lines between blocks."""
    return bool(line.strip())


def answer(cells: str) -> Answer:
    """The ID and None, or None and what is wrong."""
    side = math.isqrt(len(cells))
    block = math.isqrt(side)
    if side * side != len(cells) or block * block != side or side < 4:
        return None, f"{len(cells)} cells are no square of square blocks"
    try:
        values = [value_of(sign, side) for sign in cells]
    except Refused as fault:
        return None, str(fault)
    return written(Puzzle("solo", f"{block}x{block}", side, side, (block, block), cells=values)), None


def value_of(sign: str, side: int) -> str:
    if sign in BLANKS and (side <= len(BLANKS) + 9 or sign not in "xX"):
        return ""
    value = SIGNS.find(sign.upper()) + 1
    if not 1 <= value <= side:
        raise Refused(f"{sign!r} is no number of 1 to {side}")
    return str(value)


def write_text(puzzle: Puzzle) -> str:
    """A line for a puzzle; of 81 signs for one of 9 by 9 cells."""
    across, down = puzzle.block or (0, 0)
    if across != down or puzzle.is_crossed:
        raise Refused("a line has no place for blocks that aren't square, nor for diagonals")
    return "".join(SIGNS[int(cell) - 1] if cell else "." for cell in puzzle.cells)


def read_open(text: str) -> Iterator[Found]:
    """The puzzles of a file of OpenSudoku: XML with an element `game` each."""
    return of_xml(text, "game", "solo", open_answer)


def open_answer(game: xml.etree.ElementTree.Element) -> Answer:
    """The ID and None, or None and what is wrong."""
    cells = cells_of(game.get("data", ""))
    return answer(cells) if cells else (None, "no 81 cells")


def cells_of(data: str) -> Optional[str]:
    """The 81 signs of a game: as they are, or of fields: a cell's number first, and last whether a player may change it."""
    if re.fullmatch(r"\d{81}", data.strip()):
        return data.strip()
    found = re.fullmatch(r"version: \d+\s+(.*)\|", data.strip(), re.S)
    parts = found[1].split("|") if found else []
    each = len(parts) // PLACES
    if each < 3 or len(parts) != each * PLACES or not all(part in ("0", "1") for part in parts[each - 1::each]):
        return None
    return "".join("0" if is_free == "1" else value for value, is_free in zip(parts[::each], parts[each - 1::each]))


def write_open(puzzle: Puzzle) -> str:
    """An element of OpenSudoku's XML, which has sudokus of 9 by 9 alone."""
    if puzzle.size != "3x3":
        raise Refused("OpenSudoku has sudokus of 9 by 9 cells alone")
    return f'  <game data="{"".join(cell or "0" for cell in puzzle.cells)}" />'
