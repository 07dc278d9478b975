"""Reads game IDs as section 1 of docs/FORMATS.md says, and tells the first fault of one that is refused."""
import dataclasses
import re
from typing import BinaryIO, Iterator, List, Optional, Tuple, Union

from .descriptions import READERS, Refused, number

GAMES = ("solo", "pattern", "lightup", "tents")
MOST_BYTES, MOST_NUMBER, MOST_SIDE = 65_536, 31, 120
NUMBER = "([1-9][0-9]*)(?![0-9])"  # all of its digits, also where what follows doesn't match
SIZE = re.compile(f"{NUMBER}(?:x{NUMBER}|(?!x))")
SIZE_OF_SOLO = re.compile(f"{NUMBER}(?:x{NUMBER}(x|(?!x))|(?!x))")


@dataclasses.dataclass
class Puzzle:
    """A puzzle as its ID has it, with cells row by row from the top left.

    `cells` has the sign that the puzzle puts into each cell, as printed, and "" for the others:
    a number in Solo, `#` or `0` to `4` in Light Up, `T` in Tents. `clues` has a list of numbers
    for each column from the left, and then for each row from the top; Solo and Light Up have none.
    `block` is the width and the height of a block of Solo, and `is_crossed` tells a Solo X.
    """
    game: str
    size: str
    width: int
    height: int
    block: Optional[Tuple[int, int]] = None
    is_crossed: bool = False
    cells: List[str] = dataclasses.field(default_factory=list)
    clues: List[List[int]] = dataclasses.field(default_factory=list)

    def length(self, line: int) -> int:
        """The cells of a line; lines are counted as clues are."""
        return self.height if line < self.width else self.width

    def count_clues(self) -> int:
        """Numbers in the grid and beside it."""
        return sum(cell.isdigit() for cell in self.cells) + sum(map(len, self.clues))


def read(game: str, text: Union[str, bytes]) -> Puzzle:
    """The puzzle of an ID. Raises `Refused` with the program's own words if it is none."""
    given = text if isinstance(text, bytes) else text.encode("utf-8", "surrogateescape")
    text = given.decode("latin-1")  # so that a place is a number of bytes
    head, colon, _ = text.partition(":")
    if len(given) > MOST_BYTES:
        raise Refused("too long")
    if "#" in head:
        raise Refused("seed id")
    if not colon:
        raise Refused("no colon")
    puzzle = empty(game, head)
    READERS[game](puzzle, text, len(head) + 1)
    return puzzle


def empty(game: str, head: str) -> Puzzle:
    """The puzzle of a size such as `3x3`, without cells and clues. Raises `Refused`."""
    found = (SIZE_OF_SOLO if game == "solo" else SIZE).match(head)
    if not found:
        raise Refused("bad size")
    if found.end() < len(head):
        raise Refused("variant")
    first, second = (number(side, 0)[0] for side in (found[1], found[2] or found[1]))
    is_solo, size = game == "solo", f"{first}x{second}"
    if is_solo and first * second > MOST_NUMBER or min(first, second) < (1 if game == "pattern" else 2):
        raise Refused("size range")
    if is_solo:
        side, crossed = first * second, found[3] or ""
        return Puzzle(game, size + crossed, side, side, (second, first), bool(crossed))
    if max(first, second) > MOST_SIDE:
        raise Refused("size range")
    return Puzzle(game, size, first, second)


def lines(file: BinaryIO) -> Iterator[bytes]:
    """The lines of a file as a run of `solve` takes them; of one that is too long the beginning alone."""
    while line := file.readline(MOST_BYTES + 3):
        rest = line
        while rest and not rest.endswith(b"\n"):
            rest = file.readline(MOST_BYTES)
        yield line[:-2] if line.endswith(b"\r\n") else line.rstrip(b"\n")
