"""Reads the part of an ID behind its colon as section 2 of docs/FORMATS.md says, and tells its first fault."""
from __future__ import annotations

import re
from typing import TYPE_CHECKING, Callable, Dict, List, Tuple

if TYPE_CHECKING:
    from .reader import Puzzle

DIGITS = re.compile("[0-9]+")


class Refused(ValueError):
    """The first fault of an ID, in the program's words."""


def number(text: str, at: int) -> Tuple[int, int]:
    """The number that begins at a place, and the place behind it. Of one with many digits it tells that it is large."""
    digits = DIGITS.match(text, at)
    assert digits
    return int(digits[0].lstrip("0")[:7] or "0"), digits.end()


def add(puzzle: Puzzle, cells: List[str], most: int) -> None:
    if len(puzzle.cells) + len(cells) > most and cells:
        raise Refused("too many")
    puzzle.cells += cells


def read_cells(puzzle: Puzzle, text: str, at: int) -> None:
    """Of Solo and Light Up: letters for blank cells, and what stands in the others."""
    most, is_solo = puzzle.width * puzzle.height, puzzle.game == "solo"
    while at < len(text):
        sign, start, at = text[at], at, at + 1
        if "a" <= sign <= "z":
            add(puzzle, [""] * (ord(sign) - 96), most)
        elif is_solo and sign in "123456789":
            value, at = number(text, start)
            if value > puzzle.width:
                raise Refused(f"number range at {start}")
            add(puzzle, [str(value)], most)
        elif not is_solo and sign in "B01234":
            add(puzzle, [sign.replace("B", "#")], most)
        elif not is_solo or sign != "_":
            raise Refused(f"bad byte at {start}")
    if len(puzzle.cells) < most:
        raise Refused("too few")


def read_pattern(puzzle: Puzzle, text: str, at: int) -> None:
    puzzle.cells, lines = [""] * (puzzle.width * puzzle.height), puzzle.width + puzzle.height
    for line in range(lines):
        clue: List[int] = []
        is_number = bool(DIGITS.match(text, at))
        while is_number:
            value, behind = number(text, at)
            clue.append(value)
            if not value:
                raise Refused(f"number range at {at}")
            if sum(clue) + len(clue) - 1 > puzzle.length(line):
                raise Refused(f"line {line} too full")
            is_number, at = text.startswith(".", behind), behind + text.startswith(".", behind)
            if is_number and not DIGITS.match(text, at):
                raise Refused(f"bad byte at {behind}")
        puzzle.clues.append(clue)
        if text[at:at + 1] not in ("", "/"):
            raise Refused(f"bad byte at {at}")
        if (at < len(text)) != (line < lines - 1):
            raise Refused("too many" if at < len(text) else "too few")
        at += 1


def read_tents(puzzle: Puzzle, text: str, at: int) -> None:
    most = puzzle.width * puzzle.height + 1  # a tree that is none stands behind the last cell
    while at < len(text) and text[at] != ",":
        sign = text[at]
        if sign != "_" and not "a" <= sign <= "z":
            raise Refused(f"bad byte at {at}")
        blanks = 0 if sign == "_" else min(ord(sign) - 96, 25)
        add(puzzle, [""] * blanks + ["T"] * (sign != "z"), most - (sign == "z"))
        at += 1
    if len(puzzle.cells) < most:
        raise Refused("too few")
    puzzle.cells.pop()
    for line in range(puzzle.width + puzzle.height):
        if at == len(text):
            raise Refused("too few")
        if text[at] != "," or not DIGITS.match(text, at + 1):
            raise Refused(f"bad byte at {at}")
        start = at + 1
        value, at = number(text, start)
        if value > puzzle.length(line):
            raise Refused(f"number range at {start}")
        puzzle.clues.append([value])
    if at < len(text):
        raise Refused("too many" if text[at] == "," else f"bad byte at {at}")


READERS: Dict[str, Callable[[Puzzle, str, int], None]] = {"solo": read_cells, "pattern": read_pattern, "lightup": read_cells, "tents": read_tents}
