"""Pattern in the formats of nonogram programs: .non of Steve Simpson's solver, and the XML of webpbn.com."""
import re
import xml.etree.ElementTree
from typing import Dict, Iterator, List, Optional, Tuple

from .found import Answer, Found, of_xml
from ..ids import Puzzle, written

SIZE = re.compile(r"(?i)(width|height)\s+(\d{1,9})\s*$")
PARTS = {"rows": "height", "columns": "width"}
CLUE = re.compile(r"[\d,.\s]*")
Clues = List[List[int]]


def id_of(columns: Clues, rows: Clues) -> str:
    width, height = len(columns), len(rows)
    return written(Puzzle("pattern", f"{width}x{height}", width, height, cells=[""] * (width * height), clues=[*columns, *rows]))


def read_non(text: str) -> Iterator[Found]:
    """The puzzles of a file, by the lines of their `width` or `height`, whichever comes first."""
    found = [*puzzles_of(text)]
    if not found:
        yield Found(1, None, "there is no line `width`")
    for number, size, part in found:
        clues = clues_of(part)
        sides = {word: clues[word][:size.get(side, 0)] for word, side in PARTS.items()}
        if any(len(sides[word]) != size.get(side) for word, side in PARTS.items()):
            yield Found(number, None, "rows or columns are missing, or more than `width` and `height` tell")
        else:
            yield Found(number, id_of(sides["columns"], sides["rows"]), None, "pattern")


def puzzles_of(text: str) -> Iterator[Tuple[int, Dict[str, int], List[str]]]:
    """Of each puzzle the line of its size, the size, and the lines behind. A second `width` or `height` begins another puzzle."""
    first = 0
    size: Dict[str, int] = {}
    part: List[str] = []
    for number, line in enumerate(text.splitlines(), 1):
        found = SIZE.match(line)
        if found and (not first or found[1].lower() in size):
            if first:
                yield first, size, part
            first, size, part = number, {}, []
        if found:
            size[found[1].lower()] = int(found[2])
        part.append(line)
    if first:
        yield first, size, part


def clues_of(part: List[str]) -> Dict[str, Clues]:
    """The clues below the words `rows` and `columns`; an empty line or a 0 is an empty clue, but not behind the words."""
    clues: Dict[str, Clues] = {"rows": [], "columns": []}
    into: Optional[Clues] = None
    for line in part:
        word = line.strip().lower()
        if word in clues:
            into = clues[word]
        elif into is not None and CLUE.fullmatch(line):
            into.append([int(count) for count in re.findall(r"\d{1,9}", line) if int(count)])
        else:
            into = None
    return clues


def write_non(puzzle: Puzzle) -> str:
    clues = [",".join(map(str, clue)) or "0" for clue in puzzle.clues]
    return "\n".join([f"width {puzzle.width}", f"height {puzzle.height}", "", "rows", *clues[puzzle.width:], "", "columns",
                      *clues[:puzzle.width], ""])


def read_pbn(text: str) -> Iterator[Found]:
    """The puzzles of the XML of webpbn.com."""
    return of_xml(text, "puzzle", "pattern", pbn_answer)


def pbn_answer(puzzle: xml.etree.ElementTree.Element) -> Answer:
    """The ID and None, or None and what is wrong."""
    try:
        sides = {clues.get("type"): [[int(count.text or "") for count in line.iter("count")] for line in clues.iter("line")]
                 for clues in puzzle.iter("clues")}
    except (TypeError, ValueError):
        return None, "a count that is no number"
    if {count.get("color", "black") for count in puzzle.iter("count")} - {"black"}:
        return None, "more colours than black"
    if not (sides.get("columns") and sides.get("rows")):
        return None, "no clues of columns and rows"
    return id_of(*([[count for count in clue if count] for clue in sides[side]] for side in ("columns", "rows"))), None
