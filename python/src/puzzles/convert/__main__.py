"""Makes game IDs of other programs' files, a line each; or other formats of game IDs.

    convert.py from sudoku FILE..       lines of 81 signs (.sdm, .txt), also in a table (.csv) or before a remark; nine lines of
                                        nine (.sdk, .ss); 16 and 25 each way too
    convert.py from opensudoku FILE..   the XML of OpenSudoku
    convert.py from non FILE..          .non of Steve Simpson's solver: width, height, rows, columns
    convert.py from pbn FILE..          the XML of webpbn.com, black on white
    convert.py from link FILE..         links of puzz.link and pzpr, a line each: sudoku, akari
    convert.py from save FILE..         games that the collection's programs saved
    convert.py to sudoku solo FILE      a line of signs for each ID in the file's lines
    convert.py to opensudoku solo FILE  XML for OpenSudoku
    convert.py to non pattern FILE      .non, one puzzle behind another
    convert.py to link GAME FILE        a link of puzz.link each, of solo and lightup
    convert.py to json GAME FILE        a line of JSON each: size, cells, clues

FILE is - for the standard input. The IDs of a run are of one game. What is none is told on standard error, by its file and line
(of XML by its number), and holds nothing back.
Statuses: 0; 2 something was refused; 6 a fault of reading or writing.
"""
import argparse
import json
import sys
from typing import BinaryIO, Callable, Dict, NamedTuple, Sequence

from .found import Reader
from .links import read_link, write_link
from .nonograms import read_non, read_pbn, write_non
from .saves import read_save
from .sudokus import read_open, read_text, write_open, write_text
from .._work import REFUSED, Fault, begin
from ..ids import GAMES, Puzzle, Refused, lines, read, written

MOST_BYTES = 500_000_000
READERS: Dict[str, Reader] = {"sudoku": read_text, "opensudoku": read_open, "non": read_non, "pbn": read_pbn,
                              "link": read_link, "save": read_save}
BY_NUMBER = ("opensudoku", "pbn")  # XML, whose puzzles have no lines


def write_json(puzzle: Puzzle) -> str:
    rows = [puzzle.cells[at:at + puzzle.width] for at in range(0, len(puzzle.cells), puzzle.width)]
    return json.dumps({"game": puzzle.game, "id": written(puzzle), "width": puzzle.width, "height": puzzle.height,
                       "block": puzzle.block, "diagonals": puzzle.is_crossed, "cells": rows,
                       "columns": puzzle.clues[:puzzle.width], "rows": puzzle.clues[puzzle.width:]})


class Writer(NamedTuple):
    """Which games a format has, how a puzzle is written, and what stands before and behind all."""
    games: Sequence[str]
    write: Callable[[Puzzle], str]
    head: str = ""
    foot: str = ""


WRITERS = {"json": Writer(GAMES, write_json), "sudoku": Writer(["solo"], write_text), "non": Writer(["pattern"], write_non),
           "link": Writer(["solo", "lightup"], write_link),
           "opensudoku": Writer(["solo"], write_open, '<?xml version="1.0" encoding="UTF-8"?>\n<opensudoku>', "</opensudoku>")}


class Told:
    """Tells what is refused, and keeps the status."""

    def __init__(self) -> None:
        self.status = 0

    def tell(self, name: str, number: int, fault: object, *, is_line: bool = True) -> None:
        self.status = REFUSED
        print(f"{name}:{number}: {fault}" if is_line else f"{name}, puzzle {number}: {fault}", file=sys.stderr)


def opened(name: str) -> BinaryIO:
    return sys.stdin.buffer if name == "-" else open(name, "rb")


def take(asked: argparse.Namespace, told: Told) -> None:
    """Prints the IDs of files."""
    first = ""
    for name in asked.files:
        with opened(name) as file:
            content = file.read(MOST_BYTES + 1)
        if len(content) > MOST_BYTES:
            raise Fault(f"{name} has more than {MOST_BYTES:,} bytes", REFUSED)
        for number, text, fault, game in READERS[asked.kind](content.decode("utf-8-sig", "replace")):
            try:
                if text:
                    read(game, text)
                    first = first or game
                    fault = f"a puzzle of {game}, and the first one is of {first}" if game != first else None
            except Refused as refused:
                fault = f"a puzzle of {game} that is refused: {refused}"
            if fault:
                told.tell(name, number, fault, is_line=asked.kind not in BY_NUMBER)
            else:
                print(text)


def give(asked: argparse.Namespace, told: Told) -> None:
    """Prints IDs in another format."""
    writer = WRITERS[asked.kind]
    if asked.game not in writer.games:
        raise Fault(f"{asked.kind} is of {' and '.join(writer.games)} alone", REFUSED)
    if writer.head:
        print(writer.head)
    with opened(asked.file) as file:
        for number, line in enumerate(lines(file), 1):
            try:
                print(writer.write(read(asked.game, line)))
            except Refused as fault:
                told.tell(asked.file, number, fault)
    if writer.foot:
        print(writer.foot)


def main() -> int:
    form = argparse.ArgumentParser(description=__doc__, formatter_class=argparse.RawDescriptionHelpFormatter)
    ways = form.add_subparsers(dest="way", required=True, metavar="from|to")
    way = ways.add_parser("from")
    way.add_argument("kind", choices=READERS)
    way.add_argument("files", nargs="+", metavar="FILE")
    way = ways.add_parser("to")
    way.add_argument("kind", choices=WRITERS)
    way.add_argument("game", choices=GAMES)
    way.add_argument("file", metavar="FILE")
    asked, told = form.parse_args(), Told()
    (take if asked.way == "from" else give)(asked, told)
    return told.status


def run() -> None:
    begin(main)


if __name__ == "__main__":
    run()
