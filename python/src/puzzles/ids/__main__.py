"""Reads a game ID and prints its one written form; or draws the puzzle, or a grid of it, as SVG.

    ids.py solo 2x2:__p_                                  prints 2x2:p
    ids.py --svg tents 2x2:_c,0,1,1,0 > puzzle.svg
    puzzles solve tents 2x2:_c,0,1,1,0 | sed 1d | ids.py --grid tents 2x2:_c,0,1,1,0 > solution.svg

Two IDs are of one puzzle exactly if their written forms are the same. Without an ID each line of the input is one, and its form
or its refusal is a line of the output. The program isn't asked: puzzles/ids goes by docs/FORMATS.md.
The status is 0; 2 if words, an ID or a grid are refused; 6 for a fault of reading or writing.
"""
import argparse
import sys

from .._work import REFUSED, Fault, begin
from . import GAMES, Refused, lines, read, read_grid, svg, written


def answer_lines(game: str) -> int:
    """Answers each line of the input."""
    status = 0
    for line in lines(sys.stdin.buffer):
        try:
            print(written(read(game, line)))
        except Refused as fault:
            print(f"refused: {fault}")
            status = REFUSED
    return status


def main() -> int:
    form = argparse.ArgumentParser(description=__doc__, formatter_class=argparse.RawDescriptionHelpFormatter)
    form.add_argument("--svg", action="store_true", help="draw the puzzle")
    form.add_argument("--grid", action="store_true", help="draw the grid that the input has, as the program prints it")
    form.add_argument("--cell", type=float, default=10, metavar="MM", help="millimetres of a cell (10)")
    form.add_argument("game", choices=GAMES)
    form.add_argument("id", nargs="?")
    asked = form.parse_args()
    if asked.id is None and (asked.svg or asked.grid):
        form.error("a drawing needs an ID")
    if not 1 <= asked.cell <= 100:
        form.error("a cell has 1 to 100 millimetres")
    if asked.id is None:
        return answer_lines(asked.game)
    try:
        puzzle = read(asked.game, asked.id)
        cells = read_grid(puzzle, sys.stdin.read(1_000_000).splitlines()) if asked.grid else None
    except (Refused, UnicodeDecodeError) as fault:
        raise Fault(f"refused: {fault}" if isinstance(fault, Refused) else "the grid isn't text", REFUSED) from None
    except ValueError as fault:
        raise Fault(f"the input is no grid of this puzzle: {fault}", REFUSED) from None
    print(svg(puzzle, cells, asked.cell, name=asked.game) if asked.svg or asked.grid else written(puzzle))
    return 0


def run() -> None:
    begin(main)


if __name__ == "__main__":
    run()
