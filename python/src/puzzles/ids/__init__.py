"""Game IDs: reads, writes and draws them, without the program.

    puzzle = read("tents", "2x2:_c,0,1,1,0")        Puzzle(game='tents', size='2x2', width=2, ..)
    written(puzzle)                                 '2x2:_c,0,1,1,0'
    svg(puzzle)                                     '<svg xmlns=..'
    svg(puzzle, read_grid(puzzle, ["T^", ".."]))    the same with a grid

It goes by docs/FORMATS.md. An ID is text or bytes; `Refused` tells the first fault of one, in the program's own words.
"""
from .descriptions import Refused
from .drawing import Room, svg
from .reader import GAMES, MOST_BYTES, MOST_SIDE, Puzzle, empty, lines, read
from .writer import read_grid, written

__all__ = ["GAMES", "MOST_BYTES", "MOST_SIDE", "Puzzle", "Refused", "Room", "empty", "lines", "read", "read_grid",
           "svg", "written"]
