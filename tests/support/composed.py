"""IDs of puzzles that are made up: by their cells and their clues."""
from puzzles.ids import empty, written


def composed(game, size, cells=(), clues=()):
    """The ID of a puzzle with these signs in its cells and these clues of its lines, as `puzzles.ids.Puzzle` has them."""
    puzzle = empty(game, size)
    puzzle.cells, puzzle.clues = list(cells), list(clues)
    return written(puzzle)


def blank(game, size):
    """Of Solo and Light Up the puzzle without a clue."""
    puzzle = empty(game, size)
    return composed(game, size, [""] * (puzzle.width * puzzle.height))


def pattern(rows):
    """The Pattern of a bitmap, whose cells are black where they are true."""
    return composed("pattern", f"{len(rows[0])}x{len(rows)}", clues=[runs(line) for line in [*zip(*rows), *rows]])


def runs(line):
    """The lengths of the black runs of a line."""
    return [len(run) for run in "".join("#" if cell else "." for cell in line).split(".") if run]


def tents(side, places, counts):
    """Tents with trees at these places, and with these counts for the columns and again for the rows."""
    trees = set(places)
    return composed("tents", f"{side}x{side}", ["T" if at in trees else "" for at in range(side * side)],
                    [[count] for count in [*counts, *counts]])


def lattice(side):
    """Tents with a tree in the middle of each 3x3 cells; a line in three has a tent less."""
    most = side // 9 + (side % 9 > 0)
    return tents(side, (y * side + x for y in range(1, side, 3) for x in range(1, side, 3)),
                 [most - (line % 3 == 2) for line in range(side)])
