#!/usr/bin/env python3
"""Grades made puzzles of Solo by the three rule sets as docs/RULES.md states them, and compares the program's grades.

Seeds go from 1 to SEEDS. A seed whose puzzle takes more than two minutes is passed over, and counted.
The rule sets are plain programs here: sets of numbers for each cell, and visits of all houses until nothing is struck. A grade
has to be the first rule set that leaves one number in each cell, and a grid without repeats; else it has to be a search.
Prints how many of each grade there were, and what differs; the exit status is 1 where anything does.
"""
import argparse
import collections
import re
import subprocess
import sys

from support import words
from puzzles._work import begin
from puzzles.ids import read

RUN_SECONDS = 120


def size(word):
    found = re.fullmatch(r"(\d+)x(\d+)(x?)", word)
    if not found or min(int(found[1]), int(found[2])) < 2:
        raise argparse.ArgumentTypeError(f"no size of Solo, as 3x3 or 2x3x: {word}")
    return word


def lines_and_blocks(c, r, x):
    """The houses, each a list of places: rows, columns, blocks, and in Solo X both diagonals."""
    n = c * r
    rows = [[y * n + i for i in range(n)] for y in range(n)]
    columns = [[y * n + i for y in range(n)] for i in range(n)]
    blocks = [[(b // c * c + k // r) * n + b % c * r + k % r for k in range(n)] for b in range(n)]
    diagonals = [[k * n + k for k in range(n)], [k * n + n - 1 - k for k in range(n)]] if x else []
    return rows, columns, blocks, diagonals


def one_filling(sets):
    """Which cell takes which number from its set, all different; nothing where they can't."""
    owner = {}

    def place(cell, tried):
        for value in sets[cell] - tried:
            tried.add(value)
            if value not in owner or place(owner[value], tried):
                owner[value] = cell
                return True
        return False

    return owner if all(place(cell, set()) for cell in range(len(sets))) else None


def by_singles(sets, n):
    """What single values and single places strike: pairs of a cell's number in the house and a value."""
    places = {v: [k for k, s in enumerate(sets) if v in s] for v in range(1, n + 1)}
    if not all(sets) or not all(places.values()):
        return {(k, v) for k, s in enumerate(sets) for v in s}
    struck = set()
    for k, s in enumerate(sets):
        for v in s:
            alone_elsewhere = any(sets[j] == {v} for j in range(len(sets)) if j != k)
            place_of_another = any(places[u] == [k] for u in places if u != v)
            if alone_elsewhere or place_of_another:
                struck.add((k, v))
    return struck


def by_fillings(sets, n):
    """What no filling without a repeat has."""
    return {
        (k, v)
        for k, s in enumerate(sets)
        for v in s
        if one_filling([{v} if j == k else t for j, t in enumerate(sets)]) is None
    }


def crossing_strikes(board, block, line):
    """What a block and a line that it meets strike from each other."""
    in_block, in_line = set(block), set(line)
    outside_line = [p for p in block if p not in in_line]
    outside_block = [p for p in line if p not in in_block]
    struck = set()
    for losers, others in ((outside_block, outside_line), (outside_line, outside_block)):
        kept = set().union(*(board[p] for p in others))
        struck |= {(p, v) for p in losers for v in board[p] if v not in kept}
    return struck


def closed(board, n, houses, decide, crossings):
    """The board that no visit strikes any more."""
    board = [set(s) for s in board]
    changed = True
    while changed:
        changed = False
        for house in houses:
            for k, v in decide([board[p] for p in house], n):
                board[house[k]].discard(v)
                changed = True
        for block, line in crossings:
            for p, v in crossing_strikes(board, block, line):
                board[p].discard(v)
                changed = True
    return board


def is_settled(board, givens, houses):
    if any(len(s) != 1 for s in board):
        return False
    grid = [next(iter(s)) for s in board]
    stand = all(g in (0, v) for g, v in zip(givens, grid))
    return stand and all(len({grid[p] for p in house}) == len(house) for house in houses)


def own_grade(c, r, x, givens):
    n = c * r
    rows, columns, blocks, diagonals = lines_and_blocks(c, r, x)
    houses = rows + columns + blocks + diagonals
    meeting = [(b, line) for lines in (rows, columns) for b in blocks for line in lines if set(b) & set(line)]
    start = [{g} if g else set(range(1, n + 1)) for g in givens]
    for name, decide, crossings in (
        ("singles", by_singles, []),
        ("houses", by_fillings, []),
        ("crossings", by_fillings, meeting),
    ):
        if is_settled(closed(start, n, houses, decide, crossings), givens, houses):
            return name
    return "search"


def told(line):
    """What the program answers: its lines and its status; nothing where it takes too long."""
    try:
        done = subprocess.run(line, capture_output=True, text=True, check=False, timeout=RUN_SECONDS)
    except subprocess.TimeoutExpired:
        return None
    return done.stdout.split("\n"), done.returncode


def main():
    form = words.form(__doc__)
    form.add_argument("size", metavar="SIZE", type=size, nargs="?", default="3x3", help="of Solo or Solo X (3x3)")
    form.add_argument("seeds", metavar="SEEDS", type=int, nargs="?", default=50, help="how many (50)")
    asked = form.parse_args()
    c, r = map(int, re.match(r"(\d+)x(\d+)", asked.size).groups())
    counts, faults, passed = collections.Counter(), 0, 0
    for seed in range(1, asked.seeds + 1):
        made = told([asked.program, "generate", "solo", asked.size, "--seed", str(seed)])
        graded = made and made[1] == 0 and told([asked.program, "grade", "solo", made[0][0]])
        if not graded:
            if made and made[1] not in (0, 4):
                sys.exit(f"crossings.py: generate solo {asked.size}: {made[0][0]}, status {made[1]}")
            passed += 1
            continue
        puzzle, grade = made[0][0], graded[0][0]
        own = own_grade(c, r, asked.size.endswith("x"), [int(cell or 0) for cell in read("solo", puzzle).cells])
        counts[own] += 1
        if grade.split(" ")[0] != own:
            faults += 1
            print(f"seed {seed}: {puzzle} is told as {grade!r}, and is {own}")
    kinds = ", ".join(f"{n} {name}" for name, n in sorted(counts.items()))
    print(f"{sum(counts.values())} puzzles of {asked.size}: {kinds}; {passed} passed over, {faults} faults")
    sys.exit(1 if faults or not counts else 0)


if __name__ == "__main__":
    begin(main)
