#!/usr/bin/env python3
"""Times `generate`, and prints what it answers in how many seconds, by size and by the share of black cells.

Each kind is made for the seeds from 1 to SEEDS (3 if left out), one run of the program each, so the time to start
it is in the number. A run of more than LIMIT seconds (60 if left out) is stopped. A cell is the middle one of the
times, in seconds of processor time; `exhausted` stands before it where that run made no puzzle, and `over LIMIT` where
it was stopped. Of runs that differ in that the number that made a puzzle is added. `-` is not tried: no smaller size
made one. Nothing is asserted.
"""
import sys

from support import words
from puzzles._work import begin

# The sizes of a game, ascending, and the values of --black, or none.
KINDS = [
    ("lightup", ["5x5", "7x7", "10x10", "14x14", "20x20", "30x30"], ["15", "20", "25", "30", "35", "40", "45"]),
    ("pattern", ["5x5", "10x10", "15x15", "20x20", "30x30", "40x40"], ["30", "40", "50", "60", "70"]),
    ("tents", ["4x4", "6x6", "8x8", "10x10", "15x15", "20x20"], [None]),
    ("solo", ["2x2", "2x3", "3x3", "3x4", "4x4", "4x5", "5x5"], [None]),
    ("solo", ["2x2x", "2x3x", "3x3x", "3x4x", "4x4x"], [None]),
]


def made(line, limit):
    """How a run ended: 0 made, 1 exhausted, 2 stopped; and its seconds."""
    done, taken = words.timed(line, limit)
    if done and done.returncode not in (0, 4):
        sys.exit(f"{' '.join(line)}: status {done.returncode}")
    return (2 if not done else 1 if done.returncode else 0), taken


def cell(runs, limit):
    """The text of a cell: of the runs, sorted by how they ended and by time, the middle one's."""
    ended, seconds = sorted(runs)[len(runs) // 2]
    text = [f"{seconds:.2g}", f"exhausted {seconds:.2g}", f"over {limit:g}"][ended]
    good = sum(1 for how, _ in runs if how == 0)
    return text if good in (0, len(runs)) else f"{text} ({good} of {len(runs)})"


def measured(program, kind, seeds, limit):
    """Runs for the seeds, until more than half of them were stopped."""
    runs = []
    for seed in range(1, seeds + 1):
        runs.append(made([program, "generate", *kind, "--seed", str(seed)], limit))
        if sum(1 for ended, _ in runs if ended == 2) > seeds // 2:
            return [(2, limit)] * seeds
    return runs


def main():
    form = words.form(__doc__)
    form.add_argument("seeds", metavar="SEEDS", type=words.count, nargs="?", default=3)
    form.add_argument("limit", metavar="LIMIT", type=words.count, nargs="?", default=60, help="seconds")
    form.add_argument("game", metavar="GAME", nargs="?", choices=sorted({kind[0] for kind in KINDS}), help="this game alone")
    asked = form.parse_args()
    program, seeds, limit = asked.program, asked.seeds, asked.limit
    for game, sizes, shares in KINDS:
        if asked.game not in (None, game):
            continue
        heads = [f"--black {share}" for share in shares if share] or ["seconds"]
        print(f"| {game} | " + " | ".join(heads) + " |")
        print("|---" * (len(heads) + 1) + "|", flush=True)
        tried = {share: True for share in shares}
        for size in sizes:
            cells = []
            for share in shares:
                if not tried[share]:
                    cells.append("-")
                    continue
                runs = measured(program, [game, size] + (["--black", share] if share else []), seeds, limit)
                tried[share] = any(ended == 0 for ended, _ in runs)
                cells.append(cell(runs, limit))
            print(f"| {size} | " + " | ".join(cells) + " |", flush=True)
        print()


if __name__ == "__main__":
    begin(main)
