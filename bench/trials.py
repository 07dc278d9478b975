#!/usr/bin/env python3
"""Counts the trials that real puzzles need, by `grade`, and prints a table: what to think of in choosing `--budget`.

COUNT puzzles of each kind (50 if left out) are those of the collection's own programs, or of `generate` where they are
not installed. A puzzle that needs more trials than BUDGET (1,000,000 if left out) counts as that many and one.
"""
import collections
import subprocess
import sys

from support import real, words
from puzzles._work import begin

# Game, size, and what the collection's program is told beside the size: its letters for how hard a puzzle is to be.
KINDS = [
    ("solo", "3x3", ""), ("solo", "3x3", "du"), ("solo", "4x4", ""), ("pattern", "15x15", ""), ("pattern", "30x30", ""),
    ("lightup", "7x7", ""), ("lightup", "14x14", "d2"), ("lightup", "20x20", "d2"), ("lightup", "30x30", "d2"),
    ("tents", "8x8", "dt"), ("tents", "15x15", "de"), ("tents", "15x15", "dt"), ("tents", "20x20", "de"), ("tents", "20x20", "dt"),
]
MAKING_SECONDS = 60  # for the puzzles of one kind
RUN_SECONDS = 3600


def trials(program, game, text, budget):
    """The trials of an ID's whole walk; 0 where a rule set alone solves it, one past the budget where it gave up."""
    line = [program, "grade", game, text, "--budget", str(budget)]
    done = subprocess.run(line, capture_output=True, check=False, timeout=RUN_SECONDS)
    told = done.stdout.decode().split()
    if done.returncode not in (0, 4):
        sys.exit(f"{game} {text}: {' '.join(told)}, status {done.returncode}")
    return budget + 1 if told[0] == "gave" else int(told[1]) if told[0] == "search" else 0


def main():
    form = words.form(__doc__)
    form.add_argument("count", metavar="COUNT", type=words.count, nargs="?", default=50)
    form.add_argument("budget", metavar="BUDGET", type=words.count, nargs="?", default=1_000_000)
    asked = form.parse_args()
    program, count, budget = asked.program, asked.count, asked.budget
    print("| Puzzles | Number | Without a trial | Median | Nine of ten need at most | Most |")
    print("|---|---|---|---|---|---|", flush=True)
    makers = collections.Counter()
    for game, size, more in KINDS:
        found, maker = real.some(program, game, size, more, count, MAKING_SECONDS)
        if not found:
            continue
        makers[maker] += 1
        counts = sorted(trials(program, game, text, budget) for text in found)
        middle, high = counts[len(counts) // 2], counts[(len(counts) * 9 - 1) // 10]
        print(f"| {game} {size}{more} | {len(counts)} | {counts.count(0)} | {middle:,} | {high:,} | {counts[-1]:,} |", flush=True)
    print(f"kinds by maker: {dict(makers)}", file=sys.stderr)


if __name__ == "__main__":
    begin(main)
