#!/usr/bin/env python3
"""Prints what `generate` makes by --budget: seconds, how many clues are left in Solo and Light Up, and the grades.

Each kind is made by each budget for the seeds from 1 to COUNT (40 if left out), one run of the program each, as many of them as
fit into SECONDS (20 if left out). A run that takes half of that is stopped. A cell has the middle of the times, in seconds of
processor time, the middle number of clues, and the grades of what was made, by `grade` at its default. Nothing is asserted.
"""
import collections
import re
import statistics
import subprocess
import sys
import time

from support import words
from puzzles._work import begin

BUDGETS = ["0", "10", "1000", "100000"]
KINDS = [
    ("solo", "3x3"), ("solo", "4x4"), ("solo", "5x5"), ("solo", "5x6"), ("solo", "3x3x"),
    ("pattern", "15x15"), ("pattern", "30x30"), ("pattern", "40x40"),
    ("lightup", "7x7"), ("lightup", "10x10"), ("lightup", "14x14"),
    ("tents", "8x8"), ("tents", "15x15"), ("tents", "20x20"),
]
CLUES = {"solo": r"\d+", "lightup": r"[0-4]"}  # in a description


def made(program, game, size, budget, seed, limit):
    """The seconds of a run and the ID that it made; no ID where none was, and nothing where it was stopped."""
    line = [program, "generate", game, size, "--seed", str(seed), "--budget", budget]
    done, taken = words.timed(line, limit)
    if done and done.returncode not in (0, 4):
        sys.exit(f"{' '.join(line)}: status {done.returncode}")
    return taken, None if not done else "" if done.returncode else done.stdout.split("\n")[0]


def grade_of(program, game, text):
    line = [program, "grade", game, "--", text]
    return subprocess.run(line, stdin=subprocess.DEVNULL, capture_output=True, text=True, check=False).stdout.split()[0]


def cell(program, game, size, budget, count, seconds):
    """What the runs of a kind by a budget came to."""
    runs, end = [], time.monotonic() + seconds
    while len(runs) < count and time.monotonic() < end:
        runs.append(made(program, game, size, budget, len(runs) + 1, seconds / 2))
    texts = [text for _, text in runs if text]
    if not texts:
        ended = "over" if any(text is None for _, text in runs) else "exhausted,"
        return f"{ended} {statistics.median_high([taken for taken, _ in runs]):.2g} s ({len(runs)})"
    grades = collections.Counter(grade_of(program, game, text) for text in texts)
    told = [f"{statistics.median_high([taken for taken, text in runs if text is not None]):.2g} s"]
    if game in CLUES:
        clues = statistics.median_high([len(re.findall(CLUES[game], text.partition(":")[2])) for text in texts])
        told.append(f"{clues} clues")
    several = [f"{number} {grade}" for grade, number in grades.most_common()]
    if len(texts) < len(runs):
        several.append(f"{len(runs) - len(texts)} not made")
    return "; ".join([", ".join(told), ", ".join(several)])


def main():
    form = words.form(__doc__)
    form.add_argument("count", metavar="COUNT", type=words.count, nargs="?", default=40)
    form.add_argument("seconds", metavar="SECONDS", type=words.count, nargs="?", default=20)
    asked = form.parse_args()
    print("| Puzzle | " + " | ".join(f"`--budget {budget}`" if budget != "100000" else "default" for budget in BUDGETS) + " |")
    print("|---" * (len(BUDGETS) + 1) + "|", flush=True)
    for game, size in KINDS:
        told = [cell(asked.program, game, size, budget, asked.count, asked.seconds) for budget in BUDGETS]
        print(f"| {game} {size} | " + " | ".join(told) + " |", flush=True)


if __name__ == "__main__":
    begin(main)
