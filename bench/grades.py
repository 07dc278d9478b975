#!/usr/bin/env python3
"""Prints how `grade` answers to puzzles that the collection's own programs make (Debian's sgt-puzzles), by their levels.

Each level has the puzzles of the seeds from 1 to COUNT (100 if left out), or as many as come within SECONDS (600 if left out). A
row has their number, how many have each grade, and of those that `search` is told of the median and the most of trials.
Nothing is asserted.
"""
import collections
import statistics
import subprocess
import sys

from support import real, words
from puzzles._work import begin

NAMES = {"solo": "Solo", "lightup": "Light Up", "tents": "Tents"}
# Game, size, and of each level its name and what the collection's program is told behind the size.
LEVELS = [
    ("solo", "3x3", {"Trivial": "dt", "Basic": "db", "Intermediate": "di", "Advanced": "da", "Extreme": "de", "Unreasonable": "du"}),
    ("lightup", "7x7", {"Easy": "d0", "Tricky": "d1", "Hard": "d2"}),
    ("lightup", "14x14", {"Easy": "d0", "Tricky": "d1", "Hard": "d2"}),
    ("tents", "8x8", {"Easy": "de", "Tricky": "dt"}),
    ("tents", "15x15", {"Easy": "de", "Tricky": "dt"}),
]
ORDER = ["singles", "houses", "crossings", "local", "search"]
RUN_SECONDS = 600


def grade(program, game, text):
    """The grade of a puzzle, and its trials."""
    done = subprocess.run([program, "grade", game, "--", text], capture_output=True, text=True, check=False, timeout=RUN_SECONDS)
    word, _, trials = done.stdout.strip().partition(" ")
    if word not in ORDER:
        sys.exit(f"{game} {text}: {done.stdout.strip()}, status {done.returncode}")
    return word, int(trials or 0)


def row(name, answers):
    """A row of the table: the grades of a level's puzzles."""
    counts = collections.Counter(word for word, _ in answers)
    trials = sorted(count for word, count in answers if word == "search")
    told = ", ".join(f"{counts[word]:,} `{word}`" for word in ORDER if counts[word])
    return f"| {name} | {len(answers):,} | {told} | {f'{statistics.median_high(trials):,}; {trials[-1]:,}' if trials else ''} |"


def main():
    form = words.form(__doc__)
    form.add_argument("count", metavar="COUNT", type=words.count, nargs="?", default=100)
    form.add_argument("seconds", metavar="SECONDS", type=words.count, nargs="?", default=600)
    asked = form.parse_args()
    print("| Level | Puzzles | Grades | Trials: median; most |\n|---|---|---|---|", flush=True)
    for game, size, levels in LEVELS:
        for level, more in levels.items():
            print(f"{game} {size} {level} ..", file=sys.stderr, flush=True)
            found = real.collected(game, size, more, asked.count, asked.seconds)
            if not found:
                sys.exit(f"no puzzle of sgt-{game} {size}{more}: is Debian's sgt-puzzles there?")
            answers = [grade(asked.program, game, text) for text in found]
            print(row(f"{NAMES[game]} {size}, {level}", answers), flush=True)


if __name__ == "__main__":
    begin(main)
