#!/usr/bin/env python3
"""Times `solve pattern` on the clues of made-up bitmaps, and prints microseconds per puzzle.

The bitmaps are of blobs, as drawings are: a cell is black where a few random circles cover it. One run of the program
is made for each puzzle, so the time to start it is in the number; it is printed beside, as that of a 1 by 1 puzzle.
Nothing is asserted: a puzzle that is given up counts as one that is solved.
"""
import random
import subprocess
import time

from support import words
from support.composed import pattern
from puzzles._work import begin

RUN_SECONDS = 600


def bitmap(draws, side):
    circles = [(draws.randrange(side), draws.randrange(side), draws.randrange(2, side // 4)) for _ in range(side // 3)]
    return [[any((x - a) ** 2 + (y - b) ** 2 < r * r for a, b, r in circles) for x in range(side)] for y in range(side)]


def seconds(program, ids):
    start = time.perf_counter()
    answers = {}
    for text in ids:
        done = subprocess.run([program, "solve", "pattern", text], capture_output=True, check=False, timeout=RUN_SECONDS)
        first = done.stdout.split(b"\n", 1)[0].decode()
        answers[first] = answers.get(first, 0) + 1
    return time.perf_counter() - start, answers


def main():
    form = words.form(__doc__)
    form.add_argument("count", metavar="COUNT", type=words.count, nargs="?", default=100, help="puzzles of each size (100)")
    asked = form.parse_args()
    program, count = asked.program, asked.count
    seconds(program, ["1x1:/"] * count)
    empty, _ = seconds(program, ["1x1:/"] * count)
    print(f"starting alone: {1e6 * empty / count:.0f} microseconds")
    for side in (20, 30):
        draws = random.Random(side)
        ids = [pattern(bitmap(draws, side)) for _ in range(count)]
        taken, answers = seconds(program, ids)
        print(f"{side}x{side}: {1e6 * taken / count:.0f} microseconds per puzzle, {answers}")


if __name__ == "__main__":
    begin(main)
