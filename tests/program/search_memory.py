#!/usr/bin/env python3
"""Shows over a built program that no search takes memory, however many trials it makes.

A puzzle of each game, and of Solo X, of the smallest and of the largest size, is solved by several budgets. An allocator that
counts stands between the program and the C library; it is compiled with cc. A longer answer takes more memory for its text. So
runs are compared whose answers have one text: they must take memory equally often, and equally many bytes. Of each puzzle at
least two runs are compared, and the second may make more trials than the first.
"""
import collections
import re
import subprocess
import tempfile

from support import words
from support.allocator import Allocator
from support.composed import blank, composed, lattice
from puzzles._work import begin

BUDGETS = (0, 1, 10, 1_000, 100_000)  # written with one number of digits, since words take memory too
RUN_SECONDS = 120
PUZZLES = [
    ("pattern", "2x2:1/1/1/1"),
    ("pattern", composed("pattern", "120x120", clues=[[1, 1, 1]] * 240)),
    ("solo", blank("solo", "2x2")),
    ("solo", blank("solo", "5x6")),
    ("solo", blank("solo", "2x2x")),
    ("solo", blank("solo", "5x6x")),
    ("lightup", "2x2:1c"),
    ("lightup", blank("lightup", "120x120")),
    ("tents", "3x3:aea,1,0,1,1,0,1"),
    ("tents", lattice(120)),
]


def taken(words, allocator):
    """The first line of the answer, the whole answer with its status, and how often memory was taken, with the bytes."""
    done = subprocess.run(words, stdin=subprocess.DEVNULL, capture_output=True, text=True, check=False, timeout=RUN_SECONDS,
                          env=allocator.counting())
    return done.stdout.split("\n")[0], (done.stdout, done.returncode), allocator.count()


def compared(program, game, text, allocator):
    """What the runs of a puzzle took, by their answers: a first line, the budgets, and the different numbers."""
    by_answer = collections.defaultdict(lambda: ("", [], set()))
    for budget in BUDGETS:
        first, answer, numbers = taken([program, "solve", game, "--budget", f"{budget:06}", "--", text], allocator)
        _, budgets, found = by_answer[answer]
        by_answer[answer] = first, [*budgets, budget], found | {numbers}
    return [group for group in by_answer.values() if len(group[1]) > 1]


def main():
    asked, failed = words.form(__doc__).parse_args(), 0
    with tempfile.TemporaryDirectory() as folder:
        allocator = Allocator(folder)
        for game, text in PUZZLES:
            name, groups = f"{game} {re.match('[^:]*', text)[0]}", compared(asked.program, game, text, allocator)
            for first, budgets, found in groups:
                told = " and ".join(f"{count:,} times {size:,} bytes" for count, size in sorted(found))
                print(f"{name}, {first}, budgets {', '.join(f'{budget:,}' for budget in budgets)}: {told}", flush=True)
            failed += not groups or any(len(found) > 1 for _, _, found in groups)
    print(f"{len(PUZZLES)} puzzles, {failed} of them with runs that differ")
    return 1 if failed else 0


if __name__ == "__main__":
    begin(main)
