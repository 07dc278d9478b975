#!/usr/bin/env python3
"""Feeds a file of IDs to `solve GAME`, and prints microseconds per ID.

Each line of the file is an ID, or anything else that a batch answers. The file is fed so many times over in one run
(1 time where nothing is said). The time to start the program, that of a run without input, is taken off and printed
beside. Nothing is asserted; the first words of the answers' first lines are counted.
"""
import collections
import pathlib
import subprocess
import time

from support import words
from puzzles._work import begin

ANSWERS = {"none", "one", "several", "gave", "refused:"}
RUN_SECONDS = 3600


def seconds(program, game, text):
    start = time.perf_counter()
    done = subprocess.run([program, "solve", game], input=text, capture_output=True, check=False, timeout=RUN_SECONDS)
    return time.perf_counter() - start, done.stdout.decode(), done.returncode


def main():
    form = words.form(__doc__)
    form.add_argument("game", metavar="GAME")
    form.add_argument("file", metavar="FILE", help="an ID a line")
    form.add_argument("times", metavar="TIMES", type=words.count, nargs="?", default=1, help="how often the file is fed (1)")
    asked = form.parse_args()
    program, game, times = asked.program, asked.game, asked.times
    try:
        text = pathlib.Path(asked.file).read_bytes()
    except OSError as fault:
        form.error(str(fault))
    if text and not text.endswith(b"\n"):
        text += b"\n"
    count = text.count(b"\n") * times
    seconds(program, game, b"")
    empty, _, _ = seconds(program, game, b"")
    taken, output, status = seconds(program, game, text * times)
    firsts = (line.split(" ")[0] for line in output.splitlines())
    answers = collections.Counter(word for word in firsts if word in ANSWERS)
    print(f"starting alone: {1e6 * empty:.0f} microseconds")
    print(f"{count} IDs: {1e6 * (taken - empty) / max(count, 1):.1f} microseconds per ID, status {status}, {dict(answers)}")


if __name__ == "__main__":
    begin(main)
