#!/usr/bin/env python3
"""Prints what one ID can cost at three budgets, those of a page among them: the answer, and seconds of processor time.

Each run of `solve` has a clock of 60 seconds. The last column is the largest peak of memory that was seen while they ran
(Linux). The hardest Tents of 20x20 is found among those that Debian's sgt-tents makes of the seeds from 1 to COUNT, by `grade`;
where that program isn't installed, the row is left out and a line says so. Nothing is asserted.
"""
import os
import subprocess
import sys
import time

from support import real, words
from support.composed import blank, composed, lattice
from puzzles._work import begin

BUDGETS = ["10000", "20000", ""]  # "" is the default
CLOCK = 60.0  # seconds of a run
MAKING_SECONDS = 600  # for the Tents
GRADING_BUDGET = 1_000_000  # some seconds
POLL_SECONDS = 0.002


def hardest(program, count):
    """Of the collection's Tents of 20x20 the ID with the most trials, and their number."""
    found = (-1, "")
    for text in real.collected("tents", "20x20", "dt", count, MAKING_SECONDS):
        line = [program, "grade", "tents", "--budget", str(GRADING_BUDGET), "--", text]
        done = subprocess.run(line, stdin=subprocess.DEVNULL, capture_output=True, text=True, check=False, timeout=CLOCK)
        grade = done.stdout.split()
        if done.returncode == 4:
            return text, f"over {GRADING_BUDGET:,}"
        found = max(found, (int(grade[1]) if grade[0] == "search" else 0, text))
    return found[1], f"{found[0]:,}"


def seen(process):
    """Kilobytes at the peak so far of a process that runs; 0 where it has ended."""
    try:
        with open(f"/proc/{process}/status", encoding="ascii") as file:
            return max([int(line.split()[1]) for line in file if line.startswith("VmHWM")], default=0)
    except OSError:
        return 0


def run(line):
    """The first line of the answer, seconds of processor time, and kilobytes; the words `over` where the clock ended it."""
    started = subprocess.Popen(line, stdin=subprocess.DEVNULL, stdout=subprocess.PIPE)
    end, peak, over, ended = time.monotonic() + CLOCK, 0, False, 0
    while not ended:
        time.sleep(POLL_SECONDS)
        peak = max(peak, seen(started.pid))
        if time.monotonic() > end and not over:
            over = True
            started.kill()
        ended, status, used = os.wait4(started.pid, os.WNOHANG)
    started.returncode = os.waitstatus_to_exitcode(status)
    first = started.stdout.readline().decode().strip()
    started.stdout.close()
    if started.returncode not in range(5) and not over:
        sys.exit(f"{' '.join(line)[:100]}: status {started.returncode}")
    return f"over {CLOCK:g}" if over else f"{first}, {used.ru_utime + used.ru_stime:.2g}", peak


def main():
    form = words.form(__doc__)
    form.add_argument("count", nargs="?", type=words.count, default=40, metavar="COUNT", help="Tents to choose the hardest from (40)")
    asked = form.parse_args()
    puzzles = [("lightup", blank("lightup", f"{side}x{side}"), "white") for side in (10, 30, 60, 120)]
    puzzles.append(("pattern", composed("pattern", "120x120", clues=[[1, 1, 1]] * 240), "1, 1, 1 in each line"))
    puzzles.append(("tents", lattice(60), "a tree in each 3x3"))
    text, trials = hardest(asked.program, asked.count)
    if text:
        puzzles.append(("tents", text, f"hardest of {asked.count}, {trials} trials"))
    else:
        print("left out: Tents 20x20, for want of sgt-tents", file=sys.stderr)
    heads = [f"`--budget {budget}`" if budget else "default, 100,000" for budget in BUDGETS]
    print("| Puzzle | Bytes of the ID | " + " | ".join(heads) + " | Peak, MB |")
    print("|---" * (len(heads) + 3) + "|", flush=True)
    for game, text, name in puzzles:
        told = [run([asked.program, "solve", *(["--budget", budget] if budget else []), game, "--", text]) for budget in BUDGETS]
        size = text.partition(":")[0]
        print(f"| {game} {size}, {name} | {len(text):,} | " + " | ".join(answer for answer, _ in told)
              + f" | {max(peak for _, peak in told) / 1024:.1f} |", flush=True)


if __name__ == "__main__":
    begin(main)
