#!/usr/bin/env python3
"""Prints what the largest puzzles of each game cost: seconds of processor time, and the peak of memory.

One run of `solve` is made for each puzzle, so the time to start the program is in the number. A puzzle whose search would be
long is solved with `--budget 0`, so that only the first closing counts. A peak below this script's own is what was last seen of
the process while it ran (Linux); a run that ended unseen is made again. Nothing is asserted.
"""
import os
import resource
import subprocess
import sys
import tempfile
import time

from support import words
from support.composed import blank, composed, tents
from puzzles._work import begin

SIDE = 120
SIZE = f"{SIDE}x{SIDE}"
POLL_SECONDS = 0.0005
RUN_SECONDS = 600
TRIES = 50  # a run of a millisecond may end unseen


def puzzles():
    """Of each puzzle its name, its game, its ID, and further words."""
    every_other = [SIDE // 2 if k % 2 == 0 else 0 for k in range(SIDE)]
    below_tents = [y * SIDE + x for y in range(1, SIDE, 2) for x in range(0, SIDE, 2)]
    return [
        ("all black", "pattern", composed("pattern", SIZE, clues=[[SIDE]] * 2 * SIDE), []),
        ("all white", "pattern", composed("pattern", SIZE, clues=[[]] * 2 * SIDE), []),
        ("all white", "lightup", blank("lightup", SIZE), ["--budget", "0"]),
        ("all black", "lightup", composed("lightup", SIZE, ["#"] * SIDE * SIDE), []),
        ("no trees", "tents", tents(SIDE, [], [0] * SIDE), []),
        (f"{len(below_tents)} trees", "tents", tents(SIDE, below_tents, every_other), []),
        ("blank", "solo", blank("solo", "5x6"), ["--budget", "0"]),
    ]


def high_water(process):
    """Kilobytes at the peak so far of a process that runs; 0 where it has ended."""
    try:
        with open(f"/proc/{process}/status") as file:
            sizes = [line.split()[1] for line in file if line.startswith("VmHWM")]
    except OSError:
        return 0
    return int(sizes[0]) if sizes else 0


def measured(line):
    """The first line of the answer, its status, seconds of processor time, and kilobytes at the peak."""
    own = resource.getrusage(resource.RUSAGE_SELF).ru_maxrss
    with tempfile.TemporaryFile() as output:
        started, ended, seen = subprocess.Popen(line, stdin=subprocess.DEVNULL, stdout=output), 0, 0
        end = time.monotonic() + RUN_SECONDS
        while not ended:
            time.sleep(POLL_SECONDS)
            if time.monotonic() > end:
                started.kill()
            seen = max(seen, high_water(started.pid))
            ended, status, used = os.wait4(started.pid, os.WNOHANG)
        started.returncode = os.waitstatus_to_exitcode(status)
        output.seek(0)
        first = output.readline().decode().strip()
    # A child counts as large as the process that started it, so the exact number is known only above that.
    peak = used.ru_maxrss if used.ru_maxrss > own else seen
    return first, started.returncode, used.ru_utime + used.ru_stime, peak


def main():
    program = words.form(__doc__).parse_args().program
    print("| Game | Puzzle | Bytes of the ID | Answer | Status | Seconds | Peak, MB |")
    print("|---|---|---|---|---|---|---|", flush=True)
    for name, game, text, more in puzzles():
        runs = (measured([program, "solve", game, text, *more]) for _ in range(TRIES))
        answer, status, seconds, peak = next((run for run in runs if run[3]), None) or sys.exit(f"{game} {name}: too short to see")
        size, called = text.split(":", 1)[0], " ".join([name, *more])
        print(f"| {game} {size} | {called} | {len(text):,} | {answer} | {status} | {seconds:.3f} | {peak / 1024:.1f} |",
              flush=True)


if __name__ == "__main__":
    begin(main)
