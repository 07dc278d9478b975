#!/usr/bin/env python3
"""Runs two builds of the program on the same puzzles, and prints for each group what one puzzle costs in each.

A group is some puzzles of a game and a size that the collection's own programs make (Debian's package sgt-puzzles; where
they are not installed, `generate` of PROGRAM makes them; where that takes minutes, they are of Solo by holes in a filling), fed to
`solve` in one run. Both programs run in turn on one core, a few rounds each. The least user time counts, less that of a run
without input; small groups are fed several times over. Where valgrind is there, instructions are counted by callgrind on the
group's first puzzles. The last groups time `generate`.
Times are held against no limit: the exit status is 1 only where the answers differ.
"""
import os
import resource
import shutil
import subprocess
import sys

from support import real, words
from puzzles._work import begin

# Game, size, what the collection's program is told beside the size, and how many puzzles.
GROUPS = (
    [("solo", size, "", 100) for size in ("2x2", "2x3", "3x3")]
    + [("solo", size, "", 20) for size in ("2x4", "4x2", "2x5", "3x4", "4x4", "4x5", "5x5", "5x6")]
    + [("pattern", size, "", 100) for size in ("5x5", "10x10", "15x15", "20x20", "25x25", "30x30")]
    + [("pattern", "40x40", "", 20)]
    + [("lightup", size, "", 100) for size in ("5x5", "7x7", "10x10", "14x14")]
    + [("lightup", "20x20", "", 20), ("lightup", "30x30", "d2", 10), ("lightup", "64x64", "", 2)]
    + [("tents", size, "", 100) for size in ("4x4", "5x5", "8x8", "10x10")]
    + [("tents", "15x15", "", 50), ("tents", "20x20", "dt", 20)]
)
MADE = [("tents", "20x20"), ("lightup", "14x14"), ("pattern", "30x30"), ("solo", "4x4")]
SEEDS = range(1, 9)
MAKING_SECONDS = 60  # for the puzzles of one group
RUN_SECONDS = 120  # for one puzzle of `generate`
GROUP_SECONDS = 3600  # for one run of `solve`
ENOUGH_SECONDS = 0.3  # a small group is fed over and over until a run takes so long
LONG_SECONDS = 5  # a run that takes so long is made once
ROUNDS = 5
COUNTED = 5  # puzzles under callgrind


def run(line, text=b"", limit=GROUP_SECONDS):
    """User seconds, output and status."""
    before = resource.getrusage(resource.RUSAGE_CHILDREN).ru_utime
    done = subprocess.run(line, input=text, capture_output=True, check=False, timeout=limit)
    return resource.getrusage(resource.RUSAGE_CHILDREN).ru_utime - before, (done.stdout, done.returncode)


def least(lines, text, rounds):
    """The least user seconds of each command line, run in turn, and its answer."""
    results = [run(line, text) for line in lines]
    times, answers = [result[0] for result in results], [result[1] for result in results]
    for _ in range(0 if max(times) > LONG_SECONDS else rounds - 1):
        for at, line in enumerate(lines):
            times[at] = min(times[at], run(line, text)[0])
    return times, answers


def instructions(line, text):
    """Instructions of one run under callgrind; nothing where there is no valgrind."""
    if not shutil.which("valgrind"):
        return None
    counter = ["valgrind", "--tool=callgrind", "--callgrind-out-file=/dev/null"]
    done = subprocess.run([*counter, *line], input=text, capture_output=True, check=False, timeout=GROUP_SECONDS)
    counts = [told.rpartition(":")[2] for told in done.stderr.decode().split("\n") if "Collected" in told]
    return int(counts[0]) if counts else None


def counted(lines, found):
    """Instructions for one puzzle in each program, and what the second needs for one of the first."""
    first = found[:COUNTED]
    counts = [(instructions(line, "\n".join([*first, ""]).encode()), instructions(line, b"")) for line in lines]
    if any(whole is None or empty is None for whole, empty in counts):
        return "- | - | -"
    new, old = [(whole - empty) / len(first) for whole, empty in counts]
    return f"{new / 1e6:.4g} M | {old / 1e6:.4g} M | {old / max(new, 1):.2f}"


def compare_solving(programs, game, size, more, count):
    """Prints the row of a group, and says whether the answers are the same."""
    found, maker = real.some(programs[0], game, size, more, count, MAKING_SECONDS)
    name = f"{game}-{size}{more}"
    if not found:
        print(f"| {name} | no puzzle was made in {MAKING_SECONDS} s |", flush=True)
        return True
    lines = [[program, "solve", game] for program in programs]
    once = "\n".join([*found, ""]).encode()
    quickest = max(min(run(line, once)[0] for line in lines), 0.001)
    times = max(1, int(ENOUGH_SECONDS / quickest))
    empty, _ = least(lines, b"", ROUNDS)
    taken, answers = least(lines, once * times, ROUNDS)
    new, old = [1e6 * max(took - start, 0) / (len(found) * times) for took, start in zip(taken, empty)]
    same = answers[0] == answers[1]
    print(f"| {name} | {len(found)} by {maker} | {new:.1f} | {old:.1f} | {old / max(new, 0.001):.2f} | {counted(lines, found)} "
          f"| {'same' if same else 'DIFFERENT'} |", flush=True)
    return same


def compare_making(programs, game, size):
    """Prints the row of a kind that `generate` makes, and says whether the answers are the same."""
    totals, same, stopped = [0.0, 0.0], True, 0
    for seed in SEEDS:
        try:
            both = [run([program, "generate", game, size, "--seed", str(seed)], limit=RUN_SECONDS) for program in programs]
        except subprocess.TimeoutExpired:
            stopped += 1
            continue
        same = same and both[0][1] == both[1][1]
        totals = [total + took for total, (took, _) in zip(totals, both)]
    done = len(SEEDS) - stopped
    new, old = [1e6 * total / max(done, 1) for total in totals]
    print(f"| generate {game} {size} | {done} seeds, {stopped} stopped | {new:.0f} | {old:.0f} | {old / max(new, 1):.2f} | - | - | - "
          f"| {'same' if same else 'DIFFERENT'} |", flush=True)
    return same


def main():
    form = words.form(__doc__)
    form.add_argument("old", metavar="OLD", type=words.program, help="the build that PROGRAM is compared with")
    form.add_argument("groups", metavar="GROUP", nargs="*", help="how a group's name begins, as solo-3x3; else all")
    asked = form.parse_args()
    programs, wanted = [asked.program, asked.old], tuple(asked.groups) or ("",)
    os.sched_setaffinity(0, {max(os.sched_getaffinity(0))})
    print(f"load of the machine at the start: {os.getloadavg()[0]:.1f} on {os.cpu_count()} cores")
    print("| Group | Puzzles | New, us a puzzle | Old | Old / new | New, instructions a puzzle | Old | Old / new | Answers |")
    print("|---|---|---|---|---|---|---|---|---|", flush=True)
    same = [compare_solving(programs, *group) for group in GROUPS if f"{group[0]}-{group[1]}{group[2]}".startswith(wanted)]
    same += [compare_making(programs, *kind) for kind in MADE if "generate-{}-{}".format(*kind).startswith(wanted)]
    sys.exit(0 if all(same) else 1)


if __name__ == "__main__":
    begin(main)
