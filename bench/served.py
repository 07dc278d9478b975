#!/usr/bin/env python3
"""Times calls of the page's server, one at a time and by clients beside one another, beside a process without HTTP.

usage: python/run bench/served.py PROGRAM     PROGRAM as `rt run` leaves it: crates/puzzles/out/puzzles

Prints the table of docs/USE.md: of each call the median, and what 99 of 100 don't take longer than.
"""
import argparse
import concurrent.futures
import os
import statistics
import subprocess
import time

from page.server import WAIT, Server
from puzzles._work import begin

CLIENTS, CALLS = 8, 1000


def kept(program, game, count, text):
    """Seconds of each of some IDs, of a kept process without HTTP."""
    words, times = [program, "solve", game], []
    with subprocess.Popen(words, stdin=subprocess.PIPE, stdout=subprocess.PIPE, text=True, bufsize=1) as child:
        for _ in range(count):
            start = time.perf_counter()
            child.stdin.write(text + "\n\n")
            child.stdin.flush()
            while child.stdout.readline() not in ("refused: no colon\n", ""):
                pass
            times.append(time.perf_counter() - start)
        child.stdin.close()
    return times


def timed(count, act):
    times = []
    for k in range(count):
        start = time.perf_counter()
        act(k)
        times.append(time.perf_counter() - start)
    return times


def table(server, program):
    """Rows of a name and the seconds of each call."""
    _, _, made = server.ask("generate", {"game": "solo", "size": "3x3", "seed": "7"})
    solo = {"game": "solo", "id": made["id"]}
    calls = [
        ("POST /solve, Solo 3x3", "solve", solo),
        ("POST /check, Tents 2x2", "check", {"game": "tents", "id": "2x2:_c,0,1,1,0", "grid": "T^\n..\n"}),
        ("POST /grade, Solo 3x3", "grade", solo),
        ("POST /generate, Tents 8x8", "generate", {"game": "tents", "size": "8x8", "seed": "7"}),
        ("POST /generate, Solo 3x3", "generate", {"game": "solo", "size": "3x3", "seed": "7"}),
    ]

    def one(k):
        start = time.perf_counter()
        server.ask(*calls[k % len(calls)][1:])
        return time.perf_counter() - start

    with concurrent.futures.ThreadPoolExecutor(CLIENTS) as pool:
        together = list(pool.map(one, range(CALLS)))
    process = [program, "solve", "solo", "--", made["id"]]
    yield "`solve` of Solo 3x3, a kept process, no HTTP", kept(program, "solo", 500, made["id"])
    yield "`solve` of Solo 3x3, a process each, no HTTP", timed(200, lambda _: subprocess.run(
        process, stdin=subprocess.DEVNULL, stdout=subprocess.DEVNULL, check=True, timeout=WAIT))
    for name, call, asked in calls:
        yield name, timed(200, lambda _, call=call, asked=asked: server.ask(call, asked))
    yield f"these five POSTs in turn, {CALLS:,} from {CLIENTS} clients at a time", together


def main():
    form = argparse.ArgumentParser(description=__doc__, formatter_class=argparse.RawDescriptionHelpFormatter)
    form.add_argument("program")
    program = os.path.abspath(form.parse_args().program)
    server = Server(program)
    print("| Call | Median, ms | 99 of 100, ms |\n|---|---|---|")
    for name, times in table(server, program):
        shown = [seconds * 1000 for seconds in (statistics.median(times), sorted(times)[len(times) * 99 // 100 - 1])]
        print(f"| {name} | " + " | ".join(f"{ms:.0f}" if ms >= 10 else f"{ms:.2g}" for ms in shown) + " |", flush=True)
    return server.stop()


if __name__ == "__main__":
    begin(main)
