#!/usr/bin/env python3
"""Runs `puzzles` over the lines of a file on the workers of a Dask scheduler, a part of the lines at a time.

    job.py tcp://127.0.0.1:8786 ids.txt solve pattern --budget 5000
    job.py --lines 20 tcp://127.0.0.1:8786 ids.txt grade solo -- {}
    job.py --lines 20 tcp://127.0.0.1:8786 seeds.txt generate tents 8x8 --seed {}

Where a word is {}, each line takes its place in a process of its own. Else a part's lines are the input of one process.
Answers come in the order of the lines. The status is the greatest that was met. It is 7 where a part failed at each attempt,
or nothing came in time: the output then ends before that part, whose lines are named on standard error.
It needs Debian's python3-distributed, also where a worker runs, and there `puzzles` on the path.
"""
import argparse
import collections
import itertools
import subprocess
import sys
import time
import uuid

CONNECT_SECONDS = 30  # for the scheduler, and for a first worker
FAILED = 7


def answers(calls, seconds):
    """What one part writes, and the greatest status of its processes. A worker runs this."""
    end, output, greatest = time.monotonic() + seconds, b"", 0
    for words, given in calls:
        done = subprocess.run(words, input=given, capture_output=True, timeout=max(end - time.monotonic(), 0))
        if done.returncode not in range(5):
            raise RuntimeError(f"{words[0]} ended with {done.returncode}")
        output, greatest = output + done.stdout, max(greatest, done.returncode)
    return output, greatest


def calls_of(words, lines):
    """The command lines of a part, each with its input."""
    if "{}" not in words:
        return [(words, b"".join(lines))]
    return [([line.rstrip(b"\r\n") if word == "{}" else word for word in words], b"") for line in lines]


def in_order(client, file, asked):
    """The name of each part, and what comes of it. Some parts are handed over ahead of the one that is told next."""
    ahead, first, job = collections.deque(), 1, uuid.uuid4()
    while lines := list(itertools.islice(file, asked.lines)):
        name = f"lines {first} to {first + len(lines) - 1}"
        calls = calls_of([asked.program, *asked.words], lines)
        more = {"key": f"{name} of {job}", "retries": asked.attempts - 1}
        ahead.append((name, client.submit(answers, calls, asked.seconds, **more)))
        first += len(lines)
        if len(ahead) > asked.ahead:
            yield ahead.popleft()
    yield from ahead


def run(asked, connect):
    """The job's status."""
    greatest, name = 0, asked.file
    try:
        with open(asked.file, "rb") as file, open(1, "wb", closefd=False) as told:
            name = f"the scheduler {asked.scheduler}"
            with connect(asked.scheduler, timeout=CONNECT_SECONDS) as client:
                client.wait_for_workers(1, timeout=CONNECT_SECONDS)
                for name, part in in_order(client, file, asked):
                    output, status = part.result(timeout=asked.attempts * asked.seconds + CONNECT_SECONDS)
                    told.write(output)
                    greatest = max(greatest, status)
    except Exception as fault:  # of a part, of its workers, of an end, or of the connection
        print(f"{name}: {type(fault).__name__}: {str(fault)[:300]}", file=sys.stderr)
        return FAILED
    return greatest


def main():
    form = argparse.ArgumentParser(description=__doc__, formatter_class=argparse.RawDescriptionHelpFormatter)
    form.add_argument("--lines", type=int, default=1000, help="lines of a part (1000)")
    form.add_argument("--seconds", type=float, default=300, help="the most that a part may take (300)")
    form.add_argument("--attempts", type=int, default=4, help="how often a part is tried (4)")
    form.add_argument("--ahead", type=int, default=64, help="parts handed over ahead, some for each worker (64)")
    form.add_argument("--program", default="puzzles", help="the program of the workers (puzzles)")
    form.add_argument("scheduler", help="tcp://HOST:PORT")
    form.add_argument("file", help="an ID or a seed a line")
    form.add_argument("words", nargs=argparse.REMAINDER, help="the words of the program")
    asked = form.parse_args()
    if not asked.words or min(asked.lines, asked.attempts) < 1:
        form.error("words for the program, and at least one line and one attempt")
    try:
        from distributed import Client
    except ImportError:
        sys.exit(f"{sys.executable} has no module distributed: it comes with Debian's python3-distributed, for /usr/bin/python3")
    sys.exit(run(asked, Client))


if __name__ == "__main__":
    main()
