#!/usr/bin/env python3
"""Tries examples/dask/job.py on schedulers and workers of Dask that it starts on 127.0.0.1, and ends again.

usage: dask_job.py PROGRAM [PYTHON]     PROGRAM as `rt run` leaves it: crates/puzzles/out/puzzles

It needs Debian's python3-distributed (`apt-get install python3-distributed`). PYTHON is the Python that has it, else
/usr/bin/python3. Each case says what it shows:

- 100,000 lines by two and by four workers are the bytes and the status of one process, and each worker had a part;
- a worker is killed with a part in hand, and nothing is lost or told twice;
- a line that a search would not end on is bounded by its budget, and holds back no other line's answer;
- a part whose process always fails, takes too long, or always takes its worker along ends the job, which names its lines;
- `grade` and `generate` with {} answer line by line;
- a job ends whose scheduler isn't there or goes away, and one whose last worker goes away.

Each wait has an end. The exit status is 1 if a case fails.
"""
import os
import random
import shutil
import signal
import subprocess
import sys
import tempfile
import time

from support.composed import pattern
from support.dask import JOB_SECONDS, Bench, cluster, free_port, has_dask
from support.trial import Wrong, expect, wait_until
from puzzles._work import begin, end

LINES = 100_000
SIDE = 6


def patterns(count):
    """So many lines: IDs of Pattern by bitmaps drawn at random, and some lines that are no IDs."""
    draws, lines = random.Random(1), []
    for number in range(count):
        rows = [[draws.random() < 0.55 for _ in range(SIDE)] for _ in range(SIDE)]
        lines.append(pattern(rows) if number % 997 else f"no puzzle {number}")
    return lines


def count_answers(output):
    """Each answer begins with a small letter, and no row of a grid does."""
    return sum(1 for line in output.split(b"\n") if line[:1].islower())


def many_lines(bench, workers):
    """100,000 lines are the bytes and the status of one process"""
    path = bench.file(patterns(LINES))
    wanted = bench.plain(["solve", "pattern", "--budget", "5"], path.read_bytes())
    expect(count_answers(wanted[0]) == LINES, f"{count_answers(wanted[0])} answers of one process")
    notes = bench.folder / "parents"
    notes.write_text("")
    told = bench.stand_in("told", 'echo $PPID >> "$folder/parents"\nexec puzzles "$@"\n')
    with cluster(bench, workers) as (address, started, _):
        words, options = ["solve", "pattern", "--budget", "5"], ["--program", told, "--lines", 1000]
        output, status, errors = bench.job(address, path, words, options)
        expect((output, status) == wanted, f"status {status}, {len(output)} bytes, wanted {wanted[1]}, {len(wanted[0])}: {errors}")
        parents = set(notes.read_text().split())
        expect(parents == {str(worker.pid) for worker in started}, f"parts ran in {len(parents)} processes")


def lost_worker(bench):
    """a worker is killed with a part in hand, and the bytes are those of one process"""
    path = bench.file(patterns(2000))
    wanted = bench.plain(["solve", "pattern"], path.read_bytes())
    held, whose = bench.folder / "held", bench.folder / "held" / "whose"
    once = bench.stand_in("once", 'if mkdir "$folder/held" 2> /dev/null; then echo $PPID > "$folder/whose"; '
                                  'mv "$folder/whose" "$folder/held/whose"; exec sleep 3600; fi\nexec puzzles "$@"\n')
    with cluster(bench, 3) as (address, started, _):
        words = bench.command(address, path, ["solve", "pattern"], ["--program", once, "--lines", 50])
        with open(bench.folder / "output", "wb") as output:
            job = subprocess.Popen(words, stdin=subprocess.DEVNULL, stdout=output, env=bench.environment, start_new_session=True)
        try:
            wait_until(whose.exists, JOB_SECONDS, "no part was held")
            owner = [worker for worker in started if str(worker.pid) == whose.read_text().strip()]
            expect(len(owner) == 1 and job.poll() is None, "the held part has no worker, or the job ended before")
            end(owner[0])
            status = job.wait(timeout=JOB_SECONDS)
        finally:
            end(job)
    shutil.rmtree(held)
    found = (bench.folder / "output").read_bytes(), status
    expect(found == wanted, f"status {status}, {len(found[0])} bytes, wanted {wanted[1]}, {len(wanted[0])}")


def long_line(bench):
    """a line that a search would not end on is bounded by its budget"""
    path = bench.file(["2x2:2c", "120x120:" + 553 * "z" + "v", "2x2:BBBB"])
    with cluster(bench, 2) as (address, _, _):
        output, status, errors = bench.job(address, path, ["solve", "lightup", "--budget", "1000"], ["--lines", 1])
    expect((output, status) == (b"one\n2O\nO.\ngave up\none\n##\n##\n", 4), f"status {status}, {output[:200]!r}: {errors}")


def failing_part(bench):
    """a part that always fails ends the job, which names its lines"""
    lines = patterns(100)
    lines[34] = "bad"
    path, tries = bench.file(lines), bench.folder / "tries"
    begun = bench.plain(["solve", "pattern"], "".join(f"{line}\n" for line in lines[:30]).encode())[0]
    begin = 'given=$(cat)\ncase $given in *bad*) echo >> "$folder/tries"; '
    end = ' ;; esac\nprintf "%s\\n" "$given" | puzzles "$@"\n'
    cases = [
        ("exit 6", [], False, 3, "ended with 6"),
        ("exec sleep 3600", ["--seconds", 5], False, 3, "timed out"),
        ("kill -KILL $PPID", [], True, 4, "KilledWorker"),  # the scheduler's own number
    ]
    for does, options, nannies, count, word in cases:
        tries.write_text("")
        program = bench.stand_in("failing", begin + does + end)
        with cluster(bench, 2, nannies) as (address, _, _):
            more = ["--program", program, "--lines", 10, "--attempts", 3, *options]
            output, status, errors = bench.job(address, path, ["solve", "pattern"], more)
        expect(status == 7 and output == begun, f"{does}: status {status}, {len(output)} bytes, wanted {len(begun)}: {errors}")
        expect("lines 31 to 40:" in errors and word in errors, f"{does}: {errors}")
        expect(len(tries.read_text()) == count, f"{does}: {len(tries.read_text())} attempts, wanted {count}")


def line_by_line(bench):
    """`grade` and `generate` with {} answer line by line"""
    ids, seeds = [line for line in patterns(40) if line != "no puzzle 0"] + ["--budget=5"], range(1, 31)
    kinds = [(ids, ["grade", "pattern", "--"]), (seeds, ["generate", "tents", "6x6", "--seed"])]
    with cluster(bench, 2) as (address, _, _):
        for lines, words in kinds:
            each = [bench.plain([*words, str(line)]) for line in lines]
            wanted = b"".join(output for output, _ in each), max(status for _, status in each)
            output, status, errors = bench.job(address, bench.file(lines), [*words, "{}"], ["--lines", 7])
            expect((output, status) == wanted, f"{words}: status {status}, {len(output)} bytes, wanted {wanted[1]}: {errors}")


def lost_scheduler(bench):
    """a job ends whose scheduler isn't there or goes away, and one whose last worker goes away"""
    path, begun = bench.file(["1x1:/"]), bench.folder / "begun"
    held = bench.stand_in("held", 'echo >> "$folder/begun"\nexec sleep 3600\n')
    output, status, errors = bench.job(f"tcp://127.0.0.1:{free_port()}", path, ["solve", "pattern"])
    expect((output, status) == (b"", 7) and errors.startswith("the scheduler tcp://"), f"none: status {status}: {errors}")
    for which in (0, 1):
        with cluster(bench, 1) as (address, workers, scheduler):
            words = bench.command(address, path, ["solve", "pattern"], ["--program", held, "--attempts", 1, "--seconds", 20])
            with subprocess.Popen(words, stdin=subprocess.DEVNULL, stdout=subprocess.PIPE, stderr=subprocess.PIPE,
                                  env=bench.environment, start_new_session=True) as job:
                try:
                    wait_until(begun.exists, JOB_SECONDS, "no part was begun")
                    end([scheduler, *workers][which])
                    output, errors = job.communicate(timeout=JOB_SECONDS)
                finally:
                    end(job)
        begun.unlink()
        expect((output, job.returncode) == (b"", 7) and b"lines 1 to 1:" in errors, f"status {job.returncode}: {errors.decode()}")


def main():
    if sys.argv[1:] in (["--help"], ["-h"]):
        print(__doc__.strip())
        return 0
    if len(sys.argv) not in (2, 3):
        print(__doc__.strip(), file=sys.stderr)
        return 2
    program, python = sys.argv[1], sys.argv[2] if len(sys.argv) > 2 else "/usr/bin/python3"
    if not (os.path.isfile(program) and os.access(program, os.X_OK)):
        print(f"dask_job.py: no program that can be run: {program}", file=sys.stderr)
        return 2
    if not has_dask(python):
        print(f"dask_job.py: {python} has no Dask: apt-get install python3-distributed", file=sys.stderr)
        return 2
    signal.signal(signal.SIGTERM, lambda *_: sys.exit(143))  # so that what was started is ended
    cases = [(many_lines, 2), (many_lines, 4), (lost_worker,), (long_line,), (failing_part,), (line_by_line,), (lost_scheduler,)]
    failed = 0
    for case, *more in cases:
        start, words = time.monotonic(), case.__doc__ + (f", by {more[0]} workers" if more else "")
        with tempfile.TemporaryDirectory(ignore_cleanup_errors=True) as folder:
            try:
                case(Bench(program, python, folder), *more)
                found = "so"
            except (Wrong, OSError, subprocess.TimeoutExpired) as fault:
                found, failed = f"NOT SO: {fault}", failed + 1
        print(f"{words}: {found} ({time.monotonic() - start:.0f} s)", flush=True)
    print(f"{len(cases)} cases, {failed} failed")
    return 1 if failed else 0


if __name__ == "__main__":
    begin(main)
