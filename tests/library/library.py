#!/usr/bin/env python3
"""Compares the library for C with the program, call by call, and tries it as a process with threads would use it.

usage: tests/library/library.py [--puzzles N] [--calls N] [--built FOLDER] [--as-c] PROGRAM

PROGRAM is as `rt run` leaves it: crates/puzzles/out/puzzles. The library is that of FOLDER; else `library/build.py so` proves and
builds it, into library/out. N puzzles, 1,000 unless it is said, of all games and sizes are solved, checked with a right and with
a mixed grid, and graded with the trace and without. Beside them stand making, refused and hostile texts, answers that don't fit
at first, four threads at once, want of memory, and the examples in C and Python. Library and program run with twice the stack
that docs/PROOF.md says they need. The memory is looked at over 100,000 calls.
With --as-c the library is that of the module as C: FOLDER has puzzles.c and puzzles.h, and else library/build.py c makes them.
It needs cc, nm and readelf. The status is 1 if anything differs.
"""
import argparse
import ctypes
import os
import pathlib
import random
import re
import resource
import shutil
import subprocess
import sys
import tempfile
import threading
import time

import library_cases as cases
from puzzles import library as example
from support import library_file
from support.words import processor_seconds
from support.bench import TOP

STEP_SECONDS = 600
BUILD_SECONDS = 4 * 3600
THREADS = 4
FLAT = 256 * 1024  # bytes that the memory may differ by between a fifth of the calls and all
PROGRAM_STACK, LIBRARY_STACK = 80 << 10, 32 << 10  # bytes that they need at most, as docs/PROOF.md says; words come besides
HEADER = (TOP / "library" / "puzzles.h").read_text()


class Tally:
    """Counts what was compared and tells what differs."""

    def __init__(self):
        self.count = self.differing = 0

    def same(self, what, found, wanted):
        self.count += 1
        if found != wanted:
            self.differing += 1
            print(f"DIFFERS: {what}: {str(found)[:200]!r} and not {str(wanted)[:200]!r}", flush=True)

    def part(self, name, begun):
        print(f"{name}: {self.count - begun:,} compared", flush=True)


def arguments(case):
    """The example's method for a case, and its arguments."""
    options = {("traced" if name == "trace" else name): value for name, value in case.options.items()}
    texts = [case.text.encode("latin-1"), *([case.grid.encode("latin-1")] if case.call == "check" else [])]
    return case.call, [case.game, *texts], options


def answer(puzzles, case):
    name, words, options = arguments(case)
    status, text = getattr(puzzles, name)(*words, **options)
    return status, text.decode("latin-1")


def told_of(case):
    return f"{case.call} {case.game} {case.text[:60]!r} {case.options}"


def compare(tally, file, all_cases):
    puzzles = example.Puzzles(file)
    for case in all_cases:
        tally.same(told_of(case), answer(puzzles, case), (case.status, case.answer))


def compare_in_threads(tally, file, all_cases):
    """Four threads at once, each with all cases in an order of its own, on small stacks."""
    wrong = [[] for _ in range(THREADS)]

    def work(number):
        puzzles, mixed = example.Puzzles(file), random.Random(number).sample(all_cases, len(all_cases))
        wrong[number] += [told_of(case) for case in mixed if answer(puzzles, case) != (case.status, case.answer)]

    threading.stack_size(1 << 17)
    threads = [threading.Thread(target=work, args=(number,), daemon=True) for number in range(THREADS)]
    for thread in threads:
        thread.start()
    for thread in threads:
        thread.join(STEP_SECONDS)
    tally.same("threads that ended", sum(not thread.is_alive() for thread in threads), THREADS)
    tally.same("what threads found otherwise", sum(wrong, []), [])


def fit(tally, file, all_cases):
    """Outputs that are too small: the length is told, nothing is written, and the next call fits."""
    solve, written = example.Puzzles(file).calls["solve"], ctypes.c_size_t()
    for case in [case for case in all_cases if case.call == "solve" and len(case.answer) > 1 and case.game in cases.GAMES][::7]:
        text, length, game = case.text.encode("latin-1"), len(case.answer), cases.GAMES.index(case.game)
        for room in sorted({0, 1, length - 1, length}):
            output = ctypes.create_string_buffer(b"-" * (length + 16), length + 16)
            status = solve(game, text, len(text), case.options["budget"], output, room, written)
            put = case.answer.encode() if room == length else b""
            wanted = (case.status if put else example.TOO_SMALL, length, put + b"-" * (length + 16 - len(put)))
            tally.same(f"{told_of(case)} with a room of {room}", (status, written.value, output.raw), wanted)


def refuse(tally, file):
    """Arguments that no words can have, or that a caller gets wrong: each has its answer."""
    puzzles, written = example.Puzzles(file), ctypes.c_size_t()
    output, refused = ctypes.create_string_buffer(64), (2, b"refused: words\n")
    for game in (4, 5, 128, 255):
        status = puzzles.calls["solve"](game, b"2x2:p", 5, 1, output, 64, written)
        tally.same(f"game {game}", (status, output.raw[:written.value]), refused)
    for black in (101, 255):
        status = puzzles.calls["generate"](1, b"5x5", 3, 1, 1, 1, black, output, 64, written)
        tally.same(f"{black} per cent black", (status, output.raw[:written.value]), refused)
    tally.same("a number that doesn't fit", puzzles.generate("pattern", b"5x5", 1 << 64), refused)
    long = b"1" * 100_000_000
    tally.same("an ID of 100 MB", puzzles.solve("solo", long), (2, b"refused: too long\n"))
    tally.same("a line of 100 MB", puzzles.solve_each("solo", long), (2, b"refused: too long\n"))
    tally.same("a grid of 100 MB", puzzles.check("pattern", b"1x1:/", long), (2, b"refused: grid\n"))


def said_by_header(tally, file, all_cases):
    """What puzzles.h says of the version, of null, of the number for a trace, and of the most bytes of an answer."""
    calls, written, room = example.Puzzles(file).calls, ctypes.c_size_t(), ctypes.create_string_buffer(64)
    version = int(re.search(r"#define PUZZLES_VERSION (\d+)", HEADER)[1])
    tally.same("the version", ctypes.CDLL(str(file)).puzzles_version(), version)
    output, nothing, one = (room, 64, written), (None, 0), (b"1x1:/", 5)
    for name, words, wanted in [("solve", (1, *nothing, 0, *output), (2, b"refused: no colon\n")),
                                ("solve_each", (1, *nothing, 0, *output), (0, b"")),
                                ("check", (1, *one, *nothing, *output), (2, b"refused: grid\n")),
                                ("grade", (1, *nothing, 0, 0, *output), (2, b"refused: no colon\n")),
                                ("generate", (1, *nothing, 0, 0, 1, 0, *output), (2, b"refused: bad size\n"))]:
        tally.same(f"{name} of null", (calls[name](*words), room.raw[:written.value]), wanted)
    tally.same("an output at null", (calls["solve"](1, *one, 0, None, 0, written), written.value), (example.TOO_SMALL, 6))
    for traced in (0, 1, 2, 128, 254, 255):
        told = calls["grade"](1, b"5x1:1/1//1/1/2.2", 16, 0, traced, *output), written.value > len("lines\n")
        tally.same(f"the number {traced} for a trace", told, (0, traced > 0))
    most = {name.lower(): int(number) for name, number in re.findall(r"PUZZLES_ROOM_(\w+) = (\d+)", HEADER)}
    for case in all_cases:
        if case.call in most and not case.options.get("trace"):
            tally.same(f"room for {told_of(case)}", len(case.answer) <= most[case.call], True)
    longest = max(len(case.answer) for case in all_cases if case.call == "solve")
    tally.same("the longest answer of solve", longest, most["solve"])


def small_stacks(tally, program, lines, made, some):
    """Each call of the lines on a thread with twice the stack of the library, and some runs with twice that of the program."""
    done = subprocess.run([made, "within", str(2 * LIBRARY_STACK)], input="".join(lines), capture_output=True, text=True,
                          check=False, timeout=STEP_SECONDS)
    tally.same("calls that are answered on a small stack", done.stdout.strip(), str(len(lines)))
    for case in some:
        words, given = case.words()
        done = subprocess.run([program, *words], input=given, capture_output=True, check=False, timeout=STEP_SECONDS, env={},
                              preexec_fn=lambda: resource.setrlimit(resource.RLIMIT_STACK, (2 * PROGRAM_STACK,) * 2))
        told = done.returncode, done.stdout.decode("latin-1")
        tally.same(f"a small stack: {told_of(case)}", told, (case.status, case.answer))


def memory(tally, file, all_cases, calls):
    """The resident memory after each fifth of so many calls."""
    puzzles, some, sizes = example.Puzzles(file), [case for case in all_cases if len(case.text) < 60], []
    begun = time.monotonic()
    for at in range(calls):
        name, words, options = arguments(some[at % len(some)])
        getattr(puzzles, name)(*words, **options)
        if (at + 1) % (calls // 5) == 0:
            sizes.append(int(pathlib.Path("/proc/self/statm").read_text().split()[1]) * resource.getpagesize())
    tally.same("memory that grows, of " + str(sizes), max(sizes) - sizes[0] > FLAT, False)
    resident = " ".join(f"{size // 1024:,}" for size in sizes)
    print(f"memory: {resident} KB resident after fifths of {calls:,} calls, in {time.monotonic() - begun:.0f} seconds")


def harness(tally, program, file, all_cases, folder):
    """The stack that a call uses, calls and runs with twice that, and calls with no memory to be had."""
    made, lines = folder / "harness", [
        f"{case.call} {cases.GAMES.index(case.game)} {case.options.get('budget', 0)} {case.text}\n" for case in all_cases
        if case.call in ("solve", "grade", "check", "generate") and case.game in cases.GAMES and case.text.isprintable()
        and case.text and case.text.isascii() and " " not in case.text and len(case.text) < 60_000]
    link = ["-L", file.parent, f"-Wl,-rpath,{file.parent}", "-lpuzzles", "-lpthread"]
    compile_c(TOP / "tests" / "library" / "library_harness.c", made, link)
    for part, some in (("stack", lines), ("memory", lines[::5])):
        done = subprocess.run([made, part], input="".join(some), capture_output=True, text=True, check=True, timeout=STEP_SECONDS)
        if part == "stack":
            print(f"stack: at most {int(done.stdout):,} bytes in any of {len(some):,} calls")
            tally.same("a stack within what the documents say", int(done.stdout) <= LIBRARY_STACK, True)
            few = [case for case in all_cases if len(case.text) < 20_000]
            small_stacks(tally, program, some, made, few[::20] + [case for case in few if len(case.text) > 1_000])
        else:
            tally.same("calls without memory that were refused, and calls after them", done.stdout.split(), [str(len(some))] * 2)


def compile_c(source, made, link):
    subprocess.run(["cc", "-O1", "-Wall", "-Wextra", "-Werror", "-I", TOP / "library", "-o", made, source, *link], check=True,
                   timeout=STEP_SECONDS)


def made_of_c(folder, room):
    """The library of the module as C, as a caller would compile it."""
    for name in ("puzzles.c", "puzzles.h"):
        shutil.copy(folder / name, room)
    compile_c(room / "puzzles.c", room / "libpuzzles.so", ["-std=c99", "-shared", "-fPIC"])
    return room / "libpuzzles.so"


def run_examples(tally, program, file, folder):
    """The examples beside the program."""
    made = folder / "solve"
    compile_c(TOP / "examples" / "library" / "solve.c", made, ["-L", file.parent, f"-Wl,-rpath,{file.parent}", "-lpuzzles"])
    for words in ([made],):
        for game, text in cases.OF_EXAMPLES:
            wanted = cases.ask(program, cases.Case("solve", game, text))
            done = subprocess.run([*words, game, text], capture_output=True, check=False, timeout=STEP_SECONDS)
            tally.same(f"{words[-1]} {game} {text[:40]}", (done.returncode, done.stdout.decode()), (wanted.status, wanted.answer))


def times(file, program, all_cases):
    """What a solve takes of the processor, by the library and by a process for each."""
    solves, took = [case for case in all_cases if case.call == "solve" and case.status != 2][:1000], []
    puzzles = example.Puzzles(file)
    for _ in range(3):
        begun = time.process_time()
        for case in solves:
            answer(puzzles, case)
        took.append((time.process_time() - begun) / len(solves) * 1e6)
    before = processor_seconds()
    for case in solves:
        cases.ask(program, case)
    each = (processor_seconds() - before) / len(solves) * 1e6
    passes = ", ".join(f"{time:.0f}" for time in took)
    print(f"times of {len(solves):,} solves: {passes} µs of the processor each in three passes of the library, "
          f"{each:,.0f} µs by a process for each")


def main():
    form = argparse.ArgumentParser(description=__doc__, formatter_class=argparse.RawDescriptionHelpFormatter)
    form.add_argument("--puzzles", metavar="N", type=int, default=1000)
    form.add_argument("--calls", metavar="N", type=int, default=100_000)
    form.add_argument("--built", metavar="FOLDER", type=pathlib.Path)
    form.add_argument("--as-c", action="store_true")
    form.add_argument("program", metavar="PROGRAM")
    asked, tally = form.parse_args(), Tally()
    if not os.access(asked.program, os.X_OK) or asked.puzzles < 1 or asked.calls < 5:
        form.error("a program that can be run, a puzzle and five calls at least")
    program, folder = os.path.abspath(asked.program), (asked.built or TOP / "library" / "out").absolute()
    try:
        if not asked.built:
            subprocess.run([TOP / "library" / "build.py", "c" if asked.as_c else "so"], check=True, timeout=BUILD_SECONDS)
        all_cases = cases.all_cases(program, asked.puzzles)
        with tempfile.TemporaryDirectory(prefix="puzzles-library-") as room:
            file = made_of_c(folder, pathlib.Path(room)) if asked.as_c else folder / "libpuzzles.so"
            parts = {"symbols": lambda: library_file.symbols(tally, file, asked.as_c),
                     "calls": lambda: compare(tally, file, all_cases),
                     "outputs": lambda: fit(tally, file, all_cases), "refusals": lambda: refuse(tally, file),
                     "threads": lambda: compare_in_threads(tally, file, all_cases),
                     "the header": lambda: said_by_header(tally, file, all_cases),
                     "stack and memory": lambda: harness(tally, program, file, all_cases, pathlib.Path(room)),
                     "examples": lambda: run_examples(tally, program, file, pathlib.Path(room))}
            for name, part in parts.items():
                begun = tally.count
                part()
                tally.part(name, begun)
            memory(tally, file, all_cases, asked.calls)
            times(file, program, all_cases)
    except (OSError, AttributeError, subprocess.SubprocessError) as fault:
        sys.exit(f"library.py: {fault}")
    except KeyboardInterrupt:
        sys.exit(130)
    print(f"{tally.count:,} compared, {tally.differing:,} differ")
    return 1 if tally.differing else 0


if __name__ == "__main__":
    sys.exit(main())
