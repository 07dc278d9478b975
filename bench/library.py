#!/usr/bin/env python3
"""Prints the tables of the library and the module: their sizes, their times, and what was found beside the program.

usage: bench/library.py [--engines LIST] LIBRARY PROGRAM

LIBRARY is the folder that `library/build.py so wasm c` leaves, of a proved tree, and PROGRAM that tree's program. The times and
findings are those that tests/library/library.py and wasm.py tell by their own numbers of puzzles. LIST is of node, chromium and
firefox, and else all three. It needs what these two need, and brotli. `bench/tables.py PROGRAM library.py` writes them into
bench/README.md. The status is 1 if an answer differs.
"""
import argparse
import gzip
import pathlib
import re
import subprocess
import sys

from puzzles._work import Fault, begin

TOP = pathlib.Path(__file__).resolve().parent.parent
FILES = ("libpuzzles.so.0", "libpuzzles.a", "puzzles.wasm", "puzzles.js", "puzzles.c")
ENGINES = {"node": "Node", "chromium": "Chromium", "firefox": "Firefox"}
SECONDS, TESTS_SECONDS = 600, 7200


def sizes(folder):
    """Rows of the files that are there: their bytes as they are, by gzip and by brotli."""
    for path in (folder / name for name in FILES):
        if path.is_file():
            content = path.read_bytes()
            small = subprocess.run(["brotli", "-q", "11", "-c", path], stdout=subprocess.PIPE, check=True, timeout=SECONDS).stdout
            yield f"| `{path.name}` | {len(content):,} | {len(gzip.compress(content, 9)):,} | {len(small):,} |"


def told(script, *words):
    """What a test of the library wrote. Raises Fault where an answer differs."""
    words = [sys.executable, TOP / "python/run", TOP / "tests/library" / script, *words]
    done = subprocess.run(words, stdout=subprocess.PIPE, text=True, check=False, timeout=TESTS_SECONDS)
    if done.returncode:
        raise Fault(f"{script} ended with status {done.returncode}: {done.stdout[-500:]}", 1)
    return done.stdout


def number(pattern, text):
    return re.search(pattern, text)[1]


def tables(folder, program, engines):
    """The text of all tables."""
    native = told("library.py", f"--built={folder}", program)
    module = told("wasm.py", f"--engines={','.join(engines)}", f"--built={folder}", program)
    solves = re.search(r"solves: (\S+), (\S+), (\S+) µs .* ([\d,]+) µs by a process", native).groups()
    found = {engine: re.search(rf"{engine}: (\S+) answers, 0 differ; start (\S+) ms; a solve (\S+) µs; stack (\S+) bytes; "
                               r"memory (\S+) bytes", module).groups() for engine in engines}
    yield from ["| File | Bytes | By gzip, level 9 | By brotli, level 11 |", "|---|---|---|---|", *sizes(folder)]
    yield from ["", "| A `solve` by | µs | Ready after, ms |", "|---|---|---|", f"| a process for each ID | {solves[3]} | none |",
                f"| the library, from Python | {sorted(solves[:3], key=int)[1]} | none |"]
    for engine, (_, start, each, _, _) in found.items():
        yield f"| the module, in {ENGINES[engine]} | {each} | {start} |"
    counts = ", ".join(f"{one[0]} of the module in {ENGINES[engine]}" for engine, one in found.items())
    _, _, _, stack, memory = found[engines[0]]
    yield from ["", "| What | Found |", "|---|---|",
                f"| answers beside the program's | {number(r'(?m)^([0-9,]+) compared, 0 differ', native)} of the library; {counts}. "
                "None differs |",
                f"| stack of a call | at most {number(r'stack: at most ([0-9,]+) bytes', native)} bytes in the library, and {stack} "
                "in the module, which has 131,072 |",
                "| memory of a process with the library | the same after each fifth of 100,000 calls |",
                f"| memory of the module | {int(memory.replace(',', '')) / 1e6:.1f} MB after {found[engines[0]][0]} calls |",
                "| a memory that is full | status 5, and the next call is well |",
                "| a call that stops in the module | it throws, and the next call has a new module and is well |"]


def main():
    form = argparse.ArgumentParser(description=__doc__, formatter_class=argparse.RawDescriptionHelpFormatter)
    form.add_argument("--engines", default=",".join(ENGINES), type=lambda word: word.split(","), metavar="LIST")
    form.add_argument("library", type=pathlib.Path, metavar="LIBRARY")
    form.add_argument("program", type=pathlib.Path, metavar="PROGRAM")
    asked = form.parse_args()
    if unknown := set(asked.engines) - set(ENGINES):
        form.error(f"no engine: {', '.join(sorted(unknown))}")
    print("\n".join(tables(asked.library.absolute(), asked.program.absolute(), asked.engines)))
    return 0


if __name__ == "__main__":
    begin(main)
