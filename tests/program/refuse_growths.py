#!/usr/bin/env python3
"""Runs built programs with each allocation of the process refused in turn.

Each run of the program must answer as it does with ample memory, or end with status 5 after a beginning of that answer
and with nothing on standard error. Each test must pass, or end with want of memory as its result and nothing else.
The allocator of lib/allocator.py stands between a program and the C library; it is compiled with cc.
"""
import argparse
import subprocess
import sys
import tempfile

from support.allocator import Allocator
from support.words import program
from puzzles._work import begin

RUN_SECONDS = 120

SOLO = "1 2 3 4\n3 4 1 2\n2 1 4 3\n4 3 2 1\n"
TWO_SOLOS = "several\n" + SOLO + "\n1 2 3 4\n3 4 1 2\n2 3 4 1\n4 1 2 3\n"
TWO_CROSSED = "several\n1 2 3 4\n3 4 1 2\n4 3 2 1\n2 1 4 3\n\n1 2 3 4\n4 3 2 1\n2 1 4 3\n3 4 1 2\n"
TWO_PATTERNS = "several\n.#\n#.\n\n#.\n.#\n"
GIVEN = "2x2:1_2_3_4_3_4_1_2_2_1_4_3_4_3_2_1"
CAMP = "5x3:aiaa,1,0,2,0,0,2,0,1"

# The words, the input, and the text and status with ample memory. No text stands for what that run writes, whatever it is.
RUNS = [
    ("solve chess 1x1:/", "", "refused: words\n", 2),
    ("solve pattern 5x1:1/1//1/1/2.2", "", "one\n##.##\n", 0),
    ("solve pattern 2x2:1/1/1/1", "", TWO_PATTERNS, 3),
    ("solve pattern 2x1:1/1/1", "", "none\n", 1),
    ("solve pattern 3x1:1/1/1/2.1", "", "refused: line 3 too full\n", 2),
    ("solve solo 2x2:1_1n --budget 0", "", "none\n", 1),
    ("solve solo 2x2:p", "", TWO_SOLOS, 3),
    ("solve solo 2x2:__p_", "", TWO_SOLOS, 3),
    ("solve solo 2:p", "", TWO_SOLOS, 3),
    ("solve solo 2x2:p --budget 8", "", TWO_SOLOS, 3),
    ("solve solo 2x2:p --budget 7", "", "gave up\n" + SOLO, 4),
    ("solve solo 2x2x:p", "", TWO_CROSSED, 3),
    ("solve lightup 2x2:2c", "", "one\n2O\nO.\n", 0),
    ("solve lightup 2x2:Bc", "", "several\n#.\n.O\n\n#O\nO.\n", 3),
    ("solve lightup 2x2:1c --budget 2", "", "none\n", 1),
    ("solve lightup 2x2:1c --budget 1", "", "gave up\n", 4),
    ("solve lightup 3x3:aBBa1aBb", "", "one\n.##\nO1.\n#.O\n", 0),
    (f"solve tents {CAMP} --budget 0", "", "none\n", 1),
    ("solve pattern", "1x1:/\n\n2x1:1/1/1", "one\n.\nrefused: no colon\nnone\n", 2),
    ("solve pattern", "1x1:/\r\n\r\n2x1:1/1/1\r\n", "one\n.\nrefused: no colon\nnone\n", 2),
    ("solve pattern", "_" * 16_385 + "\n1x1:/\n", "refused: no colon\none\n.\n", 2),
    ("solve pattern", "_" * 65_537 + "\n1x1:/\n", "refused: too long\none\n.\n", 2),
    ("solve pattern", "", "", 0),
    ("check pattern 2x1:1//1", "#.\n", "correct\n", 0),
    ("check pattern 2x1:1//1", "#.\n#.\n", "refused: grid\n", 2),
    ("check lightup 2x2:2c", "2O\nOO\n", "wrong: seen 1,0\n", 1),
    (f"check solo {GIVEN}", SOLO, "correct\n", 0),
    ("check solo 2x2x:p", SOLO, "wrong: diagonal 0\n", 1),
    (f"check tents {CAMP}", "^T^..\n.....\n.T^T.\n", "wrong: match\n", 1),
    ("grade pattern 5x1:1/1//1/1/2.2", "", "lines\n", 0),
    ("grade pattern 5x1:1/1//1/1/2.2 --trace", "", None, 0),
    ("grade pattern 2x2:1/1/1/1", "", "several\n", 3),
    ("grade pattern 2x2:1/1/1/1 --budget 1", "", "gave up\n", 4),
    (f"grade solo {GIVEN}", "", "singles\n", 0),
    (f"grade solo {GIVEN} --trace", "", None, 0),
    ("grade solo 2x2:p", "", "several\n", 3),
    ("grade solo 2x2x:p --trace", "", None, 3),
    ("grade lightup 2x2:2c", "", "local\n", 0),
    ("grade lightup 2x2:2c --trace", "", None, 0),
    (f"grade tents {CAMP}", "", "none\n", 1),
    ("generate pattern 2x2 --seed 1 --black 100", "", "2x2:2/2/2/2\n##\n##\n", 0),
    ("generate pattern 2x2 --seed 1 --black 0", "", "2x2:///\n..\n..\n", 0),
    ("generate lightup 2x2 --seed 1 --black 100", "", "2x2:BBBB\n##\n##\n", 0),
    ("generate lightup 2x2 --seed 1 --black 0 --tries 2", "", "exhausted\n", 4),
    ("generate solo 2x2 --seed 1 --tries 0", "", "exhausted\n", 4),
    ("generate solo 2x2 --seed 1", "", None, 0),
    ("generate solo 2x2x --seed 1", "", None, 0),
    ("generate solo 2x2x --seed 1 --budget 0 --tries 5", "", "exhausted\n", 4),
    ("generate tents 4x4 --seed 1", "", None, 0),
    ("generate tents 3x3 --seed 1", "", "refused: size range\n", 2),
]


def run(words, given, environment):
    done = subprocess.run(words, input=given.encode(), capture_output=True, check=False, env=environment, timeout=RUN_SECONDS)
    return done.stdout.decode(), done.returncode, done.stderr.decode()


def refusals(words, given, allocator):
    """The number of each growth with what came where it was refused, and what comes with ample memory; 0 for that run."""
    ample = run(words, given, allocator.counting())
    yield 0, ample, ample
    for number in range(1, allocator.count()[0] + 1):
        yield number, run(words, given, allocator.refusing(number)), ample


def is_right_run(number, found, ample, text, status):
    output, code, errors = found
    wanted = ample[0] if text is None else text
    return (output, code) == (wanted, status) or (number > 0 and code == 5 and wanted.startswith(output) and not errors)


def is_right_test(number, found, _ample):
    output, code, errors = found
    wants = any(errors.startswith(f"error: {fault}\nthe test failed: its result") for fault in ("Memory", "AllocError"))
    return (code == 0 and "test result: ok" in output) or (number > 0 and code == 101 and wants)


def count(results, is_right, name):
    """How many runs ended as they may, and how many didn't."""
    passed = failed = 0
    for number, found, ample in results:
        if is_right(number, found, ample):
            passed += 1
        else:
            failed += 1
            print(f"{name}: growth {number} refused: {found!r}")
    return passed, failed


def jobs(programs, are_tests, only):
    """A name, a command line, an input and a judge for each run or test whose name has the text."""
    if not are_tests:
        for line, given, text, status in RUNS:
            judge = lambda number, found, ample, t=text, s=status: is_right_run(number, found, ample, t, s)
            if only in line:
                yield line, [programs[0], *line.split()], given, judge
        return
    for built in programs:
        listed = subprocess.run([built, "--list"], capture_output=True, check=True, text=True, timeout=RUN_SECONDS).stdout
        for line in listed.splitlines():
            if line.endswith(": test"):
                name = line.removesuffix(": test")
                if only in name:
                    yield f"{built} {name}", [built, name], "", is_right_test


def main():
    form = argparse.ArgumentParser(description=__doc__, formatter_class=argparse.RawDescriptionHelpFormatter)
    form.add_argument("--tests", action="store_true",
                      help="the programs are tests, as `rt test` leaves them: crates/core_tests/out/core_tests_tests")
    form.add_argument("--only", default="", metavar="TEXT",
                      help="the runs or tests whose line or name has the text; without it a test of many puzzles takes hours")
    form.add_argument("programs", metavar="PROGRAM", type=program, nargs="+", help="as `rt run` leaves it: crates/puzzles/out/puzzles")
    asked = form.parse_args()
    if len(asked.programs) > 1 and not asked.tests:
        form.error("one program, or tests by --tests")
    with tempfile.TemporaryDirectory() as folder:
        passed, failed, allocator = 0, 0, Allocator(folder)
        for name, words, given, is_right in jobs(asked.programs, asked.tests, asked.only):
            right, wrong = count(refusals(words, given, allocator), is_right, name)
            print(f"{name}: {right + wrong:,} runs", file=sys.stderr, flush=True)
            passed, failed = passed + right, failed + wrong
    print(f"{passed} passed, {failed} failed")
    return 1 if failed or not passed else 0


if __name__ == "__main__":
    begin(main)
