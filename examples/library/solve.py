#!/usr/bin/env python3
"""Solves puzzles by the library, which `puzzles.library` calls. In a checkout it wants PYTHONPATH=python/src.

FILE is the library, and else library/out/libpuzzles.so. It prints what the program prints for each ID, and the status is the
greatest of them.
"""
import argparse
import sys

from puzzles.library import Puzzles

form = argparse.ArgumentParser(description=__doc__, formatter_class=argparse.RawDescriptionHelpFormatter)
form.add_argument("--library", metavar="FILE", default="library/out/libpuzzles.so")
form.add_argument("game", metavar="GAME")
form.add_argument("ids", metavar="ID", nargs="+")
asked, greatest = form.parse_args(), 0
try:
    puzzles = Puzzles(asked.library)
except (OSError, AttributeError) as fault:
    sys.exit(f"solve.py: no library of puzzles: {fault}")
for text in asked.ids:
    status, answer = puzzles.solve(asked.game, text.encode("utf-8", "surrogateescape"))
    sys.stdout.buffer.write(answer)
    greatest = max(greatest, status)
sys.exit(greatest)
