"""Begins the page's server with other clocks than its own: seconds for an answer, and for a turn. For tests on a busy machine.

usage: python/run tests/page/clocks.py SECONDS PATIENCE WORDS..     words as `python/run page` takes them
"""
import sys

from puzzles.page import __main__ as page, calls, program

if __name__ == "__main__":
    calls.SECONDS = program.SECONDS = float(sys.argv.pop(1))
    page.PATIENCE = float(sys.argv.pop(1))
    page.main()
