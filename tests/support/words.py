"""The words of scripts that try or time a built program, and a run of it under a clock."""
import argparse
import os
import resource
import subprocess


def program(word):
    """A program that can be run, by its whole path."""
    if not (os.path.isfile(word) and os.access(word, os.X_OK)):
        raise argparse.ArgumentTypeError(f"no program that can be run: {word}")
    return os.path.abspath(word)


def count(word):
    """A number from 1."""
    if not word.isdecimal() or int(word) < 1:
        raise argparse.ArgumentTypeError(f"no number from 1: {word}")
    return int(word)


def form(text):
    """The words of a script that says of itself this text, which `--help` prints. The first is PROGRAM."""
    made = argparse.ArgumentParser(description=text, formatter_class=argparse.RawDescriptionHelpFormatter)
    made.add_argument("program", metavar="PROGRAM", type=program, help="as `rt run` leaves it: crates/puzzles/out/puzzles")
    return made


def processor_seconds():
    """The seconds of processor time of all processes that were begun here and have ended."""
    used = resource.getrusage(resource.RUSAGE_CHILDREN)
    return used.ru_utime + used.ru_stime


def timed(line, limit):
    """What a run wrote, with its status, and its seconds of processor time; nothing for one that was stopped after the limit."""
    before = processor_seconds()
    try:
        done = subprocess.run(line, stdin=subprocess.DEVNULL, capture_output=True, text=True, check=False, timeout=limit)
    except subprocess.TimeoutExpired:
        return None, limit
    return done, processor_seconds() - before
