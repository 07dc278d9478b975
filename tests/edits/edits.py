#!/usr/bin/env python3
"""Tells of each wrong body which test finds it, or that a contract alone does; and has the prover take ten right ones.

A wrong body is an edit of crates/*/must-fail. The tests of core_tests, the program and the library for C run unproved. So a failure
shows what the edit does, and not what a proof stands on. An edit is told by the first test that passes without it and fails
with it. One that no test tells is left to its contract: the gate tries it there.

A copy of the tree holds all edits at once, each beside what it changes. Its tests are built once, and an edit is chosen by its
number as they run. A test that doesn't meet an edit's function isn't run for it. An edit that can't be held so is applied alone,
and the tests are built for it.

A right body means the same as the one that it replaces, in a function that has no proof of its own: tactics alone prove it.
They stand in tests/edits/right_bodies, in the form of the others, each with a line `# proves: FUNCTION`. There `rt check` runs. It
begins with the libraries that are proved in this tree, and else proves them.

needs: rt, git, cc
"""
import argparse
import concurrent.futures
import os
import pathlib
import queue
import shutil
import signal
import subprocess
import sys
import tempfile
import threading
import time

from edits_program import TestProgram
from edits_tree import TOP, Copy, Edit, Fault, NotBuilt, below, crates_of
from kit import Failed, Kit
from puzzles._work import end

RIGHT = TOP / "tests/edits/right_bodies"
# The crates whose tests run, for an edit of the program's own three crates and for one of another. The library for C is last.
PROGRAM = ("commands", "ends", "puzzles")
TESTS = {True: ("puzzles", "core_tests", "puzzles_c"), False: ("core_tests", "puzzles", "puzzles_c")}


def say(words):
    print(words, file=sys.stderr, flush=True)


class WrongBodies:
    """The tests of the crates that have such an edit below them, built with all edits that function bodies can hold."""

    def __init__(self, edits, room, asked):
        self.kit, self.room, self.asked = Kit(None), room, asked
        crates = crates_of(TOP)
        self.seen_by = {edit: [name for name in TESTS[edit.crate in PROGRAM] if edit.crate in below(crates, name)]
                        for edit in edits}
        self.names = [name for name in TESTS[False] if any(name in seers for seers in self.seen_by.values())]
        self.numbers = {edit: number for number, edit in enumerate(edits, 1) if self.seen_by[edit]}
        self.alone, barred = set(), set()
        self.programs = None if self.names else {}
        while self.programs is None:
            barred |= self.build(barred)
        for name, made in self.programs.items():
            print(f"{name}: {len(made.met)} of {len(made.tests)} tests pass without an edit", flush=True)

    def build(self, barred):
        """Builds the tests with all edits but the barred ones, which are tried alone. It gives those that don't compile so."""
        held = {edit: number for edit, number in self.numbers.items() if number not in barred}
        with tempfile.TemporaryDirectory(dir=self.room) as folder, concurrent.futures.ThreadPoolExecutor(self.asked.jobs) as pool:
            copy = Copy(pathlib.Path(folder))
            self.alone = {edit for edit in self.numbers if edit not in held}.union(copy.hold(held))
            say(f"builds the tests of {' and of '.join(self.names)} with {len(self.numbers) - len(self.alone)} edits at once")
            tried = {name: pool.submit(TestProgram, self.kit, copy, name, self.room / name, self.asked) for name in self.names}
            faults = {name: run.exception() for name, run in tried.items()}
            named = set().union(*(copy.named_in(fault.said, name) for name, fault in faults.items()
                                  if isinstance(fault, NotBuilt)))
        if not named:
            self.programs = {name: run.result() for name, run in tried.items()}
        else:
            say(f"{len(named)} edits don't compile beside what they change, and are tried alone")
        return named

    def telling(self, edit, copies):
        """The first test that passes without the edit and fails with it, with its crate; nothing if there is none."""
        for name in self.seen_by[edit]:
            if edit in self.alone:
                found = copies.lend(lambda copy, name=name: copy.with_edit(edit, lambda: self.telling_alone(edit, copy, name)))
            else:
                found, count = self.programs[name].telling(self.numbers[edit])
                say(f"  {edit.crate}/{edit.name}: {count} tests of {name} meet it, and {'one tells' if found else 'none tells'}")
            if found:
                return f"{name}: {found}"
        return None

    def telling_alone(self, edit, copy, name):
        say(f"  {edit.crate}/{edit.name}: builds the tests of {name} for it alone")
        with tempfile.TemporaryDirectory(dir=self.room) as room:
            made = TestProgram(self.kit, copy, name, pathlib.Path(room) / "alone", self.asked)
        return next((test for test in self.programs[name].met if test not in made.met), None)


def lines_of(words, folder, seconds):
    """The lines that a command writes, one by one. It is ended where nobody reads on, or after so many seconds."""
    run = subprocess.Popen(words, cwd=folder, text=True, errors="replace", start_new_session=True,
                           stdin=subprocess.DEVNULL, stdout=subprocess.PIPE, stderr=subprocess.STDOUT)
    late = threading.Timer(seconds, os.killpg, (run.pid, signal.SIGKILL))
    late.start()
    try:
        yield from run.stdout
        if run.wait() == -signal.SIGKILL:
            raise Fault(f"{' '.join(words)} didn't end within {seconds} seconds")
    finally:
        late.cancel()
        end(run)
        run.stdout.close()


def is_proved(copy, edit, asked):
    """Whether the prover takes the function with the edit."""
    for name in below(crates_of(TOP), edit.crate) - {edit.crate}:
        made, here = (folder / "crates" / name / "out/rlib" for folder in (TOP, copy.folder))
        if made.is_dir() and not here.exists():
            shutil.copytree(made, here)
    words = ["nice", "rt", "check", "--jobs", "1", "--only", edit.proves]
    said = copy.with_edit(edit, lambda: list(lines_of(words, copy.folder / "crates" / edit.crate, asked.seconds)))
    names = [line for line in said if line.startswith("fn ") and f"::{edit.proves.split('::')[-1]}:" in line]
    taken = bool(names) and all(line.rstrip().endswith(": proved") for line in names)
    if not taken:
        say(f"  {edit.crate}/{edit.name}: rt check ends with\n{''.join(said[-8:])}")
    return taken


class Copies:
    """As many copies as edits are tried at once, in which one edit at a time is applied."""

    def __init__(self, folder, count):
        self.free = queue.SimpleQueue()
        for number in range(count):
            self.free.put(Copy(folder / str(number)))

    def lend(self, work):
        copy = self.free.get()
        try:
            return work(copy)
        finally:
            self.free.put(copy)


def chosen(asked):
    """The wrong and the right edits that were asked for."""
    wrong = [Edit.read(path, path.parent.parent.name) for path in sorted(TOP.glob("crates/*/must-fail/*.edit"))]
    right = [Edit.read(path, None) for path in sorted(RIGHT.glob("*.edit"))]
    both = [[edit for edit in edits if asked.kind in (kind, "both") and asked.crate in (None, edit.crate)
             and asked.only in f"{edit.crate}/{edit.name}"] for edits, kind in ((wrong, "wrong"), (right, "right"))]
    if not any(both):
        raise Fault("there is no such edit")
    return both


def try_all(edits, tried, told, asked):
    """What trying each edit comes to, so many at once as was asked for. Each is told as it comes."""
    begun, found = time.monotonic(), {}
    with concurrent.futures.ThreadPoolExecutor(asked.jobs) as pool:
        waiting = {pool.submit(tried, edit): edit for edit in edits}
        try:
            for done in concurrent.futures.as_completed(waiting):
                edit = waiting[done]
                try:
                    found[edit] = done.result()
                    words = told(found[edit])
                except (Fault, subprocess.TimeoutExpired) as fault:
                    words = f"not tried: {fault}"
                print(f"{edit.crate}/{edit.name}: {words}", flush=True)
                say(f"  {len(found)} of {len(edits)} in {time.monotonic() - begun:.0f} s")
        finally:
            pool.shutdown(cancel_futures=True)
    return found


def read_words():
    form = argparse.ArgumentParser(description=__doc__, formatter_class=argparse.RawDescriptionHelpFormatter)
    form.add_argument("--kind", choices=("wrong", "right", "both"), default="both",
                      help="which edits; both if it isn't given")
    form.add_argument("--crate", help="the edits of this crate alone")
    form.add_argument("--only", default="", metavar="TEXT",
                      help="the edits whose CRATE/NAME has the text alone")
    form.add_argument("--jobs", type=int, choices=range(1, 5), default=1, help="how many edits are tried at once")
    form.add_argument("--test-seconds", type=int, default=20, metavar="S", help="how long a test may have the processor")
    form.add_argument("--seconds", type=int, default=1_800, metavar="S",
                      help="how long each step of a build, or a check, may take")
    return form.parse_args()


def main():
    asked = read_words()
    wrong, right = chosen(asked)
    with tempfile.TemporaryDirectory(prefix="puzzles-edits-") as folder:
        room = pathlib.Path(folder)
        copies = Copies(room, asked.jobs)
        found = proved = {}
        if wrong:
            bodies = WrongBodies(wrong, room, asked)
            found = try_all(wrong, lambda edit: bodies.telling(edit, copies),
                            lambda test: f"told by {test}" if test else "told by its contract alone", asked)
        if right:
            proved = try_all(right, lambda edit: copies.lend(lambda copy: is_proved(copy, edit, asked)),
                             lambda taken: "proved" if taken else "NOT PROVED", asked)
    tests, taken = sum(map(bool, found.values())), sum(proved.values())
    print(f"{len(wrong)} wrong bodies: {tests} told by tests, {len(found) - tests} by contracts alone, "
          f"{len(wrong) - len(found)} not tried; {len(right)} right bodies: {taken} proved, {len(right) - taken} not")
    sys.exit(len(found) < len(wrong) or taken < len(right))


if __name__ == "__main__":
    try:
        main()
    except (Fault, Failed) as fault:
        sys.exit(f"edits.py: {fault}")
    except (OSError, subprocess.SubprocessError) as fault:
        sys.exit(f"edits.py: {fault}")
    except KeyboardInterrupt:
        sys.exit(130)
