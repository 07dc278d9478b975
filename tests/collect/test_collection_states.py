"""A collection as a machine of states: its table has what the files that were taken and not forgotten say, whatever happens.

Hypothesis makes sequences of: a file that is taken, also one that has grown, one that is taken by a run which is killed and begun
again, and by two runs at once; grading; forgetting; listing. After each the table is compared with a plain list of lines.
"""
import collections
import contextlib
import io
import os
import pathlib
import sqlite3
import subprocess
import sys
import tempfile
import time

import pytest

hypothesis = pytest.importorskip("hypothesis", reason="no hypothesis")
from hypothesis import HealthCheck, settings, strategies as st  # noqa: E402
from hypothesis.stateful import RuleBasedStateMachine, invariant, rule, run_state_machine_as_test  # noqa: E402

from puzzles._work import Fault  # noqa: E402
from puzzles.collect import __main__ as collect  # noqa: E402
from support.bench import SECONDS, SOURCES  # noqa: E402

# Lines with the one ID that each is written as, None for those that are refused, and "" for those that are passed over; and what
# `grade` says of the IDs.
LINES = {"3x3:aBBa1aBb": "3x3:aBBa1aBb", "2x2:Bc": "2x2:Bc", "2:Bc": "2x2:Bc", "2x2:Bab": "2x2:Bc", "2x2:1c": "2x2:1c",
         "2x2:2c": "2x2:2c", "2x2:Bac": None, "nonsense": None, "": "", "# 2x2:2c": ""}
GRADES = {"3x3:aBBa1aBb": ("one", "search"), "2x2:Bc": ("several", None), "2x2:1c": ("none", None), "2x2:2c": ("one", "local")}
NAMES = st.sampled_from(["a", "b", "c"])
MORE = st.lists(st.sampled_from(sorted(LINES)), min_size=1, max_size=8)


class Machine(RuleBasedStateMachine):
    program = ""

    def __init__(self):
        super().__init__()
        self.room = tempfile.TemporaryDirectory()
        self.folder = pathlib.Path(self.room.name)
        self.table = self.folder / "table.db"
        self.files = collections.defaultdict(list)  # the lines that each file has
        self.taken, self.graded = {}, set()  # the lines that were taken by each name, and the IDs that have a verdict

    def call(self, does, *words):
        """What a call prints, and its status."""
        told, sys.argv = io.StringIO(), ["puzzles-collect", does, *map(str, words)]
        with contextlib.redirect_stdout(told), contextlib.redirect_stderr(io.StringIO()):
            try:
                status = collect.main()
            except Fault as fault:
                status = fault.status
        return told.getvalue(), status

    def grow(self, name, more):
        self.files[name] += more
        (self.folder / name).write_text("".join(f"{line}\n" for line in self.files[name]))
        return ["--program", self.program, "--source", name, self.table, "lightup", self.folder / name]

    def took(self, name):
        self.taken[name] = list(self.files[name])

    @rule(name=NAMES, more=MORE, is_later=st.booleans())
    def add(self, name, more, is_later):
        words = self.grow(name, more)
        before = len(self.taken.get(name, []))
        _, status = self.call("add", *(["--later"] if is_later else []), *words)
        assert status == (2 if None in map(LINES.get, self.files[name][before:]) else 0)
        self.took(name)
        self.graded |= set() if is_later else self.met()

    def start(self, words):
        return subprocess.Popen([sys.executable, "-m", "puzzles.collect", "add", "--later", *words], stdout=subprocess.DEVNULL,
                                stderr=subprocess.PIPE, text=True, env={**os.environ, "PYTHONPATH": str(SOURCES)})

    @rule(name=NAMES, more=MORE, after=st.sampled_from([0.05, 0.1, 0.2]))
    def killed(self, name, more, after):
        words = self.grow(name, more)
        run = self.start(words)
        time.sleep(after)
        run.kill()
        run.communicate()
        self.call("add", "--later", *words)
        self.took(name)

    @rule(name=NAMES, more=MORE)
    def two_at_once(self, name, more):
        words = self.grow(name, more)
        runs = [self.start(words) for _ in range(2)]
        for run in runs:
            _, said = run.communicate(timeout=SECONDS)
            assert run.returncode in (0, 2) or run.returncode == 6 and "another run takes this file" in said, said
        self.call("add", "--later", *words)
        self.took(name)

    @rule()
    def grade(self):
        self.call("grade", "--program", self.program, self.table, "lightup")
        self.graded |= self.met()

    @rule(name=NAMES)
    def forget(self, name):
        _, status = self.call("forget", self.table, "lightup", name)
        assert status == (0 if self.taken.pop(name, None) is not None else 2)
        self.graded &= self.met()

    @rule()
    def listed(self):
        told, _ = self.call("list", self.table, "lightup")
        assert sorted(told.split()) == sorted(text for text in self.graded if GRADES[text][0] == "one")
        told, _ = self.call("open", self.table, "lightup")
        assert sorted(told.split()) == sorted(self.met() - self.graded)

    def met(self):
        return {LINES[line] for lines in self.taken.values() for line in lines} - {None, ""}

    @invariant()
    def has_what_was_taken(self):
        if not self.table.exists():
            return
        times = collections.Counter(LINES[line] for lines in self.taken.values() for line in lines)
        refused, _ = times.pop(None, 0), times.pop("", 0)
        with contextlib.closing(sqlite3.connect(self.table)) as base:
            rows = base.execute("SELECT id, times, verdict, grade, source FROM puzzle").fetchall()
            faults, = base.execute("SELECT count(*) FROM refusal").fetchone()
        assert {row[0]: row[1] for row in rows} == dict(times) and faults == refused
        for text, _, verdict, grade, source in rows:
            assert (verdict, grade) == (GRADES[text] if text in self.graded else (None, None))
            name, _, line = source.partition(":")
            assert LINES[self.taken[name][int(line) - 1]] == text, f"{text} isn't at {source}"

    def teardown(self):
        self.room.cleanup()


HOW = settings(deadline=None, max_examples=15, stateful_step_count=12, derandomize=True, suppress_health_check=list(HealthCheck))


def test_collection(program, monkeypatch):
    monkeypatch.setattr(sys, "argv", sys.argv)
    monkeypatch.setattr(Machine, "program", str(program))
    run_state_machine_as_test(Machine, settings=HOW)
