"""The server over programs that don't do as they should, and under loads that are too much for it."""
import pytest

from page import faults


@pytest.mark.parametrize("body, wanted", faults.BROKEN)
def test_broken(tmp_path, tally, body, wanted):
    faults.broken(tmp_path, tally, body, wanted)


@pytest.mark.parametrize("one", [faults.linked, faults.wrapped, faults.replaced], ids=lambda one: one.__name__)
def test_over_the_program(tmp_path, tally, program, one):
    one(tmp_path, tally, program)


@pytest.mark.parametrize("one", [faults.strangers, faults.turns, faults.shares], ids=lambda one: one.__name__)
def test_over_a_script(tmp_path, tally, one):
    one(tmp_path, tally)


@pytest.mark.parametrize("one", [faults.many, faults.silent], ids=lambda one: one.__name__)
def test_loads(tally, program, one):
    one(program, tally)
