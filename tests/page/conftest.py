"""The servers that the page's tests ask."""
import pytest

from page.faults import gone
from page.server import PATIENT, Server, Tally


def begun(program, **how):
    """One for all tests of a module. At its end nothing is left of it."""
    one = Server(program, "--host", "puzzles.example", **how)
    yield one
    children = one.children()
    assert one.stop() == 0
    assert gone(children)


@pytest.fixture(scope="module")
def server(program):
    """A server that waits for as long as a busy machine may need."""
    yield from begun(program, clocks=PATIENT)


@pytest.fixture(scope="module")
def prompt_server(program):
    """A server with its own clocks."""
    yield from begun(program)


@pytest.fixture
def tally():
    """For tests of many steps: all that differs is told at the end."""
    one = Tally()
    yield one
    assert not one.faults, "\n".join(one.faults)
