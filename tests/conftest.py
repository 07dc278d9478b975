"""What all tests have: the built program, a folder of their own with it, and skips by the name of what is missing."""
import importlib.util
import os
import pathlib
import shutil
import signal
import subprocess

import pytest

from support.bench import TOP, Bench

BUILT = {"program": TOP / "crates/puzzles/out/puzzles", "library": TOP / "library/out/libpuzzles.so",
         "module": TOP / "library/out/puzzles.wasm"}


def pytest_addoption(parser):
    for name, path in BUILT.items():
        parser.addoption(f"--{name}", type=pathlib.Path, default=path, help=f"the built one ({path.relative_to(TOP)})")
    parser.addoption("--pictures", type=pathlib.Path, metavar="FOLDER", help="leave pictures of the page there, with --slow")
    parser.addoption("--slow", action="store_true", help="the slow tests too, which are left out else")


def pytest_configure():
    signal.signal(signal.SIGINT, signal.default_int_handler)  # else what a test starts ignores Ctrl-C where a shell put it behind


def is_there(tool):
    """Whether there is a program of this name, or a module as import:NAME, or a commit that git can read."""
    if tool in os.environ.get("ABSENT", "").split():  # the gate couldn't install it wholly
        return False
    if tool == "a commit":
        words = ["git", "-C", TOP, "rev-parse", "-q", "--verify", "HEAD"]
        return not subprocess.run(words, capture_output=True, check=False).returncode
    kind, _, name = tool.rpartition(":")
    return importlib.util.find_spec(name) if kind else shutil.which(name, path=os.environ.get("PATH", "") + ":/usr/sbin:/sbin")


def pytest_collection_modifyitems(config, items):
    slow = [] if config.getoption("--slow") else [item for item in items if item.get_closest_marker("slow")]
    config.hook.pytest_deselected(items=slow)
    items[:] = [item for item in items if item not in slow]
    for item in items:
        for mark in item.iter_markers("needs"):
            for tool in mark.args:
                if not is_there(tool):
                    item.add_marker(pytest.mark.skip(reason=f"no {tool.rpartition(':')[2]}"))


def built(request, name):
    path = request.config.getoption(f"--{name}").resolve()
    if not path.is_file():
        pytest.skip(f"no built {name}")
    return path


@pytest.fixture(scope="session")
def program(request):
    return built(request, "program")


@pytest.fixture(scope="session")
def library(request):
    return built(request, "library")


@pytest.fixture(scope="session")
def module(request):
    return built(request, "module")


@pytest.fixture
def bench(program, tmp_path):
    return Bench(program, tmp_path)
