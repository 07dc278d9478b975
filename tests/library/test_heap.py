"""The heap of the module for browsers, on this machine."""
import subprocess

import pytest

from support.bench import SECONDS, TOP


@pytest.mark.needs("cc")
def test_heap(tmp_path):
    """blocks are aligned, hold what was put into them, and grow; a full memory, a size and an alignment beyond are refused"""
    made = tmp_path / "heap"
    words = ["cc", "-O1", "-Wall", "-Wextra", "-Werror", "-fno-builtin", "-fsanitize=undefined", "-fno-sanitize-recover", "-o", made,
             TOP / "tests" / "library" / "heap_try.c"]
    subprocess.run(words, check=True, timeout=SECONDS)
    done = subprocess.run([made], capture_output=True, text=True, check=False, timeout=SECONDS)
    assert done.returncode == 0, done.stdout + done.stderr
